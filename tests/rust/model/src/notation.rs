//! Clauses and trees written out: `P2 f x y`; `First 0/2, Success 1/1` with operands and extents, or a path alone, `First, Check P0, Success 1`.
use crate::instruction::{header, Instruction, Operation};
use crate::tree::Path;

/// The operations by their names.
pub const NAMES: [(&str, Operation); 9] = [
    ("Success", Operation::Success),
    ("First", Operation::First),
    ("Down", Operation::Down),
    ("Right", Operation::Right),
    ("Put", Operation::Put),
    ("Push", Operation::Push),
    ("Pop", Operation::Pop),
    ("Check", Operation::Check),
    ("Compare", Operation::Compare),
];

// The word of a symbol, or a number in hexadecimal, which in a Check may have 32 bits.
fn symbol(name: &str) -> u32 {
    match name {
        "P0" => 0x8001,
        "P1" => 0x8801,
        "P2" => 0x9001,
        "P3" => 0x9801,
        "P4" => 0xA001,
        "Q0" => 0x8002,
        "Q1" => 0x8802,
        "a" => 0x0001,
        "b" => 0x0002,
        "f" => 0x0803,
        "x" => 0x4000,
        "y" => 0x4001,
        "z" => 0x4002,
        hexadecimal => u32::from_str_radix(hexadecimal, 16).expect("a word"),
    }
}

/// The words of a clause.
pub fn clause(text: &str) -> Vec<u16> {
    let word = |name| u16::try_from(symbol(name)).expect("16 bits");
    text.split_whitespace().map(word).collect()
}

// An instruction; without an operand it has 0, and Compare's is m.k.
fn instruction(text: &str) -> Instruction {
    let (name, operand) = text.trim().split_once(' ').unwrap_or((text.trim(), "0"));
    let named = NAMES.iter().find(|known| known.0 == name);
    let operation = named.expect("an operation").1;
    let decimal = |digits: &str| digits.parse::<u32>().expect("a number");
    let operand = match operand.split_once('.') {
        Some((m, k)) => decimal(m) << 16 | decimal(k),
        None if operation == Operation::Check => symbol(operand),
        None => decimal(operand),
    };
    Instruction::new(operation, operand)
}

/// The instructions of a path.
pub fn path(text: &str) -> Path {
    text.split(',').map(instruction).collect()
}

fn tree_word(text: &str) -> u64 {
    let (instructed, extent) = text.split_once('/').expect("an extent");
    instruction(instructed).pack(extent.parse().expect("a number"))
}

/// The words of a tree with a true header.
pub fn tree(text: &str) -> Vec<u64> {
    let mut words = vec![0];
    words.extend(text.split(',').map(tree_word));
    let kept = words[1..].iter().filter(|word| **word >> 60 == 0).count();
    words[0] = header(words.len() - 1, kept);
    words
}
