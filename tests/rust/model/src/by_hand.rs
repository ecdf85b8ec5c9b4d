//! Saved slices made by hand, each with what is read back: the tests of the model and of the library run the same ones.
use crate::calls::insert;
use crate::instruction::{header, Instruction, Operation};
use crate::limits::{CLAUSE_WORDS, TREE_MOST};
use crate::notation::{clause, path, tree};
use crate::refusal::Refusal;
use crate::saved::renumbered;
use crate::tree::{Path, Tree};
use crate::words::{word, FUNCTION, POSITIVE, VARIABLE};
use Operation::{Put, Success};

/// A slice, a number, and what is read back: the clause with that number or the refusal.
pub struct Example {
    pub name: String,
    pub words: Vec<u64>,
    pub number: u32,
    pub back: Result<Vec<u16>, Refusal>,
}

impl Example {
    /// What a check says.
    pub fn checked(&self) -> Result<(), Refusal> {
        match self.back {
            Ok(_) | Err(Refusal::NoSuchNumber) => Ok(()),
            Err(refusal) => Err(refusal),
        }
    }
}

fn example(name: &str, words: &[u64], number: u32, back: Result<Vec<u16>, Refusal>) -> Example {
    let (name, words) = (name.to_string(), words.to_vec());
    Example {
        name,
        words,
        number,
        back,
    }
}

/// A slice of paths, with three words to spare.
pub fn laid(paths: &[&str]) -> Vec<u64> {
    let paths: Vec<Path> = paths.iter().map(|text| path(text)).collect();
    Tree::of_paths(&paths, 3).words()
}

/// A slice of instructions, each below the one before; nothing stands below a Success.
pub fn chain(instructions: &[Instruction]) -> Vec<u64> {
    let success = |it: &Instruction| it.operation == Success;
    let used = instructions.len();
    let kept = instructions.iter().filter(|it| success(it)).count();
    let word = |(i, it): (usize, &Instruction)| it.pack(if success(it) { 1 } else { used - i });
    let words = instructions.iter().enumerate().map(word);
    [header(used, kept)].into_iter().chain(words).collect()
}

// Paths down to a Success, each with the clause that it is of.
const OF_CLAUSES: [(&str, &str); 13] = [
    ("First, Check P0", "P0"),
    ("First, Check C001", "C001"),
    ("First, Check P1, Down, Put 0", "P1 x"),
    ("First, Check P1, Down, Check a", "P1 a"),
    ("First, Check P1, Down, Check f, Down, Put 0", "P1 f x"),
    ("First, Check P2, Down, Put 0, Right, Put 1", "P2 x y"),
    ("First, Check P2, Down, Put 0, Right, Put 1, Compare 0.1", "P2 x x"),
    (
        "First, Check P3, Down, Put 0, Right, Put 1, Right, Put 2, Compare 0.1, Compare 0.2",
        "P3 x x x",
    ),
    (
        "First, Check P4, Down, Put 0, Right, Put 1, Right, Put 2, Right, Put 3, Compare 0.3, Compare 1.2",
        "P4 x y y x",
    ),
    (
        "First, Check P2, Down, Check f, Push 0, Down, Put 0, Pop 0, Put 1",
        "P2 f x y",
    ),
    (
        "First, Check P1, Down, Put 0, First, Check Q1, Down, Put 1",
        "P1 x Q1 y",
    ),
    (
        "First, Check P1, Down, Put 0, First, Check Q1, Down, Put 1, Compare 0.1",
        "P1 x Q1 x",
    ),
    (
        "First, Check P2, Down, Check f, Push 0, Down, Put 0, Pop 0, Put 1, First, Check P2, Down, Check f, Push 1, Down, Put 2, Pop 1, Put 3, Compare 0.2, Compare 1.3",
        "P2 f x y P2 f x y",
    ),
];

// Paths of clauses.
fn of_clauses() -> Vec<Example> {
    let examples = OF_CLAUSES.iter().flat_map(|(text, expected)| {
        let words = laid(&[&format!("{text}, Success 7")]);
        [
            example(text, &words, 7, Ok(clause(expected))),
            example(text, &words, 8, Err(Refusal::NoSuchNumber)),
        ]
    });
    examples.collect()
}

// Paths down to a Success that are no clause's; most are one step from one.
const OF_NONE: [&str; 62] = [
    // literals not begun, Checks of words that cannot stand there, operands over 16 bits
    "First",
    "Check P0",
    "Put 0",
    "First, First, Check P0",
    "First, Check P0, First",
    "First, Check P0, Check P0",
    "First, Check a",
    "First, Check x",
    "First, Put 0",
    "First, Put 0, Down, Put 1",
    "First, Check 18001",
    "First, Check FFFF8001",
    "First, Check P1, Down, Check 10001",
    "First, Check P1, Down, Check 14000",
    "First, Check P1, Down, Check P0",
    "First, Check P1, Down, Check x",
    "First, Check P1, Down, Check 4800",
    // arguments and ways
    "First, Check P0, Down",
    "First, Check P0, Right",
    "First, Check P0, Down, Put 0",
    "First, Check P0, Pop 0",
    "First, Check P0, Push 0",
    "First, Check P1",
    "First, Check P1, Down",
    "First, Check P1, Put 0",
    "First, Check P1, Right, Put 0",
    "First, Check P1, Down, Down, Put 0",
    "First, Check P1, Down, Put 0, Right",
    "First, Check P1, Down, Put 0, Right, Put 1",
    "First, Down, Check P1, Put 0",
    "First, Check P2, Down, Put 0",
    "First, Check P2, Down, Put 0, Right",
    "First, Check P2, Down, Put 0, Put 1",
    "First, Check P2, Down, Put 0, Down, Put 1",
    "First, Check P1, Down, First, Check P0",
    // Put numbers
    "First, Check P1, Down, Put 1",
    "First, Check P1, Down, Put 64",
    "First, Check P1, Down, Put 4294967295",
    "First, Check P2, Down, Put 0, Right, Put 0",
    "First, Check P2, Down, Put 1, Right, Put 0",
    "First, Check P2, Down, Put 0, Right, Put 2",
    "First, Check P1, Down, Put 0, First, Check Q1, Down, Put 0",
    "First, Check P1, Down, Put 0, First, Check Q1, Down, Put 0, Compare 0.0",
    // Compares: which, how often, in what order, where
    "First, Check P0, Compare 0.0",
    "First, Check P1, Down, Put 0, Compare 0.0",
    "First, Check P2, Down, Put 0, Right, Put 1, Compare 1.0",
    "First, Check P2, Down, Put 0, Right, Put 1, Compare 0.2",
    "First, Check P2, Down, Put 0, Right, Put 1, Compare 0.65535",
    "First, Check P2, Down, Put 0, Right, Put 1, Compare 0.1, Compare 0.1",
    "First, Check P2, Down, Put 0, Compare 0.1, Right, Put 1",
    "First, Check P3, Down, Put 0, Right, Put 1, Right, Put 2, Compare 0.1, Compare 1.2",
    "First, Check P3, Down, Put 0, Right, Put 1, Right, Put 2, Compare 0.2, Compare 0.1",
    "First, Check P3, Down, Put 0, Right, Put 1, Right, Put 2, Compare 0.2, Compare 1.2",
    "First, Check P3, Down, Put 0, Right, Put 1, Right, Put 2, Compare 0.1, Compare 0.2, Compare 1.2",
    "First, Check P4, Down, Put 0, Right, Put 1, Right, Put 2, Right, Put 3, Compare 1.2, Compare 0.3",
    "First, Check P2, Down, Put 0, Right, Put 1, First, Check P0, Compare 0.1",
    // Push and Pop: numbers, which term has one, used again
    "First, Check P2, Down, Check f, Push 1, Down, Put 0, Pop 1, Put 1",
    "First, Check P2, Down, Check f, Push 0, Down, Put 0, Pop 1, Put 1",
    "First, Check P2, Down, Check f, Down, Put 0, Right, Put 1",
    "First, Check P2, Down, Check f, Down, Push 0, Put 0, Pop 0, Put 1",
    "First, Check P1, Down, Check f, Push 0, Down, Put 0",
    "First, Check P2, Down, Check f, Push 0, Down, Put 0, Pop 0, Put 1, First, Check P2, Down, Check f, Push 0, Down, Put 2, Pop 0, Put 3",
];

// A path that is no clause's, alone and beside a clause's, which cannot be read back either.
fn refused(name: &str, text: &str) -> [Example; 3] {
    let path = format!("{text}, Success 7");
    let alone = laid(&[&path]);
    let beside = laid(&[&path, "First, Check Q0, Success 8"]);
    [(&alone, 7), (&alone, 8), (&beside, 8)]
        .map(|(words, number)| example(name, words, number, Err(Refusal::NoSuchTree)))
}

// Paths of no clause.
fn of_none() -> Vec<Example> {
    let examples = OF_NONE.iter().flat_map(|text| refused(text, text));
    examples.collect()
}

// A path down to its Success, and its clause.
type Written = (String, Vec<u16>);

fn variable(number: usize) -> u16 {
    word(VARIABLE, 0, number as u16)
}

// P(f(..f(x))) of so many words, with so many variables before it.
fn nested(words: usize, before: usize) -> Written {
    let functions = words - 2;
    let checks = "Down, Check f, ".repeat(functions);
    let path = format!("First, Check P1, {checks}Down, Put {before}");
    let mut words = clause(&format!("P1 {}", "f ".repeat(functions)));
    words.push(variable(before));
    (path, words)
}

// P(f(..f(a))): the last word is checked.
fn closed(words: usize) -> Written {
    let (path, mut clause) = nested(words, 0);
    clause[words - 1] = word(FUNCTION, 0, 1);
    (path.replace("Put 0", "Check a"), clause)
}

// P(f(..f(x))), P: the last word is a head.
fn headed(words: usize) -> Written {
    let (path, mut words) = nested(words - 1, 0);
    words.extend(clause("P0"));
    (path + ", First, Check P0", words)
}

// Seven literals of seven variables, then P(f(..f(x))).
fn wide(words: usize) -> Written {
    let (mut path, mut clause) = (String::new(), Vec::new());
    for put in 0..49 {
        if put % 7 == 0 {
            path += "First, Check B801, Down, ";
            clause.push(0xB801);
        } else {
            path += "Right, ";
        }
        path += &format!("Put {put}, ");
        clause.push(variable(put));
    }
    let (last, literal) = nested(words - clause.len(), 49);
    (path + &last, [clause, literal].concat())
}

// P(g(..g(x, y).., z), u), with a Push for each g; an even count of words takes a further argument of P.
fn pushed(words: usize) -> Written {
    let (pushes, even) = ((words - 3) / 2, words % 2 == 0);
    let head = if even { "P3" } else { "P2" };
    let mut path = format!("First, Check {head}, ");
    for push in 0..pushes {
        path += &format!("Down, Check 1004, Push {push}, ");
    }
    path += "Down, Put 0, Right, Put 1";
    for pop in (0..pushes).rev() {
        path += &format!(", Pop {pop}, Put {}", pushes + 1 - pop);
    }
    if even {
        path += &format!(", Right, Put {}", pushes + 2);
    }
    let functions = vec![0x1004; pushes];
    let variables = (0..words - 1 - pushes).map(variable).collect();
    (path, [clause(head), functions, variables].concat())
}

// Clauses of 63 and 64 words, alone and together, each with its count as number; and paths that would be of one of 65.
fn of_many_words() -> Vec<Example> {
    let shapes: [(&str, fn(usize) -> Written); 5] = [
        ("nested", |words| nested(words, 0)),
        ("closed", closed),
        ("headed", headed),
        ("wide", wide),
        ("pushed", pushed),
    ];
    let mut examples = Vec::new();
    for (name, shape) in shapes {
        let [short, full, over] = [63, 64, 65].map(shape);
        assert_eq!(over.1.len(), CLAUSE_WORDS + 1);
        examples.extend(refused(name, &over.0));
        let short_path = format!("{}, Success 63", short.0);
        let full_path = format!("{}, Success 64", full.0);
        let both = laid(&[&short_path, &full_path]);
        for (path, clause) in [(short_path, short.1), (full_path, full.1)] {
            let number = clause.len() as u32;
            let alone = laid(&[&path]);
            examples.push(example(name, &alone, number, Ok(clause.clone())));
            examples.push(example(name, &both, number, Ok(clause)));
        }
    }
    examples
}

// Clauses of many variables, named in many ways: eight literals of seven arguments, 64 words.
fn of_many_variables() -> Vec<Example> {
    let examples = (1..=56).map(|names| {
        let named = |i: usize| variable((i * i * 7 + i * 3 + 5) % names);
        let mut clause = Vec::new();
        for literal in 0..8 {
            clause.push(word(POSITIVE, 7, literal as u16));
            clause.extend((0..7).map(|i| named(7 * literal + i)));
        }
        let mut words = [0; 400];
        assert_eq!(insert(&mut words, &clause, 1), Ok(()));
        let (name, back) = (format!("{names} names"), renumbered(&clause));
        example(&name, &words, 1, Ok(back))
    });
    examples.collect()
}

// So many instructions: these, then others over and over.
fn going_on(first: &str, over: &str, count: usize) -> Path {
    let (first, over) = (path(first), path(over));
    let going_on = first.into_iter().chain(over.into_iter().cycle());
    going_on.take(count).collect()
}

/// Slices of a path to 9 of so many instructions, a literal's and others over and over.
pub fn deep(depth: usize) -> [Vec<u64>; 4] {
    let over = ["Compare 0.0", "Put 1", "Check f, Down", "First, Check P0"];
    over.map(|over| {
        let mut path = going_on("First, Check P1, Down, Put 0", over, depth);
        path.push(Instruction::new(Success, 9));
        chain(&path)
    })
}

/// The model needs much stack for deep slices.
pub fn with_much_stack(calls: impl FnOnce() + Send + 'static) {
    let thread = std::thread::Builder::new().stack_size(512 << 20);
    thread.spawn(calls).unwrap().join().unwrap();
}

/// Lengths of slices at the bounds.
pub const LENGTHS: [usize; 9] = [0, 1, 2, 3, 4, 5, TREE_MOST - 1, TREE_MOST, TREE_MOST + 1];

/// Slices of a length: those of one word over and over, then those with a clause, with a path that is none, and with a Success alone.
pub fn of_length(length: usize) -> ([Vec<u64>; 5], [Vec<u64>; 3]) {
    let texts = [
        "First 0/3, Check P0/2, Success 1/1",
        "First 0/2, Success 1/1",
        "Success 1/1",
    ];
    let resized = |text| {
        let mut words = tree(text);
        words.resize(length, 0);
        words
    };
    let over = [0, 1, 1 << 32, 1 << 32 | 1, u64::MAX];
    (over.map(|word| vec![word; length]), texts.map(resized))
}

/// 0, the largest number, and those that differ from one of them in a bit.
pub fn numbers_a_bit_apart() -> Vec<u32> {
    let numbers = [0, u32::MAX].map(|n| (0..32).map(move |bit| n ^ 1 << bit).chain([n]));
    numbers.into_iter().flatten().collect()
}

// Chains of Puts and of functions, of a few words up to one too many for a slice: none is a clause's.
fn chains() -> Vec<Example> {
    let mut examples = Vec::new();
    for used in [3, 320, 321, 322, 323, TREE_MOST - 1, TREE_MOST] {
        let refusal = match used < TREE_MOST {
            true => Refusal::NoSuchTree,
            false => Refusal::BadSlice,
        };
        let puts = (0..used as u32 - 2).map(|put| Instruction::new(Put, put));
        let puts = path("First").into_iter().chain(puts).collect();
        let functions = going_on("First, Check P1, Down", "Check f, Down", used - 1);
        for (name, mut path) in [("Puts", puts), ("functions", functions)] {
            path.push(Instruction::new(Success, 5));
            let name = format!("{used} words, {name}");
            examples.push(example(&name, &chain(&path), 5, Err(refusal)));
        }
    }
    examples
}

/// All of them.
pub fn examples() -> Vec<Example> {
    let all = [
        of_clauses(),
        of_none(),
        of_many_words(),
        of_many_variables(),
        chains(),
    ];
    all.into_iter().flatten().collect()
}
