//! The points that are easy to read otherwise (docs/DECISIONS.md), each on a small input: library and model have to answer as decided.
use crate::beside;
use crate::beside::{Asked, UNWRITTEN};
use model::by_hand::with_much_stack;
use model::calls::{Cover, Listed};
use model::instruction::{header, Instruction, Operation};
use model::limits::{OUTPUT_WORDS, WITNESS_WORDS};
use model::notation::{clause, path, tree, NAMES};
use model::refusal::Refusal;
use model::tree::Tree;

fn said_refusal(refusal: Refusal) -> String {
    let values = refusal
        .values()
        .into_iter()
        .map(|value| format!(" {value}"));
    format!("refused {}{}", refusal.code(), values.collect::<String>())
}

fn said(asked: &Asked) -> String {
    match asked.answer {
        Ok(Cover::Covered { number, count }) => format!("covered {number} {count}"),
        Ok(Cover::NotCovered { count }) => format!("not covered {count}"),
        Err(refusal) => said_refusal(refusal),
    }
}

fn ask(tree: &[u64], query: &str, budget: u64) -> String {
    said(&beside::query(tree, &clause(query), budget, WITNESS_WORDS))
}

fn inserted(tree: &mut [u64], text: &str, number: u32) -> String {
    let answer = beside::insert(tree, &clause(text), number);
    answer.map_or_else(said_refusal, |()| "kept".to_string())
}

#[test]
fn reading() {
    let rows = [
        ("P1", "refused 4 1"),
        ("P1 f", "refused 4 2"),
        ("P1 P1 a", "refused 4 1"),
        ("P1 4800", "refused 4 1"),
        (&format!("{EIGHT} P1"), "refused 5 8"),
        (&format!("{EIGHT} P0 x"), "refused 5 8"),
        ("P0 P0 P0 P0 P0 P0 P0 P1 P0", "refused 4 8"),
        (&format!("{EIGHT} a"), "refused 4 8"),
        (&"x ".repeat(65), "refused 3"),
        ("", "refused 3"),
        (&"P0 ".repeat(64), "refused 5 8"),
    ];
    for (text, answer) in rows {
        assert_eq!(inserted(&mut [0; 90], text, 1), answer, "{text}");
        assert_eq!(ask(&[0; 90], text, 9), answer, "{text}");
    }
}

// The instructions of the tree of one clause.
fn compiled(text: &str) -> String {
    let mut words = [0; 40];
    assert_eq!(inserted(&mut words, text, 7), "kept");
    let used = (words[0] >> 32) as usize;
    let names = words[1..=used].iter().map(|&word| {
        let (instruction, _) = Instruction::unpack(word).expect("an instruction");
        let name = NAMES[instruction.operation as usize].0;
        let operand = instruction.operand;
        match instruction.operation {
            Operation::First | Operation::Down | Operation::Right => name.to_string(),
            Operation::Check => format!("{name} {operand:04X}"),
            Operation::Compare => format!("{name} {}.{}", operand >> 16, operand & 0xFFFF),
            _ => format!("{name} {operand}"),
        }
    });
    names.collect::<Vec<_>>().join(", ")
}

#[test]
fn compiling() {
    let nested = "First, Check 9001, Down, Check 0803, Push 0, Down, Put 0, Pop 0, Put 1";
    assert_eq!(compiled("P2 f x y"), format!("{nested}, Success 7"));
    let again = nested.replace("Push 0", "Push 1").replace("Pop 0", "Pop 1");
    let again = again.replace("Put 1", "Put 3").replace("Put 0", "Put 2");
    let compares = "Compare 0.2, Compare 1.3";
    assert_eq!(
        compiled("P2 f x y P2 f x y"),
        format!("{nested}, {again}, {compares}, Success 7")
    );
    assert_eq!(
        compiled("P1 x P2 x x"),
        "First, Check 8801, Down, Put 0, First, Check 9001, Down, Put 1, Right, Put 2, Compare 0.1, Compare 0.2, Success 7"
    );
    assert_eq!(
        compiled("P4 x y y x"),
        "First, Check A001, Down, Put 0, Right, Put 1, Right, Put 2, Right, Put 3, Compare 0.3, Compare 1.2, Success 7"
    );
}

#[test]
fn well_laid() {
    // T-1, T-2, T-3
    let mut two = tree("First 0/3, Success 1/1, Success 2/1");
    assert_eq!(beside::remove(&mut two, 1), Err(Refusal::Broken));
    let mut bare = tree("Success 5/1");
    bare.resize(5, 0);
    assert_eq!(ask(&bare, "P0", 9), "refused 2");
    assert_eq!(inserted(&mut bare, "P0", 1), "kept");
    assert_eq!(
        bare,
        tree("Success 5/1, First 0/3, Check P0/2, Success 1/1")
    );
    assert_eq!(ask(&bare, "P0", 9), "refused 2");
    let mut leaf = tree("First 0/1");
    assert_eq!(inserted(&mut leaf, "P0", 1), "refused 2");
    assert_eq!(ask(&leaf, "P0", 9), "not covered 1");
    assert_eq!(ask(&leaf, "P0", 0), "refused 12 0");
    // T-4, T-5, T-6
    let mut operand = tree("First 7/2, Success 1/1");
    assert_eq!(ask(&operand, "P0", 9), "covered 1 1");
    assert_eq!(inserted(&mut operand, "P0", 2), "refused 2");
    let mut nine = tree("First 0/2, Success 1/1");
    nine[0] = header(2, 9);
    assert_eq!(ask(&nine, "P0", 9), "covered 1 1");
    assert_eq!(inserted(&mut nine, "P0", 2), "refused 2");
    let mut trailing = [0, 0, 1];
    assert_eq!(ask(&trailing, "P0", 9), "not covered 0");
    assert_eq!(inserted(&mut trailing, "P0", 2), "refused 2");
    assert_eq!(inserted(&mut trailing, "x", 2), "refused 4 0");
    // where a number stands twice, the first is meant
    let mut twice = tree("First 0/5, Check P0/2, Success 1/1, Check Q0/2, Success 1/1");
    assert_eq!(beside::remove(&mut twice, 1), Ok(()));
    assert_eq!(twice[..4], tree("First 0/3, Check Q0/2, Success 1/1"));
}

// Nine Firsts, one below the other.
const NINTH: &str = "First 0/10, First 0/9, First 0/8, First 0/7, First 0/6, First 0/5, First 0/4, First 0/3, First 0/2, Success 1/1";

// Two Firsts, one below the other, with and without a comparison of what stands at the two heads.
const TWO: &str = "First 0/3, First 0/2, Success 1/1";
const TWO_ALIKE: &str = "First 0/6, Put 0/5, First 0/4, Put 1/3, Compare 0.1/2, Success 1/1";

const EIGHT: &str = "P0 P0 P0 P0 P0 P0 P0 P0";
const SEVEN: &str = "P0 P0 P0 P0 P0 P0 P0";

// A tree, a query, a budget and the answer.
type Row = (&'static str, &'static str, u64, &'static str);

const WALKS: [Row; 37] = [
    // W-1, F3-2: a ninth First is met only where a query has eight literals, and then it is broken, also with the budget used up
    (NINTH, EIGHT, 100, "refused 2"),
    (NINTH, EIGHT, 8, "refused 2"),
    (NINTH, EIGHT, 7, "refused 12 7"),
    (NINTH, SEVEN, 13_699, "not covered 13699"),
    (NINTH, SEVEN, 13_698, "refused 12 13698"),
    (NINTH, "P0", 8, "not covered 1"),
    (NINTH, "P0", 1, "not covered 1"),
    (NINTH, "P0", 0, "refused 12 0"),
    // W-2 to W-13
    (
        "First 0/4, Check Q0/1, Check P0/3, Success 1/1",
        "P0",
        9,
        "refused 2",
    ),
    ("First 0/2, Check Q0/9", "P0", 9, "refused 2"),
    ("First 0/3, Success 1/1, Check P0/0", "P0", 9, "covered 1 1"),
    ("First 0/3, Check Q0/2, Put 99/1", "P0", 9, "not covered 1"),
    ("First 0/3, Right 0/2, Success 1/1", "P0 P0", 9, "refused 2"),
    (
        "First 0/5, Check P1/4, Down 0/3, Push 0/2, Success 1/1",
        "P1 a",
        9,
        "refused 2",
    ),
    (
        "First 0/8, Check P2/7, Down 0/6, Push 0/5, Pop 0/4, Check b/3, Pop 0/2, Success 1/1",
        "P2 a b",
        9,
        "covered 1 1",
    ),
    (
        "First 0/6, Put 0/2, Check b/1, Put 1/3, Compare 0.1/2, Success 1/1",
        "P0",
        9,
        "refused 2",
    ),
    (
        "First 0/5, Check P1/4, Down 0/3, Check x/2, Success 1/1",
        "P1 x",
        9,
        "covered 1 1",
    ),
    (
        "First 0/3, Check 18001/2, Success 1/1",
        "P0",
        9,
        "not covered 1",
    ),
    (
        "First 0/4, Put 0/3, Compare 0.0/2, Success 1/1",
        "P0",
        9,
        "covered 1 1",
    ),
    // W-14, W-15: two literals, each on one of its own
    (TWO_ALIKE, "P0 Q0", 4, "not covered 4"),
    (TWO_ALIKE, "P0 Q0", 3, "refused 12 3"),
    (TWO_ALIKE, "P0 P0", 2, "covered 1 2"),
    (TWO_ALIKE, "P0 P0", 1, "refused 12 1"),
    (TWO, "P0", 9, "not covered 1"),
    (TWO, "P0 Q0", 2, "covered 1 2"),
    (TWO, "P0 Q0", 1, "refused 12 1"),
    // F3-1: with no literal left a First is neither broken nor spent, and the word beside it is next
    (TWO, "P0", 1, "not covered 1"),
    (TWO, "P0", 0, "refused 12 0"),
    (
        "First 0/5, First 0/2, Success 1/1, Check P0/2, Success 2/1",
        "P0",
        1,
        "covered 2 1",
    ),
    // a literal that is used below a First is free below the one beside it, and again at the next literal above
    (
        "First 0/6, First 0/2, Check Q0/1, First 0/3, Check P0/2, Success 1/1",
        "P0 P0",
        3,
        "covered 1 3",
    ),
    (
        "First 0/3, First 0/2, Check Q0/1",
        "P0 P0",
        4,
        "not covered 4",
    ),
    // a fault below a First that has no literal left is not met
    ("First 0/3, First 0/2, Put 99/1", "P0", 9, "not covered 1"),
    ("First 0/3, First 0/2, Put 99/1", "P0 P0", 9, "refused 2"),
    // a word before a candidate, steps that cannot be taken, a Success with another extent
    ("Put 0/2, Success 1/1", "P0", 9, "refused 2"),
    ("First 0/3, Put 64/2, Success 1/1", "P0", 9, "refused 2"),
    ("First 0/3, Down 0/2, Success 1/1", "P0", 9, "refused 2"),
    ("First 0/2, Success 1/2", "P0", 9, "refused 2"),
];

#[test]
fn walking() {
    for (text, query, budget, answer) in WALKS {
        let asked = ask(&tree(text), query, budget);
        assert_eq!(asked, answer, "{text} for {query}");
    }
}

// A kept clause, a query, a budget, the answer and the literals that are written.
type KeptRow = (
    &'static str,
    &'static str,
    u64,
    &'static str,
    &'static [u16],
);

const KEPT_ONE: [KeptRow; 8] = [
    // F3-1
    ("P1 x Q1 x", "P1 a", 1, "not covered 1", &[]),
    ("P1 x Q1 x", "P1 a", 0, "refused 12 0", &[]),
    // F3-3: used by place
    ("P1 x P1 y", "P1 a P1 a", 2, "covered 1 2", &[0, 1]),
    ("P1 x P1 y", "P1 a P1 a", 1, "refused 12 1", &[]),
    ("P1 x P1 y", "P1 a", 9, "not covered 1", &[]),
    ("P1 x P1 x", "P1 a P1 b P1 a", 3, "covered 1 3", &[0, 2]),
    ("P1 x P1 x", "P1 a P1 b P1 a", 2, "refused 12 2", &[]),
    ("P1 x P1 x", "P1 a P1 b", 4, "not covered 4", &[]),
];

#[test]
fn own_literals() {
    for (kept, query, budget, answer, literals) in KEPT_ONE {
        let mut words = [0; 40];
        assert_eq!(inserted(&mut words, kept, 1), "kept");
        let asked = beside::query(&words, &clause(query), budget, WITNESS_WORDS);
        assert_eq!(said(&asked), answer, "{kept} for {query}");
        let written = asked.witness[..8].iter().take_while(|&&i| i != UNWRITTEN);
        assert!(written.eq(literals), "literals of {kept} for {query}");
    }
}

#[test]
fn witnesses() {
    // W-10: the later of two Puts of one number counts
    let twice = tree("First 0/6, Put 0/5, Check P1/4, Down 0/3, Put 0/2, Success 1/1");
    let asked = beside::query(&twice, &clause("P1 a"), 9, WITNESS_WORDS);
    assert_eq!((asked.witness[0], asked.witness[8]), (0, 1));
    // K-6, K-7
    let asked = beside::query(&twice, &clause("P1 a"), 9, 80);
    assert_eq!(said(&asked), "covered 1 1");
    assert_eq!(
        said(&beside::query(&[9 << 32, 0], &clause("P0"), 9, 0)),
        "refused 6"
    );
    assert_eq!(
        said(&beside::query(&[9 << 32, 0], &clause("P0"), 9, 72)),
        "refused 2"
    );
}

#[test]
fn order_of_refusals() {
    let mut words = [0; 12];
    assert_eq!(inserted(&mut words, "P0", 1), "kept");
    assert_eq!(inserted(&mut words, "P0", 1), "refused 7");
    assert_eq!(inserted(&mut words, "P0", 2), "refused 8 1");
    assert_eq!(beside::ceiling(0, 1, 1), Ok(0));
    // a slice of two words has room for none
    assert_eq!(inserted(&mut [0; 2], "P1 x", 1), "refused 11");
}

fn checked(tree: &[u64]) -> String {
    beside::check(tree).map_or_else(said_refusal, |()| "passed".to_string())
}

fn back(tree: &[u64], number: u32, out_words: usize) -> String {
    let back = beside::read_back(tree, number, out_words);
    let length = |length| format!("{:04x?}", &back.out[..length]);
    back.answer.map_or_else(said_refusal, length)
}

// A tree of one path, with a word to spare.
fn laid(text: &str) -> Vec<u64> {
    Tree::of_paths(&[path(text)], 1).words()
}

#[test]
fn saved_trees() {
    // F5-1
    assert_eq!(back(&[9 << 32, 0], 1, 63), "refused 15");
    assert_eq!(back(&[9 << 32, 0], 1, 64), "refused 2");
    assert_eq!(back(&[9 << 32], 1, 63), "refused 1");
    // F5-2
    let bare = tree("Success 5/1");
    assert_eq!(checked(&bare), "refused 14");
    assert_eq!(back(&bare, 5, 64), "refused 14");
    assert_eq!(back(&bare, 5, 63), "refused 15");
    // F5-3
    let literals = |n| laid(&format!("{}Success 1", "First, Check P0, ".repeat(n)));
    assert_eq!(checked(&literals(8)), "passed");
    assert_eq!(checked(&literals(9)), "refused 14");
    assert_eq!(back(&literals(9), 1, 64), "refused 14");
    // F5-4
    let mut twice = tree("First 0/5, Check P0/2, Success 1/1, Check Q0/2, Success 1/1");
    assert_eq!(checked(&twice), "refused 14");
    assert_eq!(back(&twice, 1, 64), "refused 14");
    assert_eq!(back(&twice, 2, 64), "refused 14");
    assert_eq!(beside::remove(&mut twice, 1), Ok(()));
    assert_eq!(checked(&twice), "passed");
    assert_eq!(back(&twice, 1, 64), "[8002]");
    assert_eq!(back(&twice, 2, 64), "refused 9");
}

// F5-5: paths of clauses with what is read back, and such as are near them.
const PATHS: [(&str, &str); 14] = [
    (
        "First, Check P2, Down, Put 0, Right, Put 1, Compare 0.1",
        "[9001, 4000, 4000]",
    ),
    (
        "First, Check P2, Down, Put 0, Right, Put 1",
        "[9001, 4000, 4001]",
    ),
    (
        "First, Check P2, Down, Put 0, Right, Put 1, Compare 1.0",
        "refused 14",
    ),
    (
        "First, Check P2, Down, Put 0, Right, Put 1, Compare 0.1, Compare 0.1",
        "refused 14",
    ),
    ("First, Check P2, Down, Put 0, Right, Put 0", "refused 14"),
    ("First, Check P1, Down, Check x", "refused 14"),
    ("First, Check 18001", "refused 14"),
    (
        "First, Check P1, Down, Put 0, First, Check Q1, Down, Put 1, Compare 0.1",
        "[8801, 4000, 8802, 4000]",
    ),
    (
        "First, Check P2, Down, Put 0, Right, Put 1, First, Check P0, Compare 0.1",
        "refused 14",
    ),
    (
        "First, Check P3, Down, Put 0, Right, Put 1, Right, Put 2, Compare 0.1, Compare 0.2",
        "[9801, 4000, 4000, 4000]",
    ),
    (
        "First, Check P3, Down, Put 0, Right, Put 1, Right, Put 2, Compare 0.1, Compare 1.2",
        "refused 14",
    ),
    (
        "First, Check P3, Down, Put 0, Right, Put 1, Right, Put 2, Compare 0.2, Compare 0.1",
        "refused 14",
    ),
    (
        "First, Check P2, Down, Check f, Push 0, Down, Put 0, Pop 0, Put 1",
        "[9001, 0803, 4000, 4001]",
    ),
    (
        "First, Check P2, Down, Check f, Push 1, Down, Put 0, Pop 1, Put 1",
        "refused 14",
    ),
];

#[test]
fn saved_paths() {
    for (text, answer) in PATHS {
        let words = laid(&format!("{text}, Success 1"));
        assert_eq!(back(&words, 1, OUTPUT_WORDS), answer, "{text}");
        let passed = !answer.starts_with("refused");
        let answer = if passed { "passed" } else { answer };
        assert_eq!(checked(&words), answer, "{text}");
    }
}

// F5-6: words between the length and 64, and past 64, stay.
#[test]
fn output_words() {
    let mut words = [0; 12];
    assert_eq!(inserted(&mut words, "P1 y", 1), "kept");
    for out_words in [64, 65, 100] {
        let out = beside::read_back(&words, 1, out_words).out;
        assert_eq!(out[..2], clause("P1 x"));
        assert_eq!(out[2..], vec![UNWRITTEN; out_words - 2]);
    }
}

fn listed(tree: &[u64], given: &str, budget: u64, list_words: usize) -> String {
    let listing = beside::backward(tree, &clause(given), budget, list_words);
    let numbers = |it: Listed| format!("{:?} {}", listing.numbers(), it.candidates);
    listing.answer.map_or_else(said_refusal, numbers)
}

// A slice with clauses kept under their numbers.
fn keeping(clauses: &[(u32, &str)]) -> Vec<u64> {
    let mut words = vec![0; 90];
    for (number, text) in clauses {
        assert_eq!(inserted(&mut words, text, *number), "kept", "{text}");
    }
    words
}

#[test]
fn listing_backwards() {
    // F6-1, F6-2
    let words = keeping(&[(1, "P0"), (2, "P0 Q0")]);
    assert_eq!(listed(&words, "P0", 1, 0), "refused 16");
    assert_eq!(listed(&words, "P0", 0, 0), "refused 12 0");
    assert_eq!(listed(&words, "P0", 1, 1), "refused 12 1");
    assert_eq!(listed(&words, "P0", 2, 1), "refused 16");
    assert_eq!(listed(&words, "P0", 2, 2), "[1, 2] 2");
    // F6-3
    let words = keeping(&[(1, "P1 x")]);
    assert_eq!(listed(&words, "P1 y", 9, 9), "[1] 1");
    assert_eq!(listed(&words, "P1 a", 9, 9), "[] 1");
    // F6-5, by the call: 12 comes where the number would be taken, too
    let words = keeping(&[(1, "P1 a")]);
    assert_eq!(listed(&words, "P1 x", 0, 9), "refused 12 0");
    assert_eq!(inserted(&mut words.clone(), "P1 x", 1), "refused 7");
    // F6-10
    let words = keeping(&[(0, "P2 y x"), (1, "P2 f 47FF 47FF"), (2, "P1 z")]);
    assert_eq!(listed(&words, "P2 x y", 9, 9), "[0, 1] 3");
    assert_eq!(listed(&words, "P2 f y y", 9, 9), "[1] 3");
    assert_eq!(listed(&words, "P2 z z", 9, 9), "[] 3");
    // F6-11
    let words = keeping(&[
        (0x8000_0000, "P1 a"),
        (u32::MAX, "P1 f a"),
        (0x1_0000, "P1 b"),
        (0x7FFF_FFFF, "P1 f b"),
        (2, "P1 f f x"),
        (10, "P0 P1 a"),
    ]);
    let rising = "[2, 10, 65536, 2147483647, 2147483648, 4294967295] 7";
    assert_eq!(listed(&words, "P1 x", 9, 9), rising);
    // each literal of the given clause falls on one of its own
    let words = keeping(&[(1, "P1 a"), (2, "P1 a P1 a"), (3, "Q0 P1 b P1 a")]);
    assert_eq!(listed(&words, "P1 x P1 y", 9, 9), "[2, 3] 7");
    assert_eq!(listed(&words, "P1 x P1 x", 99, 9), "[2] 10");
}

// F6-10: what a tree has under other numbers or names lists the same; an empty tree lists nothing, for no candidate and to no word.
#[test]
fn listing_little() {
    assert_eq!(listed(&[0; 2], "P1 x", 0, 0), "[] 0");
    let words = keeping(&[(5, "Q0")]);
    assert_eq!(listed(&words, "P1 x", 1, 0), "[] 1");
    assert_eq!(listed(&words, "P1 x", 0, 0), "refused 12 0");
    // a given clause of more literals than there are runs out of them
    assert_eq!(listed(&words, "Q0 Q0 Q0", 1, 0), "[] 1");
    // the order 1, 3 to 5, 2, 14
    assert_eq!(listed(&[9 << 32], "x", 0, 0), "refused 1");
    assert_eq!(listed(&[9 << 32, 0], "x", 0, 0), "refused 4 0");
    assert_eq!(listed(&[9 << 32, 0], "P0", 0, 0), "refused 2");
    assert_eq!(listed(&tree("Success 5/1"), "P0", 0, 0), "refused 14");
    let twice = tree("First 0/5, Check P0/2, Success 1/1, Check Q0/2, Success 1/1");
    assert_eq!(listed(&twice, "P0", 9, 9), "refused 14");
}

// A chain of a First and Puts down to a last word: the deepest tree of all.
#[test]
fn deepest_tree() {
    with_much_stack(|| {
        let levels = 65_535;
        let mut words = vec![header(levels, 1)];
        words.push(Instruction::new(Operation::First, 0).pack(levels));
        let put = |extent| Instruction::new(Operation::Put, extent as u32 % 64).pack(extent);
        words.extend((2..levels).rev().map(put));
        words.push(Instruction::new(Operation::Success, 5).pack(1));
        assert_eq!(ask(&words, "P1 a", 1), "covered 5 1");
        assert_eq!(ask(&words, "P1 a", 0), "refused 12 0");
    });
}
