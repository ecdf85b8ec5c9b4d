//! The rows of tests/rust/cases put to the model and to the proved calls: both have to give the expected lines, byte for byte.
//! What rows and lines say is told in model/src/cases.rs.
use code_tree::raw;
use model::cases::{output, Calls, Model, UNTOLD};
use model::instruction::{header, used, Instruction, Operation};
use model::limits::{TREE_MOST, WITNESS_WORDS};
use std::fs::read_to_string;
use std::path::Path;

/// The proved calls answer.
struct Proved;

// The number under which a clause is kept alone.
const ALONE: u32 = 7;

// The instruction words of a clause kept alone on the longest slice: a chain down to its Success, and zeros.
fn chain(tree: &[u64]) -> &[u64] {
    let length = used(tree[0]);
    assert_eq!(tree[0], header(length, 1));
    let (words, rest) = tree[1..].split_at(length);
    assert!(rest.iter().all(|&word| word == 0), "a word past the used");
    let extents = words.iter().map(|word| (word & 0xFFF_FFFF) as usize);
    assert!(extents.eq((1..=length).rev()), "no chain: {words:016x?}");
    let success = Instruction::new(Operation::Success, ALONE).pack(1);
    assert_eq!(words.last(), Some(&success));
    &words[..length - 1]
}

// An empty tree on the longest slice, which has room for every clause.
fn empty() -> Vec<u64> {
    let mut tree = vec![u64::MAX; TREE_MOST];
    assert_eq!(raw::fresh(&mut tree), 0);
    tree
}

// What insertion, query and listing say of a clause on an empty tree, where only the reader refuses: the number returned and the words told.
fn read_by_each(clause: &[u16]) -> [(u64, [u64; 3]); 3] {
    let mut tree = empty();
    let mut told = [[UNTOLD; 3]; 3];
    let witness = &mut [0; WITNESS_WORDS];
    let asked = raw::query(&tree, clause, 0, witness, &mut told[0]);
    let listed = raw::backward(&tree, clause, 0, &mut [], &mut told[1]);
    let inserted = raw::insert(&mut tree, clause, ALONE, &mut told[2]);
    [(asked, told[0]), (listed, told[1]), (inserted, told[2])]
}

impl Calls for Proved {
    fn fresh(tree: &mut [u64]) -> u64 {
        raw::fresh(tree)
    }

    fn insert(tree: &mut [u64], clause: &[u16], number: u32, told: &mut [u64]) -> u64 {
        raw::insert(tree, clause, number, told)
    }

    fn remove(tree: &mut [u64], number: u32) -> u64 {
        raw::remove(tree, number)
    }

    fn query(
        tree: &[u64],
        clause: &[u16],
        budget: u64,
        witness: &mut [u16],
        told: &mut [u64],
    ) -> u64 {
        raw::query(tree, clause, budget, witness, told)
    }

    fn ceiling(kept: u64, q: u64, m: u64, told: &mut [u64]) -> u64 {
        raw::ceiling(kept, q, m, told)
    }

    fn check(tree: &[u64]) -> u64 {
        raw::check(tree)
    }

    fn read_back(tree: &[u64], number: u32, out: &mut [u16], told: &mut [u64]) -> u64 {
        raw::read_back(tree, number, out, told)
    }

    fn backward(
        tree: &[u64],
        clause: &[u16],
        budget: u64,
        list: &mut [u32],
        told: &mut [u64],
    ) -> u64 {
        raw::backward(tree, clause, budget, list, told)
    }

    // The reader is no call: its refusal is what each call says, and the literals of a whole clause are the Firsts of its tree.
    fn read(clause: &[u16], told: &mut [u64]) -> u64 {
        let [asked, listed, inserted] = read_by_each(clause);
        if inserted.0 == 0 {
            assert_eq!(asked, (0, [0, 0, 0]));
            assert_eq!(listed, (0, [0, 0, UNTOLD]));
            assert_eq!(inserted.1, [UNTOLD; 3]);
            let firsts = Self::compile(clause).into_iter();
            told[0] = firsts.filter(|key| key >> 32 == 1).count() as u64;
        } else {
            assert_eq!([asked, listed], [inserted; 2], "{clause:04x?}");
            assert_eq!(inserted.1[1..], [UNTOLD; 2]);
            told[0] = inserted.1[0];
        }
        inserted.0
    }

    // Nor is the compiler: the instructions are those of the tree of the clause alone.
    fn compile(clause: &[u16]) -> Vec<u64> {
        let mut tree = empty();
        assert_eq!(raw::insert(&mut tree, clause, ALONE, &mut []), 0);
        chain(&tree).iter().map(|word| word >> 28).collect()
    }
}

// A file of tests/rust/cases.
fn stored(name: &str) -> String {
    let cases = Path::new(env!("CARGO_MANIFEST_DIR")).join("cases");
    read_to_string(cases.join(name)).expect("a file of tests/rust/cases")
}

fn expect_lines<C: Calls>() {
    let (lines, expected) = (output::<C>(&stored("rows.txt")), stored("lines.txt"));
    for (i, (line, expected)) in lines.lines().zip(expected.lines()).enumerate() {
        assert_eq!(line, expected, "line {}", i + 1);
    }
    assert!(lines == expected, "the ends differ");
}

#[test]
fn lines_of_the_model() {
    expect_lines::<Model>();
}

#[test]
fn lines_of_the_proved_calls() {
    expect_lines::<Proved>();
}
