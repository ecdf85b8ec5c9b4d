//! Trees and clauses of any words, slices of any length: every answer and every lent word beside the model's.
use crate::beside;
use crate::drawn::tally::Tally;
use crate::drawn::{Random, STYLES};
use model::calls::Cover;
use model::instruction::{header, used, Instruction, Operation};
use model::laid::well_laid;
use model::limits::{FULL_BUDGET, KEPT, LITERALS, OUTPUT_WORDS, WITNESS_WORDS};
use model::reader::read;
use Operation::{Check, Compare, Down, First, Pop, Push, Put, Right};

// Each call on words that need not be a tree.
fn call_all(tree: &mut [u64], clause: &[u16], random: &mut Random, tally: &mut Tally) {
    tally.count_if("well laid", well_laid(tree));
    for budget in [5000, random.below(20) as u64] {
        let asked = beside::query(tree, clause, budget, WITNESS_WORDS);
        match asked.answer {
            Ok(Cover::Covered { .. }) => tally.count("queries covered"),
            Ok(Cover::NotCovered { .. }) => {
                tally.count("queries not covered");
                let literals = read(clause).expect("an accepted query").len();
                let row = &tree[1..=used(tree[0])];
                tally.count_if("not covered, literals run out", runs_out(row, literals));
            }
            Err(_) => {
                assert!(asked.unwritten());
                tally.answer("queries", "", asked.answer);
            }
        }
    }
    tally.answer("checks", "passed", beside::check(tree));
    let (number, out_words) = (random.below(4) as u32, OUTPUT_WORDS - 1 + random.below(4));
    let back = beside::read_back(tree, number, out_words);
    tally.answer("readings back", "made", back.answer);
    let (budget, list_words) = (random.of(&[0, 1, 5, 5_000]), random.below(4));
    let listing = beside::backward(tree, clause, budget, list_words);
    tally.answer("listings", "made", listing.answer);
    let removal = beside::remove(tree, random.below(4) as u32);
    tally.answer("removals", "made", removal);
    let insertion = beside::insert(tree, clause, random.below(7) as u32);
    tally.answer("insertions", "kept", insertion);
}

// Whether a First stands below as many Firsts as there are literals, and below nothing else: in a walk to the end it is met with all of them used.
fn runs_out(row: &[u64], literals: usize) -> bool {
    let mut at = 0;
    while at < row.len() {
        let (instruction, extent) = Instruction::unpack(row[at]).expect("a walked word");
        let below = &row[at + 1..at + extent];
        if instruction.operation == First && (literals == 0 || runs_out(below, literals - 1)) {
            return true;
        }
        at += extent;
    }
    false
}

// Changes a word: a bit, all of it, its fields, its extent by one; or swaps it with the next.
fn spoil_word(tree: &mut [u64], random: &mut Random) {
    let i = random.below(tree.len());
    match random.below(6) {
        0 => tree[i] ^= 1 << random.below(64),
        1 => tree[i] = random.next(),
        2 => tree[i] = tree[i].wrapping_add(1),
        3 => tree[i] = tree[i].wrapping_sub(1),
        4 => tree.swap(i, (i + 1) % tree.len()),
        _ => {
            let (operation, operand) = (random.below(10) as u64, random.below(4) as u64);
            tree[i] = operation << 60 | operand << 28 | random.below(tree.len()) as u64;
        }
    }
}

#[test]
fn spoilt_trees() {
    let mut random = Random(3);
    let mut tally = Tally::default();
    for i in 0..30_000 {
        let style = STYLES[i % STYLES.len()];
        let mut tree = vec![0; 2 + random.below(80)];
        for number in 0..4 {
            let clause = random.clause(style);
            let _ = model::calls::insert(&mut tree, &clause, number);
        }
        for _ in 0..random.below(4) {
            spoil_word(&mut tree, &mut random);
        }
        let clause = random.clause(style);
        call_all(&mut tree, &clause, &mut random, &mut tally);
    }
    let saved = [
        ("checks passed", 5_000),
        ("checks refused 14", 100),
        ("readings back made", 2_000),
        ("readings back refused 9", 2_000),
        ("readings back refused 14", 100),
        ("listings made", 2_000),
        ("listings refused 12", 1_000),
        ("listings refused 14", 100),
        ("listings refused 16", 50),
    ];
    tally.assert_least(&[&LEAST[..], &saved].concat());
}

// How often each answer has to occur on such trees.
const LEAST: [(&str, u64); 16] = [
    ("queries covered", 1_000),
    ("queries not covered", 1_000),
    ("queries refused 2", 1_000),
    ("queries refused 12", 1_000),
    ("removals made", 1_000),
    ("removals refused 2", 1_000),
    ("removals refused 9", 1_000),
    ("insertions kept", 1_000),
    ("insertions refused 2", 1_000),
    ("insertions refused 7", 1_000),
    ("insertions refused 11", 1_000),
    ("well laid", 5_000),
    ("checks refused 2", 1_000),
    ("readings back refused 2", 1_000),
    ("readings back refused 15", 1_000),
    ("listings refused 2", 1_000),
];

// What the words of a tree do, the commoner ones more than once.
const ANY: [Operation; 11] = [
    First, Down, Down, Right, Put, Put, Push, Pop, Check, Check, Compare,
];
const FIRSTS: [Operation; 5] = [First, First, First, First, Check];

// An instruction over the query's symbols; few numbers, so that Pops and Compares find them filled.
fn any_instruction(operations: &[Operation], random: &mut Random) -> Instruction {
    let operation = random.of(operations);
    let operand = match operation {
        First | Down | Right => 0,
        Check => random.of(&[0x9001, 0x8801, 0x8001, 0x0001, 0x0803, 0x4000, 0x1_9001]),
        Compare => (random.below(3) << 16 | random.below(3)) as u32,
        _ if random.one_in(50) => random.of(&[63, 64, 99, u32::MAX]),
        _ => random.below(3) as u32,
    };
    Instruction::new(operation, operand)
}

// How a tree is made: of which operations, how deep; `laid` if siblings rise and every leaf is a Success.
#[derive(Clone, Copy)]
struct Shape {
    operations: &'static [Operation],
    depth: usize,
    laid: bool,
}

// Adds a row of siblings and all below it, with true extents.
fn grow(words: &mut Vec<u64>, shape: Shape, random: &mut Random) {
    let Shape {
        operations,
        depth,
        laid,
    } = shape;
    let mut row: Vec<Instruction> = (0..random.of(&[1, 1, 1, 1, 2, 3]))
        .map(|_| any_instruction(operations, random))
        .collect();
    if depth == 0 || random.one_in(6) {
        let number = random.below(4) as u32;
        row.insert(0, Instruction::new(Operation::Success, number));
        row.truncate(1 + depth);
        if random.one_in(10) {
            row.insert(1, Instruction::new(Operation::Success, number + 1));
        }
    }
    if laid {
        row.sort();
        row.dedup();
    }
    for instruction in row {
        let at = words.len();
        words.push(0);
        let leaf = instruction.operation == Operation::Success;
        if !leaf && (laid || depth > 0 && !random.one_in(8)) {
            let depth = depth.saturating_sub(1);
            grow(words, Shape { depth, ..shape }, random);
        }
        words[at] = instruction.pack(words.len() - at);
    }
}

// A tree of any instructions, with a First at the top or any word.
fn any_tree(shape: Shape, first: bool, random: &mut Random) -> Vec<u64> {
    let mut words = vec![0];
    if first {
        words.push(0);
    }
    grow(&mut words, shape, random);
    if first {
        words[1] = Instruction::new(First, 0).pack(words.len() - 1);
    }
    let success = |&&word: &&u64| word >> 60 == 0;
    words[0] = header(words.len() - 1, words[1..].iter().filter(success).count());
    words.resize(words.len() + random.below(20), 0);
    words
}

#[test]
fn trees_of_any_instructions() {
    let mut random = Random(4);
    let mut tally = Tally::default();
    let queries: [&[u16]; 5] = [
        &[0x9001, 0x0001, 0x0001],
        &[0x9001, 0x0803, 0x0001, 0x4000],
        &[0x8801, 0x0001, 0x9001, 0x4000, 0x0001],
        &[0x8001, 0x8001],
        &[0x9001, 0x0803, 0x0001, 0x0001, 0x8001],
    ];
    for i in 0..60_000 {
        let first = !random.one_in(8);
        let shape = Shape {
            operations: &ANY,
            depth: 1 + random.below(9),
            laid: i % 2 == 0,
        };
        let mut tree = any_tree(shape, first, &mut random);
        let clause = random.of(&queries);
        call_all(&mut tree, clause, &mut random, &mut tally);
    }
    let no_tree = [
        ("checks passed", 50),
        ("checks refused 14", 10_000),
        ("readings back refused 14", 10_000),
        ("listings made", 10),
        ("listings refused 14", 10_000),
    ];
    tally.assert_least(&[&LEAST[..], &no_tree].concat());
}

// Firsts below Firsts, and queries of 1 to 8 literals, most of them equal: literals run out, or the ninth First is met, which alone is broken.
#[test]
fn trees_of_firsts() {
    let mut random = Random(5);
    let mut tally = Tally::default();
    for i in 0..30_000 {
        let shape = Shape {
            operations: &FIRSTS,
            depth: 1 + random.below(12),
            laid: i % 2 == 0,
        };
        let mut tree = any_tree(shape, true, &mut random);
        let literals = (0..1 + random.below(LITERALS)).flat_map(|_| {
            let literal: &[u16] = random.of(&[&[0x8001], &[0x8001], &[0x8801, 0x4000]]);
            literal.iter().copied()
        });
        let clause: Vec<u16> = literals.collect();
        call_all(&mut tree, &clause, &mut random, &mut tally);
    }
    tally.assert_least(&[
        ("queries covered", 1_000),
        ("queries not covered", 1_000),
        ("not covered, literals run out", 5_000),
        ("queries refused 2", 100),
        ("queries refused 12", 1_000),
        ("checks passed", 20),
        ("checks refused 14", 5_000),
        ("listings refused 14", 5_000),
    ]);
}

#[test]
fn clauses_of_any_words() {
    let mut random = Random(2);
    let mut tally = Tally::default();
    for i in 0..200_000 {
        let clause: Vec<u16> = if random.one_in(2) {
            let mut clause = random.clause(STYLES[i % STYLES.len()]);
            random.spoil(&mut clause);
            clause
        } else {
            let any = |_| (random.next() & 0xD803) as u16;
            (0..1 + i % 69).map(any).collect()
        };
        let answer = beside::insert(&mut [0; 400], &clause, 1);
        tally.answer("insertions", "kept", answer);
        let asked = beside::query(&[0; 2], &clause, 0, WITNESS_WORDS);
        assert_eq!(asked.answer.err(), answer.err());
        let listing = beside::backward(&[0; 2], &clause, 0, 0);
        assert_eq!(listing.answer.err(), answer.err());
    }
    tally.assert_least(&[
        ("insertions kept", 10_000),
        ("insertions refused 3", 1_000),
        ("insertions refused 4", 10_000),
        ("insertions refused 5", 300),
    ]);
}

#[test]
fn slices_of_any_length() {
    let mut tally = Tally::default();
    for length in [0, 1, 2, 3, 10, 65535, 65536, 65537] {
        for word in [0, 7, 1 << 32, u64::MAX] {
            for clause in [vec![], vec![0x8001; 8], vec![0x8001; 9], vec![0x4000; 65]] {
                let mut tree = vec![word; length];
                for witness_words in [0, 71, 72, 73] {
                    let answer = beside::query(&tree, &clause, 9, witness_words).answer;
                    tally.answer("queries", "answered", answer);
                }
                let answer = beside::insert(&mut tree, &clause, 1);
                tally.answer("insertions", "kept", answer);
                tally.answer("checks", "passed", beside::check(&tree));
                for out_words in [0, 63, 64, 65] {
                    let answer = beside::read_back(&tree, 1, out_words).answer;
                    tally.answer("readings back", "made", answer);
                }
                for (budget, list_words) in [(0, 0), (9, 0), (0, 9), (8, 1)] {
                    let answer = beside::backward(&tree, &clause, budget, list_words).answer;
                    tally.answer("listings", "made", answer);
                }
                tally.answer("removals", "made", beside::remove(&mut tree, 1));
                tally.answer("freshes", "made", beside::fresh(&mut tree));
            }
        }
    }
    tally.assert_least(&[
        ("queries answered", 1),
        ("queries refused 1", 1),
        ("queries refused 2", 1),
        ("queries refused 6", 1),
        ("insertions kept", 1),
        ("insertions refused 1", 1),
        ("insertions refused 2", 1),
        ("insertions refused 11", 1),
        ("removals refused 1", 1),
        ("removals refused 2", 1),
        ("checks passed", 1),
        ("checks refused 1", 1),
        ("checks refused 2", 1),
        ("readings back made", 1),
        ("readings back refused 1", 1),
        ("readings back refused 2", 1),
        ("readings back refused 9", 1),
        ("readings back refused 15", 1),
        ("listings made", 1),
        ("listings refused 1", 1),
        ("listings refused 2", 1),
        ("listings refused 3", 1),
        ("listings refused 5", 1),
        ("listings refused 12", 1),
        ("listings refused 16", 1),
        ("freshes made", 1),
        ("freshes refused 1", 1),
    ]);
}

#[test]
fn ceilings_of_any_size() {
    let mut tally = Tally::default();
    let kepts = || (0..=KEPT as u64 + 1).chain([u64::MAX]);
    let literals = || (0..=LITERALS as u64 + 1).chain([u64::MAX]);
    for kept in kepts() {
        for (q, m) in literals().flat_map(|q| literals().map(move |m| (q, m))) {
            tally.answer("ceilings", "told", beside::ceiling(kept, q, m));
        }
    }
    let highest = beside::ceiling(KEPT as u64, LITERALS as u64, LITERALS as u64);
    assert_eq!(highest, Ok(FULL_BUDGET));
    let told = (KEPT as u64 + 1) * LITERALS.pow(2) as u64;
    let asked = (kepts().count() * literals().count().pow(2)) as u64;
    tally.assert_least(&[
        ("ceilings told", told),
        ("ceilings refused 13", asked - told),
    ]);
}
