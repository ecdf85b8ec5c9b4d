//! Saved trees in the model: both sides of each limit, and the paths around those of all short clauses.
use model::by_hand::{self, laid, with_much_stack, Example};
use model::calls::{check, fresh, insert, read_back};
use model::compiler::sequence;
use model::instruction::{Instruction, Operation};
use model::limits::{KEPT, OUTPUT_WORDS, TREE_MOST};
use model::notation::{clause, path, tree};
use model::reader::read;
use model::refusal::Refusal;
use model::saved::{clause_of, renumbered};
use model::tree::{Path, Tree};
use model::words::{is_variable, word, FUNCTION, POSITIVE, VARIABLE};
use std::collections::BTreeMap;
use Operation::{Check, Compare, Down, First, Pop, Push, Put, Right};

const NO_SUCH_TREE: Result<(), Refusal> = Err(Refusal::NoSuchTree);
const BROKEN: Result<(), Refusal> = Err(Refusal::Broken);

// What output words hold before a call.
const UNWRITTEN: u16 = 0xBEEF;

// A slice with clauses kept under 1, 2, ..
fn kept(length: usize, clauses: &[&[u16]]) -> Vec<u64> {
    let mut words = vec![!0; length];
    assert_eq!(fresh(&mut words), Ok(()));
    for (i, clause) in clauses.iter().enumerate() {
        assert_eq!(insert(&mut words, clause, i as u32 + 1), Ok(()));
    }
    words
}

// The answer to reading a clause back to so many words, and the output afterwards.
fn read_back_to(words: &[u64], number: u32, length: usize) -> (Result<usize, Refusal>, Vec<u16>) {
    let mut out = vec![UNWRITTEN; length];
    (read_back(words, number, &mut out), out)
}

// The clause read back; the words after it stay.
fn clause_back(words: &[u64], number: u32) -> Result<Vec<u16>, Refusal> {
    let (answer, out) = read_back_to(words, number, OUTPUT_WORDS);
    let written = answer.unwrap_or(0);
    assert!(out[written..].iter().all(|word| *word == UNWRITTEN));
    answer.map(|length| out[..length].to_vec())
}

// Each example is answered as it says.
fn judge_examples(examples: Vec<Example>) {
    with_much_stack(move || {
        for example in examples {
            let back = clause_back(&example.words, example.number);
            assert_eq!(back, example.back, "{}", example.name);
            let checked = check(&example.words);
            assert_eq!(checked, example.checked(), "{}", example.name);
        }
    });
}

#[test]
fn slices_made_by_hand() {
    judge_examples(by_hand::examples());
}

#[test]
fn success_at_the_top() {
    assert_eq!(check(&tree("Success 5/1")), NO_SUCH_TREE);
    let beside = laid(&["Success 5", "First, Check P0, Success 1"]);
    assert_eq!(check(&beside), NO_SUCH_TREE);
    assert_eq!(clause_back(&beside, 1), Err(Refusal::NoSuchTree));
}

#[test]
fn empty_trees() {
    for (length, answer) in [
        (0, Err(Refusal::BadSlice)),
        (1, Err(Refusal::BadSlice)),
        (2, Ok(())),
        (3, Ok(())),
        (TREE_MOST, Ok(())),
        (TREE_MOST + 1, Err(Refusal::BadSlice)),
    ] {
        let words = vec![0; length];
        assert_eq!(check(&words), answer);
        let unknown = answer.and(Err(Refusal::NoSuchNumber));
        assert_eq!(clause_back(&words, 0), unknown);
    }
}

// A slice of one path, of so many literals without arguments.
fn literals(count: usize) -> Vec<u64> {
    laid(&[&format!("{}Success 1", "First, Check P0, ".repeat(count))])
}

#[test]
fn literals_of_a_path() {
    assert_eq!(clause_back(&literals(8), 1), Ok(clause("P0").repeat(8)));
    assert_eq!(check(&literals(9)), NO_SUCH_TREE);
    assert_eq!(check(&literals(64)), NO_SUCH_TREE);
}

#[test]
fn words_of_the_output() {
    let words = kept(24, &[&clause("P3 y a y"), &clause("P1 47FF")]);
    for length in [0, 1, 4, 63, 64, 65, 100] {
        let mut expected = vec![UNWRITTEN; length];
        let answer = match length < 64 {
            true => Err(Refusal::ShortOutput),
            false => {
                expected[..4].copy_from_slice(&clause("P3 x a x"));
                Ok(4)
            }
        };
        assert_eq!(read_back_to(&words, 1, length), (answer, expected));
    }
    assert_eq!(clause_back(&words, 2), Ok(clause("P1 x")));
}

#[test]
fn numbers() {
    let two = |first: u32, second: u32| {
        let first = format!("First, Check P0, Success {first}");
        laid(&[&first, &format!("First, Check Q0, Success {second}")])
    };
    assert_eq!(check(&two(1, 1)), NO_SUCH_TREE);
    assert_eq!(clause_back(&two(1, 1), 1), Err(Refusal::NoSuchTree));
    assert_eq!(clause_back(&two(1, 1), 2), Err(Refusal::NoSuchTree));
    let words = two(u32::MAX, 0);
    assert_eq!(clause_back(&words, u32::MAX), Ok(clause("P0")));
    assert_eq!(clause_back(&words, 0), Ok(clause("Q0")));
    assert_eq!(clause_back(&words, 1), Err(Refusal::NoSuchNumber));
    // equal numbers one below the other
    let below = [
        "First, Check P0, Success 1",
        "First, Check P0, First, Check P0, Success 1",
    ];
    assert_eq!(check(&laid(&below)), NO_SUCH_TREE);
}

// A slice of so many paths, each of a head alone.
fn heads(count: usize) -> Vec<u64> {
    let path = |i: usize| path(&format!("First, Check {:X}, Success {i}", 0x8000 + i));
    Tree::of_paths(&(0..count).map(path).collect::<Vec<_>>(), 0).words()
}

#[test]
fn kept_clauses() {
    let words = heads(KEPT);
    assert_eq!(check(&words), Ok(()));
    assert_eq!(clause_back(&words, 1023), Ok(clause("83FF")));
    assert_eq!(check(&heads(KEPT + 1)), BROKEN);
}

#[test]
fn broken_words() {
    let words = kept(20, &[&clause("P1 x"), &clause("P2 x y")]);
    assert_eq!(check(&words), Ok(()));
    let changed = |i: usize, word: u64| {
        let mut words = words.clone();
        words[i] = word;
        words
    };
    let (used, end) = (words[0] >> 32, words.len() - 1);
    for broken in [
        changed(0, used << 32 | 1),
        changed(0, used << 32 | 3),
        changed(0, used + 1 << 32 | 2),
        changed(0, 20 << 32 | 2),
        changed(1, words[1] + 1),
        changed(1, words[1] + (1 << 28)),
        changed(1, 9 << 60 | words[1]),
        changed(end, 1),
    ] {
        assert_eq!(check(&broken), BROKEN);
        assert_eq!(clause_back(&broken, 1), Err(Refusal::Broken));
    }
    let swapped = "First 0/5, Check Q0/2, Success 1/1, Check P0/2, Success 2/1";
    assert_eq!(check(&tree(swapped)), BROKEN);
    let in_order = "First 0/5, Check P0/2, Success 1/1, Check Q0/2, Success 2/1";
    assert_eq!(check(&tree(in_order)), Ok(()));
    let two_of_one = "First 0/4, Check P0/3, Success 1/1, Success 2/1";
    assert_eq!(check(&tree(two_of_one)), BROKEN);
    assert_eq!(check(&tree("First 0/1")), BROKEN);
}

// 1, 15, 2, 14, 9: each with all that come after it.
#[test]
fn order_of_refusals() {
    let saved = kept(9, &[&clause("P0")]);
    let no_tree = tree("First 0/2, Success 1/1");
    let broken = vec![u64::MAX; 9];
    let bad_slice = vec![u64::MAX; 1];
    for (words, length, code) in [
        (&bad_slice, 63, 1),
        (&bad_slice, 64, 1),
        (&broken, 63, 15),
        (&broken, 64, 2),
        (&no_tree, 63, 15),
        (&no_tree, 64, 14),
        (&saved, 63, 15),
        (&saved, 64, 9),
    ] {
        let (answer, out) = read_back_to(words, 9, length);
        assert_eq!(answer.map_err(Refusal::code), Err(code));
        assert_eq!(out, vec![UNWRITTEN; length]);
    }
}

#[test]
fn numbered_by_first_appearance() {
    for (given, expected) in [
        ("P0", "P0"),
        ("P1 47FF", "P1 x"),
        ("P3 y x y", "P3 x y x"),
        ("P2 z f y C801 z", "P2 x f y C801 x"),
        ("P4 x y z 4003", "P4 x y z 4003"),
    ] {
        assert_eq!(renumbered(&clause(given)), clause(expected));
    }
}

const WORDS: [u16; 5] = [
    word(POSITIVE, 0, 1),
    word(POSITIVE, 2, 1),
    word(POSITIVE, 3, 1),
    word(FUNCTION, 0, 1),
    word(FUNCTION, 1, 3),
];

// By their sequences the clauses of up to so many of these words and variables; of variants one.
fn all_clauses(most: usize) -> BTreeMap<Path, Vec<u16>> {
    let mut all = BTreeMap::new();
    let mut begun: Vec<Vec<u16>> = vec![vec![]];
    while let Some(clause) = begun.pop() {
        match read(&clause) {
            Ok(literals) => {
                let variant = all.insert(sequence(&literals), clause.clone());
                assert_eq!(variant, None, "variants of {clause:04x?}");
            }
            Err(Refusal::BadClause(at)) if at < clause.len() => continue,
            Err(_) => {}
        }
        if clause.len() < most {
            let variables = clause.iter().filter(|word| is_variable(**word));
            let new = variables
                .max()
                .map_or(word(VARIABLE, 0, 0), |last| last + 1);
            let next = WORDS.into_iter().chain(word(VARIABLE, 0, 0)..=new);
            begun.extend(next.map(|word| [&clause[..], &[word]].concat()));
        }
    }
    all
}

// Instructions with these words and small numbers.
fn instructions() -> Vec<Instruction> {
    let with = |operation, operands: &[u32]| {
        let instruction = |&operand: &u32| Instruction::new(operation, operand);
        operands.iter().map(instruction).collect::<Vec<_>>()
    };
    let words = WORDS.map(u32::from);
    let pairs: Vec<u32> = (0..16).map(|pair| pair / 4 << 16 | pair % 4).collect();
    [
        with(First, &[0]),
        with(Down, &[0]),
        with(Right, &[0]),
        with(Put, &[0, 1, 2, 3]),
        with(Push, &[0, 1]),
        with(Pop, &[0, 1]),
        with(Check, &words),
        with(Check, &[0x4000, 0x18001]),
        with(Compare, &pairs),
    ]
    .concat()
}

// Whether a path is a clause's: the one found, or none, is that of all the short ones.
fn judge(path: &[Instruction], all: &BTreeMap<Path, Vec<u16>>) -> bool {
    let found = clause_of(path).map(|clause| renumbered(&clause));
    assert_eq!(found.as_ref(), all.get(path), "{path:?}");
    found.is_some()
}

// The paths of short clauses, as they are and with an instruction left out, exchanged with the next one, replaced by any, or any put before it.
#[test]
fn around_all_short_clauses() {
    let (words, any) = (6, instructions());
    // a change adds at most one word
    let all = all_clauses(words + 1);
    let (mut some, mut none) = (0, 0);
    let mut count = |path: &[Instruction]| match judge(path, &all) {
        true => some += 1,
        false => none += 1,
    };
    let short = all.iter().filter(|(_, clause)| clause.len() <= words);
    for (path, _) in short {
        count(path);
        for i in 0..path.len() {
            let (before, after) = (&path[..i], &path[i + 1..]);
            count(&[before, after].concat());
            if let Some((next, after)) = after.split_first() {
                count(&[before, &[*next, path[i]], after].concat());
            }
            for other in &any {
                count(&[before, &[*other], after].concat());
                count(&[before, &[*other], &path[i..]].concat());
            }
        }
    }
    println!("{} clauses, {some} paths of one, {none} of none", all.len());
    assert!(all.len() > 2_000 && some > 8_000 && none > 400_000);
}
