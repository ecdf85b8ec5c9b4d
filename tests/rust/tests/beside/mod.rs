//! Each call is put to the library and to the model; answer, told words and every lent word have to be the same.
use code_tree::raw;
use model::calls::{self, Cover, Listed};
use model::refusal::Refusal;

const UNTOLD: u64 = 0xDEAD;

/// What a word of a witness or an output holds before a call.
pub const UNWRITTEN: u16 = 0xBEEF;

/// What a word of a list holds before a call.
pub const UNLISTED: u32 = 0xBEEF_CAFE;

// What stands before and after a list, so many times.
const GUARD: u32 = 0x600D_600D;
const GUARDS: usize = 3;

// The number returned and the told words of an answer with its values.
fn told(answer: Result<Vec<u64>, Refusal>) -> (u64, [u64; 4]) {
    let (code, values) = match answer {
        Ok(values) => (0, values),
        Err(refusal) => (refusal.code(), refusal.values()),
    };
    let mut told = [UNTOLD; 4];
    told[..values.len()].copy_from_slice(&values);
    (code, told)
}

/// An answer has the code of the first of these refusals that applies; if none does, it is none.
pub fn expect_first<T>(answer: Result<T, Refusal>, refusals: &[(bool, u64)]) {
    let first = refusals.iter().find(|(applies, _)| *applies);
    let said = answer.err().map_or(0, Refusal::code);
    assert_eq!(said, first.map_or(0, |(_, code)| *code));
}

/// Makes a tree empty.
pub fn fresh(tree: &mut [u64]) -> Result<(), Refusal> {
    let mut after = tree.to_vec();
    let answer = calls::fresh(&mut after);
    let code = raw::fresh(tree);
    assert_eq!(code, told(answer.map(|()| vec![])).0);
    assert!(tree == after, "fresh of {} words", tree.len());
    answer
}

/// Inserts, where the answer and the words afterwards have to be these.
pub fn expect_insert(
    tree: &mut [u64],
    clause: &[u16],
    number: u32,
    answer: Result<(), Refusal>,
    after: &[u64],
) {
    let mut words = [UNTOLD; 4];
    let code = raw::insert(tree, clause, number, &mut words);
    let expected = told(answer.map(|()| vec![]));
    assert_eq!((code, words), expected, "insert {clause:04x?} as {number}");
    assert!(tree == after, "words after insert {clause:04x?}");
}

/// Inserts.
pub fn insert(tree: &mut [u64], clause: &[u16], number: u32) -> Result<(), Refusal> {
    let mut after = tree.to_vec();
    let answer = calls::insert(&mut after, clause, number);
    expect_insert(tree, clause, number, answer, &after);
    answer
}

/// Removes, where the answer and the words afterwards have to be these.
pub fn expect_remove(tree: &mut [u64], number: u32, answer: Result<(), Refusal>, after: &[u64]) {
    let code = raw::remove(tree, number);
    assert_eq!(code, told(answer.map(|()| vec![])).0, "remove {number}");
    assert!(tree == after, "words after remove {number}");
}

/// Removes.
pub fn remove(tree: &mut [u64], number: u32) -> Result<(), Refusal> {
    let mut after = tree.to_vec();
    let answer = calls::remove(&mut after, number);
    expect_remove(tree, number, answer, &after);
    answer
}

/// A query's answer and the witness afterwards.
#[derive(Debug, PartialEq)]
pub struct Asked {
    pub answer: Result<Cover, Refusal>,
    pub witness: Vec<u16>,
}

impl Asked {
    /// Whether the witness is as before the query.
    pub fn unwritten(&self) -> bool {
        self.witness.iter().all(|&word| word == UNWRITTEN)
    }
}

/// Asks with a witness of so many words.
pub fn query(tree: &[u64], clause: &[u16], budget: u64, witness_words: usize) -> Asked {
    let mut witness = vec![UNWRITTEN; witness_words];
    let answer = calls::query(tree, clause, budget, &mut witness);
    let mut written = vec![UNWRITTEN; witness_words];
    let mut words = [UNTOLD; 4];
    let code = raw::query(tree, clause, budget, &mut written, &mut words);
    let expected = told(answer.map(Cover::values));
    assert_eq!((code, words), expected, "query {clause:04x?} for {budget}");
    assert_eq!(written, witness, "witness of {clause:04x?} for {budget}");
    Asked { answer, witness }
}

/// The ceiling.
pub fn ceiling(kept: u64, q: u64, m: u64) -> Result<u64, Refusal> {
    let answer = calls::ceiling(kept, q, m);
    let mut words = [UNTOLD; 4];
    let code = raw::ceiling(kept, q, m, &mut words);
    assert_eq!((code, words), told(answer.map(|ceiling| vec![ceiling])));
    answer
}

/// Checks a slice, where the answer has to be this.
pub fn expect_check(tree: &[u64], answer: Result<(), Refusal>) {
    let before = tree.to_vec();
    let code = raw::check(tree);
    assert_eq!(code, told(answer.map(|()| vec![])).0, "check");
    assert!(tree == before, "words after check");
}

/// Checks a slice.
pub fn check(tree: &[u64]) -> Result<(), Refusal> {
    let answer = calls::check(tree);
    expect_check(tree, answer);
    answer
}

/// The answer to a reading back and the output afterwards.
#[derive(Debug, PartialEq)]
pub struct ReadBack {
    pub answer: Result<usize, Refusal>,
    pub out: Vec<u16>,
}

impl ReadBack {
    /// The reading back of a clause to so many words.
    pub fn of(clause: &[u16], out_words: usize) -> ReadBack {
        let mut out = vec![UNWRITTEN; out_words];
        out[..clause.len()].copy_from_slice(clause);
        let answer = Ok(clause.len());
        ReadBack { answer, out }
    }

    /// A refused one.
    pub fn refused(refusal: Refusal, out_words: usize) -> ReadBack {
        let (answer, out) = (Err(refusal), vec![UNWRITTEN; out_words]);
        ReadBack { answer, out }
    }
}

/// Reads back, where the answer and the output afterwards have to be these.
pub fn expect_read_back(tree: &[u64], number: u32, expected: &ReadBack) {
    let before = tree.to_vec();
    let mut out = vec![UNWRITTEN; expected.out.len()];
    let mut words = [UNTOLD; 4];
    let code = raw::read_back(tree, number, &mut out, &mut words);
    let length = expected.answer.map(|length| vec![length as u64]);
    assert_eq!((code, words), told(length), "read back {number}");
    assert_eq!(out, expected.out, "output of {number}");
    assert!(tree == before, "words after read back {number}");
}

/// Reads back to so many words.
pub fn read_back(tree: &[u64], number: u32, out_words: usize) -> ReadBack {
    let mut out = vec![UNWRITTEN; out_words];
    let answer = calls::read_back(tree, number, &mut out);
    let expected = ReadBack { answer, out };
    expect_read_back(tree, number, &expected);
    expected
}

/// The answer to a listing and the list afterwards.
#[derive(Debug, PartialEq)]
pub struct Listing {
    pub answer: Result<Listed, Refusal>,
    pub list: Vec<u32>,
}

impl Listing {
    /// The listing of numbers, to so many words.
    pub fn of(numbers: &[u32], candidates: u64, list_words: usize) -> Listing {
        let many = numbers.len();
        let mut list = vec![UNLISTED; list_words];
        list[..many].copy_from_slice(numbers);
        let answer = Ok(Listed { many, candidates });
        Listing { answer, list }
    }

    /// A refused one.
    pub fn refused(refusal: Refusal, list_words: usize) -> Listing {
        let (answer, list) = (Err(refusal), vec![UNLISTED; list_words]);
        Listing { answer, list }
    }

    /// The numbers that were listed.
    pub fn numbers(&self) -> &[u32] {
        let many = self.answer.map_or(0, |listed| listed.many);
        &self.list[..many]
    }
}

/// Lists, where the answer and the list afterwards have to be these. The words around the list, and those of the tree and the clause, stay.
pub fn expect_backward(tree: &[u64], clause: &[u16], budget: u64, expected: &Listing) {
    let (before, given) = (tree.to_vec(), clause.to_vec());
    let length = expected.list.len();
    let mut around = vec![GUARD; GUARDS + length + GUARDS];
    let list = &mut around[GUARDS..GUARDS + length];
    list.fill(UNLISTED);
    let mut words = [UNTOLD; 4];
    let code = raw::backward(tree, clause, budget, list, &mut words);
    let what = format!("backward {clause:04x?} for {budget} to {length}");
    assert_eq!(
        (code, words),
        told(expected.answer.map(Listed::values)),
        "{what}"
    );
    assert_eq!(*list, expected.list, "list of {what}");
    let guards = [&around[..GUARDS], &around[GUARDS + length..]].concat();
    assert_eq!(guards, [GUARD; 2 * GUARDS], "words around {what}");
    assert!(tree == before && clause == given, "words after {what}");
}

/// Lists to so many words.
pub fn backward(tree: &[u64], clause: &[u16], budget: u64, list_words: usize) -> Listing {
    let mut list = vec![UNLISTED; list_words];
    let answer = calls::backward(tree, clause, budget, &mut list);
    let expected = Listing { answer, list };
    expect_backward(tree, clause, budget, &expected);
    expected
}
