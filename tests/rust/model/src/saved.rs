//! The clauses of a saved tree, by the definition of one: clauses are tried until they compile to the paths, and their tree is held against
//! the slice.
use crate::book::Book;
use crate::compiler::sequence;
use crate::instruction::{used, Instruction, Operation};
use crate::limits::{CLAUSE_WORDS, NUMBERS};
use crate::reader::read;
use crate::tree::Path;
use crate::words::{is_variable, word, VARIABLE};

/// The book of clauses, or of none, whose tree a well-laid slice is; none if there is no such book.
pub fn saved(words: &[u64]) -> Option<Book> {
    let mut book = Book::new(words.len());
    for path in paths(words) {
        let (success, above) = path.split_last().expect("a Success");
        book.insert(&clause_of(above)?, success.operand).ok()?;
    }
    (book.tree.words() == words).then_some(book)
}

// The paths of a well-laid slice: above a word are those before it whose extents reach it.
fn paths(words: &[u64]) -> impl Iterator<Item = Path> {
    let used = &words[1..=used(words[0])];
    let unpack = |&word| Instruction::unpack(word).expect("a well-laid word");
    let laid: Vec<(Instruction, usize)> = used.iter().map(unpack).collect();
    (0..laid.len()).filter_map(move |at| {
        let above = (0..=at).filter(|&i| i + laid[i].1 > at);
        let success = laid[at].0.operation == Operation::Success;
        success.then(|| above.map(|i| laid[i].0).collect())
    })
}

/// An accepted clause that compiles to this sequence, if there is one.
pub fn clause_of(sequence: &[Instruction]) -> Option<Vec<u16>> {
    let mut words = Vec::new();
    for instruction in sequence {
        match instruction.operation {
            Operation::Check => words.push(Some(u16::try_from(instruction.operand).ok()?)),
            Operation::Put => words.push(None),
            _ => {}
        }
    }
    if words.len() > CLAUSE_WORDS {
        return None;
    }
    Trial { sequence, words }.clause_with(&[])
}

// The sequence that a clause has to have, and the clause's words: those of the Checks, and for each Put a variable that is still to be named.
struct Trial<'a> {
    sequence: &'a [Instruction],
    words: Vec<Option<u16>>,
}

impl Trial<'_> {
    // The clause with these names for the first Puts and another one for each further Put. Names are counted down from the highest number, so
    // that no variable has the number that it is to be given.
    fn named(&self, names: &[usize]) -> Vec<u16> {
        let names = names.iter().copied().chain(NUMBERS..);
        let mut variables = names.map(|name| word(VARIABLE, 0, 2047 - name as u16));
        let mut variable = || variables.next().expect("a further name");
        let words = self.words.iter();
        words
            .map(|word| word.unwrap_or_else(&mut variable))
            .collect()
    }

    // A clause with the sequence whose first Puts have these names. The next Put has an earlier name or a new one. Further names leave the Compares
    // of the Puts that have one as they are, so that these have to be the sequence's.
    fn clause_with(&self, names: &[usize]) -> Option<Vec<u16>> {
        let clause = self.named(names);
        let compiled = sequence(&read(&clause).ok()?);
        if compares(&compiled, names.len()) != compares(self.sequence, names.len()) {
            return None;
        }
        let puts = self.words.iter().filter(|word| word.is_none()).count();
        if names.len() == puts {
            return (compiled == self.sequence).then_some(clause);
        }
        let new = names.iter().max().map_or(0, |last| last + 1);
        (0..=new).find_map(|name| self.clause_with(&[names, &[name]].concat()))
    }
}

// The Compares of the Puts below a number.
fn compares(sequence: &[Instruction], number: usize) -> Vec<Instruction> {
    let compares = sequence.iter().filter(|instruction| {
        let put = instruction.operand as usize & 0xFFFF;
        instruction.operation == Operation::Compare && put < number
    });
    compares.copied().collect()
}

/// The clause with its variables numbered from 0 by first appearance.
pub fn renumbered(clause: &[u16]) -> Vec<u16> {
    let mut met = Vec::new();
    for word in clause.iter().filter(|word| is_variable(**word)) {
        if !met.contains(word) {
            met.push(*word);
        }
    }
    let number = |variable| met.iter().position(|earlier| *earlier == variable);
    let renumber = |&w| number(w).map_or(w, |number| word(VARIABLE, 0, number as u16));
    clause.iter().map(renumber).collect()
}
