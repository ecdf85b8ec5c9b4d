//! The clause book: what a list of calls keeps, told by the slice's length and the calls alone.
use crate::compiler::sequence;
use crate::reader::{read, Term};
use crate::refusal::Refusal;
use crate::tree::Tree;

/// A number and a clause.
#[derive(Clone)]
pub struct Pair {
    pub number: u32,
    pub words: Vec<u16>,
    pub literals: Vec<Term>,
}

/// The pairs in the book, and the tree that their sequences make.
#[derive(Clone)]
pub struct Book {
    pub pairs: Vec<Pair>,
    pub tree: Tree,
}

impl Book {
    /// The book after fresh.
    pub fn new(length: usize) -> Book {
        Book {
            pairs: Vec::new(),
            tree: Tree::new(length),
        }
    }

    pub fn insert(&mut self, words: &[u16], number: u32) -> Result<(), Refusal> {
        let literals = read(words)?;
        self.tree.insert(&sequence(&literals), number)?;
        self.pairs.push(Pair {
            number,
            words: words.to_vec(),
            literals,
        });
        Ok(())
    }

    pub fn remove(&mut self, number: u32) -> Result<(), Refusal> {
        self.tree.remove(number)?;
        self.pairs.retain(|pair| pair.number != number);
        Ok(())
    }

    /// The words of the kept clauses.
    pub fn clauses(&self) -> Vec<&[u16]> {
        self.pairs.iter().map(|pair| &pair.words[..]).collect()
    }

    /// The literals of the kept clauses, if at least one is kept and each has a single literal.
    pub fn units(&self) -> Option<Vec<&Term>> {
        let single = self.pairs.iter().all(|pair| pair.literals.len() == 1);
        let literals = self.pairs.iter().flat_map(|pair| &pair.literals);
        (single && !self.pairs.is_empty()).then(|| literals.collect())
    }

    /// The most literals of a kept clause.
    pub fn most_literals(&self) -> usize {
        let literals = self.pairs.iter().map(|pair| pair.literals.len());
        literals.max().unwrap_or(0)
    }
}
