//! Clause words (document 01, "Clause words").
use crate::page;

pub const WORDS: usize = 64;
pub const LITERALS: usize = 8;

pub fn is_variable(word: u16) -> bool {
    word >> 14 == 1
}

pub fn is_head(word: u16) -> bool {
    word >> 15 == 1
}

pub fn arity(word: u16) -> usize {
    usize::from(word >> 11 & 7)
}

/// A clause with the end of the term at each position, and the positions of its heads.
#[derive(Clone, Default)]
pub struct Clause {
    pub words: Vec<u16>,
    pub ends: Vec<usize>,
    pub heads: Vec<usize>,
}

impl Clause {
    /// Reads a record's bytes over what was there, or gives the refusal's code.
    pub fn read(&mut self, bytes: &[u8]) -> Result<(), u64> {
        if bytes.is_empty() || bytes.len() > 2 * WORDS {
            return Err(3);
        }
        self.words.clear();
        self.words.extend(page::words(bytes));
        self.find_heads()?;
        self.find_ends();
        Ok(())
    }

    /// All literals, a bit each.
    pub fn all_literals(&self) -> u32 {
        (1 << self.heads.len()) - 1
    }

    /// The words of the term at a position.
    pub fn term(&self, at: usize) -> &[u16] {
        &self.words[at..self.ends[at]]
    }

    fn find_heads(&mut self) -> Result<(), u64> {
        self.heads.clear();
        let mut due = 0;
        for (at, &word) in self.words.iter().enumerate() {
            if is_head(word) != (due == 0) || is_variable(word) && arity(word) > 0 {
                return Err(4);
            }
            if due > 0 {
                due -= 1;
            } else if self.heads.len() == LITERALS {
                return Err(5);
            } else {
                self.heads.push(at);
            }
            due += arity(word);
        }
        if due > 0 {
            return Err(4);
        }
        Ok(())
    }

    // From the right: a term ends where its last argument does.
    fn find_ends(&mut self) {
        self.ends.clear();
        self.ends.resize(self.words.len(), 0);
        for at in (0..self.words.len()).rev() {
            let mut end = at + 1;
            for _ in 0..arity(self.words[at]) {
                end = self.ends[end];
            }
            self.ends[at] = end;
        }
    }
}
