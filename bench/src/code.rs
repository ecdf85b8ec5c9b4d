//! Instructions and compiling (document 01, "Compiling" and "Tree words").
use crate::clause::{arity, is_variable, Clause};

pub const SUCCESS: u64 = 0;
pub const FIRST: u64 = 1;
pub const DOWN: u64 = 2;
pub const RIGHT: u64 = 3;
pub const PUT: u64 = 4;
pub const PUSH: u64 = 5;
pub const POP: u64 = 6;
pub const CHECK: u64 = 7;
pub const COMPARE: u64 = 8;

/// The most clauses kept, and the words of the tree.
pub const CLAUSES: usize = 1024;
pub const TREE_WORDS: usize = 8192;

/// An instruction as one number: operation, then 32 bits of operand. Siblings rise by it.
pub fn key(operation: u64, operand: u64) -> u64 {
    operation << 32 | operand
}

/// Compiles clauses, one after another, to keys without the Success.
#[derive(Default)]
pub struct Compiler {
    keys: Vec<u64>,
    /// The variable of each Put.
    puts: Vec<u16>,
    pushes: u64,
    /// The Pushes not yet popped, and for each open term its arguments still to come; empty between literals.
    pushed: Vec<u64>,
    open: Vec<usize>,
}

impl Compiler {
    pub fn sequence(&mut self, clause: &Clause) -> &[u64] {
        self.keys.clear();
        self.puts.clear();
        self.pushes = 0;
        for &head in &clause.heads {
            self.literal(clause.term(head));
        }
        &self.keys
    }

    fn literal(&mut self, words: &[u16]) {
        self.emit(FIRST, 0);
        let puts_before = self.puts.len();
        for &word in words {
            let right = self.open.last_mut().is_some_and(|left| {
                *left -= 1;
                *left > 0
            });
            self.look(word);
            if arity(word) > 0 {
                if right {
                    self.pushed.push(self.pushes);
                    self.emit(PUSH, self.pushes);
                    self.pushes += 1;
                }
                self.emit(DOWN, 0);
                self.open.push(arity(word));
            } else if right {
                self.emit(RIGHT, 0);
            } else if let Some(n) = self.pushed.pop() {
                self.emit(POP, n);
            }
            while self.open.last() == Some(&0) {
                self.open.pop();
            }
        }
        self.compares(puts_before);
    }

    fn look(&mut self, word: u16) {
        if is_variable(word) {
            self.emit(PUT, self.puts.len() as u64);
            self.puts.push(word);
        } else {
            self.emit(CHECK, u64::from(word));
        }
    }

    /// A Compare for each Put from a number on whose variable was put before, by the first Put of it.
    fn compares(&mut self, from: usize) {
        let mut pairs = Vec::new();
        for k in from..self.puts.len() {
            let variable = self.puts[k];
            if let Some(m) = self.puts[..k].iter().position(|&v| v == variable) {
                pairs.push((m, k));
            }
        }
        pairs.sort_unstable();
        for (m, k) in pairs {
            self.emit(COMPARE, (m << 16 | k) as u64);
        }
    }

    fn emit(&mut self, operation: u64, operand: u64) {
        self.keys.push(key(operation, operand));
    }
}
