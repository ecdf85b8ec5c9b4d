//! Compiling a clause to its sequence of instructions.
use crate::instruction::{Instruction, Operation};
use crate::reader::Term;
use crate::words::is_variable;
use std::collections::{BTreeMap, BTreeSet};

/// The sequence of a clause without its Success, which has the clause's number.
pub fn sequence(literals: &[Term]) -> Vec<Instruction> {
    let mut compiler = Compiler::default();
    for literal in literals {
        compiler.emit(Operation::First, 0);
        compiler.term(literal, false);
        for (m, k) in std::mem::take(&mut compiler.compares) {
            compiler.emit(Operation::Compare, m << 16 | k);
        }
    }
    compiler.sequence
}

#[derive(Default)]
struct Compiler {
    sequence: Vec<Instruction>,
    puts: u32,
    pushes: u32,
    // Push numbers not yet popped.
    pushed: Vec<u32>,
    // The number under which each variable was first put.
    first_put: BTreeMap<u16, u32>,
    // The Compares due at this literal's end, by m, then k.
    compares: BTreeSet<(u32, u32)>,
}

impl Compiler {
    fn emit(&mut self, operation: Operation, operand: u32) {
        self.sequence.push(Instruction::new(operation, operand));
    }

    // A term's own instruction, then the way on from it; `right` if it has a right sibling.
    fn term(&mut self, term: &Term, right: bool) {
        if is_variable(term.word) {
            self.put(term.word);
        } else {
            self.emit(Operation::Check, term.word as u32);
        }
        if !term.arguments.is_empty() {
            self.go_down(term, right);
        } else if right {
            self.emit(Operation::Right, 0);
        } else if let Some(n) = self.pushed.pop() {
            self.emit(Operation::Pop, n);
        }
    }

    fn put(&mut self, variable: u16) {
        let k = self.puts;
        self.puts += 1;
        self.emit(Operation::Put, k);
        let m = *self.first_put.entry(variable).or_insert(k);
        if m < k {
            self.compares.insert((m, k));
        }
    }

    fn go_down(&mut self, term: &Term, right: bool) {
        if right {
            let n = self.pushes;
            self.pushes += 1;
            self.emit(Operation::Push, n);
            self.pushed.push(n);
        }
        self.emit(Operation::Down, 0);
        let last = term.arguments.len() - 1;
        for (i, argument) in term.arguments.iter().enumerate() {
            self.term(argument, i < last);
        }
    }
}
