//! The same decisions with no tree: each kept clause is matched in turn. A strike's line and a row of the sheet have no values, since
//! the tree's order decides them. What the tree has room for is counted by the clause book's rule: the different beginnings of the sequences.
use std::collections::HashMap;
use std::io;
use yardsticks::clause::{is_variable, Clause};
use yardsticks::code::{Compiler, CLAUSES, TREE_WORDS};
use yardsticks::page::{self, Lines, Verdict};

/// A kept clause literal by literal, its variables numbered from 0.
struct Pattern {
    literals: Vec<Vec<Symbol>>,
    number: u16,
}

#[derive(Clone, Copy)]
enum Symbol {
    Variable(usize),
    Word(u16),
}

impl Pattern {
    fn new(clause: &Clause, number: u16) -> Pattern {
        let mut variables = Vec::new();
        let mut symbol = |&word: &u16| {
            if !is_variable(word) {
                return Symbol::Word(word);
            }
            let known = variables.iter().position(|&v| v == word);
            Symbol::Variable(known.unwrap_or_else(|| {
                variables.push(word);
                variables.len() - 1
            }))
        };
        let literals = clause
            .heads
            .iter()
            .map(|&head| clause.term(head).iter().map(&mut symbol).collect())
            .collect();
        Pattern { literals, number }
    }
}

/// The matching of one pattern against a query: the position bound to each variable, and the order they were bound in.
struct Match<'a> {
    query: &'a Clause,
    bound: [Option<usize>; 64],
    trail: Vec<usize>,
}

impl Match<'_> {
    /// Whether the literals fall on literals of the query that are free, each on one of its own, under what is bound.
    fn literals(&mut self, literals: &[Vec<Symbol>], free: u32) -> bool {
        let Some((literal, rest)) = literals.split_first() else {
            return true;
        };
        let query = self.query;
        let mut left = free;
        while left != 0 {
            let i = left.trailing_zeros();
            left &= left - 1;
            let (head, others) = (query.heads[i as usize], free ^ 1 << i);
            let mark = self.trail.len();
            if self.literal(literal, head) && self.literals(rest, others) {
                return true;
            }
            self.unbind(mark);
        }
        false
    }

    fn literal(&mut self, literal: &[Symbol], head: usize) -> bool {
        let mut at = head;
        for &symbol in literal {
            match symbol {
                Symbol::Word(word) => {
                    if self.query.words[at] != word {
                        return false;
                    }
                    at += 1;
                }
                Symbol::Variable(variable) => {
                    if !self.bind(variable, at) {
                        return false;
                    }
                    at = self.query.ends[at];
                }
            }
        }
        true
    }

    fn bind(&mut self, variable: usize, at: usize) -> bool {
        if let Some(before) = self.bound[variable] {
            return self.query.term(before) == self.query.term(at);
        }
        self.bound[variable] = Some(at);
        self.trail.push(variable);
        true
    }

    /// Takes back what was bound since the trail had this length.
    fn unbind(&mut self, length: usize) {
        while self.trail.len() > length {
            if let Some(variable) = self.trail.pop() {
                self.bound[variable] = None;
            }
        }
    }
}

/// The different beginnings of sequences: from a beginning and the next key to the longer one.
#[derive(Default)]
struct Beginnings {
    longer: HashMap<(usize, u64), usize>,
    successes: usize,
}

impl Beginnings {
    /// How many beginnings a sequence shares with those before it.
    fn shared(&self, sequence: &[u64]) -> usize {
        let mut here = 0;
        let known = sequence.iter().take_while(|&&key| {
            let next = self.longer.get(&(here, key));
            here = next.copied().unwrap_or(here);
            next.is_some()
        });
        known.count()
    }

    fn add(&mut self, sequence: &[u64]) {
        let mut here = 0;
        for &key in sequence {
            let fresh = self.longer.len() + 1;
            here = *self.longer.entry((here, key)).or_insert(fresh);
        }
        self.successes += 1;
    }

    fn used(&self) -> usize {
        self.longer.len() + self.successes
    }
}

#[derive(Default)]
struct Kept {
    patterns: Vec<Pattern>,
    beginnings: Beginnings,
    compiler: Compiler,
}

impl Kept {
    /// A clause that subsumes the query, which none with more literals does.
    fn covering(&self, query: &Clause) -> Option<u16> {
        let mut matching = Match {
            query,
            bound: [None; 64],
            trail: Vec::new(),
        };
        let covers = |pattern: &&Pattern| {
            matching.unbind(0);
            pattern.literals.len() <= query.heads.len()
                && matching.literals(&pattern.literals, query.all_literals())
        };
        self.patterns.iter().find(covers).map(|p| p.number)
    }

    fn keep(&mut self, clause: &Clause, number: u16) -> Result<usize, u64> {
        if self.patterns.iter().any(|p| p.number == number) {
            return Err(7);
        }
        if self.patterns.len() == CLAUSES {
            return Err(10);
        }
        let sequence = self.compiler.sequence(clause);
        let more = sequence.len() - self.beginnings.shared(sequence) + 1;
        if self.beginnings.used() + more >= TREE_WORDS {
            return Err(11);
        }
        self.beginnings.add(sequence);
        self.patterns.push(Pattern::new(clause, number));
        Ok(self.beginnings.used())
    }

    fn judge(&mut self, clause: &Clause, number: u16) -> Verdict {
        if let Some(by) = self.covering(clause) {
            return Verdict::Struck {
                by: u32::from(by),
                candidates: 0,
            };
        }
        match self.keep(clause, number) {
            Ok(used) => Verdict::Kept { used },
            Err(code) => Verdict::Refused { code },
        }
    }
}

fn main() -> io::Result<()> {
    let page = page::input()?;
    let (mut kept, mut clause, mut lines) =
        (Kept::default(), Clause::default(), Lines::new(false, false));
    let mut records = 0;
    for (number, bytes) in page::records(&page) {
        records += 1;
        let verdict = match clause.read(bytes) {
            Ok(()) => kept.judge(&clause, number),
            Err(code) => Verdict::Refused { code },
        };
        lines.put(number, &verdict)?;
    }
    lines.end(records)
}
