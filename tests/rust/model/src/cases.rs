//! The rows of tests/rust/cases/rows.txt, read once for whoever answers them: the model, or the proved calls (tests/rust/tests/cases.rs).
//!
//! They are the cases of documents 01 and 02: 01's unstarred rows, each limit on both sides, each refusal, and the readings that the two leave open (a
//! label such as C-1, W-9 or F3-1 names one). The expected lines, tests/rust/cases/lines.txt, are the model's: in tests/rust,
//! `cargo run --release -p model --bin cases < cases/rows.txt` writes them. A line to be added is read against documents 01 and 02.
//!
//! A row is a label, a colon and commands; its line is the label and what the commands answer. A row without a colon is a line as it is.
//! A command is a number in hexadecimal and a letter. What a command sets stays for the rows after it, but a clause for one call.
//!
//! - L: the slice ends at this index, and its next word stands there; 0L begins one. T: its next word. M: so many times that.
//! - C: the next word of the clause. B: the budget, or the number of a clause to read back.
//! - F: fresh. K: keep the clause under a number. R: remove a number. W: put the clause as a query, with a blank witness of so many words.
//! - O: read a clause back, into a blank output of so many words. X: list the kept clauses that the clause subsumes, into a blank list of so many words.
//! - H: check the slice. N: the ceiling of the slice's first three words.
//! - Y: keep so many literals without arguments, each under its symbol's number; written are those not kept, each with the number returned.
//! - V: read the clause, and write `whole` with its literals, or the code and position. G: compile the clause, and write the instructions up to Success.
//! - S: write the words of the slice that are not 0.
//!
//! F to N are the calls of the C interface (include/code_tree.h), and write the number returned and the words told; F, K and R then `left` or `changed`,
//! for the slice, and its header; W, O and X the index and value of each word of the witness, the output or the list that was written.
//! Words are written in hexadecimal: a tree word is one digit of operation, 8 of operand, 7 of extent; an instruction is the first 9 of them; a header
//! is 8 of used words, 8 of kept clauses. All other numbers are written in base ten.
use crate::calls;
use crate::compiler::sequence;
use crate::limits::TREE_MOST;
use crate::reader::read;
use crate::refusal::Refusal;
use crate::words::{word, POSITIVE};
use std::fmt::Display;
use std::marker::PhantomData;

/// What a told word holds before a call, which then means nothing.
pub const UNTOLD: u64 = u64::MAX;

// What a word of a witness or an output holds before a call: no literal and no position, and no word of a clause that a row reads back.
const BLANK: u16 = u16::MAX;

// The same for a word of a list: a number that no row gives a clause.
const BLANK_NUMBER: u32 = u32::MAX - 1;

/// Who answers the rows: the eight calls as C has them (a number returned, values told as far as `told` reaches), and two parts of theirs.
pub trait Calls {
    fn fresh(tree: &mut [u64]) -> u64;
    fn insert(tree: &mut [u64], clause: &[u16], number: u32, told: &mut [u64]) -> u64;
    fn remove(tree: &mut [u64], number: u32) -> u64;
    fn query(
        tree: &[u64],
        clause: &[u16],
        budget: u64,
        witness: &mut [u16],
        told: &mut [u64],
    ) -> u64;
    fn ceiling(kept: u64, q: u64, m: u64, told: &mut [u64]) -> u64;
    fn check(tree: &[u64]) -> u64;
    fn read_back(tree: &[u64], number: u32, out: &mut [u16], told: &mut [u64]) -> u64;
    fn backward(
        tree: &[u64],
        clause: &[u16],
        budget: u64,
        list: &mut [u32],
        told: &mut [u64],
    ) -> u64;

    /// Reads a clause: 0, told how many literals it has, or its refusal.
    fn read(clause: &[u16], told: &mut [u64]) -> u64;

    /// The instructions of an accepted clause up to its Success, each a tree word without its extent.
    fn compile(clause: &[u16]) -> Vec<u64>;
}

/// The model answers.
pub struct Model;

// Tells the values of an answer as far as there are words for them, and gives its number.
fn tell(answer: Result<Vec<u64>, Refusal>, told: &mut [u64]) -> u64 {
    let (code, values) = match answer {
        Ok(values) => (0, values),
        Err(refusal) => (refusal.code(), refusal.values()),
    };
    for (word, value) in told.iter_mut().zip(values) {
        *word = value;
    }
    code
}

impl Calls for Model {
    fn fresh(tree: &mut [u64]) -> u64 {
        tell(calls::fresh(tree).map(|()| vec![]), &mut [])
    }

    fn insert(tree: &mut [u64], clause: &[u16], number: u32, told: &mut [u64]) -> u64 {
        tell(calls::insert(tree, clause, number).map(|()| vec![]), told)
    }

    fn remove(tree: &mut [u64], number: u32) -> u64 {
        tell(calls::remove(tree, number).map(|()| vec![]), &mut [])
    }

    fn query(
        tree: &[u64],
        clause: &[u16],
        budget: u64,
        witness: &mut [u16],
        told: &mut [u64],
    ) -> u64 {
        let answer = calls::query(tree, clause, budget, witness);
        tell(answer.map(calls::Cover::values), told)
    }

    fn ceiling(kept: u64, q: u64, m: u64, told: &mut [u64]) -> u64 {
        tell(calls::ceiling(kept, q, m).map(|most| vec![most]), told)
    }

    fn check(tree: &[u64]) -> u64 {
        tell(calls::check(tree).map(|()| vec![]), &mut [])
    }

    fn read_back(tree: &[u64], number: u32, out: &mut [u16], told: &mut [u64]) -> u64 {
        let length = calls::read_back(tree, number, out);
        tell(length.map(|length| vec![length as u64]), told)
    }

    fn backward(
        tree: &[u64],
        clause: &[u16],
        budget: u64,
        list: &mut [u32],
        told: &mut [u64],
    ) -> u64 {
        let listed = calls::backward(tree, clause, budget, list);
        tell(listed.map(calls::Listed::values), told)
    }

    fn read(clause: &[u16], told: &mut [u64]) -> u64 {
        tell(
            read(clause).map(|literals| vec![literals.len() as u64]),
            told,
        )
    }

    fn compile(clause: &[u16]) -> Vec<u64> {
        let literals = read(clause).expect("a clause that is accepted");
        let instructions = sequence(&literals).into_iter();
        instructions.map(|it| it.pack(0) >> 28).collect()
    }
}

/// The lines of rows.
pub fn output<C: Calls>(rows: &str) -> String {
    let mut cases = Cases::<C>::new();
    rows.lines().map(|row| cases.line(row) + "\n").collect()
}

// What the commands have set: the words that slices are the first of, the slice's length, the clause, how often the slice's next word stands, the budget
// or the number of a clause to read back.
struct Cases<C> {
    words: Vec<u64>,
    length: usize,
    clause: Vec<u16>,
    times: usize,
    budget: u64,
    calls: PhantomData<C>,
}

impl<C: Calls> Cases<C> {
    fn new() -> Cases<C> {
        Cases {
            words: vec![0; TREE_MOST + 1],
            length: 0,
            clause: Vec::new(),
            times: 1,
            budget: 0,
            calls: PhantomData,
        }
    }

    // A label with what its commands answer, or a heading as it is.
    fn line(&mut self, row: &str) -> String {
        let Some((label, commands)) = row.split_once(':') else {
            return row.to_string();
        };
        let mut line = format!("{label}:");
        for command in commands.split_whitespace() {
            let (digits, letter) = command.split_at(command.len() - 1);
            for answer in self.follow(letter, number(digits)) {
                line += &format!(" {answer}");
            }
        }
        line
    }

    // A command either sets something or is a call, which uses up the clause.
    fn follow(&mut self, letter: &str, number: u64) -> Vec<String> {
        match letter {
            "L" => self.length = number as usize,
            "T" => self.give(number),
            "M" => self.times = number as usize,
            "C" => self.clause.push(number as u16),
            "B" => self.budget = number,
            _ => {
                let clause = std::mem::take(&mut self.clause);
                return self.call(letter, number, &clause);
            }
        }
        vec![]
    }

    fn give(&mut self, word: u64) {
        let end = self.length + self.times;
        self.words[self.length..end].fill(word);
        self.length = end;
        self.times = 1;
    }

    fn slice(&mut self) -> &mut [u64] {
        &mut self.words[..self.length]
    }

    fn call(&mut self, letter: &str, number: u64, clause: &[u16]) -> Vec<String> {
        let answer = match letter {
            "F" => self.change(|tree, _| C::fresh(tree)),
            "K" => self.change(|tree, told| C::insert(tree, clause, number as u32, told)),
            "R" => self.change(|tree, _| C::remove(tree, number as u32)),
            "Y" => return self.keep_literals(number as u16),
            "V" => self.read(clause),
            "G" => self.compile(clause),
            "W" => self.ask(clause, number as usize),
            "O" => self.read_back(number as usize),
            "X" => self.backward(clause, number as usize),
            "H" => reply(C::check(self.slice()), &[]),
            "N" => self.ceiling(),
            "S" => return self.laid(),
            _ => panic!("{letter} is no command"),
        };
        vec![answer]
    }

    // A call that may change words of the slice, and none past it: its answer, whether any did, and the header.
    fn change(&mut self, call: impl FnOnce(&mut [u64], &mut [u64]) -> u64) -> String {
        let (before, mut told) = (self.words.clone(), [UNTOLD; 3]);
        let returned = call(self.slice(), &mut told);
        let past = self.length..;
        assert!(self.words[past.clone()] == before[past], "past the slice");
        let words = match self.words == before {
            true => "left",
            false => "changed",
        };
        let header = self.slice().first();
        let header = header.map_or(String::new(), |header| format!(" {header:016x}"));
        format!("{} {words}{header}", reply(returned, &told))
    }

    // Keeps literals without arguments under their symbols' numbers, with no word to tell; gives the refusals.
    fn keep_literals(&mut self, count: u16) -> Vec<String> {
        let keep = |i| C::insert(self.slice(), &[word(POSITIVE, 0, i)], i as u32, &mut []);
        let codes = (0..count).map(keep).enumerate();
        codes
            .filter(|&(_, code)| code != 0)
            .map(|(i, code)| format!("{i}:{code}"))
            .collect()
    }

    fn read(&self, clause: &[u16]) -> String {
        let mut told = [UNTOLD; 1];
        match C::read(clause, &mut told) {
            0 => format!("whole {}", told[0]),
            code => reply(code, &told),
        }
    }

    fn compile(&self, clause: &[u16]) -> String {
        let keys = C::compile(clause).into_iter();
        let keys: Vec<String> = keys.map(|key| format!("{key:09x}")).collect();
        keys.join(" ")
    }

    // The answer to a query and the words that it wrote.
    fn ask(&mut self, clause: &[u16], length: usize) -> String {
        let (budget, mut witness, mut told) = (self.budget, vec![BLANK; length], [UNTOLD; 3]);
        let returned = C::query(self.slice(), clause, budget, &mut witness, &mut told);
        reply(returned, &told) + &entries(&witness, BLANK)
    }

    // The answer to reading a clause back and the words that it wrote.
    fn read_back(&mut self, length: usize) -> String {
        let (number, mut out, mut told) = (self.budget as u32, vec![BLANK; length], [UNTOLD; 1]);
        let returned = C::read_back(self.slice(), number, &mut out, &mut told);
        reply(returned, &told) + &entries(&out, BLANK)
    }

    // The answer to listing backwards and the words that it wrote.
    fn backward(&mut self, clause: &[u16], length: usize) -> String {
        let (budget, mut list, mut told) = (self.budget, vec![BLANK_NUMBER; length], [UNTOLD; 3]);
        let returned = C::backward(self.slice(), clause, budget, &mut list, &mut told);
        reply(returned, &told) + &entries(&list, BLANK_NUMBER)
    }

    fn ceiling(&mut self) -> String {
        let mut told = [UNTOLD; 1];
        let words = self.slice();
        let returned = C::ceiling(words[0], words[1], words[2], &mut told);
        reply(returned, &told)
    }

    // The words that are not 0.
    fn laid(&mut self) -> Vec<String> {
        let words = self.slice().iter().filter(|&&word| word != 0);
        words.map(|word| format!("{word:016x}")).collect()
    }
}

// A number in hexadecimal; without digits it is 0.
fn number(digits: &str) -> u64 {
    let digits = format!("0{digits}");
    u64::from_str_radix(&digits, 16).expect("a number of up to 64 bits")
}

// The number returned and the words told in base ten. Words told come first, and the others are as they were.
fn reply(returned: u64, told: &[u64]) -> String {
    let many = told.iter().take_while(|&&word| word != UNTOLD).count();
    let (told, untold) = told.split_at(many);
    assert!(untold.iter().all(|&word| word == UNTOLD), "a gap");
    let told = told.iter().map(|word| format!(" {word}"));
    format!("{returned}{}", told.collect::<String>())
}

// The words that were written over blank ones, each with its index.
fn entries<T: PartialEq + Display>(words: &[T], blank: T) -> String {
    let words = words.iter().enumerate();
    let words = words.filter(|(_, value)| **value != blank);
    words.map(|(i, value)| format!(" {i}:{value}")).collect()
}
