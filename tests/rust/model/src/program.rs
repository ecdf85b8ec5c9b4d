//! The program: bytes in, lines and tally sheet out.
use crate::backward::listed;
use crate::book::Book;
use crate::calls::{query, Cover};
use crate::limits::{PROGRAM_BUDGET, PROGRAM_LIST, PROGRAM_TREE, WITNESS_WORDS};
use crate::reader::read;
use crate::refusal::Refusal;
use std::collections::BTreeMap;

/// A record's number and words.
pub type Record = (u16, Vec<u16>);

/// The complete records of an input; a cut one is left out.
pub fn records(input: &[u8]) -> Vec<Record> {
    let field = |pair: &[u8]| u16::from_be_bytes([pair[0], pair[1]]);
    let fields: Vec<u16> = input.chunks_exact(2).map(field).collect();
    let mut records = Vec::new();
    let mut rest = &fields[..];
    while let [number, count, more @ ..] = rest {
        let count = *count as usize;
        if more.len() < count {
            break;
        }
        records.push((*number, more[..count].to_vec()));
        rest = &more[count..];
    }
    records
}

/// What the program's arguments set: nothing, or that it strikes backwards.
#[derive(Clone, Copy, Debug, PartialEq, Eq)]
pub enum Setting {
    Plain,
    Back,
}

impl Setting {
    /// The first argument decides, if it is exactly `back`; further ones are not looked at.
    pub fn of(arguments: &[&str]) -> Setting {
        match arguments {
            ["back", ..] => Setting::Back,
            _ => Setting::Plain,
        }
    }
}

/// What becomes of a record. A kept one may have removed others, by rising number.
#[derive(Clone, Debug, PartialEq, Eq)]
pub enum Outcome {
    Kept { removed: Vec<u32>, used: usize },
    Struck { covering: u32, candidates: u64 },
    Refused { code: u64 },
}

/// A record's number and what became of it.
pub type Ruling = (u16, Outcome);

/// What the program prints of an input.
pub fn output(input: &[u8], setting: Setting) -> String {
    let records = records(input);
    let rulings = rulings(&records, setting);
    lines(&rulings, setting) + &sheet(&records, &rulings)
}

/// What becomes of each record.
pub fn rulings(records: &[Record], setting: Setting) -> Vec<Ruling> {
    let mut program = Program::new(setting);
    let rule = |(number, words): &Record| (*number, program.take(*number, words));
    records.iter().map(rule).collect()
}

/// The lines before the sheet: those of each record, and the totals.
pub fn lines(rulings: &[Ruling], setting: Setting) -> String {
    let lines = rulings
        .iter()
        .map(|ruling| removals(ruling) + &line(ruling));
    lines.collect::<String>() + &totals(rulings, setting)
}

/// The tally sheet: a row for each number that was ever kept, by rising number, then how many records the input has.
pub fn sheet(records: &[Record], rulings: &[Ruling]) -> String {
    let tallies = tallies(rulings);
    let rows = tallies.iter().map(|(number, tally)| {
        let (strikes, candidates) = (tally.strikes, tally.candidates);
        format!("{number} {strikes} {candidates}\n")
    });
    rows.collect::<String>() + &format!("{}\n", records.len())
}

// A line for each clause that a record removed.
fn removals((number, outcome): &Ruling) -> String {
    let line = |gone: &u32| format!("{gone} removed {number}\n");
    match outcome {
        Outcome::Kept { removed, .. } => removed.iter().map(line).collect(),
        _ => String::new(),
    }
}

// A record's own line.
fn line((number, outcome): &Ruling) -> String {
    match outcome {
        Outcome::Kept { used, .. } => format!("{number} kept {used}\n"),
        Outcome::Struck {
            covering,
            candidates,
        } => format!("{number} struck {covering} {candidates}\n"),
        Outcome::Refused { code } => format!("{number} refused {code}\n"),
    }
}

// A removed clause passes from kept to removed, which is told if the program strikes backwards.
fn totals(rulings: &[Ruling], setting: Setting) -> String {
    let (mut kept, mut struck, mut refused, mut gone) = (0, 0, 0, 0);
    for (_, outcome) in rulings {
        match outcome {
            Outcome::Kept { removed, .. } => {
                kept += 1;
                gone += removed.len();
            }
            Outcome::Struck { .. } => struck += 1,
            Outcome::Refused { .. } => refused += 1,
        }
    }
    let kept = kept - gone;
    let totals = format!("kept {kept} struck {struck} refused {refused}");
    match setting {
        Setting::Plain => totals + "\n",
        Setting::Back => format!("{totals} removed {gone}\n"),
    }
}

// The strikes of a number, and the candidates of the queries that ended in them.
#[derive(Default)]
struct Tally {
    strikes: u64,
    candidates: u64,
}

// The tally of each number that was ever kept, over all records.
fn tallies(rulings: &[Ruling]) -> BTreeMap<u32, Tally> {
    let mut tallies: BTreeMap<u32, Tally> = BTreeMap::new();
    for (number, outcome) in rulings {
        match outcome {
            Outcome::Kept { .. } => {
                tallies.entry(u32::from(*number)).or_default();
            }
            Outcome::Struck {
                covering,
                candidates,
            } => {
                let tally = tallies.get_mut(covering).expect("a number that was kept");
                tally.strikes += 1;
                tally.candidates += candidates;
            }
            Outcome::Refused { .. } => {}
        }
    }
    tallies
}

/// The program between two records: its setting, what a listing may take (its budget and the list's words), the book of what is kept, and the
/// book's words.
pub struct Program {
    setting: Setting,
    pub list_budget: u64,
    pub list_words: usize,
    book: Book,
    tree: Vec<u64>,
}

impl Program {
    /// The program before its first record.
    pub fn new(setting: Setting) -> Program {
        Program {
            setting,
            list_budget: PROGRAM_BUDGET,
            list_words: PROGRAM_LIST,
            book: Book::new(PROGRAM_TREE),
            tree: vec![0; PROGRAM_TREE],
        }
    }

    /// Each record is queried, then goes in only on the answer "not covered".
    pub fn take(&mut self, number: u16, words: &[u16]) -> Outcome {
        let answer = query(&self.tree, words, PROGRAM_BUDGET, &mut [0; WITNESS_WORDS]);
        match answer {
            Err(refusal) => refused(refusal),
            Ok(Cover::Covered { number, count }) => Outcome::Struck {
                covering: number,
                candidates: count,
            },
            Ok(Cover::NotCovered { .. }) => {
                let kept = self.keep(words, u32::from(number));
                kept.unwrap_or_else(refused)
            }
        }
    }

    /// The words of what is kept.
    pub fn tree(&self) -> &[u64] {
        &self.tree
    }

    // What is to be removed is listed, then goes out, and the record goes in; where one of these is refused, nothing changes.
    fn keep(&mut self, words: &[u16], number: u32) -> Result<Outcome, Refusal> {
        let removed = match self.setting {
            Setting::Plain => vec![],
            Setting::Back => self.listed(words)?,
        };
        self.exchange(&removed, words, number)?;
        self.tree = self.book.tree.words();
        let used = self.book.tree.used();
        Ok(Outcome::Kept { removed, used })
    }

    // The numbers of the kept clauses that a record subsumes.
    fn listed(&self, words: &[u16]) -> Result<Vec<u32>, Refusal> {
        let (kept, budget) = (&self.book.pairs, self.list_budget);
        let listing = listed(&read(words)?, kept, budget, self.list_words)?;
        Ok(listing.numbers)
    }

    // Numbers are judged before the removal, so that one which would be removed is still taken; list and room after it.
    fn exchange(&mut self, removed: &[u32], words: &[u16], number: u32) -> Result<(), Refusal> {
        if removed.is_empty() {
            return self.book.insert(words, number);
        }
        if self.book.pairs.iter().any(|pair| pair.number == number) {
            return Err(Refusal::NumberTaken);
        }
        let mut book = self.book.clone();
        for gone in removed {
            book.remove(*gone)?;
        }
        book.insert(words, number)?;
        self.book = book;
        Ok(())
    }
}

fn refused(refusal: Refusal) -> Outcome {
    let code = refusal.code();
    Outcome::Refused { code }
}
