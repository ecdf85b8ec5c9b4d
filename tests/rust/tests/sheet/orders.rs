//! What is claimed of two runs whose inputs have the same clauses in two orders (F-7): what they keep, by their printed texts and an ordinary matcher.
use super::Report;
use crate::drawn::tally::Tally;
use model::compiler::sequence;
use model::matcher::subsumes;
use model::program::{Outcome, Record};
use model::reader::{read, Term};
use model::tree::Path;
use std::collections::{BTreeMap, BTreeSet};

/// Whether all numbers of records differ.
pub fn numbers_differ(records: &[Record]) -> bool {
    let numbers: BTreeSet<u16> = records.iter().map(|record| record.0).collect();
    numbers.len() == records.len()
}

// A kept clause.
struct Clause {
    words: Vec<u16>,
    literals: Vec<Term>,
}

/// What a run keeps, its last book: the kept lines without those that a later removed line takes out, by their numbers, with the clauses of the records
/// at the lines' places.
pub struct LastBook {
    pub text: String,
    records: Vec<Record>,
    report: Report,
    kept: BTreeMap<u32, Clause>,
}

impl LastBook {
    /// By the text that is printed of an input with these records; its total of kept counts the book.
    pub fn of(text: String, records: Vec<Record>, what: &str) -> LastBook {
        let (report, mut kept) = (Report::of(&text), BTreeMap::new());
        assert_eq!(report.rulings.len(), records.len(), "{what}: lines");
        for ((told, outcome), (number, words)) in report.rulings.iter().zip(&records) {
            assert_eq!(told, number, "{what}: a line's number");
            let Outcome::Kept { removed, .. } = outcome else {
                continue;
            };
            for gone in removed {
                assert!(kept.remove(gone).is_some(), "{what}: {gone} removed");
            }
            let (words, literals) = (words.clone(), read(words).expect("an accepted clause"));
            let before = kept.insert(u32::from(*number), Clause { words, literals });
            assert!(before.is_none(), "{what}: {number} kept again");
        }
        assert_eq!(report.totals[0], kept.len() as u64, "{what}: total kept");
        LastBook {
            text,
            records,
            report,
            kept,
        }
    }

    /// The numbers of the kept clauses.
    pub fn numbers(&self) -> Vec<u32> {
        self.kept.keys().copied().collect()
    }

    /// The codes of the records that are refused, as many as the total says.
    pub fn refused(&self) -> Vec<u64> {
        let code = |outcome: &Outcome| match outcome {
            Outcome::Refused { code } => Some(*code),
            _ => None,
        };
        let rulings = self.report.rulings.iter();
        let codes: Vec<u64> = rulings.filter_map(|(_, outcome)| code(outcome)).collect();
        assert_eq!(self.report.totals[2], codes.len() as u64, "total refused");
        codes
    }

    /// Whether two inputs have the same records in two orders, and all numbers differ.
    pub fn has_records_of(&self, other: &LastBook) -> bool {
        let sorted = |book: &LastBook| {
            let mut records = book.records.clone();
            records.sort();
            records
        };
        numbers_differ(&self.records) && sorted(self) == sorted(other)
    }

    /// Whether two inputs have the same clauses, in whatever order, however often and under whatever numbers.
    pub fn has_clauses_of(&self, other: &LastBook) -> bool {
        self.clauses() == other.clauses()
    }

    // The clauses of the input.
    fn clauses(&self) -> BTreeSet<&[u16]> {
        self.records.iter().map(|record| &record.1[..]).collect()
    }

    /// Whether every record of the input is subsumed by a kept clause.
    pub fn covers_input(&self) -> bool {
        let mut records = self.records.iter();
        records.all(|(_, words)| self.covers(&read(words).unwrap_or_default()))
    }

    fn covers(&self, literals: &[Term]) -> bool {
        let mut kept = self.kept.values();
        kept.any(|clause| subsumes(&clause.literals, literals))
    }

    // Whether no kept clause subsumes another one.
    fn is_apart(&self) -> bool {
        let subsumes_another = |number: &u32, clause: &Clause| {
            let mut others = self.kept.iter().filter(|(other, _)| *other != number);
            others.any(|(_, other)| subsumes(&clause.literals, &other.literals))
        };
        let mut kept = self.kept.iter();
        !kept.any(|(number, clause)| subsumes_another(number, clause))
    }

    // Whether each kept clause is subsumed by one that the other run keeps.
    fn is_under(&self, other: &LastBook) -> bool {
        let mut kept = self.kept.values();
        kept.all(|clause| other.covers(&clause.literals))
    }

    // Whether each kept clause and one that the other run keeps subsume each other.
    fn is_like(&self, other: &LastBook) -> bool {
        let mutual = |c: &Clause, d: &Clause| {
            subsumes(&c.literals, &d.literals) && subsumes(&d.literals, &c.literals)
        };
        let mut kept = self.kept.values();
        kept.all(|clause| other.kept.values().any(|other| mutual(clause, other)))
    }

    // Whether a clause was removed that had removed others.
    fn has_chain(&self) -> bool {
        let gone = self.report.removed();
        let mut rulings = self.report.rulings.iter();
        rulings.any(|(number, outcome)| match outcome {
            Outcome::Kept { removed, .. } if !removed.is_empty() => {
                gone.contains(&u32::from(*number))
            }
            _ => false,
        })
    }

    // The kept clauses as words.
    fn kept_words(&self) -> BTreeSet<&[u16]> {
        self.kept.values().map(|clause| &clause.words[..]).collect()
    }

    // The kept clauses up to the names of their variables.
    fn kept_paths(&self) -> BTreeSet<Path> {
        let kept = self.kept.values();
        kept.map(|clause| sequence(&clause.literals)).collect()
    }

    // Whether units are kept, and longer clauses too.
    fn has_units_and_longer(&self) -> bool {
        let lengths = self.kept.values().map(|clause| clause.literals.len());
        let (units, longer): (Vec<_>, Vec<_>) = lengths.partition(|length| *length == 1);
        !units.is_empty() && !longer.is_empty()
    }
}

/// A part of the claim, or what follows from it.
#[derive(Clone, Copy, Debug, PartialEq, Eq)]
pub enum Part {
    Apart,
    Under,
    Many,
    Alike,
}

impl Part {
    const ALL: [Part; 4] = [Part::Apart, Part::Under, Part::Many, Part::Alike];

    fn says(self) -> &'static str {
        match self {
            Part::Apart => "1, no kept clause of either run subsumes another kept one",
            Part::Under => "2, each kept by one is subsumed by one kept by the other",
            Part::Many => "3, both keep equally many",
            Part::Alike => "so each kept by one and one kept by the other subsume each other",
        }
    }

    fn holds(self, a: &LastBook, b: &LastBook) -> bool {
        match self {
            Part::Apart => a.is_apart() && b.is_apart(),
            Part::Under => a.is_under(b) && b.is_under(a),
            Part::Many => a.kept.len() == b.kept.len(),
            Part::Alike => a.is_like(b) && b.is_like(a),
        }
    }
}

/// The parts that do not hold of two runs.
pub fn failing(a: &LastBook, b: &LastBook) -> Vec<Part> {
    let parts = Part::ALL.into_iter();
    parts.filter(|part| !part.holds(a, b)).collect()
}

/// Asserts the claim of two runs which have the same clauses and refuse none. What occurred is counted.
pub fn expect_alike(a: &LastBook, b: &LastBook, what: &str, tally: &mut Tally) {
    assert!(a.has_clauses_of(b), "{what}: other clauses");
    for book in [a, b] {
        assert_eq!(book.refused(), [], "{what}: refused");
    }
    let failing: Vec<&str> = failing(a, b).into_iter().map(Part::says).collect();
    assert!(failing.is_empty(), "{what}: it fails that {failing:?}");
    tally.count("pairs");
    let (totals, others) = (&a.report.totals, &b.report.totals);
    for (what, so) in [
        ("texts differ", a.text != b.text),
        ("struck totals differ", totals[1] != others[1]),
        ("rows differ", a.report.rows != b.report.rows),
        ("kept numbers differ", !a.kept.keys().eq(b.kept.keys())),
        ("kept words differ", a.kept_words() != b.kept_words()),
        ("kept are not variants", a.kept_paths() != b.kept_paths()),
        ("removed in both", totals[3].min(others[3]) > 0),
        ("a remover is removed", a.has_chain()),
        ("kept units and longer clauses", a.has_units_and_longer()),
    ] {
        tally.count_if(what, so);
    }
}
