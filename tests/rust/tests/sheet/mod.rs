//! A printed text read back, and what is claimed of its tally sheet: it fits the lines above it and the records of the input.
pub mod orders;
pub mod removals;
pub mod strikes;
pub mod units;

use model::program::{Outcome, Ruling, Setting};
use std::collections::BTreeSet;
use std::str::FromStr;

/// What a text says: of each record, then the totals, the rows and the last line. Numbers of removed lines wait for the line of their record.
#[derive(Default)]
pub struct Report {
    pub rulings: Vec<Ruling>,
    removed: Vec<[u64; 2]>,
    totals: Vec<u64>,
    rows: Vec<[u64; 3]>,
    records: u64,
}

fn number<T: FromStr>(field: &str) -> T {
    let value = field.parse();
    value.unwrap_or_else(|_| panic!("{field:?} is no number"))
}

impl Report {
    pub fn of(text: &str) -> Report {
        let mut report = Report::default();
        let mut lines = text.lines();
        while report.add(lines.next().expect("a line of totals")) {}
        let mut sheet: Vec<&str> = lines.collect();
        report.records = number(sheet.pop().expect("a line after the totals"));
        report.rows = sheet.into_iter().map(row).collect();
        report
    }

    // Adds a record's line or the totals; no line of a record follows these.
    fn add(&mut self, line: &str) -> bool {
        let fields: Vec<&str> = line.split(' ').collect();
        if let ["kept", kept, "struck", struck, "refused", refused, more @ ..] = &fields[..] {
            assert!(self.removed.is_empty(), "removed lines at the end");
            self.totals = [*kept, struck, refused].map(number).to_vec();
            match more {
                [] => {}
                ["removed", removed] => self.totals.push(number(removed)),
                _ => panic!("{line:?} as totals"),
            }
            return false;
        }
        if let [gone, "removed", by] = fields[..] {
            self.removed.push([gone, by].map(number));
            return true;
        }
        let removed = self.removed_by(number(fields[0]));
        let outcome = match fields[1..] {
            ["kept", used] => Outcome::Kept {
                removed,
                used: number(used),
            },
            _ if !removed.is_empty() => panic!("{line:?} after removed lines"),
            ["struck", by, count] => Outcome::Struck {
                covering: number(by),
                candidates: number(count),
            },
            ["refused", code] => Outcome::Refused { code: number(code) },
            _ => panic!("{line:?} before the totals"),
        };
        self.rulings.push((number(fields[0]), outcome));
        true
    }

    // The numbers of the removed lines before a record's line; each names the record.
    fn removed_by(&mut self, record: u64) -> Vec<u32> {
        let lines = std::mem::take(&mut self.removed);
        let gone = |[gone, by]: [u64; 2]| {
            assert_eq!(by, record, "who removed {gone}");
            gone as u32
        };
        lines.into_iter().map(gone).collect()
    }

    // The numbers of all removed lines.
    fn removed(&self) -> Vec<u32> {
        let removed = |(_, outcome): &Ruling| match outcome {
            Outcome::Kept { removed, .. } => removed.clone(),
            _ => vec![],
        };
        self.rulings.iter().flat_map(removed).collect()
    }

    // The numbers of the kept lines.
    fn kept(&self) -> Vec<u64> {
        let kept = |(number, outcome): &Ruling| {
            let kept = matches!(outcome, Outcome::Kept { .. });
            kept.then_some(u64::from(*number))
        };
        self.rulings.iter().filter_map(kept).collect()
    }

    // Of each struck line the covering number and the candidates.
    fn struck(&self) -> Vec<[u64; 2]> {
        let struck = |(_, outcome): &Ruling| match *outcome {
            Outcome::Struck {
                covering,
                candidates,
            } => Some([u64::from(covering), candidates]),
            _ => None,
        };
        self.rulings.iter().filter_map(struck).collect()
    }
}

fn row(line: &str) -> [u64; 3] {
    let fields: Vec<u64> = line.split(' ').map(number).collect();
    let row = fields.try_into();
    row.unwrap_or_else(|_| panic!("{line:?} as a row"))
}

// The row that a number has by the struck lines.
fn row_of(number: u64, struck: &[[u64; 2]]) -> [u64; 3] {
    let strikes = struck.iter().filter(|[by, _]| *by == number);
    let candidates = strikes.clone().map(|[_, count]| count);
    [number, strikes.count() as u64, candidates.sum()]
}

/// Asserts of the text that is printed of so many records: its rows are those of the numbers with a kept line, by rising number, each once and
/// with what the struck lines come to that name it; strikes, candidates and records add up. What was removed is still in its row; among the totals
/// it passes from kept to removed, which is there only if the program strikes backwards.
pub fn expect_sheet(text: &str, records: usize, setting: Setting, what: &str) {
    let report = Report::of(text);
    let (kept, struck) = (report.kept(), report.struck());
    let numbers: Vec<u64> = report.rows.iter().map(|row| row[0]).collect();
    let ever_kept: BTreeSet<u64> = kept.iter().copied().collect();
    assert!(
        ever_kept.into_iter().eq(numbers),
        "{what}: the rows' numbers"
    );
    for row in &report.rows {
        assert_eq!(*row, row_of(row[0], &struck), "{what}: a row");
    }
    let sum = |field: usize| report.rows.iter().map(|row| row[field]).sum::<u64>();
    let candidates: u64 = struck.iter().map(|strike| strike[1]).sum();
    assert_eq!(sum(1), report.totals[1], "{what}: strikes");
    assert_eq!(sum(2), candidates, "{what}: candidates");
    let removed = report.removed().len();
    let refused = report.rulings.len() - kept.len() - struck.len();
    let mut counted = vec![kept.len() - removed, struck.len(), refused];
    match setting {
        Setting::Plain => assert_eq!(removed, 0, "{what}: removed"),
        Setting::Back => counted.push(removed),
    }
    let counted: Vec<u64> = counted.into_iter().map(|n| n as u64).collect();
    assert_eq!(report.totals, counted, "{what}: totals");
    let records = records as u64;
    assert_eq!(report.totals.iter().sum::<u64>(), records, "{what}: totals");
    assert_eq!(report.records, records, "{what}: records");
}
