//! What is claimed of the lines of a page of units, one whose kept clauses have a single literal.
use model::matcher::first_struck;
use model::program::{Outcome, Record, Ruling};
use model::reader::{read, Term};
use std::collections::BTreeMap;

/// Asserts of the lines of a page of units, by an ordinary matcher: a record is struck at its first literal that a kept clause falls on, by such
/// a clause, with a candidate for each literal up to there; what is kept or refused is struck by none, and none is refused for its candidates.
pub fn expect_units(rulings: &[Ruling], records: &[Record], what: &str) {
    assert_eq!(rulings.len(), records.len(), "{what}: lines");
    let mut units: BTreeMap<u32, Term> = BTreeMap::new();
    for ((number, words), (told, outcome)) in records.iter().zip(rulings) {
        assert_eq!(number, told, "{what}: a line's number");
        let query = read(words).unwrap_or_default();
        let kept: Vec<&Term> = units.values().collect();
        let struck = first_struck(&kept, &query);
        match *outcome {
            Outcome::Kept { .. } => {
                assert_eq!((struck, query.len()), (None, 1), "{what}: {number}");
                units.extend(query.into_iter().map(|unit| (u32::from(*number), unit)));
            }
            Outcome::Struck {
                covering,
                candidates,
            } => {
                assert!(candidates <= query.len() as u64, "{what}: {number}");
                let place = candidates as usize - 1;
                assert_eq!(struck, Some(place), "{what}: {number}");
                assert_eq!(first_struck(&[&units[&covering]], &query), struck);
            }
            Outcome::Refused { code } => {
                assert_eq!(struck, None, "{what}: {number}");
                assert_ne!(code, 12, "{what}: {number}");
            }
        }
    }
}
