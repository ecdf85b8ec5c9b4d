//! What is claimed of the lines of any page: which kept clause subsumes a record.
use model::matcher::subsumes;
use model::program::{Outcome, Record, Ruling};
use model::reader::{read, Term};
use std::collections::BTreeMap;

/// Asserts of the lines of a page, by an ordinary matcher: a struck record is subsumed by the clause that its line names; what is kept or refused is
/// subsumed by none that is kept, and none is refused for its candidates.
pub fn expect_strikes(rulings: &[Ruling], records: &[Record], what: &str) {
    assert_eq!(rulings.len(), records.len(), "{what}: lines");
    let mut kept: BTreeMap<u32, Vec<Term>> = BTreeMap::new();
    for ((number, words), (told, outcome)) in records.iter().zip(rulings) {
        assert_eq!(number, told, "{what}: a line's number");
        let query = read(words).unwrap_or_default();
        if let Outcome::Struck { covering, .. } = outcome {
            assert!(subsumes(&kept[covering], &query), "{what}: {number}");
            continue;
        }
        let mut clauses = kept.values();
        let subsumed = clauses.any(|clause| subsumes(clause, &query));
        assert!(!subsumed, "{what}: {number}");
        match outcome {
            Outcome::Refused { code } => assert_ne!(*code, 12, "{what}: {number}"),
            _ => {
                kept.insert(u32::from(*number), query);
            }
        }
    }
}
