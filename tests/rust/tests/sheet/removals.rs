//! What is claimed of the lines of a page that is run with `back`: which kept clauses a record removes.
use crate::drawn::tally::Tally;
use model::limits::KEPT;
use model::matcher::subsumes;
use model::program::{Outcome, Record, Ruling};
use model::reader::{read, Term};
use std::collections::{BTreeMap, BTreeSet};

// The clauses that are kept, by their numbers.
type Kept = BTreeMap<u32, Vec<Term>>;

// The numbers of those that a record subsumes, rising.
fn subsumed(kept: &Kept, record: &[Term]) -> Vec<u32> {
    let subsumed = kept.iter().filter(|(_, clause)| subsumes(record, clause));
    subsumed.map(|(number, _)| *number).collect()
}

// The code of a record that is not struck and not kept: its clause's own, a number that is taken, removed or not; then, with what it removes taken out,
// a full list, or else no room.
fn code(kept: &Kept, number: u32, words: &[u16]) -> u64 {
    let record = match read(words) {
        Err(refusal) => return refusal.code(),
        Ok(record) => record,
    };
    if kept.contains_key(&number) {
        return 7;
    }
    match kept.len() - subsumed(kept, &record).len() {
        KEPT => 10,
        _ => 11,
    }
}

/// Asserts of the lines of a page, by an ordinary matcher: a struck record is subsumed by the clause that its line names, which is kept then; one that is
/// not struck is subsumed by none that is kept. A kept one removed all that it subsumes, by rising number, under a number that none had, and a
/// refused one has the code of the first thing against it. At the end no kept clause subsumes another one. What occurred is counted.
pub fn expect_removals(rulings: &[Ruling], records: &[Record], what: &str, tally: &mut Tally) {
    assert_eq!(rulings.len(), records.len(), "{what}: lines");
    let (mut kept, mut ever) = (Kept::new(), BTreeSet::new());
    for ((number, words), (told, outcome)) in records.iter().zip(rulings) {
        assert_eq!(number, told, "{what}: a line's number");
        let (number, record) = (u32::from(*number), read(words).unwrap_or_default());
        let covered = kept.values().any(|clause| subsumes(clause, &record));
        match outcome {
            Outcome::Struck { covering, .. } => {
                let clause = kept.get(covering);
                let covers = clause.is_some_and(|clause| subsumes(clause, &record));
                assert!(covers, "{what}: {number} struck by {covering}");
                tally.count("struck");
            }
            Outcome::Refused { code: told } => {
                assert!(!covered, "{what}: {number}");
                assert_eq!(*told, code(&kept, number, words), "{what}: {number}");
                tally.count(&format!("refused {told}"));
                // what it would remove, if its clause is one
                let mut listed = subsumed(&kept, &record);
                listed.retain(|_| !record.is_empty());
                let what = format!("refused {told}, none removed");
                tally.count_if(&what, !listed.is_empty());
                tally.count_if("its own number would be removed", listed.contains(&number));
            }
            Outcome::Kept { removed, .. } => {
                assert!(!covered && !kept.contains_key(&number), "{what}: {number}");
                let listed = subsumed(&kept, &record);
                assert_eq!(*removed, listed, "{what}: removed by {number}");
                tally.count("kept");
                tally.count_if("kept that remove", !listed.is_empty());
                tally.count_if("kept that remove several", listed.len() > 1);
                tally.count_if("kept under a number of before", !ever.insert(number));
                kept.retain(|number, _| !listed.contains(number));
                kept.insert(number, record);
            }
        }
    }
    for (number, clause) in &kept {
        let alone = subsumed(&kept, clause) == [*number];
        assert!(alone, "{what}: {number} is kept and subsumes another");
    }
}
