//! Clauses with many repeated literals, beside an ordinary matcher: each literal of a kept clause falls on a literal of its own, and equal ones at
//! two places are two.
use crate::drawn::repeated::{literals, REPEATING};
use crate::drawn::tally::Tally;
use crate::drawn::{Random, Style};
use crate::set::Set;
use model::calls::Cover;
use model::matcher::{search, shows};
use model::reader::read;

impl Set<'_> {
    // A query at the full budget and some others, and at each budget around its count.
    fn query_at_each(&mut self, clause: &[u16]) -> Cover {
        let full = self.query(clause);
        let cover = full.answer.expect("a query of accepted words");
        let count = cover.count();
        for budget in count.saturating_sub(12)..count + 3 {
            self.query_again(clause, &full, budget);
        }
        cover
    }

    // A query made of the only clause that is kept, which is covered exactly if it has a place for each literal of the clause.
    fn query_made(&mut self, clause: &[u16], query: &[u16], places: usize, what: &str) {
        let covered = match self.query_at_each(query) {
            Cover::Covered { .. } => "covered",
            Cover::NotCovered { .. } => "not covered",
        };
        let expected = match places < literals(clause).len() {
            true => "not covered",
            false => "covered",
        };
        assert_eq!(covered, expected, "{what} {query:04x?} of {clause:04x?}");
        self.tally.count(&format!("{what} {covered}"));
    }

    // One clause is kept; asked are an instance, a factor, and this among strangers.
    fn one_clause(&mut self, style: Style) {
        let clause = self.random.clause(style);
        self.insert(&clause, 1);
        let whole = self.random.narrow_instance(&clause);
        self.query_made(&clause, &whole, literals(&whole).len(), "instances");
        let factor = self.random.factor(&clause);
        let places = literals(&factor).len();
        self.query_made(&clause, &factor, places, "factors");
        let padded = self.random.among_strangers(&factor);
        self.query_made(&clause, &padded, places, "factors among strangers");
    }

    // Clauses made of a kept one, and new ones: what is not covered is kept, as by the program. Now and then one is taken out.
    fn several_clauses(&mut self, style: Style) {
        for number in 2..12 {
            let source = self.random.of(&self.book.clauses()).to_vec();
            let new = self.random.one_in(4);
            let clause = match new {
                true => self.random.clause(style),
                false => self.random.made_of(&source),
            };
            if let Cover::NotCovered { .. } = self.query_at_each(&clause) {
                self.insert(&clause, number);
                let fewer = literals(&clause).len() < literals(&source).len();
                self.tally
                    .count_if("factors kept beside their source", fewer && !new);
            }
            if self.book.pairs.len() > 1 && self.random.one_in(6) {
                let number = self.any_removal();
                self.remove(number);
            }
        }
    }
}

// How often each thing has to occur.
const LEAST: [(&str, u64); 17] = [
    ("sets", 4_000),
    ("queries in all", 700_000),
    ("instances covered", 4_000),
    ("factors covered", 1_300),
    ("factors not covered", 2_300),
    ("factors among strangers covered", 1_300),
    ("factors among strangers not covered", 2_300),
    ("factors kept beside their source", 3_600),
    ("kept with a repeated literal", 7_000),
    ("kept with 8 literals", 850),
    ("removals made", 14_000),
    ("queries covered", 32_000),
    ("queries not covered", 15_000),
    ("covered by several", 4_700),
    ("counts with one clause kept", 25_000),
    ("counts at the most tries", 1_500),
    ("small budgets spent", 360_000),
];

#[test]
fn repeated_literals() {
    let mut random = Random(31);
    let mut tally = Tally::default();
    for i in 0..4000 {
        let length = 90 + random.below(400);
        let mut set = Set::new(length, &mut random, &mut tally);
        let style = REPEATING[i % REPEATING.len()];
        set.one_clause(style);
        set.several_clauses(style);
        set.finish();
    }
    tally.assert_least(&LEAST);
}

// By hand: a kept clause, a query, whether it is covered, and the tries.
#[test]
fn by_hand() {
    let (p, q, r, a, b, x, y) = (0x8801, 0x8802, 0x9003, 1, 2, 0x4000, 0x4001);
    let rows: [(&[u16], &[u16], bool, u64); 10] = [
        (&[p, x, q, x], &[p, a, p, b, q, b], true, 6),
        (&[p, x, q, x], &[p, a, q, b], false, 3),
        (&[p, x, q, x], &[p, a], false, 1),
        (&[p, x, p, y], &[p, a], false, 1),
        (&[p, x, p, y], &[p, a, p, a], true, 2),
        (&[p, x, p, x], &[p, a, p, b, p, a], true, 3),
        (&[p, x, p, y, r, x, y], &[p, a, p, b, r, b, a], true, 7),
        (&[p, x, p, y, r, x, y], &[p, a, r, a, a], false, 3),
        (&[q, a, q, a, q, a], &[q, a, q, a], false, 4),
        (&[q, a, q, a], &[q, a, q, a, q, a], true, 2),
    ];
    for (kept, query, found, tries) in rows {
        let (kept, query) = (read(kept).unwrap(), read(query).unwrap());
        assert_eq!(search(&kept, &query), (found, tries));
    }
}

// A witness has to give each literal one of its own.
#[test]
fn witnesses() {
    let (p, a, x, y) = (0x8801, 1, 0x4000, 0x4001);
    let (kept, query) = (read(&[p, x, p, y]).unwrap(), read(&[p, a, p, a]).unwrap());
    let rows = [
        ([0, 1], true),
        ([1, 0], true),
        ([0, 0], false),
        ([1, 1], false),
    ];
    for (chosen, shown) in rows {
        let mut witness = [0; 72];
        for (i, literal) in chosen.into_iter().enumerate() {
            (witness[i], witness[8 + i]) = (literal, 1 + 2 * literal);
        }
        assert_eq!(shows(&kept, &query, &witness), shown, "{chosen:?}");
    }
}
