//! Random sets: lists of insertions, removals and queries on a tree, beside the clause book and an ordinary matcher.
use crate::drawn::tally::Tally;
use crate::drawn::{Random, Style, STYLES};
use crate::set::Set;
use model::limits::{ENOUGH_BUDGET, KEPT, LITERALS};
use model::matcher::most_tries;
use model::words::{word, FUNCTION, NEGATIVE, POSITIVE, VARIABLE};

impl Set<'_> {
    // A removal, or a query and, every other time, the insertion of its clause.
    fn call(&mut self, style: Style) {
        if self.random.one_in(10) {
            let number = self.any_removal();
            return self.remove(number);
        }
        let clause = self.any_clause(style);
        self.query(&clause);
        if self.random.below(9) < 5 {
            let number = self.any_number();
            self.insert(&clause, number);
        }
    }

    // A clause between those of a set that fills a tree: asked for, inserted and removed.
    fn call_between(&mut self, clause: &[u16]) {
        self.query(clause);
        self.insert(clause, 5000);
        self.remove(5000);
    }
}

// P(c) or, for odd constants, P(c) and not Q(x).
fn constant_clause(constant: u16) -> Vec<u16> {
    let mut clause = vec![word(POSITIVE, 1, 1), word(FUNCTION, 0, constant)];
    if constant % 2 == 1 {
        clause.extend([word(NEGATIVE, 1, 2), word(VARIABLE, 0, constant)]);
    }
    clause
}

// A set with more clauses than a list keeps, or than a slice of so many words has room for.
fn fill(length: usize, random: &mut Random, tally: &mut Tally) {
    let mut set = Set::new(length, random, tally);
    for i in 0..1040 {
        set.insert(&constant_clause(i), i as u32);
        if i % 16 == 3 {
            let other = constant_clause(set.random.below(2048) as u16);
            set.call_between(&other);
        }
    }
    set.finish();
}

// How often each thing has to occur; but for units and the most tries, none is below what the program of random sets reached before this one.
const LEAST: [(&str, u64); 31] = [
    ("sets", 6_003),
    ("queries in all", 600_000),
    ("insertions kept", 20_102),
    ("kept with a repeated literal", 5_573),
    ("kept with 60 or more words", 1_244),
    ("kept with 8 literals", 173),
    ("kept with 7 arguments", 1_656),
    ("insertions refused 3", 3_713),
    ("insertions refused 4", 2_865),
    ("insertions refused 5", 127),
    ("insertions refused 7", 4_689),
    ("insertions refused 8", 11_258),
    ("insertions refused 10", 16),
    ("insertions refused 11", 7_563),
    ("removals made", 20_102),
    ("removals refused 9", 4_035),
    ("queries covered", 45_038),
    ("covered not by a variant", 27_514),
    ("covered by several", 17_326),
    ("queries not covered", 31_359),
    ("counts at the ceiling", 22_112),
    ("counts at the most tries", 1_200),
    ("counts with one clause kept", 5_000),
    ("counts of units, covered", 9_500),
    ("counts of units, not covered", 2_800),
    ("queries refused 3", 6_705),
    ("queries refused 4", 5_205),
    ("queries refused 5", 203),
    ("small budgets covered", 17_925),
    ("small budgets not covered", 22_811),
    ("small budgets spent", 35_661),
];

#[test]
fn random_sets() {
    let mut random = Random(1);
    let mut tally = Tally::default();
    for i in 0..6000 {
        let most = if random.one_in(2) { 150 } else { 2000 };
        let length = 2 + random.below(most);
        let mut set = Set::new(length, &mut random, &mut tally);
        for _ in 0..10 + set.random.below(30) {
            set.call(STYLES[i % STYLES.len()]);
        }
        set.finish();
    }
    for length in [8192, 65536, 3000] {
        fill(length, &mut random, &mut tally);
    }
    tally.assert_least(&LEAST);
}

// The most clauses, each with the most tries.
#[test]
fn enough_budget() {
    let literals = LITERALS as u64;
    let tries = KEPT as u64 * most_tries(literals, literals);
    assert_eq!(tries, ENOUGH_BUDGET);
}
