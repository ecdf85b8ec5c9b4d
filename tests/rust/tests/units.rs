//! Sets of units: where every kept clause has a single literal, an ordinary matcher tells whether a query is covered, and its count, at each budget.
use crate::beside;
use crate::beside::Asked;
use crate::drawn::tally::Tally;
use crate::drawn::units::numbered_unit;
use crate::drawn::{Random, Style, STYLES};
use crate::set::Set;
use model::calls::Cover;
use model::limits::{FULL_BUDGET, KEPT, WITNESS_WORDS};
use model::matcher::{first_struck, shows, unit_candidates};
use model::reader::{read, Term};
use model::refusal::Refusal;

// What the matcher says of a query: the place of its first literal that a kept unit falls on, and the candidates that it takes.
struct Predicted {
    place: Option<usize>,
    candidates: u64,
}

impl Set<'_> {
    // Where nothing is kept, no candidate is taken.
    fn predict(&self, query: &[Term]) -> Predicted {
        let Some(units) = self.book.units() else {
            assert!(self.book.pairs.is_empty(), "no set of units");
            let (place, candidates) = (None, 0);
            return Predicted { place, candidates };
        };
        Predicted {
            place: first_struck(&units, query),
            candidates: unit_candidates(&units, query),
        }
    }

    // A query at each budget up to one over its literals, at the full one and at the largest.
    fn query_units(&mut self, clause: &[u16]) {
        let Ok(query) = read(clause) else {
            self.query(clause);
            return;
        };
        let predicted = self.predict(&query);
        let literals = query.len() as u64;
        for budget in (0..=literals + 1).chain([FULL_BUDGET, u64::MAX]) {
            let asked = match budget {
                FULL_BUDGET => self.ask_full(clause),
                _ => self.ask(clause, budget),
            };
            if predicted.candidates > budget {
                assert_eq!(asked.answer, Err(Refusal::Spent(budget)));
                assert!(asked.unwritten());
                self.tally.count("budgets spent");
            } else if let Some(place) = predicted.place {
                self.judge_strike(&query, place, &asked);
                let early = budget < literals;
                self.tally.count_if("budgets under q covered", early);
            } else {
                let count = predicted.candidates;
                assert_eq!(asked.answer, Ok(Cover::NotCovered { count }));
                assert!(asked.unwritten());
                self.tally.count("budgets not covered");
            }
        }
        self.count_query(literals, &predicted);
    }

    // Covered by a unit that falls on the literal of this place, with one candidate more than stand before it.
    fn judge_strike(&mut self, query: &[Term], place: usize, asked: &Asked) {
        let Ok(Cover::Covered { number, count }) = asked.answer else {
            panic!("{:?}, not covered at {place}", asked.answer);
        };
        assert_eq!(count, 1 + place as u64);
        assert_eq!(usize::from(asked.witness[0]), place);
        let named = self.book.pairs.iter().find(|pair| pair.number == number);
        let unit = &named.expect("the clause named is kept").literals;
        assert!(shows(unit, query, &asked.witness));
        self.tally.count("budgets covered");
    }

    fn count_query(&mut self, literals: u64, predicted: &Predicted) {
        let kept = self.book.pairs.len();
        self.tally
            .count_if("queries with 300 or more kept", kept >= 300);
        self.tally.count_if("queries with 1,024 kept", kept == KEPT);
        if let Some(place) = predicted.place {
            self.tally
                .count(&format!("covered by literal {}", 1 + place));
        } else if kept == 0 {
            self.tally.count("queries with nothing kept");
        } else {
            self.tally.count(&format!("not covered, q = {literals}"));
            let below = predicted.candidates < kept as u64 * literals;
            self.tally.count_if("not covered below kept × q", below);
        }
    }

    // A query made for the kept units, or a spoilt one.
    fn any_query(&mut self, style: Style) {
        let mut query = self.random.query_of_units(style, &self.book);
        if self.random.one_in(16) {
            self.random.spoil(&mut query);
        }
        self.query_units(&query);
    }

    fn insert_unit(&mut self, style: Style, number: u32) {
        let unit = self.random.any_unit(style, &self.book);
        self.insert(&unit, number);
    }

    // A removal, an insertion or a query.
    fn call_with_units(&mut self, style: Style) {
        match self.random.below(12) {
            0 => {
                let number = self.any_removal();
                self.remove(number);
            }
            1..5 => {
                let number = self.any_number();
                self.insert_unit(style, number);
            }
            _ => self.any_query(style),
        }
    }

    // A clause of two literals let in and taken out: while it is kept, the count need not be that of the query's literals.
    fn call_with_double(&mut self, style: Style) {
        let mut stranger = || self.random.stranger(style, &self.book);
        let (first, second, third) = (stranger(), stranger(), stranger());
        let (double, query) = ([&first[..], &second].concat(), [first, third].concat());
        self.insert(&double, 1000);
        if self.book.pairs.len() > 1 && self.book.most_literals() == 2 {
            let answer = self.ask_full(&query).answer;
            let other = matches!(answer, Ok(Cover::NotCovered { count }) if count != 2);
            self.tally
                .count_if("not covered, not q, with two literals", other);
        }
        self.remove(1000);
        self.query_units(&query);
    }

    // Removes every clause; afterwards a query answered before takes no candidate.
    fn finish_units(&mut self, style: Style) {
        let query = self.random.query_of_units(style, &self.book);
        self.query_units(&query);
        self.finish();
        self.query_units(&query);
    }
}

// A set with more units than a list keeps, or than a slice of so many words has room for, from which every third is then removed.
fn fill(length: usize, random: &mut Random, tally: &mut Tally) {
    let style = random.of(&STYLES);
    let mut set = Set::new(length, random, tally);
    for number in 0..1400 {
        match number % 4 {
            3 => set.insert_unit(style, number),
            _ => set.insert(&numbered_unit(number as u16), number),
        }
        if number % 8 == 7 {
            set.any_query(style);
        }
    }
    for number in (0..1400).step_by(3) {
        set.remove(number);
        set.any_query(style);
    }
    set.finish_units(style);
}

// How often each thing has to occur.
const LEAST: [(&str, u64); 40] = [
    ("sets", 2_004),
    ("insertions kept", 11_500),
    ("insertions refused 3", 2_800),
    ("insertions refused 4", 900),
    ("insertions refused 5", 100),
    ("insertions refused 7", 1_200),
    ("insertions refused 8", 9_500),
    ("insertions refused 10", 150),
    ("insertions refused 11", 2_600),
    ("removals made", 11_500),
    ("removals refused 9", 2_400),
    ("queries in all", 250_000),
    ("queries refused 3", 400),
    ("queries refused 4", 2_300),
    ("queries refused 5", 150),
    ("queries with nothing kept", 5_500),
    ("queries with 300 or more kept", 2_000),
    ("queries with 1,024 kept", 30),
    ("covered by literal 1", 4_300),
    ("covered by literal 2", 2_700),
    ("covered by literal 3", 1_900),
    ("covered by literal 4", 1_350),
    ("covered by literal 5", 1_000),
    ("covered by literal 6", 650),
    ("covered by literal 7", 400),
    ("covered by literal 8", 150),
    ("not covered, q = 1", 2_900),
    ("not covered, q = 2", 3_200),
    ("not covered, q = 3", 1_400),
    ("not covered, q = 4", 1_400),
    ("not covered, q = 5", 1_100),
    ("not covered, q = 6", 1_100),
    ("not covered, q = 7", 950),
    ("not covered, q = 8", 950),
    ("not covered below kept × q", 9_000),
    ("not covered, not q, with two literals", 700),
    ("budgets spent", 80_000),
    ("budgets covered", 70_000),
    ("budgets not covered", 92_000),
    ("budgets under q covered", 18_000),
];

#[test]
fn sets_of_units() {
    let mut random = Random(21);
    let mut tally = Tally::default();
    for i in 0..2000 {
        let style = STYLES[i % STYLES.len()];
        let most = if random.one_in(2) { 80 } else { 1000 };
        let length = 2 + random.below(most);
        let mut set = Set::new(length, &mut random, &mut tally);
        for number in 0..4 {
            set.insert_unit(style, number);
        }
        for _ in 0..10 + set.random.below(30) {
            set.call_with_units(style);
        }
        set.call_with_double(style);
        set.finish_units(style);
    }
    for length in [8192, 65536, 3000, 8192] {
        fill(length, &mut random, &mut tally);
    }
    tally.assert_least(&LEAST);
}

// Answers to a query at each budget from 0: these, then the last one at any larger.
fn expect_answers(tree: &[u64], clause: &[u16], answers: &[Result<Cover, Refusal>]) {
    let last = answers[answers.len() - 1];
    let further = [answers.len() as u64, FULL_BUDGET, u64::MAX].map(|budget| (budget, last));
    for (budget, answer) in (0..).zip(answers.iter().copied()).chain(further) {
        let asked = beside::query(tree, clause, budget, WITNESS_WORDS);
        assert_eq!(asked.answer, answer, "at {budget}");
    }
}

// By hand: P(a) and Q(x,x), then P(x),Q(x,a) beside them; asked are P(b),Q(a,b),P(x) and P(b),Q(b,b),P(a).
#[test]
fn by_hand() {
    let (p, q, a, b, x) = (0x8801, 0x9002, 0x0001, 0x0002, 0x4000);
    let (missed, struck) = ([p, b, q, a, b, p, x], [p, b, q, b, b, p, a]);
    let spent = |budget| Err(Refusal::Spent(budget));
    let not_covered = |count| Ok(Cover::NotCovered { count });
    let (number, count) = (2, 2);
    let covered = Ok(Cover::Covered { number, count });
    let mut tree = vec![!0; 40];
    assert_eq!(beside::fresh(&mut tree), Ok(()));
    expect_answers(&tree, &missed, &[not_covered(0)]);
    assert_eq!(beside::insert(&mut tree, &[p, a], 1), Ok(()));
    assert_eq!(beside::insert(&mut tree, &[q, x, x], 2), Ok(()));
    let of_units = [spent(0), spent(1), spent(2), not_covered(3)];
    expect_answers(&tree, &missed, &of_units);
    expect_answers(&tree, &struck, &[spent(0), spent(1), covered]);
    assert_eq!(beside::insert(&mut tree, &[p, x, q, x, a], 3), Ok(()));
    let mut with_double: Vec<_> = (0..7).map(spent).collect();
    with_double.push(not_covered(7));
    expect_answers(&tree, &missed, &with_double);
    assert_eq!(beside::remove(&mut tree, 3), Ok(()));
    expect_answers(&tree, &missed, &of_units);
    assert_eq!(beside::remove(&mut tree, 1), Ok(()));
    expect_answers(&tree, &missed, &of_units);
    assert_eq!(beside::remove(&mut tree, 2), Ok(()));
    expect_answers(&tree, &missed, &[not_covered(0)]);
}
