//! A tree and the clause book of its calls: each call beside the book, each answer to a query beside an ordinary matcher.
pub mod full;

use crate::beside::{self, Asked};
use crate::drawn::tally::Tally;
use crate::drawn::{Random, Style};
use model::book::Book;
use model::calls::Cover;
use model::compiler::sequence;
use model::limits::{ENOUGH_BUDGET, FULL_BUDGET, LITERALS, WITNESS_WORDS};
use model::matcher::{most_tries, same, search, shows, subsumes, unit_candidates};
use model::reader::{read, Term};
use model::refusal::Refusal;
use model::words::arity;

/// A tree, the book of its calls, and the words that the book makes.
pub struct Set<'a> {
    tree: Vec<u64>,
    pub book: Book,
    words: Vec<u64>,
    pub random: &'a mut Random,
    pub tally: &'a mut Tally,
}

impl<'a> Set<'a> {
    /// An empty tree of so many words.
    pub fn new(length: usize, random: &'a mut Random, tally: &'a mut Tally) -> Set<'a> {
        let mut tree: Vec<u64> = (0..length).map(|_| random.next()).collect();
        assert_eq!(beside::fresh(&mut tree), Ok(()));
        tally.count("sets");
        Set {
            words: tree.clone(),
            book: Book::new(length),
            tree,
            random,
            tally,
        }
    }

    pub fn tree(&self) -> &[u64] {
        &self.tree
    }

    // The model's call on words, which has to agree with the book, is run on the smaller slices.
    fn by_words(&self) -> bool {
        self.tree.len() < 160
    }

    pub fn insert(&mut self, clause: &[u16], number: u32) {
        let before = self.tree.clone();
        let answer = self.book.insert(clause, number);
        if answer.is_ok() {
            self.words = self.book.tree.words();
            self.count_kept(clause);
        }
        self.tally.answer("insertions", "kept", answer);
        beside::expect_insert(&mut self.tree, clause, number, answer, &self.words);
        if self.by_words() {
            let mut again = before;
            assert_eq!(beside::insert(&mut again, clause, number), answer);
            assert_eq!(again, self.words);
        }
    }

    pub fn remove(&mut self, number: u32) {
        let before = self.tree.clone();
        let answer = self.book.remove(number);
        if answer.is_ok() {
            self.words = self.book.tree.words();
        }
        self.tally.answer("removals", "made", answer);
        beside::expect_remove(&mut self.tree, number, answer, &self.words);
        if self.by_words() {
            let mut again = before;
            assert_eq!(beside::remove(&mut again, number), answer);
            assert_eq!(again, self.words);
        }
    }

    pub fn ask(&mut self, clause: &[u16], budget: u64) -> Asked {
        let witness_words = WITNESS_WORDS + self.random.below(3);
        self.tally.count("queries in all");
        beside::query(&self.tree, clause, budget, witness_words)
    }

    /// A query at the full budget; at the one that is enough on every tree all is the same.
    pub fn ask_full(&mut self, clause: &[u16]) -> Asked {
        let full = self.ask(clause, FULL_BUDGET);
        let enough = beside::query(&self.tree, clause, ENOUGH_BUDGET, full.witness.len());
        assert_eq!(enough, full);
        self.tally.count("queries in all");
        full
    }

    /// A query at the full budget, whose answer is given, then at others.
    pub fn query(&mut self, clause: &[u16]) -> Asked {
        let full = self.ask_full(clause);
        match full.answer {
            Err(_) => {
                self.tally.answer("queries", "", full.answer);
                assert_eq!(full.answer.err(), read(clause).err());
                assert!(full.unwritten());
            }
            Ok(cover) => {
                let literals = read(clause).expect("an accepted query");
                self.judge(&literals, cover, &full.witness);
                self.judge_count(&literals, cover.count());
                self.judge_count_of_units(&literals, cover);
                self.query_at_others(clause, &full, cover.count());
            }
        }
        full
    }

    // Covered or not by the ordinary matcher; the witness by the definition of subsumption.
    fn judge(&mut self, query: &[Term], cover: Cover, witness: &[u16]) {
        let pairs = self.book.pairs.iter();
        let covering: Vec<_> = pairs
            .filter(|pair| subsumes(&pair.literals, query))
            .collect();
        let Cover::Covered { number, .. } = cover else {
            assert!(covering.is_empty(), "not covered");
            self.tally.count("queries not covered");
            return;
        };
        let named = covering.iter().find(|pair| pair.number == number);
        let kept = &named.expect("the clause named covers").literals;
        assert!(shows(kept, query, witness));
        self.tally.count("queries covered");
        let variant = sequence(kept) == sequence(query);
        self.tally.count_if("covered not by a variant", !variant);
        self.tally
            .count_if("covered by several", covering.len() > 1);
    }

    fn judge_count(&mut self, query: &[Term], count: u64) {
        let (kept, most) = (self.book.pairs.len() as u64, self.book.most_literals());
        let (q, m) = (query.len() as u64, most as u64);
        let ceiling = match most {
            0 => 0,
            _ => beside::ceiling(kept, q, m).unwrap(),
        };
        let tries = kept * most_tries(q, m);
        assert!(count <= tries && tries <= ceiling);
        if let [only] = &self.book.pairs[..] {
            assert_eq!(search(&only.literals, query).1, count);
            self.tally.count("counts with one clause kept");
        }
        self.tally
            .count_if("counts at the ceiling", count == ceiling);
        let short = count == tries && tries < ceiling;
        self.tally.count_if("counts at the most tries", short);
    }

    // Where only units are kept, one or more, the count is told by the matcher; not covered, it is the query's literals.
    fn judge_count_of_units(&mut self, query: &[Term], cover: Cover) {
        let Some(units) = self.book.units() else {
            return;
        };
        assert_eq!(cover.count(), unit_candidates(&units, query));
        if let Cover::NotCovered { count } = cover {
            assert_eq!(count, query.len() as u64);
            self.tally.count("counts of units, not covered");
        } else {
            self.tally.count("counts of units, covered");
        }
    }

    fn query_at_others(&mut self, clause: &[u16], full: &Asked, count: u64) {
        for budget in [count, count + 1, u64::MAX] {
            self.query_again(clause, full, budget);
        }
        if count > 0 {
            for budget in [count - 1, self.random.next() % count] {
                self.query_again(clause, full, budget);
            }
        }
    }

    /// An accepted query at another budget: with its count or more all is as with the full one; with less it is spent, and nothing is written.
    pub fn query_again(&mut self, clause: &[u16], full: &Asked, budget: u64) {
        let asked = self.ask(clause, budget);
        if full.answer.is_ok_and(|cover| budget < cover.count()) {
            assert_eq!(asked.answer, Err(Refusal::Spent(budget)));
            assert!(asked.unwritten());
            return self.tally.count("small budgets spent");
        }
        assert_eq!(asked.answer, full.answer);
        assert_eq!(
            asked.witness[..WITNESS_WORDS],
            full.witness[..WITNESS_WORDS]
        );
        let covered = matches!(asked.answer, Ok(Cover::Covered { .. }));
        self.tally.count_if("small budgets covered", covered);
        self.tally.count_if("small budgets not covered", !covered);
    }

    fn count_kept(&mut self, clause: &[u16]) {
        let literals = &self.book.pairs.last().expect("a kept clause").literals;
        let before = |i: usize| literals[..i].iter();
        let repeated = (1..literals.len()).any(|i| before(i).any(|l| same(l, &literals[i])));
        let widest = clause.iter().any(|&word| arity(word) == 7);
        for (what, so) in [
            ("kept with a repeated literal", repeated),
            ("kept with 60 or more words", clause.len() >= 60),
            ("kept with 8 literals", literals.len() == LITERALS),
            ("kept with 7 arguments", widest),
        ] {
            self.tally.count_if(what, so);
        }
    }

    pub fn any_clause(&mut self, style: Style) -> Vec<u16> {
        self.random.any_clause(style, &self.book.clauses())
    }

    /// One of few numbers, or one of the largest.
    pub fn any_number(&mut self) -> u32 {
        match self.random.below(20) as u32 {
            n @ 0..18 => n,
            n => u32::MAX - (n - 18),
        }
    }

    /// A number to remove: mostly one that is in the book.
    pub fn any_removal(&mut self) -> u32 {
        let pairs = self.book.pairs.len();
        if pairs == 0 || self.random.one_in(4) {
            return self.any_number();
        }
        self.book.pairs[self.random.below(pairs)].number
    }

    /// Removes every clause, after which all words are 0.
    pub fn finish(&mut self) {
        while let Some(pair) = self.book.pairs.first() {
            self.remove(pair.number);
        }
        assert!(self.tree.iter().all(|&word| word == 0));
    }
}
