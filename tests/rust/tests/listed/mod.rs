//! What a listing has to be, by an ordinary matcher, which knows neither tree nor walk.
use crate::beside::Listing;
use model::book::Pair;
use model::matcher::search;
use model::reader::Term;
use model::refusal::Refusal;

// A kept clause: whether the given one subsumes it, and how many places were tried.
struct Query {
    number: u32,
    subsumed: bool,
    tries: u64,
}

/// The kept clauses by rising number.
pub struct Queries(Vec<Query>);

impl Queries {
    pub fn of(given: &[Term], kept: &[Pair]) -> Queries {
        let query = |pair: &Pair| {
            let (subsumed, tries) = search(given, &pair.literals);
            let number = pair.number;
            Query {
                number,
                subsumed,
                tries,
            }
        };
        let mut queries: Vec<Query> = kept.iter().map(query).collect();
        queries.sort_by_key(|query| query.number);
        Queries(queries)
    }

    /// The numbers to be listed.
    pub fn numbers(&self) -> Vec<u32> {
        let subsumed = self.0.iter().filter(|query| query.subsumed);
        subsumed.map(|query| query.number).collect()
    }

    /// The tries up to the end of each query.
    pub fn sums(&self) -> Vec<u64> {
        let sum = |sum: &mut u64, query: &Query| {
            *sum += query.tries;
            Some(*sum)
        };
        self.0.iter().scan(0, sum).collect()
    }

    /// The tries in all.
    pub fn tries(&self) -> u64 {
        self.sums().last().copied().unwrap_or(0)
    }

    /// The listing with a budget, to so many words: the first of what is too much is refused.
    pub fn listing(&self, budget: u64, list_words: usize) -> Listing {
        let (mut numbers, mut tried) = (Vec::new(), 0);
        for query in &self.0 {
            tried += query.tries;
            if tried > budget {
                return Listing::refused(Refusal::Spent(budget), list_words);
            }
            if query.subsumed && numbers.len() == list_words {
                return Listing::refused(Refusal::ShortList, list_words);
            }
            numbers.extend(query.subsumed.then_some(query.number));
        }
        Listing::of(&numbers, tried, list_words)
    }
}
