//! Striking backwards (F-6): which kept clauses a clause subsumes.
use crate::book::Pair;
use crate::compiler::sequence;
use crate::reader::Term;
use crate::refusal::Refusal;
use crate::tree::Tree;
use crate::walk::walk;

/// The numbers of a listing, rising, and the candidates tried in all.
pub struct Listing {
    pub numbers: Vec<u32>,
    pub candidates: u64,
}

/// By rising number each kept clause is queried in a tree of the given one alone, under one budget for all; a number more than there is room for
/// is refused when it is found.
pub fn listed(given: &[Term], kept: &[Pair], budget: u64, room: usize) -> Result<Listing, Refusal> {
    let lone = Tree::alone(&sequence(given)).words();
    let mut rising: Vec<&Pair> = kept.iter().collect();
    rising.sort_by_key(|pair| pair.number);
    let (mut numbers, mut candidates) = (Vec::new(), 0);
    for pair in rising {
        let left = budget - candidates;
        let found = walk(&lone, &pair.words, &pair.literals, left).map_err(|refusal| {
            assert_eq!(refusal, Refusal::Spent(left), "the tree of a clause");
            Refusal::Spent(budget)
        })?;
        candidates += found.count;
        if found.covering.is_some() {
            if numbers.len() == room {
                return Err(Refusal::ShortList);
            }
            numbers.push(pair.number);
        }
    }
    Ok(Listing {
        numbers,
        candidates,
    })
}
