//! The eight calls on lent words, with their refusals in the order of documents 01 and 02.
use crate::backward::listed;
use crate::compiler::sequence;
use crate::instruction::used;
use crate::laid::well_laid;
use crate::limits::{KEPT, LITERALS, OUTPUT_WORDS, TREE_LEAST, TREE_MOST, WITNESS_WORDS};
use crate::reader::read;
use crate::refusal::Refusal;
use crate::saved::{renumbered, saved};
use crate::tree::Tree;
use crate::walk::walk;

/// The answer to an accepted query.
#[derive(Clone, Copy, Debug, PartialEq, Eq)]
pub enum Cover {
    Covered { number: u32, count: u64 },
    NotCovered { count: u64 },
}

impl Cover {
    pub fn count(self) -> u64 {
        match self {
            Cover::Covered { count, .. } | Cover::NotCovered { count } => count,
        }
    }

    /// What is told of it: whether it is covered, the number, the count.
    pub fn values(self) -> Vec<u64> {
        match self {
            Cover::Covered { number, count } => vec![1, number as u64, count],
            Cover::NotCovered { count } => vec![0, 0, count],
        }
    }
}

/// The answer to an accepted listing: how many numbers, and the candidates tried in all.
#[derive(Clone, Copy, Debug, PartialEq, Eq)]
pub struct Listed {
    pub many: usize,
    pub candidates: u64,
}

impl Listed {
    /// What is told of it.
    pub fn values(self) -> Vec<u64> {
        vec![self.many as u64, self.candidates]
    }
}

fn refuse_if(refused: bool, refusal: Refusal) -> Result<(), Refusal> {
    match refused {
        true => Err(refusal),
        false => Ok(()),
    }
}

fn length(tree: &[u64]) -> Result<(), Refusal> {
    let lengths = TREE_LEAST..=TREE_MOST;
    refuse_if(!lengths.contains(&tree.len()), Refusal::BadSlice)
}

/// Writes all zeros.
pub fn fresh(tree: &mut [u64]) -> Result<(), Refusal> {
    length(tree)?;
    tree.fill(0);
    Ok(())
}

/// Keeps a clause under a number.
pub fn insert(tree: &mut [u64], clause: &[u16], number: u32) -> Result<(), Refusal> {
    length(tree)?;
    let literals = read(clause)?;
    refuse_if(!well_laid(tree), Refusal::Broken)?;
    let mut kept = Tree::of(tree);
    kept.insert(&sequence(&literals), number)?;
    tree.copy_from_slice(&kept.words());
    Ok(())
}

/// Takes out the clause with a number.
pub fn remove(tree: &mut [u64], number: u32) -> Result<(), Refusal> {
    length(tree)?;
    refuse_if(!well_laid(tree), Refusal::Broken)?;
    let mut kept = Tree::of(tree);
    kept.remove(number)?;
    tree.copy_from_slice(&kept.words());
    Ok(())
}

/// Asks whether a kept clause subsumes a clause.
pub fn query(
    tree: &[u64],
    clause: &[u16],
    budget: u64,
    witness: &mut [u16],
) -> Result<Cover, Refusal> {
    length(tree)?;
    let literals = read(clause)?;
    refuse_if(witness.len() < WITNESS_WORDS, Refusal::ShortWitness)?;
    refuse_if(used(tree[0]) > tree.len() - 1, Refusal::Broken)?;
    let found = walk(tree, clause, &literals, budget)?;
    let count = found.count;
    let Some(covering) = found.covering else {
        return Ok(Cover::NotCovered { count });
    };
    covering.state.write(witness);
    let number = covering.number;
    Ok(Cover::Covered { number, count })
}

/// A bound on the candidates of a walk: kept × (q + q² + .. + q^m).
pub fn ceiling(kept: u64, q: u64, m: u64) -> Result<u64, Refusal> {
    let literals = 1..=LITERALS as u64;
    let sizes = kept <= KEPT as u64 && literals.contains(&q) && literals.contains(&m);
    refuse_if(!sizes, Refusal::BadSize)?;
    Ok((1..=m as u32).map(|i| kept * q.pow(i)).sum())
}

/// Whether a slice is the tree of some clauses, or none, with different numbers.
pub fn check(tree: &[u64]) -> Result<(), Refusal> {
    length(tree)?;
    refuse_if(!well_laid(tree), Refusal::Broken)?;
    refuse_if(saved(tree).is_none(), Refusal::NoSuchTree)
}

/// Writes the clause with a number, its variables numbered by first appearance; gives its length.
pub fn read_back(tree: &[u64], number: u32, out: &mut [u16]) -> Result<usize, Refusal> {
    length(tree)?;
    refuse_if(out.len() < OUTPUT_WORDS, Refusal::ShortOutput)?;
    refuse_if(!well_laid(tree), Refusal::Broken)?;
    let pairs = saved(tree).ok_or(Refusal::NoSuchTree)?.pairs;
    let numbered = pairs.iter().find(|pair| pair.number == number);
    let clause = renumbered(&numbered.ok_or(Refusal::NoSuchNumber)?.words);
    out[..clause.len()].copy_from_slice(&clause);
    Ok(clause.len())
}

/// Lists the numbers of the kept clauses that a clause subsumes, rising, in the list's first words.
pub fn backward(
    tree: &[u64],
    clause: &[u16],
    budget: u64,
    list: &mut [u32],
) -> Result<Listed, Refusal> {
    length(tree)?;
    let literals = read(clause)?;
    refuse_if(!well_laid(tree), Refusal::Broken)?;
    let kept = saved(tree).ok_or(Refusal::NoSuchTree)?.pairs;
    let listing = listed(&literals, &kept, budget, list.len())?;
    let many = listing.numbers.len();
    list[..many].copy_from_slice(&listing.numbers);
    let candidates = listing.candidates;
    Ok(Listed { many, candidates })
}
