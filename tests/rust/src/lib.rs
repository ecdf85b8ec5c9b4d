//! The code tree's C interface (include/code_tree.h) for Rust: `raw` has the eight calls on slices as they are,
//! the functions of this module have their answers as enums.

/// The calls as C has them: a number returned, values told as far as `told` reaches.
pub mod raw {
    mod sys {
        extern "C" {
            pub fn ct_fresh(tree: *mut u64, n: usize) -> u64;
            pub fn ct_insert(
                tree: *mut u64,
                n: usize,
                clause: *const u16,
                m: usize,
                number: u32,
                told: *mut u64,
                t: usize,
            ) -> u64;
            pub fn ct_remove(tree: *mut u64, n: usize, number: u32) -> u64;
            pub fn ct_query(
                tree: *const u64,
                n: usize,
                clause: *const u16,
                m: usize,
                budget: u64,
                witness: *mut u16,
                k: usize,
                told: *mut u64,
                t: usize,
            ) -> u64;
            pub fn ct_ceiling(kept: u64, q: u64, m: u64, told: *mut u64, t: usize) -> u64;
            pub fn ct_check(tree: *const u64, n: usize) -> u64;
            pub fn ct_read_back(
                tree: *const u64,
                n: usize,
                number: u32,
                out: *mut u16,
                k: usize,
                told: *mut u64,
                t: usize,
            ) -> u64;
            pub fn ct_backward(
                tree: *const u64,
                n: usize,
                clause: *const u16,
                m: usize,
                budget: u64,
                list: *mut u32,
                l: usize,
                told: *mut u64,
                t: usize,
            ) -> u64;
        }
    }

    // In each call the slices are valid and apart, since they are Rust's; the functions are proved to stay inside them.

    pub fn fresh(tree: &mut [u64]) -> u64 {
        unsafe { sys::ct_fresh(tree.as_mut_ptr(), tree.len()) }
    }

    pub fn insert(tree: &mut [u64], clause: &[u16], number: u32, told: &mut [u64]) -> u64 {
        unsafe {
            sys::ct_insert(
                tree.as_mut_ptr(),
                tree.len(),
                clause.as_ptr(),
                clause.len(),
                number,
                told.as_mut_ptr(),
                told.len(),
            )
        }
    }

    pub fn remove(tree: &mut [u64], number: u32) -> u64 {
        unsafe { sys::ct_remove(tree.as_mut_ptr(), tree.len(), number) }
    }

    pub fn query(
        tree: &[u64],
        clause: &[u16],
        budget: u64,
        witness: &mut [u16],
        told: &mut [u64],
    ) -> u64 {
        unsafe {
            sys::ct_query(
                tree.as_ptr(),
                tree.len(),
                clause.as_ptr(),
                clause.len(),
                budget,
                witness.as_mut_ptr(),
                witness.len(),
                told.as_mut_ptr(),
                told.len(),
            )
        }
    }

    pub fn ceiling(kept: u64, q: u64, m: u64, told: &mut [u64]) -> u64 {
        unsafe { sys::ct_ceiling(kept, q, m, told.as_mut_ptr(), told.len()) }
    }

    pub fn check(tree: &[u64]) -> u64 {
        unsafe { sys::ct_check(tree.as_ptr(), tree.len()) }
    }

    pub fn read_back(tree: &[u64], number: u32, out: &mut [u16], told: &mut [u64]) -> u64 {
        unsafe {
            sys::ct_read_back(
                tree.as_ptr(),
                tree.len(),
                number,
                out.as_mut_ptr(),
                out.len(),
                told.as_mut_ptr(),
                told.len(),
            )
        }
    }

    pub fn backward(
        tree: &[u64],
        clause: &[u16],
        budget: u64,
        list: &mut [u32],
        told: &mut [u64],
    ) -> u64 {
        unsafe {
            sys::ct_backward(
                tree.as_ptr(),
                tree.len(),
                clause.as_ptr(),
                clause.len(),
                budget,
                list.as_mut_ptr(),
                list.len(),
                told.as_mut_ptr(),
                told.len(),
            )
        }
    }
}

/// The least length of a witness.
pub const WITNESS_WORDS: usize = 72;

/// The least length of a slice to which a clause is read back.
pub const OUTPUT_WORDS: usize = 64;

/// The length of a list that is never too short.
pub const LIST_WORDS: usize = 1024;

/// What is returned on refusal, with its values.
#[derive(Clone, Copy, Debug, PartialEq, Eq)]
pub enum Refusal {
    BadSlice,
    Broken,
    BadLength,
    BadClause { position: u64 },
    NinthLiteral { position: u64 },
    ShortWitness,
    NumberTaken,
    Held { number: u32 },
    NoSuchNumber,
    ListFull,
    NoRoom,
    Spent { count: u64 },
    BadSize,
    NoSuchTree,
    ShortOutput,
    ShortList,
}

/// The answer to an accepted query.
#[derive(Clone, Copy, Debug, PartialEq, Eq)]
pub enum Cover {
    Covered { number: u32, count: u64 },
    NotCovered { count: u64 },
}

/// The answer to an accepted listing: how many numbers, and the candidates tried in all.
#[derive(Clone, Copy, Debug, PartialEq, Eq)]
pub struct Listed {
    pub many: usize,
    pub candidates: u64,
}

fn refusal(code: u64, value: u64) -> Refusal {
    match code {
        1 => Refusal::BadSlice,
        2 => Refusal::Broken,
        3 => Refusal::BadLength,
        4 => Refusal::BadClause { position: value },
        5 => Refusal::NinthLiteral { position: value },
        6 => Refusal::ShortWitness,
        7 => Refusal::NumberTaken,
        8 => Refusal::Held {
            number: value as u32,
        },
        9 => Refusal::NoSuchNumber,
        10 => Refusal::ListFull,
        11 => Refusal::NoRoom,
        12 => Refusal::Spent { count: value },
        13 => Refusal::BadSize,
        14 => Refusal::NoSuchTree,
        15 => Refusal::ShortOutput,
        16 => Refusal::ShortList,
        _ => unreachable!("code {code}"),
    }
}

fn answer<T>(code: u64, value: u64, done: T) -> Result<T, Refusal> {
    if code == 0 {
        Ok(done)
    } else {
        Err(refusal(code, value))
    }
}

/// Makes an empty tree of a slice.
pub fn fresh(tree: &mut [u64]) -> Result<(), Refusal> {
    answer(raw::fresh(tree), 0, ())
}

/// Keeps a clause under a number.
pub fn insert(tree: &mut [u64], clause: &[u16], number: u32) -> Result<(), Refusal> {
    let mut told = [0];
    let code = raw::insert(tree, clause, number, &mut told);
    answer(code, told[0], ())
}

/// Takes the clause with a number out.
pub fn remove(tree: &mut [u64], number: u32) -> Result<(), Refusal> {
    answer(raw::remove(tree, number), 0, ())
}

/// Asks whether a kept clause subsumes a clause.
pub fn query(
    tree: &[u64],
    clause: &[u16],
    budget: u64,
    witness: &mut [u16],
) -> Result<Cover, Refusal> {
    let mut told = [0; 3];
    let code = raw::query(tree, clause, budget, witness, &mut told);
    let [covered, number, count] = told;
    let cover = if covered == 1 {
        Cover::Covered {
            number: number as u32,
            count,
        }
    } else {
        Cover::NotCovered { count }
    };
    answer(code, told[0], cover)
}

/// A bound: a query of q literals takes no more candidates, with so many kept clauses of at most m literals.
pub fn ceiling(kept: u64, q: u64, m: u64) -> Result<u64, Refusal> {
    let mut told = [0];
    let code = raw::ceiling(kept, q, m, &mut told);
    answer(code, told[0], told[0])
}

/// Whether a slice is the tree of some clauses, or none, with different numbers.
pub fn check(tree: &[u64]) -> Result<(), Refusal> {
    answer(raw::check(tree), 0, ())
}

/// Writes the clause with a number, its variables numbered by first appearance; gives its length.
pub fn read_back(tree: &[u64], number: u32, out: &mut [u16]) -> Result<usize, Refusal> {
    let mut told = [0];
    let code = raw::read_back(tree, number, out, &mut told);
    answer(code, 0, told[0] as usize)
}

/// Lists the numbers of the kept clauses that a clause subsumes, rising, in the list's first words.
pub fn backward(
    tree: &[u64],
    clause: &[u16],
    budget: u64,
    list: &mut [u32],
) -> Result<Listed, Refusal> {
    let mut told = [0; 2];
    let code = raw::backward(tree, clause, budget, list, &mut told);
    let [many, candidates] = told;
    let many = many as usize;
    answer(code, told[0], Listed { many, candidates })
}
