//! The limits of document 01 and the budgets that follow from them, each named once.

/// The most words of a clause.
pub const CLAUSE_WORDS: usize = 64;

/// The most literals of a clause, and of a path.
pub const LITERALS: usize = 8;

/// Put and Push numbers are below it.
pub const NUMBERS: usize = 64;

/// The least length of a witness: the literals, then the positions.
pub const WITNESS_WORDS: usize = LITERALS + NUMBERS;

/// The least length of a slice to which a clause is read back: room for the longest.
pub const OUTPUT_WORDS: usize = CLAUSE_WORDS;

/// The lengths of a tree slice.
pub const TREE_LEAST: usize = 2;
pub const TREE_MOST: usize = 65_536;

/// The most kept clauses.
pub const KEPT: usize = 1_024;

/// The ceiling of all: no walk on a tree made by calls takes more candidates.
pub const FULL_BUDGET: u64 = 19_634_135_040;

/// A smaller budget that is enough on every tree made by calls, since no literal is used twice on a path (F-3).
pub const ENOUGH_BUDGET: u64 = 112_230_400;

/// The program's tree slice, its budget for a query and for a listing, and its list.
pub const PROGRAM_TREE: usize = 8_192;
pub const PROGRAM_BUDGET: u64 = 1_000_000_000;
pub const PROGRAM_LIST: usize = 1_024;
