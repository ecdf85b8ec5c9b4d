//! Instructions and the words of a tree: operation (4 bits), operand (32), extent (28); the header's used and kept (32 each).

/// The operations, by their numbers 0 to 8.
#[derive(Clone, Copy, Debug, PartialEq, Eq, PartialOrd, Ord)]
pub enum Operation {
    Success,
    First,
    Down,
    Right,
    Put,
    Push,
    Pop,
    Check,
    Compare,
}

const OPERATIONS: [Operation; 9] = [
    Operation::Success,
    Operation::First,
    Operation::Down,
    Operation::Right,
    Operation::Put,
    Operation::Push,
    Operation::Pop,
    Operation::Check,
    Operation::Compare,
];

/// Instructions are ordered by operation, then operand.
#[derive(Clone, Copy, Debug, PartialEq, Eq, PartialOrd, Ord)]
pub struct Instruction {
    pub operation: Operation,
    pub operand: u32,
}

impl Instruction {
    pub fn new(operation: Operation, operand: u32) -> Instruction {
        Instruction { operation, operand }
    }

    /// The tree word of an instruction with an extent.
    pub fn pack(self, extent: usize) -> u64 {
        (self.operation as u64) << 60 | (self.operand as u64) << 28 | extent as u64
    }

    /// The instruction and the extent of a tree word; none for an operation over 8.
    pub fn unpack(word: u64) -> Option<(Instruction, usize)> {
        let operation = *OPERATIONS.get((word >> 60) as usize)?;
        let operand = (word >> 28) as u32;
        let extent = (word & 0xFFF_FFFF) as usize;
        Some((Instruction { operation, operand }, extent))
    }
}

/// A header.
pub fn header(used: usize, kept: usize) -> u64 {
    (used as u64) << 32 | kept as u64
}

/// The used instruction words that a header tells.
pub fn used(header: u64) -> usize {
    (header >> 32) as usize
}

/// The kept clauses that a header tells.
pub fn kept(header: u64) -> usize {
    header as u32 as usize
}
