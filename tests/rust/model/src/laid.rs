//! Whether a slice is well laid.
use crate::instruction::{kept, used, Instruction, Operation};
use crate::limits::KEPT;
use std::ops::Range;

/// Whether header, operations, operands of 0, extents, sibling order and trailing zeros obey document 01.
pub fn well_laid(words: &[u64]) -> bool {
    let (used, kept) = (used(words[0]), kept(words[0]));
    if used > words.len() - 1 || kept > KEPT {
        return false;
    }
    let successes = row_laid(words, 1..used + 1);
    successes == Some(kept) && words[used + 1..].iter().all(|&word| word == 0)
}

// The Successes of a row and all below it, or none if it is not well laid.
fn row_laid(words: &[u64], row: Range<usize>) -> Option<usize> {
    let mut successes = 0;
    let mut before = None;
    let mut at = row.start;
    while at < row.end {
        let (instruction, extent) = Instruction::unpack(words[at])?;
        let inside = extent > 0 && at + extent <= row.end;
        if !inside || !word_laid(instruction, extent) || !rises(before, instruction) {
            return None;
        }
        successes += (instruction.operation == Operation::Success) as usize;
        successes += row_laid(words, at + 1..at + extent)?;
        before = Some(instruction);
        at += extent;
    }
    Some(successes)
}

// First, Down and Right have operand 0; exactly the Success words have extent 1.
fn word_laid(instruction: Instruction, extent: usize) -> bool {
    use Operation::{Down, First, Right, Success};
    let bare = matches!(instruction.operation, First | Down | Right);
    (!bare || instruction.operand == 0) && (instruction.operation == Success) == (extent == 1)
}

// Siblings strictly rise, and at most one of them is a Success.
fn rises(before: Option<Instruction>, next: Instruction) -> bool {
    before.is_none_or(|before| before < next && next.operation != Operation::Success)
}
