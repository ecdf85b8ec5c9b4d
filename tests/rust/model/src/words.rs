//! Clause words of 16 bits: kind (2 bits), arity (3 bits), number (11 bits).

pub const FUNCTION: u16 = 0;
pub const VARIABLE: u16 = 1;
pub const POSITIVE: u16 = 2;
pub const NEGATIVE: u16 = 3;

/// The word of its fields.
pub const fn word(kind: u16, arity: u16, number: u16) -> u16 {
    kind << 14 | arity << 11 | number
}

pub fn kind(word: u16) -> u16 {
    word >> 14
}

pub fn arity(word: u16) -> usize {
    (word >> 11 & 7) as usize
}

pub fn is_variable(word: u16) -> bool {
    kind(word) == VARIABLE
}

pub fn is_head(word: u16) -> bool {
    kind(word) >= POSITIVE
}
