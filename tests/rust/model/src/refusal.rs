//! What is returned on refusal: document 01's table, with the codes that document 02 adds.

#[derive(Clone, Copy, Debug, PartialEq, Eq)]
pub enum Refusal {
    BadSlice,
    Broken,
    BadLength,
    /// With the position of the first word, or the end, that breaks the clause rules.
    BadClause(usize),
    /// With the position of the head.
    NinthLiteral(usize),
    ShortWitness,
    NumberTaken,
    /// With the number of the variant.
    Held(u32),
    NoSuchNumber,
    ListFull,
    NoRoom,
    /// With the count, which is the budget.
    Spent(u64),
    BadSize,
    NoSuchTree,
    ShortOutput,
    ShortList,
}

impl Refusal {
    pub fn code(self) -> u64 {
        match self {
            Refusal::BadSlice => 1,
            Refusal::Broken => 2,
            Refusal::BadLength => 3,
            Refusal::BadClause(_) => 4,
            Refusal::NinthLiteral(_) => 5,
            Refusal::ShortWitness => 6,
            Refusal::NumberTaken => 7,
            Refusal::Held(_) => 8,
            Refusal::NoSuchNumber => 9,
            Refusal::ListFull => 10,
            Refusal::NoRoom => 11,
            Refusal::Spent(_) => 12,
            Refusal::BadSize => 13,
            Refusal::NoSuchTree => 14,
            Refusal::ShortOutput => 15,
            Refusal::ShortList => 16,
        }
    }

    /// The values that come with the code.
    pub fn values(self) -> Vec<u64> {
        match self {
            Refusal::BadClause(position) | Refusal::NinthLiteral(position) => vec![position as u64],
            Refusal::Held(number) => vec![number as u64],
            Refusal::Spent(count) => vec![count],
            _ => vec![],
        }
    }
}
