//! What the yardsticks share: pages of records, clauses, their instructions. Written from documents 01 and 02, with nothing of the
//! proved code.
pub mod clause;
pub mod code;
pub mod page;
