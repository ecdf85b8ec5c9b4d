//! Document 01 with the changes F-1 to F-6 of document 02 in plain Rust, written from their words and with nothing of the proved code.
//! The tests hold the proved calls and the program against it, and it makes the expected lines of tests/pages and tests/rust/cases.
//! A change of documents 01 and 02 is made here first.

pub mod back_pages;
pub mod backward;
pub mod book;
pub mod by_hand;
pub mod calls;
pub mod cases;
pub mod compiler;
pub mod instruction;
pub mod laid;
pub mod limits;
pub mod matcher;
pub mod notation;
pub mod pages;
pub mod program;
pub mod reader;
pub mod refusal;
pub mod saved;
pub mod tree;
pub mod walk;
pub mod words;
