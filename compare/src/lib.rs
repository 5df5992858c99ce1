//! Compares the library with a second program that was written from documents 01 and 02 alone and shares no code with it
//! (`second`, `cases`, `check`, `rows`). Times the library against the same rules in C and in Rust, and against what a user
//! might pick instead (`peers`, `bench`). Document 01 is the customer's scope page and document 02 has the later requests,
//! of which tickets 1 to 7 are built; docs/SPEC.md states both in our words.

pub mod bench;
pub mod cases;
pub mod check;
pub mod library;
pub mod memory;
pub mod peers;
pub mod rows;
pub mod second;
