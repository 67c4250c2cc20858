//! The brake-bench link, written a second time in plain Rust from the pages in `docs/` alone.
//!
//! It is evidence from outside the proofs: the programs of the library are compared with it on
//! many cases. [`report::report`] answers a script, [`lab::Lab`] answers lines on any link,
//! and [`cases`] and [`lab_cases`] make cases from a seed.

pub mod cases;
pub mod chance;
pub mod channels;
pub mod digits;
pub mod kinds;
pub mod lab;
pub mod lab_cases;
pub mod link;
pub mod material;
pub mod refusals;
pub mod report;
pub mod script;
pub mod setups;
pub mod words;
