//! An independent reader of rule units, machine that runs them and analyses of
//! them; generators of a corpus of good and damaged units and of a corpus of
//! states; and the lines that say what is found in them.

#![forbid(unsafe_code)]

pub mod analysis;
pub mod code;
pub mod corpus;
pub mod draft;
pub mod kinds;
pub mod lines;
pub mod machine;
pub mod queries;
pub mod random;
pub mod sample;
pub mod states;
pub mod unit;
pub mod verdict;
