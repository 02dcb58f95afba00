//! Assembling an edited listing: the tests' own model of document 02, Change 4,
//! from the document's words, what the program `massey_assemble` answers, and the
//! texts that both are held to.

pub mod grammar;
pub mod lines;
pub mod lists;
pub mod model;
pub mod program;
pub mod texts;
