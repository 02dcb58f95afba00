//! The call program `massey_calls`: its commands as bytes, the tests' own model
//! of what it answers, and the scripts that it is held to.

pub mod answers;
pub mod commands;
pub mod history;
pub mod limited;
pub mod model;
pub mod program;
pub mod runs;
pub mod scripts;
pub mod snapshots;
pub mod totals;
pub mod touched;
