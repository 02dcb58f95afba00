//! The report program `massey_report`: the tests' own model of the guarded run,
//! of its owners and of its report, and the inputs that it is held to.

pub mod bytes;
pub mod guarded;
pub mod inputs;
pub mod owners;
pub mod program;
pub mod totals;
