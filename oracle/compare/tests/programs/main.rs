//! The programs where something is short: a stack of 160 KB or of 400, a read that
//! fails, a write that fails.

mod pipes;
mod reads;
mod run;
mod stack;
mod writes;
