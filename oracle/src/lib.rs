//! The original MASSEY core, built unchanged, and the lists of questions with
//! the answers that the port is held to: its own, and a model's where the port is
//! due to go past it. A folder for each of the port's sides, and here what they
//! share.

// The original says `use crate::isa`, so its files must be modules right here.
include!(concat!(env!("OUT_DIR"), "/original.rs"));

pub mod assembly;
pub mod calls;
pub mod codes;
pub mod countdowns;
pub mod encoding;
pub mod images;
pub mod lent;
pub mod machines;
pub mod places;
pub mod programs;
pub mod random;
pub mod readings;
pub mod record;
pub mod replays;
pub mod report;
pub mod sizes;
pub mod words;
