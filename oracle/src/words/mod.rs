//! Words, texts, listings, plans and single ticks: the records that the program
//! `replay_words` is asked, with its two lists, and the listing's sample.

pub mod disassembly;
pub mod sample;
pub mod text_lists;
pub mod texts;
pub mod tick_lists;
pub mod ticks;
