//! How many words are hidden from the reader after each instruction: document 02,
//! Changes 6 and 7. The counts are the model's; what a report says of them is read from
//! its own bytes, whoever wrote it.

use crate::encoding::number;
use crate::report::bytes::{COUNTS, END, FAULT, HIDDEN_WORDS};
use crate::report::guarded::{self, Input};
use crate::report::program::served;

/// The kinds of the last two records, and of a fault at an unknown word.
const KIND_END: u8 = 0x08;
const KIND_HIDDEN_WORDS: u8 = 0x0A;
const UNKNOWN_WORD: u8 = 1;

/// What the inputs of a case are due to say: they have one image, the same owners and the
/// same clearance, and so they make the same instructions, up to the end of each. The counts are those
/// of one run, with the largest budget among them and no breakpoint: at the start, and
/// after each instruction.
pub fn due(inputs: &[Vec<u8>]) -> Vec<usize> {
    let served: Vec<Input> = inputs
        .iter()
        .map(|input| served(input).expect("such a case is served"))
        .collect();
    let first = &served[0];
    let is_cut = |other: &Input| {
        (&other.image, &other.owners, other.clearance)
            == (&first.image, &first.owners, first.clearance)
    };
    assert!(served.iter().all(is_cut), "they make the same instructions");
    let budgets = served.iter().map(|input| input.budget);
    let longest = Input {
        budget: budgets.max().expect("a case has inputs"),
        breakpoints: Vec::new(),
        ..first.clone()
    };
    guarded::hidden_counts(&longest).expect("such a case is served")
}

/// What stands at the end of a report.
#[derive(Clone, Copy, Debug, PartialEq, Eq)]
pub struct Said {
    /// The instructions begun.
    pub begun: u64,
    /// The words that are hidden from the reader at the stop.
    pub hidden_words: u64,
}

impl Said {
    /// None where the last two records are not what they are due to be.
    pub fn by(report: &[u8]) -> Option<Said> {
        let end = report.len().checked_sub(END + HIDDEN_WORDS)?;
        let (end, hidden_words) = report[end..].split_at(END);
        if [end[0], hidden_words[0]] != [KIND_END, KIND_HIDDEN_WORDS] {
            return None;
        }
        Some(Said {
            begun: begun(end)?,
            hidden_words: number(&mut &hidden_words[1..], HIDDEN_WORDS - 1)?,
        })
    }

    /// Whether it is what is due after so many instructions.
    pub fn is_due(&self, counts: &[usize]) -> bool {
        let due = counts.get(self.begun as usize);
        due.is_some_and(|due| *due as u64 == self.hidden_words)
    }
}

/// The end counts the instructions that were completed. One that has no opcode is begun
/// and is none of these; then the fault tells of it. A spent budget is a fault too, but
/// begins nothing.
fn begun(end: &[u8]) -> Option<u64> {
    let completed = number(&mut &end[COUNTS..], 8)?;
    completed.checked_add(u64::from(end[FAULT] == UNKNOWN_WORD))
}
