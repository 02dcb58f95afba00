//! The full list of a replay program, through that program.

use crate::difference;
use crate::program;
use crate::tally::{Tally, SHOWN};
use oracle::record::{self, Record};
use oracle::replays::Replay;
use std::io::Write;

/// What the program says it counted.
#[derive(Clone, Copy, PartialEq, Eq, Debug)]
pub struct Counts {
    pub passed: u64,
    pub failed: u64,
}

/// `records` is the program's full list.
pub fn compare(tally: &mut Tally, replay: &Replay, records: &[Record]) {
    let counted = run(replay, &record::list_bytes(records));
    if let Ok(counts) = counted {
        tally.add(counts.passed, counts.failed);
    }
    let sum = counted.as_ref().map(|counts| counts.passed + counts.failed);
    let all = sum == Ok(records.len() as u64);
    tally.check(all, || {
        format!("{} records sent: {counted:?}", records.len())
    });
    if counted.is_ok_and(|counts| counts.failed > 0) {
        for failing in failing(replay, records, SHOWN as usize) {
            tally.show(|| describe(failing));
        }
    }
}

/// Runs the program over a list.
pub fn run(replay: &Replay, list: &[u8]) -> Result<Counts, String> {
    let output = program::run(replay.program, |input| input.write_all(list))?;
    let text = String::from_utf8_lossy(&output);
    counts(&text).ok_or_else(|| format!("{} wrote {text:?}", replay.program))
}

/// Reads 'N passed, M failed' and a line feed, and nothing else.
fn counts(text: &str) -> Option<Counts> {
    let (passed, failed) = text.strip_suffix(" failed\n")?.split_once(" passed, ")?;
    let counts = Counts {
        passed: passed.parse().ok()?,
        failed: failed.parse().ok()?,
    };
    let again = format!("{} passed, {} failed\n", counts.passed, counts.failed);
    (text == again).then_some(counts)
}

/// The first few records that fail. The program does not name them, so halves
/// of the list are replayed until single records are left.
fn failing<'a>(replay: &Replay, records: &'a [Record], limit: usize) -> Vec<&'a Record> {
    let fails = |counts: Counts| counts.failed > 0;
    if limit == 0 || !run(replay, &record::list_bytes(records)).is_ok_and(fails) {
        return Vec::new();
    }
    if let [single] = records {
        return vec![single];
    }
    let (left, right) = records.split_at(records.len() / 2);
    let mut found = failing(replay, left, limit);
    found.extend(failing(replay, right, limit - found.len()));
    found
}

fn describe(record: &Record) -> String {
    let kind = record.kind as char;
    let question = difference::excerpt(&record.question);
    format!(
        "record {kind:?}, question {question}, answer due {}",
        record.answer.escape_ascii()
    )
}
