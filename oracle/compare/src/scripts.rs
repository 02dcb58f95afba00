//! `massey_calls`: every script through the program, byte by byte.

use crate::program::Run;
use crate::tally::Tally;
use crate::{difference, dumps, totals};
use oracle::calls;
use oracle::calls::commands::Command;
use oracle::calls::program::Part;
use oracle::calls::scripts::{Family, FAMILIES};
use std::env;

/// Takes every so many-th script, for a short run.
const EVERY: &str = "MASSEY_EVERY";
/// How many commands are shown, and how many letters of each.
const COMMANDS: usize = 6;
const LETTERS: usize = 40;
/// How many bytes are shown.
const BYTES: usize = 16;
/// How the input comes in pieces, and of how many scripts in each family.
const PIECES: [usize; 4] = [1, 5, 12, 100];
const IN_PIECES: usize = 8;

/// All that the program writes, and the bus totals of its dumps, by one run of each
/// script.
pub fn compare([bytes, totals]: &mut [Tally; 2], family: &Family) {
    for number in (0..(family.count)()).step_by(every()) {
        let script = (family.script)(number);
        let due = calls::program::due(&script);
        let name = || format!("script {} {number}", family.name);
        let written = compare_one(bytes, &script, &due.output, None, name);
        totals::compare(totals, &due.dumps, &written, |dump| {
            let parts = calls::program::parts(&script);
            format!("{}: {}", name(), describe_place(&parts[..=dump.command]))
        });
    }
}

/// A few scripts of each family, whose bytes come in pieces.
pub fn compare_pieces(tally: &mut Tally) {
    for family in FAMILIES.iter().filter(|family| family.name != "lists") {
        for number in 0..(family.count)().min(IN_PIECES) {
            let script = (family.script)(number);
            let wanted = calls::program::output(&script);
            let piece = PIECES[number % PIECES.len()];
            let name = || format!("script {} {number}", family.name);
            compare_one(tally, &script, &wanted, Some(piece), name);
        }
    }
}

/// Each so many-th script or case is taken.
pub fn every() -> usize {
    let given = env::var(EVERY).ok();
    let every = given.map_or(1, |text| text.parse().expect("MASSEY_EVERY is a number"));
    assert!(every > 0, "MASSEY_EVERY is 1 or more");
    every
}

/// One script, at once or in pieces; gives what was written.
fn compare_one(
    tally: &mut Tally,
    script: &[u8],
    wanted: &[u8],
    piece: Option<usize>,
    name: impl FnOnce() -> String,
) -> Vec<u8> {
    let run = Run {
        program: "massey_calls",
        input: script,
        piece,
        wanted,
    };
    run.compare(tally, name, |output| describe(script, output))
}

/// The first command whose answer differs.
fn describe(script: &[u8], output: &[u8]) -> String {
    let parts = calls::program::parts(script);
    let mut from = 0;
    for (index, part) in parts.iter().enumerate() {
        let to = from + part.answer.len();
        if output.get(from..to) != Some(&part.answer) {
            return describe_last(&parts[..=index], &output[from..to.min(output.len())]);
        }
        from = to;
    }
    let more = output.len() - from;
    format!("{more} bytes more than due: {}", hex(&output[from..]))
}

/// The last of these commands, and where its answer first differs.
fn describe_last(parts: &[Part], found: &[u8]) -> String {
    let part = &parts[parts.len() - 1];
    let same = difference::same(found, &part.answer);
    let place = match part.command {
        Some(Command::Dump) => format!(" ({})", dumps::place(&part.answer, same)),
        _ => String::new(),
    };
    format!(
        "{}: from byte {same}{place} of its answer {}, not {}",
        describe_place(parts),
        hex(&found[same..]),
        hex(&part.answer[same..]),
    )
}

/// The last of these commands, and the few before it.
fn describe_place(parts: &[Part]) -> String {
    let shown: Vec<String> = parts.iter().rev().take(COMMANDS).rev().map(name).collect();
    format!(
        "command {} at byte {}, the last of [{}]",
        parts.len() - 1,
        parts[parts.len() - 1].at,
        shown.join("; ")
    )
}

fn name(part: &Part) -> String {
    let name = match &part.command {
        Some(command) => format!("{command:X?}"),
        None => "malformed".to_string(),
    };
    match name.len() <= LETTERS {
        true => name,
        false => format!("{}..", &name[..LETTERS]),
    }
}

fn hex(bytes: &[u8]) -> String {
    let more = if bytes.len() > BYTES { ".." } else { "" };
    let digits = bytes.iter().take(BYTES).map(|byte| format!("{byte:02X}"));
    format!("{}{more}", digits.collect::<Vec<_>>().join(" "))
}
