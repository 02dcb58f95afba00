//! Compares the port with the original at scale: its archive by calls, its
//! programs through pipes. The last line is 'N passed, M failed'. An argument
//! picks the parts whose name begins so; where there are none, nothing passed.

mod assembling;
mod calls;
mod damage;
mod difference;
mod dumps;
mod hidden_words;
mod listings;
mod parts;
mod pipes;
mod program;
mod replay;
mod reports;
mod scripts;
mod tally;
mod texts;
mod totals;
mod words;

use oracle::assembly;
use oracle::replays::REPLAYS;
use oracle::report::inputs::{self, Relation};
use parts::Parts;
use std::cell::LazyCell;
use std::env;
use std::process::ExitCode;

fn main() -> ExitCode {
    let mut parts = Parts::picked(env::args().nth(1).unwrap_or_default());
    parts.part("archive, words", &words::compare);
    parts.part("archive, listings", &listings::compare);
    for family in &assembly::texts::FAMILIES {
        parts.part(&format!("archive, assembling, {}", family.name), &|tally| {
            assembling::compare(tally, family)
        });
    }
    for replay in &REPLAYS {
        let name = |list: &str| format!("{}, {list}", replay.program);
        let records = LazyCell::new(replay.full);
        parts.part(&name("full list"), &|tally| {
            replay::compare(tally, replay, &records)
        });
        parts.part(&name("damaged lists"), &|tally| {
            damage::compare(tally, replay, &records)
        });
    }
    for family in &oracle::calls::scripts::FAMILIES {
        let bytes = format!("massey_calls, {}", family.name);
        let totals = format!("massey_calls, totals, {}", family.name);
        parts.two_parts([&bytes, &totals], &|tallies| {
            scripts::compare(tallies, family)
        });
    }
    parts.part("massey_calls, pieces", &scripts::compare_pieces);
    parts.part("listing program, pipes", &pipes::compare);
    for family in &assembly::texts::FAMILIES {
        parts.part(&format!("massey_assemble, {}", family.name), &|tally| {
            texts::compare(tally, family)
        });
    }
    parts.part("massey_assemble, pieces", &texts::compare_pieces);
    parts.part("massey_assemble, round trips", &texts::compare_round_trips);
    for family in &inputs::FAMILIES {
        let bytes = format!("massey_report, {}", family.name);
        let totals = format!("massey_report, totals, {}", family.name);
        match family.relation {
            Relation::Counted => parts.two_parts([&bytes, &totals], &|tallies| {
                reports::compare_counted(tallies, family)
            }),
            _ => parts.part(&bytes, &|tally| reports::compare(tally, family)),
        }
    }
    parts.part("massey_report, pieces", &reports::compare_pieces);
    parts.end()
}
