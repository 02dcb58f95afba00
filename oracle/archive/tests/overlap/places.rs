//! Where an input lies to an output, and the region that holds both.

use crate::driver::{Call, Question};
use oracle::lent::pattern;
use oracle::report::bytes::{HEAD, STARTING_WORD};
use oracle::sizes::MEMORY_WORDS;
use std::collections::BTreeSet;

/// Bytes around both, to see a call that writes outside of its output.
const GUARD: usize = 64;
/// In a report, where what follows the starting words begins.
const BEHIND_THE_WORDS: isize = (HEAD + MEMORY_WORDS * STARTING_WORD) as isize;
/// Every place up to here, and then every so many-th, so that an input lies in
/// every part of a record.
const EACH_TO: isize = 60;
const STEP: usize = 101;

/// Where the input begins, counted from the output's start: the same start,
/// places inside, before and behind, one byte in common at either end, and none.
/// A text is longer than its words, so the output may lie anywhere inside the
/// input too.
pub fn all(in_len: usize, out_len: usize) -> BTreeSet<isize> {
    let (input, out) = (in_len as isize, out_len as isize);
    let ends = [-input, 1 - input, 2 - input, -input / 2, -2, -1];
    let far = [BEHIND_THE_WORDS, out - input, out - 2, out - 1, out];
    let each = (0..=EACH_TO).chain((0..out).step_by(STEP));
    let before = (0..=EACH_TO).chain((0..input).step_by(STEP));
    let each = each.chain(before.map(|place| -place));
    let places = ends.into_iter().chain(far).chain(each);
    places
        .filter(|place| (-input..=out).contains(place))
        .collect()
}

/// The output stands fast, with room for the input on either side.
pub fn question(call: Call, input: &[u8], out_len: usize, place: isize) -> Question {
    let room = GUARD + input.len();
    let mut region = pattern(room + out_len + room);
    let from = room.checked_add_signed(place).expect("there is room");
    region[from..from + input.len()].copy_from_slice(input);
    Question {
        call,
        region,
        input: from..from + input.len(),
        out: room..room + out_len,
    }
}
