//! Pushes at the limit of the largest history, and undoes from it. The port's
//! records are bytes in a lent store; the original's are structs on its heap.

use crate::{median, medians, timing};
use oracle::calls::snapshots::RECORD;
use oracle::images;
use oracle::sizes::{HISTORY_RECORDS, MEMORY_WORDS};
use oracle::vm::Machine;
use std::hint::black_box;
use std::time::Instant;

const LIMIT: u64 = HISTORY_RECORDS as u64;
const PUSHES: u64 = 5;
const PUSH_ROUNDS: usize = 30;
const UNDO_ROUNDS: usize = 15;

/// A store that is full at the limit.
pub fn store() -> Vec<u8> {
    vec![0; HISTORY_RECORDS * RECORD]
}

/// Times mean nothing where the two sides do not do the same.
pub fn agree(words: &[u16], store: &mut [u8]) {
    let image = images::bytes(words);
    for n in [0, 1, 100, LIMIT, LIMIT + 3] {
        let mut machine = saved(words, n);
        let count = machine.history_len() as u64;
        assert_eq!(timing::pushes(&image, store, 0, n), count);
        assert_eq!(
            timing::undos(&image, store, count, count / 2),
            count - count / 2
        );
        for _ in 0..count / 2 {
            machine.undo();
        }
        assert_eq!(machine.history_len() as u64, count - count / 2);
    }
}

/// The original with an image loaded and its state saved `n` times.
fn saved(words: &[u16], n: u64) -> Machine {
    let mut machine = Machine::new();
    machine.load_image(words);
    for _ in 0..n {
        machine.push_history();
    }
    machine
}

/// A push at the limit, which drops the oldest record and moves all others.
pub fn pushing(words: &[u16], store: &mut [u8]) -> (f64, f64) {
    let image = images::bytes(words);
    let mut machine = saved(words, LIMIT);
    timing::pushes(&image, store, 0, LIMIT);
    let mut rust = || {
        for _ in 0..PUSHES {
            black_box(&mut machine).push_history();
        }
    };
    let mut ours = || {
        black_box(timing::pushes(black_box(&image), store, LIMIT, PUSHES));
    };
    medians(PUSH_ROUNDS, PUSHES as usize, &mut rust, &mut ours)
}

/// An undo of a full history, down to the last record. The records are those of
/// `words`, and then an image is loaded that differs from it in `changed` words,
/// so that so many addresses are found touched. What fills the history is not
/// timed.
pub fn undoing(words: &[u16], changed: usize, store: &mut [u8]) -> (f64, f64) {
    let mut other = words.to_vec();
    other.resize(MEMORY_WORDS, 0);
    // Every seventh word and on round: the places are far apart, as stores are.
    for index in 0..changed {
        other[(index * 7 + 3) % MEMORY_WORDS] ^= 0x5A5A;
    }
    let other_image = images::bytes(&other);
    timing::pushes(&images::bytes(words), store, 0, LIMIT);
    let (mut rust, mut ours) = (Vec::new(), Vec::new());
    for _ in 0..UNDO_ROUNDS {
        let mut machine = saved(words, LIMIT);
        machine.load_image(&other);
        rust.push(each(|| while black_box(machine.undo()) {}));
        assert_eq!(machine.touched.len(), changed);
        ours.push(each(|| {
            black_box(timing::undos(black_box(&other_image), store, LIMIT, LIMIT));
        }));
    }
    (median(rust), median(ours))
}

/// The nanoseconds of one of `LIMIT` calls.
fn each(work: impl FnOnce()) -> f64 {
    let start = Instant::now();
    work();
    start.elapsed().as_nanos() as f64 / LIMIT as f64
}
