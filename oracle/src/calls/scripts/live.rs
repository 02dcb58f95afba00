//! Scripts that put every call to machines whose lists are around their bounds:
//! the image, the trace, its texts, and the touched addresses.

use crate::calls::commands::{field, set, Command};
use crate::calls::scripts::draft::Draft;
use crate::calls::scripts::edges::{begun, each_call, with, STORE};
use crate::calls::touched::PLACES;
use crate::programs::JUMP;
use crate::sizes::{MEMORY_WORDS, TEXT, TRACE_RECORDS};

/// States around the bounds of the lists, each of which is a script.
pub fn states() -> Vec<Vec<Command>> {
    let mut states = image_states();
    states.extend(trace_states());
    states.extend(text_states());
    states.extend(touched_states());
    states
}

/// Every call on one of those states.
pub fn script(number: usize) -> Vec<u8> {
    let mut draft = Draft::started(STORE);
    each_call(&mut draft, &states()[number]);
    draft.bytes()
}

fn image_states() -> Vec<Vec<Command>> {
    let most = MEMORY_WORDS as u64;
    let over = [most + 1, most + 2, 2 * most, 65_535, 65_536, 65_537 + most];
    [0, 1, 7, most - 1, most]
        .into_iter()
        .chain(over)
        .map(|length| with(begun(), [set(field::IMAGE_LENGTH, length)]))
        .collect()
}

/// A trace of the most records, the oldest of which are gone: a jump that is not
/// taken, whose text fills its field, and one that is.
fn full_trace() -> Vec<Command> {
    let words = vec![0x1101, 0xD120, JUMP | 1];
    vec![
        Command::Load(words),
        Command::Push,
        Command::Run(130, vec![0x80]),
        set(field::HALTED, 0),
    ]
}

fn trace_states() -> Vec<Vec<Command>> {
    let mut states: Vec<Vec<Command>> = counts_around(TRACE_RECORDS)
        .map(|count| with(full_trace(), [set(field::TRACE_COUNT, count)]))
        .collect();
    // Over what can be held, and then at what was there.
    let most = TRACE_RECORDS as u64;
    for count in [most, most - 1, 2] {
        let sets = [600, count].map(|count| set(field::TRACE_COUNT, count));
        states.push(with(full_trace(), sets));
    }
    states
}

/// Around none, around the most, and such as are there once they are cut to 16
/// bits.
fn counts_around(most: usize) -> impl Iterator<Item = u64> {
    let most = most as u64;
    let over = [2 * most, 65_535, 65_536, 65_536 + most];
    (0..=1).chain(most - 2..=most + 2).chain(over)
}

fn text_states() -> Vec<Vec<Command>> {
    let mut states = Vec::new();
    let (most, room) = (TRACE_RECORDS as u16, TEXT as u64);
    let last = (most - 5..=most).chain([2 * most - 1, 65_535]);
    for index in (0..=5).chain([300]).chain(last) {
        for length in [0, 9, room - 1, room, room + 1, 64, 255, 256, 256 + room] {
            let length = Command::Set(field::TEXT_LENGTH, index, length);
            states.push(with(full_trace(), [length.clone()]));
            // The trace of a program that has just begun has few records.
            states.push(with(begun(), [length]));
        }
    }
    states
}

/// Each store writes its own address, so that all are touched.
fn all_touched() -> Vec<Command> {
    let words = (0x4100..0x4200).collect();
    vec![
        Command::Load(words),
        Command::Push,
        Command::Run(1_000, vec![0]),
    ]
}

fn touched_states() -> Vec<Vec<Command>> {
    let mut states: Vec<Vec<Command>> = counts_around(PLACES)
        .map(|count| with(all_touched(), [set(field::TOUCHED_COUNT, count)]))
        .collect();
    for (place, address) in [
        (0, 1),
        (1, 0),
        (0, 255),
        (255, 0),
        (254, 255),
        (100, 200),
        (256, 9),
    ] {
        let twice = Command::Set(field::TOUCHED, place, address);
        states.push(with(all_touched(), [twice.clone()]));
        // Only one address is live here.
        states.push(with(begun(), [twice.clone()]));
        states.push(with(all_touched(), [twice, set(field::TOUCHED_COUNT, 200)]));
    }
    // The one live address again, in places that are not live.
    for place in [1, 2, 3, 255] {
        let behind = Command::Set(field::TOUCHED, place, 0x20);
        states.push(with(begun(), [behind]));
    }
    states.extend(raised_touched());
    states
}

/// Counts that are raised over places that were set before.
fn raised_touched() -> Vec<Vec<Command>> {
    let mut states = Vec::new();
    let all = PLACES as u64;
    for count in [2, 3, 17, all - 1, all] {
        for twice in [
            None,
            Some((count - 1, 0x20)),
            Some((count - 1, 0x21)),
            Some((1, 0x20)),
        ] {
            let places = (1..count).map(|place| {
                let address = (0x20 + place) % all;
                Command::Set(field::TOUCHED, place as u16, address)
            });
            let again =
                twice.map(|(place, address)| Command::Set(field::TOUCHED, place as u16, address));
            let state = with(with(begun(), places), again);
            states.push(with(state, [set(field::TOUCHED_COUNT, count)]));
        }
    }
    states
}
