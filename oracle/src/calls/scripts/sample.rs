//! The script that is kept beside `massey_calls`: every command, every refusal
//! that its store can meet, dumps at telling moments, and a malformed end.

use crate::calls::commands::{field, run, set, Command};
use crate::calls::runs::FULL;
use crate::calls::scripts::draft::Draft;
use crate::calls::scripts::edges::STORE;
use crate::calls::snapshots;
use crate::calls::touched::PLACES;
use crate::images::{saying_invented, PARTLY_USED};
use crate::programs::HALT;
use crate::report::inputs::examples::example_11;
use crate::sizes::{MEMORY_WORDS, TEXT, TRACE_RECORDS};

/// The bounds of the lists, as values of their fields.
const WORDS: u64 = MEMORY_WORDS as u64;
const RECORDS: u64 = TRACE_RECORDS as u64;
const ROOM: u64 = TEXT as u64;

/// Counts R1 down from 2, with a store, a load and jumps both ways, and halts.
const COUNTDOWN: [u16; 9] = [
    0x1102, 0x1201, 0x7020, 0x6112, 0x4120, 0x3320, 0xD108, 0xD003, HALT,
];

pub fn script() -> Vec<u8> {
    let mut draft = Draft::started(STORE);
    draft.add(Command::Dump);
    stepping(&mut draft);
    runs(&mut draft);
    history(&mut draft);
    changed_records(&mut draft);
    no_machines(&mut draft);
    control_units(&mut draft);
    full_lists(&mut draft);
    orders(&mut draft);
    full_counters(&mut draft);
    started_anew(&mut draft);
    direct_instructions(&mut draft);
    direct_runs(&mut draft);
    direct_refusals(&mut draft);
    partly_used(&mut draft);
    bus_totals(&mut draft);
    let mut script = draft.bytes();
    // Three bytes of a run's operands.
    script.extend([0x06, 0x00, 0x00, 0x00]);
    script
}

fn load() -> Command {
    Command::Load(COUNTDOWN.to_vec())
}

/// Ticks, with the machine after each of a store's, and instructions.
fn stepping(draft: &mut Draft) {
    draft.add_all([load(), Command::Dump]);
    draft.add_all(vec![Command::Step; 4]);
    for _ in 0..7 {
        draft.add_all([Command::Micro, Command::Dump]);
    }
    draft.add_all(vec![Command::Step; 3]);
    draft.add(Command::Dump);
}

/// Each way in which a run stops.
fn runs(draft: &mut Draft) {
    draft.add_all([Command::Reset, Command::Run(99, vec![3, 8]), Command::Dump]);
    draft.add_all([Command::Run(99, vec![3]), Command::Run(99, vec![3])]);
    draft.add_all([
        run(99),
        Command::Dump,
        run(1),
        Command::Micro,
        Command::Step,
    ]);
    draft.add_all([Command::Reset, run(5), Command::Dump]);
    draft.add_all([Command::Load(vec![0x5123]), run(5), Command::Dump]);
    draft.add_all([Command::Load(vec![0x11FF; 300]), Command::Dump]);
}

/// Pushes past the limit, undoes past the empty history.
fn history(draft: &mut Draft) {
    draft.add_all([Command::New, load(), Command::Undo, Command::Push]);
    for _ in 0..3 {
        draft.add_all([Command::Step, Command::Step, Command::Micro]);
        draft.add_all([Command::Push, Command::Dump]);
    }
    draft.add_all([run(3), Command::Push, Command::Dump]);
    for _ in 0..3 {
        draft.add_all([Command::Undo, Command::Dump]);
    }
}

/// Bytes of the newest record that `undo` refuses, skips or takes.
fn changed_records(draft: &mut Draft) {
    let cases = [
        (snapshots::TICK, 7),
        (snapshots::HALTED, 2),
        (snapshots::FAULT_KIND, 3),
        (snapshots::FAULT_WORD, 0xAB),
        (snapshots::LAST, 0xCD),
        (snapshots::FAULT_KIND, 1),
    ];
    for (offset, value) in cases {
        draft.add_all([Command::New, load(), Command::Step, Command::Push]);
        draft.add_all([Command::Byte(offset as u32, value), Command::Undo]);
        draft.add(Command::Dump);
    }
    draft.add_all([run(99), Command::Dump]);
}

/// Fields over their bounds, each with a call that is refused and one that is
/// served when the field is back.
fn no_machines(draft: &mut Draft) {
    let cases = [
        (field::TICK, 7, 0),
        (field::TICK, 4, 1),
        (field::IMAGE_LENGTH, WORDS + 1, WORDS),
        (field::TRACE_COUNT, RECORDS + 1, 5),
        (field::TEXT_LENGTH, ROOM + 1, 9),
        (field::TOUCHED_COUNT, WORDS + 1, 0),
    ];
    for (field, over, back) in cases {
        draft.add_all([Command::New, load(), Command::Step]);
        draft.add_all([set(field, over), Command::Reset, Command::Push]);
        draft.add_all([set(field, back), Command::Micro]);
    }
    // A later record's text, and an address twice that is not live.
    let long_text = Command::Set(field::TEXT_LENGTH, 3, ROOM + 1);
    draft.add_all([Command::Micro, long_text, Command::Micro]);
    let behind = Command::Set(field::TOUCHED, 1, 0x20);
    draft.add_all([Command::New, load(), Command::Run(9, vec![5])]);
    draft.add_all([behind, Command::Micro]);
    draft.add(Command::Dump);
    draft.add_all([set(field::HISTORY_COUNT, 3), Command::Push, Command::Undo]);
    draft.add_all([Command::Micro, set(field::HISTORY_COUNT, 2), Command::Undo]);
    draft.add_all([
        Command::Dump,
        Command::Set(field::TOUCHED, 0, 0x20),
        Command::Set(field::TOUCHED, 1, 0x20),
        set(field::TOUCHED_COUNT, 2),
        Command::Clear,
        Command::Dump,
        Command::Set(field::TOUCHED, PLACES as u16 + 1, 0x21),
        Command::Step,
        Command::Dump,
    ]);
}

/// Control units that are a machine's, and such as are not.
fn control_units(draft: &mut Draft) {
    let cases = [
        (0, 4, 1, 0x6123),
        (0, 5, 1, 0x6123),
        (0, 4, 3, 0x6123),
        (0, 6, 3, 0x4120),
        (0, 4, 0, 0xE000),
        (0, 3, 9, 0x5000),
        (1, 6, 9, 0xE000),
        (1, 7, 0, 0x0000),
    ];
    for (halted, tick, execute_ticks, ir) in cases {
        draft.add_all([
            Command::New,
            load(),
            set(field::HALTED, halted),
            set(field::TICK, tick),
            set(field::EXECUTE_TICKS, execute_ticks),
            set(field::IR, ir),
            Command::Micro,
            Command::ClearHistory,
        ]);
    }
}

/// All addresses touched and a trace of the most records, both at their bounds
/// and over them. A text that fills its room is among the records.
fn full_lists(draft: &mut Draft) {
    let stores = (0x4100..0x4200).collect();
    draft.add_all([
        Command::New,
        Command::Load(stores),
        Command::Run(999, vec![0]),
    ]);
    draft.add_all([
        Command::Dump,
        set(field::TOUCHED_COUNT, WORDS + 1),
        Command::Micro,
    ]);
    draft.add_all([set(field::TOUCHED_COUNT, WORDS), Command::Micro]);
    draft.add_all([
        Command::Set(field::TOUCHED, PLACES as u16 - 1, 0x07),
        Command::Micro,
    ]);
    draft.add_all([set(field::TOUCHED_COUNT, WORDS - 1), Command::Micro]);
    let jumps = vec![0x1101, 0xD120, 0xD001];
    draft.add_all([Command::New, Command::Load(jumps), run(130)]);
    draft.add_all([
        set(field::HALTED, 0),
        set(field::TRACE_COUNT, RECORDS + 1),
        Command::Micro,
    ]);
    draft.add_all([
        set(field::TRACE_COUNT, RECORDS),
        Command::Step,
        Command::Dump,
    ]);
    draft.add_all([set(field::TRACE_COUNT, RECORDS - 1), Command::Step]);
    draft.add_all([
        set(field::TRACE_COUNT, 9),
        Command::Dump,
        Command::Step,
        Command::Dump,
    ]);
}

/// Refusals that stand before others, calls that have none, and a byte whose
/// offset goes round.
fn orders(draft: &mut Draft) {
    draft.add_all([Command::New, load(), set(field::TICK, 7), Command::Undo]);
    draft.add_all([
        set(field::TICK, 0),
        Command::Undo,
        set(field::HISTORY_COUNT, 3),
    ]);
    draft.add_all([Command::Undo, Command::Step, Command::Reset, Command::Clear]);
    draft.add_all([load(), set(field::IMAGE_LENGTH, 3), Command::Reset]);
    draft.add_all([Command::Byte(STORE as u32 + 5, 0x5A), Command::Dump]);
    draft.add_all([set(field::HALTED, 256), set(field::BUS_READS, u64::MAX)]);
    draft.add_all([Command::Micro, Command::Step, run(1), Command::Dump]);
    draft.add_all([set(field::HISTORY_COUNT, 65_537), Command::Dump]);
}

/// The counters around the largest count.
fn full_counters(draft: &mut Draft) {
    for counter in field::COUNTERS {
        draft.add_all([Command::New, load(), set(counter, FULL + 1)]);
        draft.add_all([Command::Micro, Command::Step, run(2), run(0)]);
        draft.add_all([Command::Reset, set(counter, FULL), Command::Step]);
        draft.add_all([
            Command::Micro,
            set(counter, FULL - 6),
            run(9),
            Command::Dump,
        ]);
    }
}

/// What keeps the history, and what drops it.
fn started_anew(draft: &mut Draft) {
    for anew in [
        Command::Reset,
        Command::Load(vec![HALT]),
        Command::Clear,
        Command::ClearHistory,
        Command::New,
    ] {
        draft.add_all([Command::New, load(), Command::Step, Command::Push]);
        draft.add_all([anew, Command::Undo, Command::Dump]);
    }
}

/// The direct engine's instruction: at the first tick, at every later one of an
/// instruction of seven, at HALT, at an unknown word, and on a halted machine.
fn direct_instructions(draft: &mut Draft) {
    draft.add_all([Command::New, load()]);
    draft.add_all(vec![Command::Direct; 5]);
    draft.add(Command::Dump);
    for ticks in 1..=6 {
        let words = vec![0x4120, 0x3320, HALT];
        draft.add_all([Command::New, Command::Load(words)]);
        draft.add_all(vec![Command::Micro; ticks]);
        draft.add_all(vec![Command::Direct; 3]);
        draft.add_all([Command::Dump, Command::Direct]);
    }
    let unknown = Command::Load(vec![0x5123]);
    draft.add_all([unknown, Command::Direct, Command::Dump, Command::Direct]);
}

/// Its run, by each way in which one stops, from the first tick and from a
/// later one; and one of many instructions, behind which a run goes on that the
/// fault of a spent budget does not stop.
fn direct_runs(draft: &mut Draft) {
    let run = |budget: u64, breakpoints: &[u8]| Command::DirectRun(budget, breakpoints.to_vec());
    draft.add_all([Command::New, load(), run(99, &[0, 3, 8]), Command::Dump]);
    draft.add_all([Command::Micro, run(99, &[3]), Command::Dump]);
    draft.add_all([run(99, &[]), Command::Dump, run(1, &[]), Command::Direct]);
    draft.add_all([Command::Reset, Command::Micro, run(1, &[]), Command::Dump]);
    draft.add_all([Command::Reset, run(0, &[]), Command::Dump]);
    draft.add_all([Command::Load(vec![0x1105, 0x5123]), run(5, &[])]);
    let looping = vec![0x1201, 0x6112, 0x4120, 0x3320, 0xD001];
    draft.add_all([Command::New, Command::Load(looping), run(700, &[0])]);
    draft.add_all([Command::Dump, set(field::HALTED, 0), Command::Direct]);
    draft.add_all([run(9, &[1]), Command::Dump]);
}

/// Refusals 8 and 9 of both; a run refused 9 keeps what it completed.
fn direct_refusals(draft: &mut Draft) {
    let run = |budget: u64| Command::DirectRun(budget, Vec::new());
    for (field, over) in [(field::TICK, 7), (field::IMAGE_LENGTH, WORDS + 1)] {
        draft.add_all([Command::New, load(), Command::Step, set(field, over)]);
        draft.add_all([Command::Direct, run(3), Command::Dump]);
    }
    for counter in field::COUNTERS {
        draft.add_all([Command::New, load(), set(counter, FULL + 1)]);
        draft.add_all([Command::Direct, run(2), run(0), Command::Direct]);
        draft.add_all([Command::Reset, set(counter, FULL), Command::Direct]);
        draft.add_all([set(counter, FULL - 6), run(99), Command::Dump]);
    }
}

/// The texts that may end in the word, by both engines: of the instruction that
/// is made, of the one behind it where another is under way, and of the one
/// behind HALT. Each image says in ASCII that it is invented.
fn partly_used(draft: &mut Draft) {
    let load = |words: &[u16]| Command::Load([words, &saying_invented()].concat());
    for step in [Command::Step, Command::Direct] {
        for word in PARTLY_USED {
            draft.add_all([load(&[word]), step.clone()]);
        }
        draft.add(load(&[0x4120, 0x2F12]));
        draft.add_all(vec![Command::Micro; 4]);
        draft.add_all([step.clone(), step.clone()]);
        draft.add_all([load(&[0xEABC, 0x7011]), step.clone(), step, Command::Dump]);
    }
}

/// Document 01's example 11, by a run: 6 bus reads and 2 bus writes. Then the same
/// program with 16 ticks that are undone before the run. These are LOAD [yz] and
/// STORE, and LOAD yz up to its second fetch tick: 4 reads and a write, so that the
/// bus counters come to 10 and 3, while instructions and micro operations are those
/// of the run alone. Behind what the stores reach the second image says in ASCII
/// that it is invented.
fn bus_totals(draft: &mut Draft) {
    let image = example_11().image;
    let saying = [&image[..], &[0; 2], &saying_invented()].concat();
    draft.add_all([Command::Load(image), run(9), Command::Dump]);
    draft.add_all([Command::Load(saying), Command::Push]);
    draft.add_all(vec![Command::Micro; 16]);
    draft.add_all([Command::Undo, run(9), Command::Dump]);
}
