//! The model of `massey_calls` itself, held to sentences of document 01 and of
//! the call program's document, by answers that are written out here.

use oracle::calls::commands::{by_both_engines, field, run, script, set, Command, Input};
use oracle::calls::program;
use oracle::calls::scripts::{limits, FAMILIES};
use oracle::calls::snapshots::{self, RECORD};
use oracle::places;
use oracle::vm_limited::{Fault, FaultKind, Machine};

const FULL: u64 = 18_446_744_073_709_551_600;

/// The first byte of each call's answer.
fn numbers(script: &[u8]) -> Vec<u8> {
    let is_call = |command: &Command| !(0x0A..=0x0C).contains(&command.number());
    program::parts(script)
        .iter()
        .filter(|part| part.command.as_ref().is_none_or(is_call))
        .map(|part| part.answer[0])
        .collect()
}

#[test]
fn the_copy_is_the_original_and_one_line() {
    let source = places::from_root("MASSEY_SRC", "../shared/docs/src");
    let original = std::fs::read_to_string(source.join("crates/massey-core/src/vm.rs")).unwrap();
    let copy = include_str!(concat!(env!("OUT_DIR"), "/vm_limited.rs"));
    let more = copy
        .strip_prefix(&original)
        .expect("it begins as vm.rs does");
    assert_eq!(more.lines().count(), 1);
}

#[test]
fn example_16() {
    assert_eq!(numbers(&limits::example_16(0)), [0, 7, 0, 7, 0, 7, 7]);
    assert_eq!(numbers(&limits::example_16(1)), [0, 0, 0, 0, 0, 0, 10]);
}

#[test]
fn a_record_has_the_fields_of_a_snapshot_in_their_order() {
    assert_eq!((RECORD, snapshots::LAST), (576, 574));
    let mut machine = Machine::new();
    assert_eq!(snapshots::written(&machine.snapshot()), [0; RECORD]);
    machine.pc = 0x01;
    machine.ir = 0x0203;
    machine.registers[15] = 0x0405;
    machine.mar = 0x06;
    machine.mdr = 0x0708;
    machine.instruction_address = 0x09;
    machine.tick = 5;
    machine.execute_ticks = 0x0A;
    machine.halted = true;
    machine.fault = Some(Fault {
        kind: FaultKind::StepBudgetExhausted,
        word: 0x0B0C,
        address: 0x0D,
    });
    machine.instructions = 0x0E;
    machine.micro_operations = 0x0F;
    machine.memory[0] = 0x1011;
    machine.memory[255] = 0x1213;
    let record = snapshots::written(&machine.snapshot());
    let mut due = vec![0; RECORD];
    due[..3].copy_from_slice(&[1, 2, 3]);
    due[33..46].copy_from_slice(&[4, 5, 6, 7, 8, 9, 5, 0x0A, 1, 2, 0x0B, 0x0C, 0x0D]);
    due[53] = 0x0E;
    due[61] = 0x0F;
    due[62..64].copy_from_slice(&[0x10, 0x11]);
    due[572..574].copy_from_slice(&[0x12, 0x13]);
    assert_eq!(record, due);
    assert_eq!(snapshots::read(&record), Some(machine.snapshot()));
}

#[test]
fn a_record_is_refused_where_the_document_says() {
    let with = |offset: usize, value: u8| {
        let mut record = [0; RECORD];
        record[offset] = value;
        snapshots::read(&record).is_some()
    };
    assert!(with(snapshots::TICK, 3) && !with(snapshots::TICK, 4) && !with(snapshots::TICK, 7));
    assert!(with(snapshots::HALTED, 1) && !with(snapshots::HALTED, 2));
    assert!(with(snapshots::FAULT_KIND, 2) && !with(snapshots::FAULT_KIND, 3));
    assert!(with(snapshots::FAULT_WORD, 9) && with(snapshots::LAST + 1, 9));
}

#[test]
fn states_that_are_no_machine() {
    let refused = |sets: &[Command]| {
        let load = Command::Load(vec![0x1101, 0x4120]);
        let start = [load, Command::Step, Command::Step];
        let calls = [Command::ClearHistory, Command::New, Command::ClearHistory];
        let commands = [&start[..], sets, &calls].concat();
        let numbers = numbers(&script(0, &commands));
        assert_eq!(numbers[4..], [0, 0], "only a new machine leads out");
        numbers[3] == 8
    };
    let running = |tick: u64, execute_ticks: u64, ir: u64| {
        [
            set(field::TICK, tick),
            set(field::EXECUTE_TICKS, execute_ticks),
            set(field::IR, ir),
        ]
    };
    assert!(!refused(&running(3, 9, 0)) && refused(&running(7, 9, 0)));
    assert!(!refused(&running(6, 3, 0x3000)) && refused(&running(6, 2, 0x3000)));
    assert!(!refused(&running(4, 1, 0x6000)) && refused(&running(5, 1, 0x6000)));
    assert!(refused(&running(4, 0, 0xE000)) && refused(&running(4, 1, 0xE000)));
    let halted = |tick: u64| [&running(tick, 9, 0)[..], &[set(field::HALTED, 1)]].concat();
    assert!(!refused(&halted(6)) && refused(&halted(7)));
    let bounds = [(field::IMAGE_LENGTH, 256), (field::TEXT_LENGTH, 32)];
    for (field, most) in bounds {
        assert!(!refused(&[set(field, most)]) && refused(&[set(field, most + 1)]));
    }
    assert!(refused(&[set(field::TRACE_COUNT, 513)]));
    assert!(refused(&[set(field::TOUCHED_COUNT, 257)]));
    let second = |address: u64| {
        let place = Command::Set(field::TOUCHED, 1, address);
        [place, set(field::TOUCHED_COUNT, 2)]
    };
    assert!(!refused(&second(0x21)) && refused(&second(0x20)));
    assert!(
        !refused(&second(0x20)[..1]),
        "what is not live does not count"
    );
    assert!(!refused(&[set(field::HISTORY_COUNT, 9)]));
}

#[test]
fn full_counters() {
    let load = Command::Load(vec![0x6000, 0x6000, 0xE000]);
    let steps = [Command::Micro, Command::Step, Command::Direct];
    let runs = [run(0), run(0).direct()];
    for counter in field::COUNTERS {
        for (count, due) in [(FULL, 0), (FULL + 1, 9), (u64::MAX, 9)] {
            let start = [load.clone(), set(counter, count)];
            let first = |call: &Command| {
                numbers(&script(
                    0,
                    &[&start[..], std::slice::from_ref(call)].concat(),
                ))[1]
            };
            assert_eq!(steps.each_ref().map(first), [due; 3]);
            assert_eq!(runs.each_ref().map(first), [0; 2]);
        }
    }
    // Five ticks are made, and then none.
    let start = [load, set(field::MICRO_OPERATIONS, FULL - 4)];
    let behind = [run(9), run(1), set(field::HALTED, 1), Command::Micro];
    for behind in by_both_engines(behind.to_vec()) {
        assert_eq!(
            numbers(&script(0, &[&start[..], &behind].concat())),
            [0, 9, 9, 0]
        );
    }
}

#[test]
fn the_order_of_the_refusals() {
    let bad = set(field::TICK, 7);
    let both = [Command::Push, Command::Undo];
    let of = |store: u32, first: &[Command]| numbers(&script(store, &[first, &both].concat()));
    assert_eq!(of(575, std::slice::from_ref(&bad)), [7, 7]);
    assert_eq!(of(576, std::slice::from_ref(&bad)), [8, 8]);
    assert_eq!(of(576, &[set(field::HISTORY_COUNT, 2)]), [8, 8]);
    let undo = script(576, &[Command::Undo, bad, Command::Undo]);
    assert_eq!(numbers(&undo), [10, 8]);
}

#[test]
fn malformed_scripts() {
    assert_eq!(program::output(&[]), [0xFF]);
    assert_eq!(program::output(&[0, 0, 0]), [0xFF]);
    assert_eq!(program::output(&[0, 0, 0, 0]), []);
    assert_eq!(program::output(&[0, 1, 0, 0, 9]), [0]);
    assert_eq!(program::output(&[0, 1, 0, 1, 9]), [0xFF]);
    assert_eq!(program::output(&[0, 0, 0, 0, 9, 0x0F, 9]), [0, 0xFF]);
    assert_eq!(
        program::output(&[0, 0, 0, 0, 9, 1, 0, 2, 0, 0, 0]),
        [0, 0xFF]
    );
    let mut longest = vec![9; 262_144];
    longest[..4].fill(0);
    assert_eq!(program::output(&longest).len(), 262_140);
    longest.push(9);
    assert_eq!(program::output(&longest), [0xFF]);
}

#[test]
fn the_direct_engine_as_bytes() {
    let run = Command::DirectRun(0x0102, vec![3, 4]);
    let whole = [0x0E, 0, 0, 0, 0, 0, 0, 1, 2, 0, 2, 3, 4];
    assert_eq!(run.bytes(), whole);
    assert_eq!(Command::Direct.bytes(), [0x0D]);
    for command in [run, Command::Direct] {
        assert_eq!(Input(&command.bytes()).command(), Some(command));
    }
    for cut in 1..whole.len() {
        assert_eq!(Input(&whole[..cut]).command(), None);
        let script = [&[0, 0, 0, 0, 9], &whole[..cut]].concat();
        assert_eq!(program::output(&script), [0, 0xFF]);
    }
}

/// Its answers are those of `step_instruction` and `run`.
#[test]
fn the_direct_engine_answers() {
    let load = Command::Load(vec![0x1105, 0xE000]);
    let parts = program::parts(&script(0, &[load.clone(), Command::Direct]));
    let answer = &parts[1].answer;
    assert_eq!(answer[..5], [0, 0, 0x11, 0x05, b'L']);
    assert_eq!((answer[36], answer.len()), (5, 37 + 5 * 32 + 2));
    let runs = [
        (run(9), [0, 0, 0, 2]),
        (Command::Run(9, vec![0, 1]), [0, 1, 1, 1]),
        (run(1), [0, 3, 0, 1]),
        (run(0), [0, 3, 0, 0]),
    ];
    for (call, [refusal, stop, address, executed]) in runs {
        let parts = program::parts(&script(0, &[load.clone(), call.direct()]));
        let due = [refusal, stop, address, 0, 0, 0, 0, 0, 0, 0, executed];
        assert_eq!(parts[1].answer, due);
    }
    let again = [load, run(9).direct(), run(9).direct()];
    let parts = program::parts(&script(0, &again));
    assert_eq!(parts[2].answer, [0, 6, 0, 0, 0, 0, 0, 0, 0, 0, 0]);
}

/// A script that asks for what is not fixed stops the model.
#[test]
fn the_scripts_ask_what_is_fixed() {
    for family in &FAMILIES {
        let count = (family.count)();
        for number in (0..count).step_by(1 + count / 40) {
            let script = (family.script)(number);
            assert!(!program::output(&script).is_empty() || script.len() == 4);
        }
    }
}
