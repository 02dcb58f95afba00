//! The programs that end around the ends of stretches, and the families made of
//! them: they come to what their makers say, where they say it.

use oracle::calls::commands::{field, Command};
use oracle::calls::program::{self, Part};
use oracle::calls::scripts;
use oracle::calls::snapshots::is_lawful;
use oracle::countdowns::{self, bound, bound_of, countdown, out, BODIES, BOUNDS, OUT, OUTS};
use oracle::report::guarded::{self, Stop};
use oracle::report::inputs;
use oracle::vm::Machine;
use std::collections::HashSet;

const FULL: u64 = 18_446_744_073_709_551_600;

/// Where a dump has the tick, execute ticks and halted, and the counters.
const CONTROL: usize = 39;
const COUNTERS: usize = 46;

fn number(bytes: &[u8]) -> u64 {
    u64::from_be_bytes(bytes.try_into().unwrap())
}

/// A run's breakpoints and its whole answer; none of another command.
fn run(part: &Part) -> Option<(&[u8], &[u8])> {
    match &part.command {
        Some(Command::Run(_, breakpoints) | Command::DirectRun(_, breakpoints)) => {
            Some((breakpoints, &part.answer))
        }
        _ => None,
    }
}

#[test]
fn bounds_are_around_one_and_multiples_of_256() {
    let bounds: Vec<usize> = (0..BOUNDS).map(bound).collect();
    let due = [250..=264, 506..=520, 762..=776, 1_018..=1_032];
    assert_eq!(bounds, due.into_iter().flatten().collect::<Vec<usize>>());
}

/// Each rest has every bound once.
#[test]
fn cases_have_every_bound() {
    let all = (0..3 * BOUNDS).map(bound_of).collect::<HashSet<_>>();
    let due = (0..3).flat_map(|rest| (0..BOUNDS).map(move |at| (bound(at), rest)));
    assert_eq!(all, due.collect());
}

#[test]
fn countdowns_come_out_when_they_say() {
    for body in BODIES {
        for instructions in (0..BOUNDS).map(bound).chain([30, 31, 50, 1_100]) {
            let mut machine = Machine::new();
            machine.load_image(&countdown(instructions, body, &[0xE000]));
            for _ in 0..instructions {
                assert_ne!(u16::from(machine.pc), OUT);
                machine.step_instruction();
            }
            assert_eq!(u16::from(machine.pc), OUT);
            assert!(!machine.halted);
        }
    }
}

/// No two turns of a body that does something leave the same words, so that a
/// turn too many or too few shows.
#[test]
fn bodies_change_the_machine() {
    for body in &BODIES[1..] {
        let mut machine = Machine::new();
        machine.load_image(&countdown(5_000, body, &[0xE000]));
        let mut seen = HashSet::new();
        for turn in 0..40 {
            machine.run(400, &[countdowns::LOOP as u8]);
            seen.insert([&machine.registers[3..], &machine.memory[..]].concat());
            assert_eq!(seen.len(), turn + 1, "{body:X?}");
        }
    }
}

#[test]
fn runs_end_at_their_bounds() {
    let stops = [0, 2, 1, 1, 0, 0, 2, 0];
    assert_eq!(stops.len(), OUTS);
    for number_of in (0..scripts::stretches::END_SCRIPTS).step_by(7) {
        let parts = program::parts(&scripts::stretches::ends(number_of));
        let runs: Vec<_> = parts.iter().filter_map(run).collect();
        assert_eq!(runs.len(), 6);
        let (begun, rest) = bound_of(number_of);
        let kind = rest / BODIES.len();
        let ends_by_breakpoint = out(kind, BODIES[0]).breakpoint.is_some();
        for (breakpoints, answer) in runs {
            assert_eq!(answer[0], 0);
            if !breakpoints.is_empty() || !ends_by_breakpoint {
                assert_eq!(answer[1], stops[kind]);
                assert_eq!(number(&answer[3..]), begun as u64);
            }
        }
        assert!(matches!(parts.last().unwrap().command, Some(Command::Dump)));
    }
}

/// The ample budget is refused, as is the one that is just large enough; the
/// one below it is spent. What was completed is kept.
#[test]
fn full_counters_refuse_where_they_say() {
    for number_of in (0..scripts::stretches::FULL_SCRIPTS).step_by(5) {
        let parts = program::parts(&scripts::stretches::full(number_of));
        let refusals: Vec<u8> = parts.iter().filter_map(run).map(|run| run.1[0]).collect();
        assert_eq!(refusals, [9, 9, 0, 0, 9, 9], "{number_of}");
        let counter = number_of / scripts::stretches::DISTANCES % field::COUNTERS.len();
        let at = COUNTERS + 8 * counter;
        for part in parts
            .iter()
            .filter(|part| part.command == Some(Command::Dump))
        {
            let count = number(&part.answer[at..at + 8]);
            assert!((FULL + 1..=FULL + 7).contains(&count), "{number_of}");
        }
    }
}

/// Every tick is there, running; refusals 8 and 9, and halted machines, too.
#[test]
fn direct_scripts_have_states_of_every_kind() {
    let (mut ticks, mut refusals, mut halted) = ([0; 7], [0; 10], 0);
    for number_of in 0..400 {
        let script = scripts::direct::any(number_of);
        let mut shown = script[..4].to_vec();
        for part in program::parts(&script) {
            let command = part.command.unwrap();
            if matches!(command, Command::Direct | Command::DirectRun(..)) {
                refusals[usize::from(part.answer[0])] += 1;
                let before = [&shown[..], &Command::Dump.bytes()].concat();
                let dump = program::parts(&before).pop().unwrap().answer;
                let ir = u16::from_be_bytes([dump[1], dump[2]]);
                let [tick, execute_ticks, is_halted] = dump[CONTROL..CONTROL + 3] else {
                    panic!("a dump has them")
                };
                halted += usize::from(is_halted);
                if is_halted == 0 && is_lawful(false, tick, execute_ticks, ir) {
                    ticks[usize::from(tick)] += 1;
                }
            }
            shown.extend(command.bytes());
        }
    }
    assert!(ticks.iter().all(|count| *count > 40), "{ticks:?}");
    assert!(refusals[0] > 500 && refusals[8] > 40 && refusals[9] > 20);
    assert!(halted > 100);
}

/// What a case of the guarded runs comes to, and behind which body.
fn met_of(number: usize) -> (usize, usize) {
    let (rest, bodies) = (number / BOUNDS, inputs::stretches::BODIES.len());
    (rest / bodies, rest % bodies)
}

/// All six stops are there at every bound.
#[test]
fn guarded_runs_stop_at_their_bounds() {
    let mut stops = HashSet::new();
    for number_of in 0..inputs::stretches::END_CASES {
        let begun = bound_of(number_of).0 as u64;
        let (met, body) = met_of(number_of);
        // The test of the jump on RD is hidden in some of the bodies alone.
        let hangs_on_the_body = met == OUTS + 4;
        // Each bound with one body of four.
        if hangs_on_the_body || body as u64 != begun % 4 {
            continue;
        }
        let inputs = inputs::stretches::ends(number_of);
        let run = guarded::run(&inputs[1]).expect("it is served");
        assert_eq!(run.executed, begun, "{number_of}");
        stops.insert((begun, run.stop as u8));
        let spent = guarded::run(&inputs[3]).expect("it is served");
        assert_eq!((spent.stop, spent.executed), (Stop::Budget, begun - 1));
        stops.insert((begun, spent.stop as u8));
    }
    assert_eq!(stops.len(), 6 * BOUNDS);
}

/// Behind every loop: HALT behind a jump on a cleared register, and behind one on
/// R2 with R0 cleared; a hidden test where a shift was one short; and a word that
/// is none, where a cleared register was stored over a hidden HALT.
#[test]
fn cleared_registers_at_the_bounds() {
    let stops = [Stop::Halted, Stop::Halted, Stop::HiddenTest, Stop::Fault];
    let bodies = inputs::stretches::BODIES.len();
    let first = inputs::stretches::CLEARED * bodies * BOUNDS;
    assert_eq!(inputs::stretches::END_CASES, first + 4 * bodies * BOUNDS);
    for number_of in (first..inputs::stretches::END_CASES).step_by(7) {
        let (met, _) = met_of(number_of);
        let run = guarded::run(&inputs::stretches::ends(number_of)[0]).expect("it is served");
        let due = stops[met - inputs::stretches::CLEARED];
        let begun = bound_of(number_of).0 as u64;
        assert_eq!((run.stop, run.executed), (due, begun), "{number_of}");
    }
}
