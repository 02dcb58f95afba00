//! How many words are hidden, document 02, Change 6: the model's record of kind 0A, by
//! answers that are written out here; and what the families come to, whose reports must
//! have the count that is due after so many instructions.

use oracle::report::bytes::{self, LONGEST};
use oracle::report::guarded::{self, Input, Stop};
use oracle::report::inputs::examples::{self, input, owners_at, with_word_10};
use oracle::report::inputs::{count_loops, counts, random, sample, Relation, FAMILIES};
use oracle::report::owners::{hidden_from, Owners};
use oracle::report::program::{self, answer, served};
use oracle::report::totals::{self, Said};
use oracle::vm::Machine;
use std::collections::HashSet;

const HALT: u16 = 0xE000;

fn report(input: &Input) -> Vec<u8> {
    bytes::report(input).expect("it is served")
}

/// The last record, as the document has it: its kind, and two bytes, high byte first.
fn last(count: u16) -> [u8; 3] {
    [0x0A, (count / 256) as u8, (count % 256) as u8]
}

/// What a report ends in.
fn ends_in(input: &Input, count: u16) -> bool {
    report(input).ends_with(&last(count))
}

/// The final words that a report shows to have an owner outside the clearance in its head.
/// The kinds' lengths are written out, so that nothing is taken from the model; kind 08
/// stands before kind 0A, and that is last.
fn hidden_words(report: &[u8]) -> usize {
    let (mut rest, mut hidden, mut last) = (report, 0, 0);
    let clearance = report[13];
    while let Some(kind) = rest.first() {
        let length = match kind {
            9 => 14,
            2 => 37,
            3 | 7 => 2,
            4 => 43,
            5 | 6 => 5,
            8 => 45,
            0x0A => 3,
            _ => panic!("no record has the kind {kind}"),
        };
        // The head is the first, whatever its kind.
        let place = if *kind == 9 { 1 } else { *kind };
        assert!(last <= place, "kind {kind} stands behind kind {last}");
        hidden += usize::from(*kind == 6 && rest[2] & !clearance != 0);
        (last, rest) = (place, &rest[length..]);
    }
    assert_eq!(last, 0x0A);
    hidden
}

// -- document 01's examples -------------------------------------------------

#[test]
fn the_examples() {
    for (name, input, count) in [
        ("10", examples::example_10(), 0),
        ("11", examples::example_11(), 2),
        ("12", examples::example_12(), 1),
        ("13", examples::example_13(), 1),
        ("14", examples::example_14(), 0),
        ("15", examples::example_15()[0].clone(), 0),
        ("the longest", examples::longest_report(), 0),
        ("hidden", examples::longest_hidden_report(), 255),
    ] {
        assert!(ends_in(&input, count), "{name}");
    }
}

/// Its whole end, and its length: three bytes more than before Change 6, and one more by
/// Change 7.
#[test]
fn example_14() {
    let report = report(&examples::example_14());
    assert_eq!(report.len(), 11_066);
    let due = [
        [8, 2, 1, 0, 0, 0, 0, 0, 0].to_vec(),
        [0, 0, 0, 0, 0, 0, 0, 0, 0, 0, 0, 0, 0, 0, 0, 4].to_vec(),
        [0, 0, 0, 0, 0, 0, 0, 1, 0, 0, 0, 0, 0, 0, 0, 0].to_vec(),
        [1, 0, 0, 0].to_vec(),
        [0x0A, 0, 0].to_vec(),
    ];
    assert_eq!(report[11_018..], due.concat());
}

/// The buffer that is due, and a report that fills it.
#[test]
fn the_longest_report() {
    assert_eq!(LONGEST, 33_934);
    assert_eq!(report(&examples::longest_report()).len(), 33_934);
}

// -- after each instruction -------------------------------------------------

/// Holds a program to the count at the start and after each of its instructions, with
/// every budget, and to its stop where the budget is not spent.
fn counts(input: &Input, due: &[u16], stop: Stop) {
    let all = Input {
        budget: 100,
        ..input.clone()
    };
    let found = guarded::hidden_counts(&all).expect("it is served");
    assert_eq!(
        found,
        due.iter().map(|due| *due as usize).collect::<Vec<_>>()
    );
    assert_eq!(guarded::run(&all).unwrap().stop, stop, "{due:?}");
    for budget in 0..due.len() + 2 {
        let count = due[budget.min(due.len() - 1)];
        let budget = budget as u64;
        let cut = Input {
            budget,
            ..input.clone()
        };
        assert!(ends_in(&cut, count), "{due:?}, budget {budget}");
    }
}

/// Some code with a word at 10, of which these addresses are hidden.
fn counts_of(code: &[u16], marked: &[u8], due: &[u16], stop: Stop) {
    counts(&input(&with_word_10(code, 0x5EC7), marked, 0), due, stop);
}

/// Example 11: word 11 is hidden by the second instruction, word 12 stays open.
#[test]
fn example_11_after_each_instruction() {
    let due = [1, 1, 2, 2, 2, 2];
    counts(&examples::example_11(), &due, Stop::Halted);
}

/// R1 is hidden and R2 is open: each over a hidden word and over an open one.
#[test]
fn every_case_of_a_store() {
    let halted = Stop::Halted;
    // Hidden over open, and over what it hid.
    counts_of(
        &[0x3110, 0x4111, 0x4111, HALT],
        &[0x10],
        &[1, 1, 2, 2, 2],
        halted,
    );
    // Open over hidden, and over what it opened: R1 stays hidden, and no word is.
    counts_of(
        &[0x3110, 0x4210, 0x4210, HALT],
        &[0x10],
        &[1, 1, 0, 0, 0],
        halted,
    );
    // Hidden over hidden.
    counts_of(&[0x3110, 0x4110, HALT], &[0x10], &[1, 1, 1, 1], halted);
    counts_of(
        &[0x3110, 0x4111, HALT],
        &[0x10, 0x11],
        &[2, 2, 2, 2],
        halted,
    );
    // Open over open.
    counts_of(&[0x4110, 0x4211, HALT], &[], &[0, 0, 0, 0], halted);
    // Down to none and up again, from a register that is hidden.
    counts_of(
        &[0x3110, 0x4210, 0x4111, 0x4110, 0x4211, 0x4210, HALT],
        &[0x10],
        &[1, 1, 0, 1, 2, 1, 0, 0],
        halted,
    );
    // A cleared register is open, and so opens the word (Change 2).
    counts_of(
        &[0x3110, 0xC111, 0x4110, HALT],
        &[0x10],
        &[1, 1, 1, 0, 0],
        halted,
    );
    // The first address and the last.
    counts_of(
        &[0x31FF, 0x4100, 0x42FF, HALT],
        &[0xFF],
        &[1, 1, 2, 1, 1],
        halted,
    );
}

/// A store over its own word, over one that is come to, and over one that was.
#[test]
fn stores_over_the_code() {
    counts_of(
        &[0x3110, 0x4101, 0x4202, HALT],
        &[0x10],
        &[1, 1, 2, 2, 2],
        Stop::Halted,
    );
    counts_of(
        &[0x3110, 0x4101, 0xD001],
        &[0x10],
        &[1, 1, 2, 2],
        Stop::HiddenWord,
    );
    counts_of(
        &[0x3110, 0x4100, 0xD000],
        &[0x10],
        &[1, 1, 2, 2],
        Stop::HiddenWord,
    );
    counts_of(
        &[0x3110, 0x4103, 0x1200, HALT],
        &[0x10],
        &[1, 1, 2, 2],
        Stop::HiddenWord,
    );
    // Opened, and no instruction from then on.
    counts_of(
        &[0x1105, 0x4102, HALT],
        &[2, 0x10],
        &[2, 2, 1, 1],
        Stop::Fault,
    );
}

/// Registers and MDR are hidden, and no word more.
#[test]
fn registers_and_mdr_are_not_counted() {
    let loads = [0x3110, 0x3210, 0x3311, 0x6412, 0x2051, 0x3010, HALT];
    counts_of(&loads, &[0x10], &[1; 8], Stop::Halted);
    counts_of(&loads, &[0x10, 0x12, 0xFF], &[3; 8], Stop::Halted);
    // The run ends where MDR is hidden behind a load, and behind a store.
    let stopped = |budget| input(&with_word_10(&[0x3110, 0x4111], 7), &[0x10], budget);
    for (budget, count) in [(1, 1), (2, 2)] {
        let run = guarded::run(&stopped(budget)).unwrap();
        assert_eq!([run.owners.mdr, run.owners.registers[1]], [1, 1]);
        assert!(ends_in(&stopped(budget), count));
    }
}

/// Every stop right behind a store, and one before the first instruction.
#[test]
fn counts_at_each_stop() {
    let due = [1, 1, 2];
    counts_of(&[0x3110, 0x4111, 0xD105], &[0x10], &due, Stop::HiddenTest);
    counts_of(&[0x3110, 0x4111], &[0x10, 2], &[2, 2, 3], Stop::HiddenWord);
    // HALT and words without an opcode begin an instruction more.
    let due = [1, 1, 2, 2];
    counts_of(&[0x3110, 0x4111, HALT], &[0x10], &due, Stop::Halted);
    counts_of(&[0x3110, 0x4111, 0x5000], &[0x10], &due, Stop::Fault);
    counts_of(&[0x3110, 0x4111], &[0x10], &due, Stop::Fault);
    counts_of(&[HALT], &[0], &[1], Stop::HiddenWord);
    let stopped = Input {
        breakpoints: vec![2],
        ..input(&with_word_10(&[0x3110, 0x4111, HALT], 7), &[0x10], 0)
    };
    counts(&stopped, &[1, 1, 2], Stop::Breakpoint);
}

/// Marks outside of the image are counted, and so many that two bytes are due.
#[test]
fn nearly_all_words_are_hidden() {
    let all_but = |open: &[(usize, u16)]| {
        let mut image = vec![0x5EC7; 256];
        let mut owners = vec![1; 256];
        for (address, word) in open {
            (image[*address], owners[*address]) = (*word, 0);
        }
        Input {
            owners,
            ..input(&image, &[], 0)
        }
    };
    counts(&all_but(&[]), &[256], Stop::HiddenWord);
    counts(&all_but(&[(1, HALT)]), &[255], Stop::HiddenWord);
    counts(&all_but(&[(0, HALT)]), &[255, 255], Stop::Halted);
    counts(&all_but(&[(0, 0x4180)]), &[255, 254], Stop::HiddenWord);
    counts(&all_but(&[(0, 0x4100)]), &[255, 255], Stop::HiddenWord);
    counts(&all_but(&[(0, 0x4101)]), &[255, 254, 254], Stop::Fault);
    let two = all_but(&[(0, 0x31FF), (1, 0x4100)]);
    counts(&two, &[254, 254, 255], Stop::HiddenWord);
    let empty = Input {
        owners: vec![1; 256],
        ..input(&[], &[], 9)
    };
    assert!(report(&empty).ends_with(&[0x0A, 0x01, 0x00]));
    assert!(report(&all_but(&[(1, HALT)])).ends_with(&[0x0A, 0x00, 0xFF]));
}

// -- long runs --------------------------------------------------------------

/// Four instructions lead into the loop, and the sixth of each seven is the store. The
/// last word is hidden from the start, until the second time that it is stored to.
#[test]
fn up_and_down_again() {
    let counts = guarded::hidden_counts(&count_loops::tides(4_000)).unwrap();
    for (turn, count) in [
        (1, 2),
        (2, 3),
        (127, 128),
        (128, 128),
        (129, 127),
        (255, 1),
        (256, 0),
        (257, 1),
        (384, 128),
        (385, 127),
        (512, 0),
    ] {
        let begun = 4 + 7 * (turn - 1) + 6;
        assert_eq!(counts[begun], count, "turn {turn}");
        assert!(ends_in(&count_loops::tides(begun as u64), count as u16));
    }
    assert_eq!(counts[..10], [1; 10]);
}

/// Three instructions lead into a loop of five. It stores to 08 and to all behind it, and
/// then from 00 to its own begin at 03, which is 252 turns.
#[test]
fn through_memory() {
    let (hidden, opened) = ((Stop::HiddenWord, 1_263), (Stop::Fault, 1_264));
    let due = [
        (hidden, 1, 252),
        (opened, 1, 248),
        (opened, 248, 0),
        (hidden, 248, 4),
        (hidden, 128, 252),
        (opened, 128, 0),
    ];
    assert_eq!(due.len(), count_loops::SWEEPS);
    for (number, (end, first, last)) in due.into_iter().enumerate() {
        let sweep = count_loops::sweep(number);
        let run = guarded::run(&sweep).unwrap();
        assert_eq!((run.stop, run.executed), end, "{number}");
        assert!(ends_in(&sweep, last), "{number}");
        let counts = guarded::hidden_counts(&sweep).unwrap();
        assert_eq!(counts[0], first, "{number}");
        // Each turn moves it by one or not at all, by its fourth instruction.
        for (at, two) in counts.windows(2).enumerate() {
            let stored = at >= 3 && (at - 3) % 5 == 3;
            assert!(two[0].abs_diff(two[1]) <= usize::from(stored), "{number}");
        }
    }
}

// -- what a report says -----------------------------------------------------

#[test]
fn what_is_read_from_a_report() {
    let said = |begun, hidden_words| {
        Some(Said {
            begun,
            hidden_words,
        })
    };
    let read = |input: &Input| Said::by(&report(input));
    assert_eq!(read(&examples::example_11()), said(5, 2));
    // An unknown word is begun, though it is not counted; a spent budget begins nothing.
    assert_eq!(read(&examples::example_13()), said(2 + 1, 1));
    assert_eq!(read(&examples::example_14()), said(1, 0));
    assert_eq!(read(&input(&[HALT], &[7], 0)), said(0, 1));
    assert_eq!(read(&input(&[HALT], &[0], 9)), said(0, 1));
    let report = report(&examples::example_11());
    let (before, end) = report.split_at(report.len() - 48);
    assert_eq!(Said::by(end), said(5, 2));
    for other in [
        &report[..report.len() - 1],
        &report[..report.len() - 3],
        &[before, &end[45..], &end[..45]].concat(),
        &end[1..],
        &program::refused(6),
        &[],
    ] {
        assert_eq!(Said::by(other), None, "{} bytes", other.len());
    }
    let said = said(5, 2).unwrap();
    assert!(said.is_due(&[1, 1, 2, 2, 2, 2]));
    assert!(!said.is_due(&[1, 1, 2, 2, 2, 1]) && !said.is_due(&[1, 1, 2, 2, 2]));
}

// -- the families -----------------------------------------------------------

/// Each case of these families, but of one that is large each so many-th.
fn cases(name: &str) -> impl Iterator<Item = Vec<Vec<u8>>> {
    let families = FAMILIES
        .iter()
        .filter(|family| family.relation == Relation::Counted);
    let family = families.into_iter().find(|family| family.name == name);
    let family = family.expect("there is such a family");
    let step = if name == "stretch_ends" { 11 } else { 1 };
    let inputs = family.inputs;
    (0..(family.count)()).step_by(step).map(inputs)
}

/// The families whose cases are one program with several ends.
const COUNTED: [&str; 10] = [
    "budgets",
    "stretch_ends",
    "count_stores",
    "count_stops",
    "count_marks",
    "count_straight",
    "count_sweeps",
    "count_stretches",
    "count_long",
    "owner_stores",
];

/// Each report ends in the count that the longest run of its case has after as many
/// instructions, and in as many as its final words are hidden.
fn hold(name: &str) {
    for (number, inputs) in cases(name).enumerate() {
        let due = totals::due(&inputs);
        for (index, bytes) in inputs.iter().enumerate() {
            let report = answer(bytes);
            let said = Said::by(&report).expect("it is a report");
            assert!(said.is_due(&due), "{name} {number}, {index}: {said:?}");
            let hidden = hidden_words(&report) as u64;
            assert_eq!(said.hidden_words, hidden, "{name} {number}, {index}");
        }
    }
}

#[test]
fn every_counted_family_is_named() {
    let counted = FAMILIES
        .iter()
        .filter(|family| family.relation == Relation::Counted);
    let names: Vec<&str> = counted.map(|family| family.name).collect();
    assert_eq!(names, COUNTED);
}

#[test]
fn every_budget_has_its_count() {
    hold("budgets");
}

#[test]
fn long_runs_have_their_counts() {
    hold("count_long");
}

#[test]
fn the_other_families_have_their_counts() {
    let others = COUNTED
        .iter()
        .filter(|name| !["budgets", "count_long"].contains(name));
    others.for_each(|name| hold(name));
}

/// What is read from a report is what the run began.
#[test]
fn begun_is_read_as_it_is_run() {
    for inputs in cases("count_stops").chain(cases("budgets").step_by(10)) {
        for bytes in inputs {
            let run = guarded::run(&served(&bytes).unwrap()).unwrap();
            assert_eq!(Said::by(&answer(&bytes)).unwrap().begun, run.executed);
        }
    }
}

/// The stores of a run by what they do: hidden over open, open over hidden, hidden over
/// hidden, open over open; and then how many of all are over their own word.
fn stores(input: &Input) -> [usize; 5] {
    let mut machine = Machine::new();
    machine.load_image(&input.image);
    let mut owners = Owners::at_start(std::array::from_fn(|address| input.owners[address]));
    let is_hidden = |owners| hidden_from(owners, input.clearance);
    let mut found = [0; 5];
    for _ in 0..guarded::run(input).unwrap().executed {
        let word = machine.memory[usize::from(machine.pc)];
        let address = usize::from(word as u8);
        let before = is_hidden(owners.memory[address]);
        owners.follow(word);
        if word >> 12 == 4 {
            let kind = match (is_hidden(owners.memory[address]), before) {
                (true, false) => 0,
                (false, true) => 1,
                (true, true) => 2,
                (false, false) => 3,
            };
            found[kind] += 1;
            found[4] += usize::from(address == usize::from(machine.pc));
        }
        machine.step_instruction();
    }
    found
}

/// Every case of a store is met by each of the families, many times.
#[test]
fn the_families_meet_every_case_of_a_store() {
    let of_family = |name: &str| {
        let mut sums = [0; 5];
        for inputs in cases(name) {
            let longest = served(inputs.last().unwrap()).unwrap();
            let found = stores(&longest);
            (0..5).for_each(|kind| sums[kind] += found[kind]);
        }
        sums
    };
    let names = [
        "count_stores",
        "count_stops",
        "count_straight",
        "count_stretches",
    ];
    let found = names.map(of_family);
    for (name, sums) in names.iter().zip(found) {
        assert!(sums[..4].iter().all(|sum| *sum >= 18), "{name}: {sums:?}");
    }
    // Over their own words, too.
    assert!(found[1][4] >= 15 && found[2][4] >= 254, "{found:?}");
}

/// All numbers from 0 to 256 are met; 256 at the start alone, since then nothing runs.
#[test]
fn every_number_is_met() {
    let (mut at_start, mut later) = (HashSet::new(), HashSet::new());
    for inputs in COUNTED[2..8].iter().flat_map(|name| cases(name)) {
        let counts = totals::due(&inputs);
        at_start.insert(counts[0]);
        later.extend(&counts[1..]);
    }
    assert_eq!(at_start, (0..=256).collect());
    assert_eq!(later, (0..=255).collect());
}

/// How far the straight programs go up and down.
#[test]
fn straight_programs() {
    let found: Vec<[usize; 4]> = counts::straight()
        .iter()
        .map(|inputs| {
            let bytes: Vec<Vec<u8>> = inputs.iter().map(program::bytes).collect();
            let counts = totals::due(&bytes);
            let most = *counts.iter().max().unwrap();
            [counts.len() - 1, counts[0], most, *counts.last().unwrap()]
        })
        .collect();
    let due = [
        // Instructions, then the count at the start, at its most and at the end.
        [255, 1, 255, 255],
        [255, 1, 255, 255],
        [129, 128, 128, 0],
        [128, 1, 63, 0],
        [252, 1, 2, 1],
        [252, 1, 2, 1],
        [6, 250, 252, 250],
        [8, 248, 251, 248],
        [10, 246, 250, 246],
        [12, 244, 249, 244],
        [14, 242, 248, 242],
        [18, 238, 246, 238],
        [24, 232, 243, 232],
        [34, 222, 238, 222],
        [64, 192, 223, 192],
    ];
    assert_eq!(found, due);
}

/// The loops that end around multiples of 256 do so at several numbers of hidden words
/// after each number of instructions.
#[test]
fn stretches_end_at_many_numbers() {
    let mut ends = HashSet::new();
    for inputs in cases("count_stretches") {
        let said = inputs.iter().map(|input| Said::by(&answer(input)).unwrap());
        ends.extend(said.map(|said| (said.begun, said.hidden_words)));
    }
    let numbers: HashSet<u64> = ends.iter().map(|end| end.1).collect();
    let found = [ends.len(), numbers.len()];
    assert!(found[0] > 380 && found[1] > 25, "{found:?}");
}

// -- the samples ------------------------------------------------------------

#[test]
fn the_samples() {
    assert!(ends_in(&sample::invented(), 5));
    let due = [3, 0, 114, 256];
    for (input, count) in sample::counted().iter().zip(due) {
        assert!(ends_in(input, count), "{count}");
        assert!(sample::inputs().contains(&program::bytes(input)));
    }
}

/// Two inputs that differ in one owner, whom the run takes away in both, have reports
/// whose last records are the same: it is the count at the stop.
#[test]
fn the_count_is_that_of_the_stop() {
    let opened = |marked: &[u8]| Input {
        owners: owners_at(marked),
        ..input(&with_word_10(&[0x1105, 0x4110, HALT], 7), &[], 9)
    };
    assert!(ends_in(&opened(&[0x10]), 0) && ends_in(&opened(&[]), 0));
    assert_ne!(report(&opened(&[0x10])), report(&opened(&[])));
    assert!(random::with_every_budget(&opened(&[0x10]), 9)
        .iter()
        .zip([1, 1, 0, 0, 0])
        .all(|(input, count)| ends_in(input, count)));
}
