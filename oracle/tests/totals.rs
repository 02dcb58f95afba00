//! The bus totals of document 02, Change 5: what `calls::totals` counts, by numbers
//! that are written out here. Wherever a count is looked at, the bus counters of the
//! original's own dump are held to it.

use oracle::calls::commands::{by_both_engines, field, run, script, set, Command};
use oracle::calls::program::{self, Due, Dump};
use oracle::calls::scripts::{sample, FAMILIES};
use oracle::calls::snapshots::{self, RECORD};
use oracle::calls::totals::Totals;

const FULL: u64 = 18_446_744_073_709_551_600;

/// Document 01's example 11, with an invented word at address 10.
const EXAMPLE_11: [u16; 17] = [
    0x3110, 0x4111, 0x1105, 0x4112, 0xE000, 0, 0, 0, 0, 0, 0, 0, 0, 0, 0, 0, 0x1234,
];

/// Its 30 ticks, numbered from 1: LOAD [yz] has the ticks 1 to 7, STORE 8 to 14, LOAD
/// yz 15 to 19, STORE 20 to 26 and HALT 27 to 30. The second of each reads; so does
/// the sixth, the second behind the fetch of LOAD [yz]. The last of each STORE writes.
const TICKS: usize = 30;
const FETCHING: [usize; 5] = [2, 9, 16, 21, 28];
const LOADING: [usize; 1] = [6];
const STORING: [usize; 2] = [14, 26];

/// Where a dump has instructions, micro operations, bus reads and bus writes.
const COUNTERS: usize = 46;

fn counters(due: &Due, dump: &Dump) -> [u64; 4] {
    let at = dump.at + COUNTERS;
    let bytes = due.output[at..at + 4 * 8].chunks_exact(8);
    let counters: Vec<u64> = bytes
        .map(|bytes| u64::from_be_bytes(bytes.try_into().unwrap()))
        .collect();
    counters.try_into().unwrap()
}

/// The count at a dump, to which the dump's own bus counters are held.
fn held(due: &Due, dump: &Dump) -> Option<Totals> {
    let totals = dump.totals?;
    let [_, _, reads, writes] = counters(due, dump);
    assert_eq!([reads, writes], [totals.reads(), totals.writes()]);
    Some(totals)
}

fn kinds(totals: &Totals) -> [u64; 3] {
    [
        totals.second_fetches,
        totals.second_loads,
        totals.third_stores,
    ]
}

/// A dump behind the commands, on a store of that length.
fn totals_beside(store: usize, commands: &[Command]) -> Option<Totals> {
    let script = script(store as u32, &[commands, &[Command::Dump]].concat());
    let due = program::due(&script);
    held(&due, due.dumps.last().expect("it ends in a dump"))
}

fn totals(commands: &[Command]) -> Option<Totals> {
    totals_beside(2 * RECORD, commands)
}

/// Second fetch ticks, second LOAD [yz] ticks and third STORE ticks.
fn counted(commands: &[Command]) -> [u64; 3] {
    kinds(&totals(commands).expect("no command sets a bus counter"))
}

/// The first byte of each call's answer.
fn numbers(store: usize, commands: &[Command]) -> Vec<u8> {
    let parts = program::parts(&script(store as u32, commands));
    let answers = parts.iter().map(|part| &part.answer);
    answers
        .filter(|answer| !answer.is_empty())
        .map(|answer| answer[0])
        .collect()
}

fn load() -> Command {
    Command::Load(EXAMPLE_11.to_vec())
}

fn ticks(count: usize) -> Vec<Command> {
    vec![Command::Micro; count]
}

/// Example 11 from its start, and then these commands.
fn example_11(commands: &[&[Command]]) -> Vec<Command> {
    [&[load()], &commands.concat()[..]].concat()
}

/// What the first ticks of example 11 come to.
fn of_the_first(ticks: usize) -> [u64; 3] {
    let among = |kind: &[usize]| kind.iter().filter(|tick| **tick <= ticks).count() as u64;
    [among(&FETCHING), among(&LOADING), among(&STORING)]
}

fn sum(one: [u64; 3], other: [u64; 3]) -> [u64; 3] {
    std::array::from_fn(|at| one[at] + other[at])
}

/// Every way of making it: 5 second fetch ticks, one of LOAD [yz], two of STORE.
#[test]
fn example_11_by_every_way() {
    let steps = vec![Command::Step; 5];
    for way in [vec![run(9)], steps, ticks(TICKS)] {
        for way in by_both_engines(way) {
            assert_eq!(counted(&example_11(&[&way])), [5, 1, 2]);
        }
    }
    let due = program::due(&script(0, &example_11(&[&[run(9), Command::Dump]])));
    assert_eq!(counters(&due, &due.dumps[0]), [5, 30, 6, 2]);
}

/// Tick by tick; the machine is halted then, and makes no more.
#[test]
fn example_11_by_ticks() {
    for count in 0..=TICKS + 3 {
        let found = counted(&example_11(&[&ticks(count)]));
        assert_eq!(found, of_the_first(count), "{count}");
    }
}

/// After any number of ticks they are undone, and the program is run from its start:
/// the undone ones stay counted.
#[test]
fn undone_ticks_are_included() {
    for count in 0..=TICKS {
        let undone = [&[Command::Push], &ticks(count)[..], &[Command::Undo]].concat();
        for on in by_both_engines(vec![run(9)]) {
            let found = counted(&example_11(&[&undone, &on]));
            assert_eq!(found, sum(of_the_first(count), [5, 1, 2]), "{count}");
        }
    }
    // Nine ticks are LOAD [yz], and two of STORE's fetch: 3 reads. With the 6 and 2
    // of the run these are 9 and 2. Instructions and ticks are those of the run.
    let push_and_back = [&[Command::Push], &ticks(9)[..], &[Command::Undo]].concat();
    let on = example_11(&[&push_and_back, &[run(9), Command::Dump]]);
    let due = program::due(&script(RECORD as u32, &on));
    assert_eq!(counters(&due, &due.dumps[0]), [5, 30, 9, 2]);
}

/// Undone twice, by two records: 7 ticks with 2 reads, then 14 with 3 reads and a
/// write, then the run.
#[test]
fn undone_twice() {
    let pushes = [Command::Push, Command::Push];
    let undo = [Command::Undo];
    let on = example_11(&[&pushes, &ticks(7), &undo, &ticks(14), &undo, &[run(9)]]);
    let found = totals(&on).expect("it is counted");
    assert_eq!(kinds(&found), [1 + 2 + 5, 1 + 1 + 1, 1 + 2]);
    assert_eq!(found.undoes, 2);
}

/// The record is of a machine in mid-instruction, right before the tick that reads or
/// writes: that tick is made, undone and made again.
#[test]
fn undone_in_mid_instruction() {
    let again = |count: usize, once_more: Command| {
        let made = [Command::Push, Command::Micro, Command::Undo, once_more];
        example_11(&[&ticks(count), &made])
    };
    let on = |commands: Vec<Command>| counted(&[&commands[..], &[run(9)]].concat());
    // The sixth tick is the second of LOAD [yz].
    assert_eq!(counted(&again(5, Command::Micro)), [1, 2, 0]);
    assert_eq!(on(again(5, Command::Step)), [5, 2, 2]);
    // The 14th is the third of STORE, and ends its instruction.
    assert_eq!(counted(&again(13, Command::Direct)), [2, 1, 2]);
    assert_eq!(on(again(13, Command::Micro)), [5, 1, 3]);
    // The 16th is the second of a fetch.
    assert_eq!(counted(&again(15, Command::Micro)), [4, 1, 1]);
    assert_eq!(on(again(15, Command::Direct)), [6, 1, 2]);
}

/// Every call that could make a tick, or begin a new past.
fn every_call() -> Vec<Command> {
    vec![
        Command::Micro,
        Command::Step,
        Command::Direct,
        run(9),
        run(9).direct(),
        Command::Push,
        Command::Undo,
        Command::ClearHistory,
        Command::Reset,
        load(),
        Command::Clear,
    ]
}

/// A store that is a byte short, and no record to undo.
#[test]
fn refusals_7_and_10() {
    let commands = |refused: &[Command]| example_11(&[&ticks(9), refused, &[run(9)]]);
    let served = |count: usize| vec![0; count];
    let short = commands(&[Command::Push, Command::Undo]);
    let due = [served(10), vec![7, 7, 0]].concat();
    assert_eq!(numbers(RECORD - 1, &short), due);
    let found = totals_beside(RECORD - 1, &short).expect("it is counted");
    assert_eq!((kinds(&found), found.undoes), ([5, 1, 2], 0));
    let empty = commands(&[Command::Undo]);
    assert_eq!(numbers(RECORD, &empty), [served(10), vec![10, 0]].concat());
    let found = totals_beside(RECORD, &empty).expect("it is counted");
    assert_eq!((kinds(&found), found.undoes), ([5, 1, 2], 0));
}

/// No machine: every call is refused, and the past goes on behind it. A start that is
/// refused is none.
#[test]
fn refusal_8() {
    let damaged = [&[set(field::TICK, 7)], &every_call()[..]].concat();
    let commands = example_11(&[&ticks(9), &damaged]);
    assert_eq!(numbers(RECORD, &commands)[10..], [8; 11]);
    assert_eq!(counted(&commands), [2, 1, 0]);
    let mended = [&commands[..], &[set(field::TICK, 2), run(9)]].concat();
    assert_eq!(counted(&mended), [5, 1, 2]);
}

/// Full counters: no tick, no instruction and no run.
#[test]
fn refusal_9() {
    for counter in [field::INSTRUCTIONS, field::MICRO_OPERATIONS] {
        let refused = [&[set(counter, FULL + 1)], &every_call()[..5]].concat();
        let commands = example_11(&[&ticks(9), &refused]);
        assert_eq!(numbers(RECORD, &commands)[10..], [9; 5]);
        assert_eq!(counted(&commands), [2, 1, 0]);
        let emptied = [&commands[..], &[set(counter, 0), run(9)]].concat();
        assert_eq!(counted(&emptied), [5, 1, 2]);
    }
}

/// The counter lets three instructions go on, or one: what the run completed is kept
/// and counted, also where some ticks of the first were made before it.
#[test]
fn runs_refused_part_way() {
    let three = |_: usize| set(field::INSTRUCTIONS, FULL - 2);
    // LOAD [yz] has seven ticks.
    let one = |made: usize| set(field::MICRO_OPERATIONS, FULL - 6 + made as u64);
    for made in 0..7 {
        for (near, due) in [([three(made)], [3, 1, 1]), ([one(made)], [1, 1, 0])] {
            for run in by_both_engines(vec![run(9)]) {
                let commands = example_11(&[&ticks(made), &near, &run]);
                assert_eq!(numbers(RECORD, &commands).last(), Some(&9));
                assert_eq!(counted(&commands), due);
                let low = [set(field::INSTRUCTIONS, 0), set(field::MICRO_OPERATIONS, 0)];
                assert_eq!(counted(&[&commands[..], &low, &run].concat()), [5, 1, 2]);
            }
        }
    }
}

/// A halted machine answers, and makes no tick; nor does a budget of none, which halts
/// it.
#[test]
fn halted_machines() {
    let halted = &every_call()[..5];
    for (first, due) in [(run(9), [5, 1, 2]), (run(2), [2, 1, 1]), (run(0), [0; 3])] {
        let commands = example_11(&[&[first], halted]);
        assert_eq!(numbers(RECORD, &commands), [0; 7]);
        assert_eq!(counted(&commands), due);
    }
}

/// The newest record with another word in IR, tick and execute ticks.
fn changed(ir: u16, tick: u8, execute_ticks: u8) -> Vec<Command> {
    let byte = |offset: usize, value: u8| Command::Byte(offset as u32, value);
    vec![
        byte(snapshots::IR, (ir >> 8) as u8),
        byte(snapshots::IR + 1, ir as u8),
        byte(snapshots::TICK, tick),
        byte(snapshots::EXECUTE_TICKS, execute_ticks),
    ]
}

/// A record that was changed brings the machine to any tick of any instruction. Only
/// the tick that is made there counts, and a record that is refused brings it nowhere.
#[test]
fn changed_records() {
    let cases = [
        (0x3110, 5, 3, [0, 1, 0]),
        (0x4111, 6, 3, [0, 0, 1]),
        (0x3110, 1, 3, [1, 0, 0]),
        (0x4111, 1, 0, [1, 0, 0]),
        (0x0000, 1, 9, [1, 0, 0]),
        (0x3110, 0, 3, [0; 3]),
        (0x3110, 4, 3, [0; 3]),
        (0x3110, 6, 3, [0; 3]),
        (0x4111, 4, 3, [0; 3]),
        (0x4111, 5, 3, [0; 3]),
        (0x6123, 4, 1, [0; 3]),
    ];
    for (ir, tick, execute_ticks, due) in cases {
        // LOAD [yz] and STORE are made, and undone by the record.
        let before = [&[Command::Push], &ticks(14)[..]].concat();
        let undo = [Command::Undo, Command::Micro];
        let commands = example_11(&[&before, &changed(ir, tick, execute_ticks), &undo]);
        assert!(numbers(RECORD, &commands).iter().all(|number| *number == 0));
        assert_eq!(counted(&commands), sum([2, 1, 1], due), "{ir:04X} {tick}");
        let refused = example_11(&[&before, &changed(ir, 7, execute_ticks), &undo]);
        assert_eq!(numbers(RECORD, &refused)[16..], [8, 0]);
        assert_eq!(counted(&refused), [2, 1, 1]);
    }
}

/// What begins a new past, and what does not. An undo may lead to what was before: 9
/// ticks of the program, of which 21 are left, with 3 fetches and 2 stores.
#[test]
fn where_a_past_begins() {
    let worked = [&ticks(9)[..], &[Command::Push, run(9)]].concat();
    for start in [Command::New, load(), Command::Reset, Command::Clear] {
        let commands = example_11(&[&worked, &[Command::Undo, start]]);
        assert_eq!(totals(&commands), Some(Totals::default()));
    }
    for start in [load(), Command::Reset] {
        let commands = example_11(&[&worked, &[start, Command::Undo, run(9)]]);
        let found = totals(&commands).expect("it is counted");
        assert_eq!((kinds(&found), found.undoes), ([3, 0, 2], 1));
    }
    for other in [Command::ClearHistory, Command::Push, Command::Dump] {
        assert_eq!(counted(&example_11(&[&worked, &[other]])), [5, 1, 2]);
    }
}

/// There is no count once a bus counter was set, until the next start that is served;
/// all other fields and the store's bytes leave it.
#[test]
fn where_there_is_no_count() {
    for field in [field::BUS_READS, field::BUS_WRITES] {
        let commands = example_11(&[&[Command::Push], &ticks(9), &[set(field, 3)]]);
        let none = |more: &[Command]| totals(&[&commands[..], more].concat()).is_none();
        assert!(none(&[]) && none(&[run(9)]) && none(&[Command::Undo, Command::Step]));
        assert!(none(&[set(field::TICK, 7), Command::Reset]));
        for start in [Command::New, load(), Command::Reset, Command::Clear] {
            let again = [&commands[..], &[start, load(), run(9)]].concat();
            assert_eq!(counted(&again), [5, 1, 2]);
        }
    }
    let bus = [field::BUS_READS, field::BUS_WRITES];
    for other in (0..=field::END).filter(|number| !bus.contains(number)) {
        let sets = [set(other, 0), Command::Byte(0, 1)];
        assert_eq!(counted(&example_11(&[&ticks(9), &sets])), [2, 1, 0]);
    }
}

/// The sample ends in example 11, by a run, and with 16 ticks that were undone: three
/// second fetch ticks, one of LOAD [yz] and one of STORE.
#[test]
fn the_sample() {
    let due = program::due(&sample::script());
    let [.., run, undone] = &due.dumps[..] else {
        panic!("it has dumps")
    };
    assert_eq!(counters(&due, run), [5, 30, 6, 2]);
    assert_eq!(counters(&due, undone), [5, 30, 10, 3]);
    let totals = [run, undone].map(|dump| held(&due, dump).expect("it is counted"));
    assert_eq!(totals.each_ref().map(kinds), [[5, 1, 2], [8, 2, 3]]);
    assert_eq!(totals.map(|totals| totals.undoes), [0, 1]);
}

/// Each so many-th script of a family is looked at below.
const EVERY: usize = 20;

/// Of each family: its dumps; those that are held; among these those with an undo
/// since the start, those with a second fetch tick, with a second LOAD [yz] tick, with
/// a third STORE tick, with all three, and with all three and an undo.
const FOUND: [(&str, [usize; 8]); 19] = [
    ("sample", [74, 68, 13, 59, 22, 30, 22, 5]),
    ("example_16", [3, 3, 0, 3, 0, 0, 0, 0]),
    ("limits", [96, 96, 35, 89, 19, 53, 6, 0]),
    ("anew", [12, 12, 5, 2, 0, 1, 0, 0]),
    ("ticks", [1_408, 1_408, 55, 1_155, 60, 1_155, 60, 0]),
    ("counters", [702, 702, 52, 282, 58, 58, 0, 0]),
    ("live", [252, 252, 13, 186, 66, 174, 66, 0]),
    ("sets", [288, 288, 0, 288, 0, 288, 0, 0]),
    (
        "record_ticks",
        [4_224, 4_224, 990, 4_224, 1_662, 4_224, 1_662, 45],
    ),
    ("record_bytes", [638, 638, 638, 638, 638, 638, 638, 638]),
    ("unwritten", [442, 442, 0, 338, 247, 338, 247, 0]),
    ("malformed", [0; 8]),
    (
        "random",
        [13_100, 10_914, 1_797, 6_141, 1_769, 1_775, 933, 239],
    ),
    (
        "lists",
        [58_601, 58_601, 0, 38_834, 13_632, 14_436, 8_772, 0],
    ),
    ("direct", [1_129, 0, 0, 0, 0, 0, 0, 0]),
    ("stretch_budgets", [656, 656, 0, 644, 636, 644, 636, 0]),
    ("stretch_ends", [720, 720, 0, 720, 720, 720, 720, 0]),
    ("stretch_counters", [588, 300, 0, 300, 264, 300, 264, 0]),
    ("stretch_begun", [420, 420, 0, 420, 420, 420, 420, 0]),
];

/// What a dump adds to its family's row.
fn row(totals: Option<Totals>) -> [bool; 8] {
    let all = |totals: &Totals| kinds(totals).iter().all(|count| *count > 0);
    let held = |test: &dyn Fn(&Totals) -> bool| totals.as_ref().is_some_and(test);
    [
        true,
        held(&|_| true),
        held(&|totals| totals.undoes > 0),
        held(&|totals| totals.second_fetches > 0),
        held(&|totals| totals.second_loads > 0),
        held(&|totals| totals.third_stores > 0),
        held(&all),
        held(&|totals| all(totals) && totals.undoes > 0),
    ]
}

/// The families meet what is to be held. None of the dumps of `direct` is, since the
/// states there are set whole, with their bus counters.
#[test]
fn the_families_meet_every_kind() {
    let found = FAMILIES.each_ref().map(|family| {
        let mut counts = [0; 8];
        for number in (0..(family.count)()).step_by(EVERY) {
            let due = program::due(&(family.script)(number));
            for dump in &due.dumps {
                let row = row(held(&due, dump));
                counts = std::array::from_fn(|at| counts[at] + usize::from(row[at]));
            }
        }
        (family.name, counts)
    });
    assert_eq!(found, FOUND);
}
