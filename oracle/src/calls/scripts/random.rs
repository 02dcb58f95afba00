//! Scripts by chance: a machine at work, pushes and undoes, and now and then a
//! field or a byte of the store that is set. Every script can be made alone,
//! from its number.

use crate::calls::commands::{field, Command};
use crate::calls::program::LARGEST_STORE;
use crate::calls::runs::FULL;
use crate::calls::scripts::draft::Draft;
use crate::calls::scripts::malformed;
use crate::calls::snapshots::{self, RECORD};
use crate::calls::touched;
use crate::programs;
use crate::random::Random;
use crate::sizes::{MEMORY_WORDS, REGISTERS, TEXT, TRACE_RECORDS};
use crate::vm_limited::RunStop;

/// How many there are.
pub const RANDOM_SCRIPTS: usize = 50_000;

/// Enough instructions to see whether a program ends.
const TRIED: u64 = 3_000;

pub fn any(number: usize) -> Vec<u8> {
    let mut random = Random::new(0x5C41_9700_0000 + number as u64);
    let mut draft = Draft::started(store(&mut random));
    if random.below(16) > 0 {
        draft.add(Command::Load(programs::any(&mut random)));
    }
    for _ in 0..3 + random.below(14) {
        act(&mut random, &mut draft);
        lead_out(&mut random, &mut draft);
        if random.below(3) == 0 {
            dump(&mut random, &mut draft);
        }
    }
    draft.add(Command::Dump);
    let mut script = draft.bytes();
    if random.below(16) == 0 {
        script.extend(malformed::tail(&mut random));
    }
    script
}

/// Stores of no record, one and two and what is around them, and larger ones.
fn store(random: &mut Random) -> usize {
    match random.below(64) {
        0..=5 => 0,
        6..=11 => RECORD - 1,
        12..=23 => RECORD,
        24..=29 => 2 * RECORD - 1,
        30..=39 => 2 * RECORD,
        40..=49 => RECORD * (2 + random.below(5)) + random.below(3),
        50..=55 => random.below(4 * RECORD),
        56..=61 => RECORD * (5 + random.below(16)),
        62 => LARGEST_STORE - random.below(2 * RECORD),
        _ => LARGEST_STORE,
    }
}

/// A large store is dumped rarely, lest the scripts take too long.
fn dump(random: &mut Random, draft: &mut Draft) {
    if draft.model().history().store().len() < 12_000 || random.below(8) == 0 {
        draft.add(Command::Dump);
    }
}

fn act(random: &mut Random, draft: &mut Draft) {
    match random.below(100) {
        0..=9 => draft.add_all(vec![Command::Micro; 1 + random.below(8)]),
        10..=17 => steps(random, draft),
        18..=27 => run(random, draft),
        28..=42 => pushes(random, draft),
        43..=56 => draft.add_all(vec![Command::Undo; undoes(random)]),
        57..=63 => draft.add(anew(random)),
        64..=79 => edge(random, draft),
        80..=90 => record(random, draft),
        91..=94 => counters(random, draft),
        95 | 96 => control(random, draft),
        _ => sets(random, draft),
    }
}

/// Out of a state that is no machine only a new one leads, or the field that
/// was set; a halted machine has nothing to do.
fn lead_out(random: &mut Random, draft: &mut Draft) {
    let lawful = draft.model().lawful() == Some(true);
    let halted = draft.model().machine().halted;
    match random.below(4) {
        0 if !lawful => {
            draft.add(Command::New);
            draft.add(Command::Load(programs::any(random)));
        }
        0 if halted => draft.add(Command::Reset),
        1 if halted => draft.add(Command::Set(field::HALTED, 0, 0)),
        _ => {}
    }
}

fn anew(random: &mut Random) -> Command {
    match random.below(12) {
        0..=3 => Command::Reset,
        4..=7 => Command::Load(programs::any(random)),
        8 => Command::Clear,
        9 => Command::ClearHistory,
        _ => Command::New,
    }
}

// -- work -------------------------------------------------------------------

/// Small budgets, so that a script is quick; a large one where the program is
/// known to end.
fn run(random: &mut Random, draft: &mut Draft) {
    let budget = match random.below(12) {
        0 => 0,
        1 => 1,
        2..=8 => 2 + random.below(40) as u64,
        _ => 40 + random.below(260) as u64,
    };
    let breakpoints = breakpoints(random, draft);
    // A wrong port may not end here, but it spends its budget.
    let large = random.pick(&[TRIED, 65_536, 1_000_000, 1_000_001]);
    let budget = match random.below(3) == 0 && ends(draft, &breakpoints) {
        true => large,
        false => budget,
    };
    draft.add(by_either_engine(random, Command::Run(budget, breakpoints)));
}

/// A few instructions, each by either engine.
fn steps(random: &mut Random, draft: &mut Draft) {
    for _ in 0..1 + random.below(3) {
        draft.add(by_either_engine(random, Command::Step));
    }
}

/// The call, or the direct engine's for the same.
pub fn by_either_engine(random: &mut Random, call: Command) -> Command {
    match random.below(2) {
        0 => call,
        _ => call.direct(),
    }
}

/// Whether a run from here ends by itself.
fn ends(draft: &Draft, breakpoints: &[u8]) -> bool {
    if draft.model().lawful() != Some(true) {
        return false;
    }
    let mut machine = draft.model().machine().clone();
    // The original does not stop at full counters.
    machine.instructions = 0;
    machine.micro_operations = 0;
    machine.bus_reads = 0;
    machine.bus_writes = 0;
    machine.run(TRIED, breakpoints) != RunStop::Budget
}

/// Often near PC, where they are likely to be met.
pub fn breakpoints(random: &mut Random, draft: &Draft) -> Vec<u8> {
    let pc = draft.model().machine().pc;
    match random.below(5) {
        0 | 1 => Vec::new(),
        2 => vec![pc],
        3 => (0..1 + random.below(3)).map(|_| near(random, pc)).collect(),
        _ => (0..random.below(24)).map(|_| random.byte()).collect(),
    }
}

/// An address not far from this one.
pub fn near(random: &mut Random, address: u8) -> u8 {
    let behind = random.below(16) as u8;
    address.wrapping_add(behind).wrapping_sub(4)
}

/// A few pushes with some work between them, sometimes past the limit.
fn pushes(random: &mut Random, draft: &mut Draft) {
    let limit = draft.model().history().limit();
    let count = match random.below(4) {
        0 if limit <= 24 => limit + 1 + random.below(3),
        _ => 1 + random.below(4),
    };
    for _ in 0..count {
        draft.add(Command::Push);
        match random.below(4) {
            0 => draft.add(by_either_engine(random, Command::Step)),
            1 => {
                let run = Command::Run(1 + random.below(5) as u64, Vec::new());
                draft.add(by_either_engine(random, run));
            }
            _ => draft.add_all(vec![Command::Micro; random.below(4)]),
        }
    }
}

fn undoes(random: &mut Random) -> usize {
    match random.below(4) {
        0 => 2 + random.below(8),
        _ => 1,
    }
}

/// Any call, where it matters only that one is made.
fn call(random: &mut Random, draft: &mut Draft) {
    match random.below(10) {
        0 => run(random, draft),
        1 | 2 => draft.add(Command::Micro),
        3 | 4 => draft.add(by_either_engine(random, Command::Step)),
        5 => draft.add(Command::Push),
        6 | 7 => draft.add(Command::Undo),
        _ => draft.add(anew(random)),
    }
}

// -- set commands -----------------------------------------------------------

/// A field at one of its edges, a few calls, and often the field as it was.
fn edge(random: &mut Random, draft: &mut Draft) {
    let number = random.below(field::END.into()) as u8;
    let index = index(random, draft, number);
    let value = edge_value(random, draft, number);
    let before = value_of(draft, number, index);
    draft.add(Command::Set(number, index, value));
    for _ in 0..random.below(3) {
        call(random, draft);
    }
    dump(random, draft);
    if let (Some(before), true) = (before, random.below(3) > 0) {
        draft.add(Command::Set(number, index, before));
    }
}

/// Live places for the most part, and their ends.
fn index(random: &mut Random, draft: &Draft, number: u8) -> u16 {
    let live = match number {
        field::REGISTER => REGISTERS,
        field::TEXT_LENGTH => draft.model().trace_count(),
        field::TOUCHED => draft.model().touched().count(),
        _ => MEMORY_WORDS,
    };
    let live = live.clamp(1, TRACE_RECORDS);
    match random.below(8) {
        0 => 0,
        1 => live as u16 - 1,
        2 => live as u16,
        3 => random.word(),
        _ => random.below(live) as u16,
    }
}

fn edge_value(random: &mut Random, draft: &Draft, number: u8) -> u64 {
    let model = draft.model();
    match number {
        field::TICK => random.pick(&[0, 1, 2, 3, 4, 4, 5, 5, 6, 6, 7, 8, 255, 256, 260]),
        field::EXECUTE_TICKS => random.pick(&[0, 1, 1, 2, 3, 3, 4, 255, 257]),
        field::HALTED => random.pick(&[0, 0, 1, 2, 256, u64::MAX]),
        field::IR => u64::from(random.word()),
        field::INSTRUCTIONS..=field::BUS_WRITES => full_count(random),
        field::IMAGE_LENGTH => around(random, model.image_len(), touched::PLACES),
        field::TRACE_COUNT => around(random, model.trace_count(), TRACE_RECORDS),
        field::TEXT_LENGTH => text_length(random),
        field::TOUCHED_COUNT => around(random, model.touched().count(), touched::PLACES),
        field::TOUCHED => touched_value(random, draft),
        field::HISTORY_COUNT => around(random, model.history().count(), model.history().limit()),
        _ => random.draw() >> random.below(64),
    }
}

/// Around the room that a text has, and what is that once it is cut to a byte.
fn text_length(random: &mut Random) -> u64 {
    let room = TEXT as u64;
    let around = [room - 1, room, room + 1, room + 2, 2 * room];
    random.pick(&[&[0, 3, 9][..], &around, &[255, 256, 256 + room]].concat())
}

/// A count around what it is, around its bound, or much larger.
fn around(random: &mut Random, count: usize, bound: usize) -> u64 {
    let near = random.pick(&[count, count, bound]) + random.below(3);
    match random.below(8) {
        0 => 0,
        1 => random.pick(&[65_535, 65_536, 65_537]),
        2 => near as u64 + 65_536,
        _ => near.saturating_sub(1) as u64,
    }
}

/// Often an address that is there already.
fn touched_value(random: &mut Random, draft: &Draft) -> u64 {
    let touched = draft.model().touched();
    let there = random.below(touched.count().clamp(1, touched::PLACES));
    match (random.below(2), touched.at(there)) {
        (0, Some(address)) => address.into(),
        _ => random.byte().into(),
    }
}

/// What a field holds; none where that is not fixed.
fn value_of(draft: &Draft, number: u8, index: u16) -> Option<u64> {
    let (model, machine) = (draft.model(), draft.model().machine());
    let index = usize::from(index);
    Some(match number {
        field::PC => machine.pc.into(),
        field::IR => machine.ir.into(),
        field::REGISTER => machine.registers[index % REGISTERS].into(),
        field::MAR => machine.mar.into(),
        field::MDR => machine.mdr.into(),
        field::INSTRUCTION_ADDRESS => machine.instruction_address.into(),
        field::TICK => machine.tick.into(),
        field::EXECUTE_TICKS => machine.execute_ticks.into(),
        field::HALTED => machine.halted.into(),
        field::INSTRUCTIONS => machine.instructions,
        field::MICRO_OPERATIONS => machine.micro_operations,
        field::BUS_READS => machine.bus_reads,
        field::BUS_WRITES => machine.bus_writes,
        field::IMAGE_LENGTH => model.image_len() as u64,
        field::TRACE_COUNT => model.trace_count() as u64,
        field::TEXT_LENGTH => machine.trace.get(index % TRACE_RECORDS)?.text.len() as u64,
        field::TOUCHED_COUNT => model.touched().count() as u64,
        field::TOUCHED => model.touched().at(index)?.into(),
        field::HISTORY_COUNT => model.history().count() as u64,
        field::MEMORY => machine.memory[index % MEMORY_WORDS].into(),
        _ => return None,
    })
}

/// Around the largest count that refusal 9 lets go on.
pub fn full_count(random: &mut Random) -> u64 {
    match random.below(8) {
        0..=2 => FULL - random.below(24) as u64,
        3 => FULL + 1 + random.below(15) as u64,
        4 => u64::MAX,
        5 => FULL - random.below(600) as u64,
        6 => FULL,
        _ => FULL + 1,
    }
}

/// One counter or a few near the largest, and calls that count.
fn counters(random: &mut Random, draft: &mut Draft) {
    for _ in 0..1 + random.below(2) {
        let counter = random.pick(&field::COUNTERS);
        draft.add(Command::Set(counter, random.word(), full_count(random)));
    }
    for _ in 0..1 + random.below(4) {
        match random.below(4) {
            0 => draft.add_all(vec![Command::Micro; 1 + random.below(8)]),
            1 => draft.add(by_either_engine(random, Command::Step)),
            _ => run(random, draft),
        }
    }
    // Counters that stay there would have all that follows refused.
    if random.below(4) > 0 {
        let low = field::COUNTERS.map(|counter| Command::Set(counter, 0, random.draw() >> 40));
        draft.add_all(low);
    }
}

/// The control unit anywhere in an instruction, lawful or not.
fn control(random: &mut Random, draft: &mut Draft) {
    let word = random.word();
    draft.add_all([
        Command::Set(field::IR, 0, word.into()),
        Command::Set(field::TICK, 0, random.below(8) as u64),
        Command::Set(field::EXECUTE_TICKS, 0, random.below(5) as u64),
        Command::Set(field::HALTED, 0, random.below(2) as u64),
    ]);
    call(random, draft);
}

/// Any fields at all, and numbers that are none.
fn sets(random: &mut Random, draft: &mut Draft) {
    for _ in 0..1 + random.below(4) {
        let number = match random.below(8) {
            0 => random.byte(),
            _ => random.below(field::END.into()) as u8,
        };
        let value = random.draw() >> random.below(64);
        draft.add(Command::Set(number, random.word(), value));
    }
    call(random, draft);
}

// -- the store --------------------------------------------------------------

/// A byte of the newest record or of any, and then an undo.
fn record(random: &mut Random, draft: &mut Draft) {
    if random.below(2) == 0 {
        draft.add(Command::Push);
        draft.add_all(vec![Command::Micro; random.below(3)]);
    }
    for _ in 0..1 + random.below(3) {
        draft.add(byte(random, draft));
    }
    if random.below(8) == 0 {
        let count = draft.model().history().count() + random.below(3);
        draft.add(Command::Set(field::HISTORY_COUNT, 0, count as u64));
    }
    draft.add(Command::Undo);
}

fn byte(random: &mut Random, draft: &Draft) -> Command {
    let newest = draft.model().history().count().saturating_sub(1) * RECORD;
    let at = |offset: usize| (newest + offset) as u32;
    match random.below(12) {
        0 | 1 => Command::Byte(at(snapshots::TICK), random.below(9) as u8),
        2 => Command::Byte(at(snapshots::EXECUTE_TICKS), random.below(5) as u8),
        3 | 4 => Command::Byte(at(snapshots::HALTED), random.pick(&[0, 1, 1, 2, 255])),
        5 | 6 => Command::Byte(
            at(snapshots::FAULT_KIND),
            random.pick(&[0, 1, 2, 2, 3, 255]),
        ),
        7 => Command::Byte(at(snapshots::FAULT_WORD + random.below(3)), random.byte()),
        8 => Command::Byte(at(snapshots::LAST + random.below(2)), random.byte()),
        9 => Command::Byte(at(snapshots::IR), random.byte()),
        10 => Command::Byte(at(random.below(RECORD)), random.byte()),
        _ => Command::Byte(random.draw() as u32, random.byte()),
    }
}
