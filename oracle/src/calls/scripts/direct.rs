//! Instructions and short runs of the direct engine on states by chance: at
//! every tick, running and halted, with faults, traces and touched addresses
//! that were left there, and such as are refused. Every script can be made
//! alone, from its number.

use crate::calls::commands::{field, set, Command};
use crate::calls::scripts::draft::Draft;
use crate::calls::scripts::random::{breakpoints, by_either_engine, full_count};
use crate::calls::touched::PLACES;
use crate::machines;
use crate::programs;
use crate::random::Random;
use crate::sizes::{MEMORY_WORDS, TRACE_RECORDS};
use crate::vm::Machine;

/// How many there are, and how many states each has.
pub const DIRECT_SCRIPTS: usize = 5_000;
const STATES: usize = 3;
/// How many ticks an instruction has at most.
const TICKS: usize = 7;

pub fn any(number: usize) -> Vec<u8> {
    let mut random = Random::new(0xD12E_C700_0000 + number as u64);
    let mut draft = Draft::started(0);
    for _ in 0..STATES {
        let tick = random.below(TICKS) as u8;
        draft.add_all([Command::New, Command::Load(programs::any(&mut random))]);
        work(&mut random, &mut draft);
        draft.add_all(fields(&mut random, tick));
        lists(&mut random, &mut draft);
        exceptions(&mut random, &mut draft);
        for _ in 0..1 + random.below(2) {
            call(&mut random, &mut draft);
            draft.add(Command::Dump);
        }
    }
    draft.bytes()
}

/// Leaves a trace of any length, touched addresses, an ALU record and a
/// transfer, and now and then a fault.
fn work(random: &mut Random, draft: &mut Draft) {
    match random.below(4) {
        0 => {}
        1 => {
            for _ in 0..random.below(30) {
                draft.add(by_either_engine(random, Command::Step));
            }
        }
        _ => {
            let budget = random.pick(&[5, 20, 70, 100, 130]) + random.below(30) as u64;
            let run = Command::Run(budget, breakpoints(random, draft));
            draft.add(by_either_engine(random, run));
        }
    }
}

// -- the state --------------------------------------------------------------

/// The fields of a machine by chance, which has come to that tick. The
/// instructions that are due next are of every opcode.
fn fields(random: &mut Random, tick: u8) -> Vec<Command> {
    let word = word_at(random, tick);
    let mut machine = machines::at(random, word, tick);
    for due in 0..3 {
        let opcode = random.below(16) as u16;
        let at = usize::from(machine.pc.wrapping_add(due));
        machine.memory[at] = machines::word_of(random, opcode);
    }
    // Two words by chance are hardly ever equal, and a jump asks for just that.
    if random.below(2) == 0 {
        let next = machine.memory[usize::from(machine.pc)];
        machine.registers[usize::from(next >> 8 & 15)] = machine.registers[0];
    }
    [control(&machine), counters(&machine), words(&machine)].concat()
}

/// A word that has this tick: any in the fetch, else one that has so many
/// execute ticks.
fn word_at(random: &mut Random, tick: u8) -> u16 {
    loop {
        let opcode = random.below(16) as u16;
        let word = machines::word_of(random, opcode);
        if tick < 4 || machines::execute_ticks(word) > tick - 4 {
            return word;
        }
    }
}

fn control(machine: &Machine) -> Vec<Command> {
    vec![
        set(field::PC, machine.pc.into()),
        set(field::IR, machine.ir.into()),
        set(field::MAR, machine.mar.into()),
        set(field::MDR, machine.mdr.into()),
        set(
            field::INSTRUCTION_ADDRESS,
            machine.instruction_address.into(),
        ),
        set(field::TICK, machine.tick.into()),
        set(field::EXECUTE_TICKS, machine.execute_ticks.into()),
        set(field::HALTED, 0),
    ]
}

fn counters(machine: &Machine) -> Vec<Command> {
    vec![
        set(field::INSTRUCTIONS, machine.instructions),
        set(field::MICRO_OPERATIONS, machine.micro_operations),
        set(field::BUS_READS, machine.bus_reads),
        set(field::BUS_WRITES, machine.bus_writes),
    ]
}

/// The registers, and the memory.
fn words(machine: &Machine) -> Vec<Command> {
    let places = |number: u8, words: &[u16]| -> Vec<Command> {
        let places = (0..).zip(words);
        places
            .map(|(at, word)| Command::Set(number, at, (*word).into()))
            .collect()
    };
    [
        places(field::REGISTER, &machine.registers),
        places(field::MEMORY, &machine.memory),
    ]
    .concat()
}

/// Lists of other lengths than the work left: fewer records of the trace, a
/// text that is shorter, touched addresses up to all, any image length.
fn lists(random: &mut Random, draft: &mut Draft) {
    let records = draft.model().trace_count();
    if random.below(3) == 0 {
        let count = random.below(records + 1) as u64;
        draft.add(set(field::TRACE_COUNT, count));
    }
    if random.below(8) == 0 && draft.model().trace_count() > 0 {
        let record = random.below(draft.model().trace_count().min(TRACE_RECORDS));
        draft.add(Command::Set(field::TEXT_LENGTH, record as u16, 0));
    }
    if random.below(4) == 0 {
        let all = PLACES as u16;
        let count = random.pick(&[0, 1, 2, 100, all - 2, all - 1, all]);
        let first = random.byte();
        for place in 0..count {
            // An odd step comes to every address once.
            let address = (place as u8).wrapping_mul(77).wrapping_add(first);
            draft.add(Command::Set(field::TOUCHED, place, address.into()));
        }
        draft.add(set(field::TOUCHED_COUNT, count.into()));
    }
    if random.below(8) == 0 {
        draft.add(set(
            field::IMAGE_LENGTH,
            random.below(MEMORY_WORDS + 1) as u64,
        ));
    }
}

/// Now and then a halted machine, one that is none, or full counters.
fn exceptions(random: &mut Random, draft: &mut Draft) {
    match random.below(32) {
        0..=3 => draft.add(set(field::HALTED, 1)),
        4 => draft.add(set(field::TICK, 7 + random.below(249) as u64)),
        5 => draft.add(set(field::IMAGE_LENGTH, MEMORY_WORDS as u64 + 1)),
        6 => draft.add_all([set(field::TICK, 4), set(field::EXECUTE_TICKS, 2)]),
        7 => draft.add_all([set(field::TICK, 6), set(field::EXECUTE_TICKS, 1)]),
        8..=11 => {
            let counter = random.pick(&field::COUNTERS);
            draft.add(set(counter, full_count(random)));
        }
        _ => {}
    }
}

// -- the calls --------------------------------------------------------------

/// The direct engine's instruction, or a short run of it.
fn call(random: &mut Random, draft: &mut Draft) {
    match random.below(2) {
        0 => draft.add(Command::Direct),
        _ => {
            let budget = random.pick(&[0, 1, 1, 2, 3, 4, 5, 6, 40]);
            let breakpoints = breakpoints(random, draft);
            draft.add(Command::DirectRun(budget, breakpoints));
        }
    }
}
