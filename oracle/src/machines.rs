//! Running machines in the middle of their work. In the fetch the number of
//! execute ticks is a left-over of any size; afterwards it is that of IR's
//! word, and the tick is one of them: no machine comes to any other state.

use crate::codes::{self, ALU_OPCODES};
use crate::isa::Instruction;
use crate::random::Random;
use crate::vm::{AluRecord, BusDirection, BusTransfer, Fault, FaultKind, Machine};

/// Words at the ends of the signed and the unsigned range, and halves.
pub const EDGES: [u16; 10] = [
    0x0000, 0x0001, 0x0002, 0x00FF, 0x0100, 0x7FFF, 0x8000, 0x8001, 0xFFFE, 0xFFFF,
];

/// Addresses at the ends, and the low bytes of shifts by around 16 bits.
const EDGE_BYTES: [u8; 8] = [0x00, 0x01, 0x0F, 0x10, 0x11, 0x7F, 0xFE, 0xFF];

/// How many execute ticks a word has.
pub fn execute_ticks(word: u16) -> u8 {
    Machine::execute_tick_count(Instruction::from_word(word).opcode())
}

/// A machine at any tick of any word.
pub fn any(random: &mut Random) -> Machine {
    let opcode = random.below(16) as u16;
    let word = word_of(random, opcode);
    let execute = execute_ticks(word) as usize;
    // The execute ticks are asked for as often as the four of the fetch.
    let tick = match random.below(2) {
        0 if execute > 0 => 4 + random.below(execute),
        _ => random.below(4),
    };
    at(random, word, tick as u8)
}

/// A word of an opcode, whose other digits are often at an edge or equal.
pub fn word_of(random: &mut Random, opcode: u16) -> u16 {
    let x = match random.below(4) {
        0 => 0,
        _ => random.below(16) as u16,
    };
    let low = match random.below(3) {
        0 => byte(random),
        1 => (x as u8) << 4 | random.below(16) as u8,
        _ => random.byte(),
    };
    opcode << 12 | x << 8 | u16::from(low)
}

/// A machine with `word` in IR, which has come to `tick`.
pub fn at(random: &mut Random, word: u16, tick: u8) -> Machine {
    let mut machine = Machine::new();
    machine.ir = word;
    machine.tick = tick;
    machine.execute_ticks = match tick {
        0..=3 => random.byte(),
        _ => execute_ticks(word),
    };
    fill(random, &mut machine);
    // Two words by chance are hardly ever equal, and a jump asks for just that.
    if random.below(3) == 0 {
        machine.registers[(word >> 8 & 15) as usize] = machine.registers[0];
    }
    machine
}

/// All that is neither the word nor the tick.
fn fill(random: &mut Random, machine: &mut Machine) {
    machine.memory = std::array::from_fn(|_| edge_or_any(random));
    machine.registers = std::array::from_fn(|_| edge_or_any(random));
    machine.pc = byte(random);
    machine.mar = byte(random);
    machine.mdr = edge_or_any(random);
    machine.instruction_address = byte(random);
    machine.instructions = random.draw() >> 32;
    machine.micro_operations = random.draw() >> 32;
    machine.bus_reads = random.draw() >> 32;
    machine.bus_writes = random.draw() >> 32;
    machine.fault = fault(random);
    machine.last_transfer = transfer(random);
    machine.last_alu = alu(random);
}

fn edge_or_any(random: &mut Random) -> u16 {
    match random.below(2) {
        0 => random.pick(&EDGES),
        _ => random.word(),
    }
}

fn byte(random: &mut Random) -> u8 {
    match random.below(2) {
        0 => random.pick(&EDGE_BYTES),
        _ => random.byte(),
    }
}

/// A running machine has a fault only where a caller left it there; the tick
/// must then keep it.
fn fault(random: &mut Random) -> Option<Fault> {
    let kind = random.pick(&[
        None,
        Some(FaultKind::UnknownInstruction),
        Some(FaultKind::StepBudgetExhausted),
    ])?;
    Some(Fault {
        kind,
        word: edge_or_any(random),
        address: byte(random),
    })
}

fn transfer(random: &mut Random) -> Option<BusTransfer> {
    let direction = random.pick(&[None, Some(BusDirection::Read), Some(BusDirection::Write)])?;
    Some(BusTransfer {
        direction,
        address: byte(random),
        value: edge_or_any(random),
    })
}

fn alu(random: &mut Random) -> Option<AluRecord> {
    let opcode = ALU_OPCODES.get(random.below(1 + ALU_OPCODES.len()))?;
    let right = edge_or_any(random);
    Some(AluRecord {
        operation: codes::operation_name(*opcode),
        left: edge_or_any(random),
        right: random.pick(&[None, Some(right)]),
        result: edge_or_any(random),
    })
}
