//! The records of the history store, in the layout of document 01, section 7:
//! the fields of a `Snapshot` in their order, numbers high byte first.

use crate::calls::limited;
use crate::codes::put_fault;
use crate::encoding::{self, put_number, put_word, put_words};
use crate::machines;
use crate::sizes::{MEMORY_WORDS, REGISTERS};
use crate::vm_limited::{Fault, FaultKind, Snapshot};

/// Where the fields stand: each behind the one before. Public are those that
/// decide whether `undo` takes a record, and those that it may skip.
pub const IR: usize = 1;
const REGISTER: usize = IR + 2;
const MAR: usize = REGISTER + 2 * REGISTERS;
const MDR: usize = MAR + 1;
const INSTRUCTION_ADDRESS: usize = MDR + 2;
pub const TICK: usize = INSTRUCTION_ADDRESS + 1;
pub const EXECUTE_TICKS: usize = TICK + 1;
pub const HALTED: usize = EXECUTE_TICKS + 1;
pub const FAULT_KIND: usize = HALTED + 1;
pub const FAULT_WORD: usize = FAULT_KIND + 1;
pub const FAULT_ADDRESS: usize = FAULT_WORD + 2;
const COUNTERS: usize = FAULT_ADDRESS + 1;
const MEMORY: usize = COUNTERS + 2 * 8;
pub const LAST: usize = MEMORY + 2 * MEMORY_WORDS;

/// The bytes of one record.
pub const RECORD: usize = LAST + 2;

/// A snapshot as `push_history` writes it.
pub fn written(snapshot: &Snapshot) -> Vec<u8> {
    let mut record = Vec::with_capacity(RECORD);
    record.push(snapshot.pc);
    put_word(&mut record, snapshot.ir);
    put_words(&mut record, &snapshot.registers);
    record.push(snapshot.mar);
    put_word(&mut record, snapshot.mdr);
    record.extend([
        snapshot.instruction_address,
        snapshot.tick,
        snapshot.execute_ticks,
        snapshot.halted as u8,
    ]);
    put_fault(&mut record, snapshot.fault.map(limited::fault));
    put_number(&mut record, snapshot.instructions);
    put_number(&mut record, snapshot.micro_operations);
    put_words(&mut record, &snapshot.memory);
    record.extend([0, 0]);
    assert_eq!(record.len(), RECORD);
    record
}

/// The snapshot that `undo` takes from a record; none where it is refused 8.
pub fn read(record: &[u8]) -> Option<Snapshot> {
    assert_eq!(record.len(), RECORD);
    let mut rest = record;
    let mut number = |width| encoding::number(&mut rest, width).expect("a record has them all");
    let snapshot = Snapshot {
        pc: number(1) as u8,
        ir: number(2) as u16,
        registers: std::array::from_fn(|_| number(2) as u16),
        mar: number(1) as u8,
        mdr: number(2) as u16,
        instruction_address: number(1) as u8,
        tick: number(1) as u8,
        execute_ticks: number(1) as u8,
        halted: flag(number(1))?,
        fault: fault(number(1), number(2), number(1))?,
        instructions: number(8),
        micro_operations: number(8),
        memory: std::array::from_fn(|_| number(2) as u16),
    };
    is_lawful(
        snapshot.halted,
        snapshot.tick,
        snapshot.execute_ticks,
        snapshot.ir,
    )
    .then_some(snapshot)
}

fn flag(byte: u64) -> Option<bool> {
    match byte {
        0 => Some(false),
        1 => Some(true),
        _ => None,
    }
}

/// Under kind 0 word and address say nothing.
fn fault(kind: u64, word: u64, address: u64) -> Option<Option<Fault>> {
    let kind = match kind {
        0 => return Some(None),
        1 => FaultKind::UnknownInstruction,
        2 => FaultKind::StepBudgetExhausted,
        _ => return None,
    };
    Some(Some(Fault {
        kind,
        word: word as u16,
        address: address as u8,
    }))
}

/// Refusal 8's words on the tick: it is over 6; or the machine runs, with a
/// tick of 4 or more, and its execute ticks are not those of IR's opcode, or
/// tick − 4 is not below them.
pub fn is_lawful(halted: bool, tick: u8, execute_ticks: u8, ir: u16) -> bool {
    if tick > 6 {
        return false;
    }
    if halted || tick < 4 {
        return true;
    }
    execute_ticks == machines::execute_ticks(ir) && tick - 4 < execute_ticks
}
