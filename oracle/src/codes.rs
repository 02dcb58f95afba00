//! Parts of a machine as bytes, and their numbers: the same in the records of
//! ticks, in the answers of `massey_calls` and in reports.

use crate::encoding::put_word;
use crate::isa::{Instruction, Opcode};
use crate::vm::{AluRecord, BusDirection, BusTransfer, Fault, FaultKind, Machine, MicroOp, Phase};

/// In the order of their numbers.
pub const PHASES: [Phase; 4] = [Phase::Fetch, Phase::Decode, Phase::Execute, Phase::Halt];

/// The opcodes that use the ALU, in the order in which the port numbers its
/// operations.
pub const ALU_OPCODES: [Opcode; 7] = [
    Opcode::Add,
    Opcode::Negate,
    Opcode::ShiftRight,
    Opcode::ShiftLeft,
    Opcode::And,
    Opcode::Or,
    Opcode::Xor,
];

/// The original has no list of its names, so it is made to use one.
pub fn operation_name(opcode: Opcode) -> String {
    let mut machine = Machine::new();
    machine.ir = Instruction::new(opcode, 1, 2, 3).word();
    machine.tick = 4;
    machine.execute_ticks = 1;
    machine.micro_step();
    machine.last_alu.expect("it used the ALU").operation
}

pub fn put_fault(out: &mut Vec<u8>, fault: Option<Fault>) {
    out.push(match fault.map(|fault| fault.kind) {
        None => 0,
        Some(FaultKind::UnknownInstruction) => 1,
        Some(FaultKind::StepBudgetExhausted) => 2,
    });
    put_word(out, fault.map_or(0, |fault| fault.word));
    out.push(fault.map_or(0, |fault| fault.address));
}

pub fn put_transfer(out: &mut Vec<u8>, transfer: Option<BusTransfer>) {
    out.push(match transfer.map(|transfer| transfer.direction) {
        None => 0,
        Some(BusDirection::Read) => 1,
        Some(BusDirection::Write) => 2,
    });
    out.push(transfer.map_or(0, |transfer| transfer.address));
    put_word(out, transfer.map_or(0, |transfer| transfer.value));
}

pub fn put_alu(out: &mut Vec<u8>, record: Option<&AluRecord>) {
    let Some(record) = record else {
        out.extend([0; 8]);
        return;
    };
    out.push(operation_number(&record.operation));
    put_word(out, record.left);
    out.push(record.right.is_some() as u8);
    put_word(out, record.right.unwrap_or(0));
    put_word(out, record.result);
}

/// One more than the operation's place, so that 0 is none.
fn operation_number(name: &str) -> u8 {
    match name {
        "ADD" => 1,
        "NEGATE" => 2,
        "SHR" => 3,
        "SHL" => 4,
        "AND" => 5,
        "OR" => 6,
        "XOR" => 7,
        _ => panic!("{name:?} is no operation of the ALU"),
    }
}

/// All that a tick reports, but for its text.
pub fn put_op_rest(out: &mut Vec<u8>, op: &MicroOp) {
    out.push(phase_number(op.phase));
    out.extend([op.ends_instruction, op.halts, op.faulted].map(u8::from));
    put_transfer(out, op.bus);
    put_writes(out, &op.register_writes);
    out.push(op.address);
}

/// The phase's place among the phases.
pub fn phase_number(phase: Phase) -> u8 {
    let place = PHASES.iter().position(|other| *other == phase);
    place.expect("it is one of the phases") as u8
}

fn put_writes(out: &mut Vec<u8>, writes: &[(u8, u16)]) {
    assert!(writes.len() <= 1, "a tick writes one register at most");
    let (register, value) = writes.first().copied().unwrap_or((0, 0));
    out.extend([writes.len() as u8, register]);
    put_word(out, value);
}
