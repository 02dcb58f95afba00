//! Records of plans and single ticks, for the program `replay_words`.

use crate::codes::{operation_name, put_alu, put_fault, put_op_rest, put_transfer};
use crate::codes::{ALU_OPCODES, PHASES};
use crate::encoding::put_word;
use crate::isa::Instruction;
use crate::machines::execute_ticks;
use crate::record::Record;
use crate::vm::{BusDirection, Machine, MicroOp, Phase};
use crate::words::texts::put_counted;

/// The most transfers that an instruction has.
const PLAN: usize = 7;

/// 'T': how many execute ticks a word has, and its transfers.
pub fn plan(word: u16) -> Record {
    let plan = Machine::transfer_plan(word);
    assert!(plan.len() <= PLAN, "a plan has {PLAN} transfers at most");
    let mut answer = vec![execute_ticks(word), plan.len() as u8];
    for index in 0..PLAN {
        put_counted(&mut answer, plan.get(index).map_or("", String::as_str));
    }
    Record::new(b'T', word.to_be_bytes().to_vec(), answer)
}

/// 'F': the label of each phase.
pub fn phases() -> Vec<Record> {
    let labels = PHASES.map(Phase::label);
    named(b'F', &labels)
}

/// 'U': the name of each operation of the ALU.
pub fn operations() -> Vec<Record> {
    let names = ALU_OPCODES.map(operation_name);
    named(b'U', &names.each_ref().map(String::as_str))
}

/// A record for each name, asked for by its place.
fn named(kind: u8, names: &[&str]) -> Vec<Record> {
    let record = |(place, name): (usize, &&str)| {
        let mut answer = Vec::new();
        put_counted(&mut answer, name);
        Record::new(kind, vec![place as u8], answer)
    };
    names.iter().enumerate().map(record).collect()
}

/// 'M': one tick of a running machine.
pub fn micro(before: &Machine) -> Record {
    let mut after = before.clone();
    let op = after.micro_step();
    assert_effects(before, &after, &op);
    let mut answer = Vec::new();
    put_control(&mut answer, &after);
    answer.push(after.halted as u8);
    put_last(&mut answer, &after);
    put_counted(&mut answer, &op.text);
    put_op_rest(&mut answer, &op);
    put_growth(&mut answer, before, &after);
    answer.push(1);
    Record::new(b'M', question(before), answer)
}

/// The port's tick says by the bus and the register write alone what becomes
/// of memory and registers: here the original is held to the same, and the
/// record's last byte says that it was.
fn assert_effects(before: &Machine, after: &Machine, op: &MicroOp) {
    let (mut memory, mut registers) = (before.memory, before.registers);
    match op.bus {
        Some(bus) if bus.direction == BusDirection::Write => {
            memory[bus.address as usize] = bus.value
        }
        Some(bus) => assert_eq!(memory[bus.address as usize], bus.value),
        None => {}
    }
    for (register, value) in &op.register_writes {
        registers[*register as usize] = *value;
    }
    assert_eq!(after.memory, memory);
    assert_eq!(after.registers, registers);
}

/// What the port's tick is given: the state, and the words that it may read.
fn question(machine: &Machine) -> Vec<u8> {
    let (x, y, z) = Instruction::from_word(machine.ir).xyz();
    let mut question = Vec::new();
    put_control(&mut question, machine);
    put_word(&mut question, machine.memory[machine.mar as usize]);
    for register in [x, y, z, 0] {
        put_word(&mut question, machine.registers[register as usize]);
    }
    put_last(&mut question, machine);
    question
}

fn put_control(out: &mut Vec<u8>, machine: &Machine) {
    out.push(machine.pc);
    put_word(out, machine.ir);
    out.push(machine.mar);
    put_word(out, machine.mdr);
    out.extend([
        machine.instruction_address,
        machine.tick,
        machine.execute_ticks,
    ]);
}

/// The fault, the last transfer and the last operation of the ALU.
fn put_last(out: &mut Vec<u8>, machine: &Machine) {
    put_fault(out, machine.fault);
    put_transfer(out, machine.last_transfer);
    put_alu(out, machine.last_alu.as_ref());
}

/// By how much each counter grew.
fn put_growth(out: &mut Vec<u8>, before: &Machine, after: &Machine) {
    let counters = |machine: &Machine| {
        [
            machine.instructions,
            machine.micro_operations,
            machine.bus_reads,
            machine.bus_writes,
        ]
    };
    for (before, after) in counters(before).iter().zip(counters(after)) {
        out.push(u8::try_from(after - before).expect("a counter grows by 1 at most"));
    }
}
