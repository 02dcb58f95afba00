//! The answers of `massey_calls` and the parts of its dump, as bytes.

use crate::calls::limited;
use crate::calls::runs;
use crate::codes;
use crate::encoding::{put_number, put_text, put_word, put_words};
use crate::sizes::{MEMORY_WORDS, TEXT};
use crate::vm_limited::{InstructionReport, Machine, MicroOp, RunStop, TraceRecord};
use crate::words::disassembly::disassemble;

/// What a tick tells.
pub fn op(op: MicroOp) -> Vec<u8> {
    let mut out = Vec::new();
    put_text(&mut out, &op.text);
    codes::put_op_rest(&mut out, &limited::op(op));
    out
}

/// What an instruction tells, with the text that is due for its word.
pub fn report(report: &InstructionReport) -> Vec<u8> {
    let mut out = vec![report.address];
    put_word(&mut out, report.word);
    put_text(&mut out, &disassemble(report.word));
    out.push(report.micro_ops.len() as u8);
    for text in &report.micro_ops {
        put_text(&mut out, text);
    }
    out.extend([report.halted, report.faulted].map(u8::from));
    out
}

/// What a run tells: its stop, and how many instructions it began.
pub fn ran(stop: RunStop, begun: u64) -> Vec<u8> {
    let stop = match stop {
        RunStop::Halted => [0, 0],
        RunStop::Breakpoint(address) => [1, address],
        RunStop::Fault => [2, 0],
        RunStop::Budget => [3, 0],
        RunStop::AlreadyHalted => [6, 0],
    };
    [&stop[..], &begun.to_be_bytes()].concat()
}

/// The machine's fields that are no lists, and the registers.
pub fn put_small(out: &mut Vec<u8>, machine: &Machine) {
    put_control(out, machine);
    codes::put_fault(out, machine.fault.map(limited::fault));
    for counter in runs::counters(machine) {
        put_number(out, counter);
    }
    codes::put_transfer(out, machine.last_transfer.map(limited::transfer));
    let alu = machine.last_alu.as_ref().map(limited::alu);
    codes::put_alu(out, alu.as_ref());
}

fn put_control(out: &mut Vec<u8>, machine: &Machine) {
    out.push(machine.pc);
    put_word(out, machine.ir);
    put_words(out, &machine.registers);
    out.push(machine.mar);
    put_word(out, machine.mdr);
    out.extend([
        machine.instruction_address,
        machine.tick,
        machine.execute_ticks,
        machine.halted as u8,
    ]);
}

/// A record of the trace. A text's length may have been set over what there is
/// room for.
pub fn put_trace(out: &mut Vec<u8>, record: &TraceRecord) {
    put_number(out, record.index);
    out.extend([
        record.address,
        codes::phase_number(limited::phase(record.phase)),
        record.text.len() as u8,
    ]);
    put_text(out, &record.text[..record.text.len().min(TEXT)]);
}

/// The words, and zeros up to as many as memory has.
pub fn put_padded_words(out: &mut Vec<u8>, words: &[u16]) {
    let end = out.len() + 2 * MEMORY_WORDS;
    put_words(out, words);
    out.resize(end, 0);
}
