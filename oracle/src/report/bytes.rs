//! The report of a guarded run, as bytes: document 01, section 6, one function
//! for each kind of record. The last of them is from document 02, Change 6, the head and
//! the owner bytes in place of marks are from its Change 7.

use crate::codes::put_fault;
use crate::encoding::{put_count, put_number, put_text, put_word};
use crate::report::guarded::{self, Input, Run};
use crate::report::owners::hidden_from;
use crate::sizes::{BREAKPOINTS, MEMORY_WORDS, REGISTERS, TEXT, TRACE_RECORDS};
use crate::vm::{Phase, TraceRecord};
use crate::words::disassembly::disassemble;

/// The bytes of an address of memory, in kinds 02, 06 and 07 and of MAR.
const ADDRESS: usize = 1;
/// A value behind its owner byte.
const VALUE: usize = 1 + 2;

/// The bytes of a record of each kind, its kind among them.
pub const HEAD: usize = 1 + 2 + 8 + 2 + 1;
pub const STARTING_WORD: usize = 1 + ADDRESS + VALUE + TEXT;
pub const BREAKPOINT: usize = 1 + 1;
pub const TRACE: usize = 1 + 8 + 1 + 1 + TEXT;
pub const REGISTER: usize = 1 + 1 + VALUE;
pub const FINAL_WORD: usize = 1 + ADDRESS + VALUE;
pub const TOUCHED: usize = 1 + ADDRESS;
pub const END: usize = FAULT + 1 + 2 + 1;
pub const HIDDEN_WORDS: usize = 1 + 2;

/// Where the end has its first count, instructions, and where its fault.
pub const COUNTS: usize = 1 + 1 + 1 + 2 + ADDRESS + VALUE;
pub const FAULT: usize = COUNTS + 4 * 8;

/// The bytes of the longest report.
pub const LONGEST: usize = HEAD
    + MEMORY_WORDS * (STARTING_WORD + FINAL_WORD + TOUCHED)
    + BREAKPOINTS * BREAKPOINT
    + TRACE_RECORDS * TRACE
    + REGISTERS * REGISTER
    + END
    + HIDDEN_WORDS;

/// A text that is not shown is all zeros.
const NO_TEXT: &str = "";

/// The report, or the number of the refusal.
pub fn report(input: &Input) -> Result<Vec<u8>, u8> {
    guarded::run(input).map(|run| bytes(input, &run))
}

/// The report of a run that was made from this input.
pub fn bytes(input: &Input, run: &Run) -> Vec<u8> {
    let mut out = Vec::new();
    put_head(&mut out, input);
    put_starting_words(&mut out, input);
    put_breakpoints(&mut out, &input.breakpoints);
    for record in &run.machine.trace {
        put_trace(&mut out, record);
    }
    let (machine, owners, clearance) = (&run.machine, &run.owners, input.clearance);
    put_values(
        &mut out,
        5,
        &machine.registers,
        &owners.registers,
        clearance,
    );
    put_values(&mut out, 6, &machine.memory, &owners.memory, clearance);
    put_touched(&mut out, &run.machine.touched);
    put_end(&mut out, run, clearance);
    put_hidden_words(&mut out, run, clearance);
    out
}

/// Kind 09.
fn put_head(out: &mut Vec<u8>, input: &Input) {
    out.push(9);
    put_count(out, input.image.len());
    put_number(out, input.budget);
    put_count(out, input.breakpoints.len());
    out.push(input.clearance);
}

/// Kind 02: the image's words, then zeros, with the owners that were handed in.
fn put_starting_words(out: &mut Vec<u8>, input: &Input) {
    let words = input.image.iter().copied().chain(std::iter::repeat(0));
    for (address, (owners, word)) in input.owners.iter().zip(words).enumerate() {
        out.extend([2, address as u8]);
        put_value(out, word, *owners, input.clearance);
        match hidden_from(*owners, input.clearance) {
            true => put_text(out, NO_TEXT),
            false => put_text(out, &disassemble(word)),
        }
    }
}

/// Kind 03.
fn put_breakpoints(out: &mut Vec<u8>, breakpoints: &[u8]) {
    out.extend(breakpoints.iter().flat_map(|address| [3, *address]));
}

/// Kind 04.
fn put_trace(out: &mut Vec<u8>, record: &TraceRecord) {
    out.push(4);
    put_number(out, record.index);
    out.extend([record.address, phase(record.phase)]);
    put_text(out, &record.text);
}

/// The only phases that a record of the trace has.
fn phase(phase: Phase) -> u8 {
    match phase {
        Phase::Fetch => 0,
        Phase::Execute => 2,
        Phase::Decode | Phase::Halt => unreachable!("no tick that is made has this phase"),
    }
}

/// Kinds 05 and 06: each value behind its index and its owner byte.
fn put_values(out: &mut Vec<u8>, kind: u8, values: &[u16], owners: &[u8], clearance: u8) {
    for (index, (value, owners)) in values.iter().zip(owners).enumerate() {
        out.extend([kind, index as u8]);
        put_value(out, *value, *owners, clearance);
    }
}

/// Kind 07: the original notes an address when it is first written.
fn put_touched(out: &mut Vec<u8>, touched: &[u8]) {
    out.extend(touched.iter().flat_map(|address| [7, *address]));
}

/// Kind 08.
fn put_end(out: &mut Vec<u8>, run: &Run, clearance: u8) {
    let machine = &run.machine;
    out.extend([8, run.stop as u8, machine.pc]);
    put_word(out, machine.ir);
    out.push(machine.mar);
    put_value(out, machine.mdr, run.owners.mdr, clearance);
    put_number(out, machine.instructions);
    put_number(out, machine.micro_operations);
    put_number(out, machine.bus_reads);
    put_number(out, machine.bus_writes);
    put_fault(out, machine.fault);
}

/// Kind 0A: the words that are hidden from the reader at the stop, all counted. Nothing
/// that was kept along the way is used, since that is what the port does.
fn put_hidden_words(out: &mut Vec<u8>, run: &Run, clearance: u8) {
    out.push(0x0A);
    put_count(out, run.owners.hidden_words(clearance));
}

/// The whole owner byte, and the value behind it, which is written 0000 where it is
/// hidden from the reader.
fn put_value(out: &mut Vec<u8>, value: u16, owners: u8, clearance: u8) {
    out.push(owners);
    let hidden = hidden_from(owners, clearance);
    put_word(out, if hidden { 0 } else { value });
}
