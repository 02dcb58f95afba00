//! Records of the calls that only read a machine, for `replay_readings`.

pub mod lists;

use crate::encoding::{put_count, put_number, put_text, put_word, put_words};
use crate::record::Record;
use crate::vm::Machine;
use crate::words::disassembly::disassemble;

/// What a machine is asked: an image, how many ticks are made on it, and an
/// address.
#[derive(Clone)]
pub struct Question {
    pub image: Vec<u16>,
    pub ticks: u32,
    pub address: u8,
}

/// 'R': every reading of a machine with an image loaded, after so many ticks.
pub fn record(question: &Question) -> Record {
    let mut machine = Machine::new();
    machine.load_image(&question.image);
    for _ in 0..question.ticks {
        machine.micro_step();
    }
    Record::new(
        b'R',
        question_bytes(question),
        answer(&machine, question.address),
    )
}

fn question_bytes(question: &Question) -> Vec<u8> {
    let mut bytes = Vec::new();
    put_count(&mut bytes, question.image.len());
    put_words(&mut bytes, &question.image);
    bytes.extend(question.ticks.to_be_bytes());
    bytes.push(question.address);
    bytes
}

fn answer(machine: &Machine, address: u8) -> Vec<u8> {
    let mut out = Vec::new();
    put_number(&mut out, machine.image_len() as u64);
    put_number(&mut out, machine.image().len() as u64);
    put_words(&mut out, machine.image());
    out.push(machine.is_running() as u8);
    put_word(&mut out, machine.current_instruction().word());
    // `disassemble_at`, whose text is no longer the original's for every word.
    let word = machine.memory[usize::from(address)];
    put_text(&mut out, &disassemble(word));
    put_position(&mut out, machine.transfer_position());
    put_number(&mut out, machine.history_len() as u64);
    out
}

fn put_position(out: &mut Vec<u8>, position: Option<usize>) {
    let byte = u8::try_from(position.unwrap_or(0)).expect("an instruction has few transfers");
    out.extend([position.is_some() as u8, byte]);
}
