//! Records on words, texts and listings, for the program `replay_words`.

use crate::disasm;
use crate::encoding::{put_count, put_padded, put_words};
use crate::isa::{self, Instruction, InstructionGroup, Opcode};
use crate::record::Record;
use crate::sizes::TEXT;
use crate::words::disassembly;

/// The room for an opcode's description.
const LONG_TEXT: usize = 80;

/// 'W': all that the original says of one word, with the text that is due.
pub fn word(word: u16) -> Record {
    let mut answer = Vec::new();
    put_fields(&mut answer, Instruction::from_word(word));
    put_counted(&mut answer, &Instruction::from_word(word).to_string());
    put_counted(&mut answer, &isa::format_word(word));
    put_counted(&mut answer, &isa::binary_grouped(word));
    put_counted(&mut answer, &disassembly::disassemble(word));
    let raised = i32::from(isa::to_signed(word)) + 32_768;
    answer.extend((raised as u16).to_be_bytes());
    put_optional(&mut answer, disasm::written_register(word));
    put_optional(&mut answer, disasm::read_register(word));
    put_optional(&mut answer, disasm::active_register(word));
    put_sources(&mut answer, &disasm::source_registers(word));
    put_optional(&mut answer, disasm::memory_operand(word));
    Record::new(b'W', word.to_be_bytes().to_vec(), answer)
}

/// 'N': an opcode by its nibble, and its fixed texts.
pub fn nibble(byte: u8) -> Record {
    let opcode = Opcode::from_nibble(byte);
    let mut answer = vec![opcode_number(opcode)];
    if let Some(opcode) = opcode {
        put_opcode(&mut answer, opcode);
    }
    Record::new(b'N', vec![byte], answer)
}

/// 'A': the two lists of all opcodes and all groups.
pub fn all() -> Record {
    let opcodes = Opcode::ALL.iter().map(|opcode| opcode.nibble());
    let groups = InstructionGroup::ALL
        .iter()
        .map(|group| group_number(*group));
    Record::new(b'A', Vec::new(), opcodes.chain(groups).collect())
}

/// 'E': encoding from four digits, and from an opcode and three.
pub fn encode(digits: [u8; 4]) -> Record {
    let [opcode, x, y, z] = digits;
    let mut answer = Instruction::from_nibbles(opcode, x, y, z)
        .word()
        .to_be_bytes()
        .to_vec();
    let new = Opcode::from_nibble(opcode).map(|opcode| Instruction::new(opcode, x, y, z));
    answer.push(new.is_some() as u8);
    answer.extend(new.map_or(0, Instruction::word).to_be_bytes());
    Record::new(b'E', digits.to_vec(), answer)
}

/// 'B': the two texts of one byte.
pub fn byte(value: u8) -> Record {
    let mut answer = Vec::new();
    put_counted(&mut answer, &isa::format_byte(value));
    put_counted(&mut answer, &isa::register_name(value));
    Record::new(b'B', vec![value], answer)
}

/// 'H': a number of at least so many digits. The port carries 32 at most, so
/// the original is asked for no more.
pub fn hex(value: u16, digits: u64) -> Record {
    let mut answer = Vec::new();
    put_counted(
        &mut answer,
        &isa::format_hex(value, digits.min(TEXT as u64) as usize),
    );
    let question = [&value.to_be_bytes()[..], &digits.to_be_bytes()[..]].concat();
    Record::new(b'H', question, answer)
}

/// 'P': a register's name. The original takes a `&str`; the port takes any
/// bytes, and bytes that are no `&str` name no register.
pub fn parse(text: &[u8]) -> Record {
    let length = u8::try_from(text.len()).expect("a name's length has one byte");
    let register = std::str::from_utf8(text).ok().and_then(isa::parse_register);
    let mut answer = Vec::new();
    put_optional(&mut answer, register);
    Record::new(b'P', [&[length], text].concat(), answer)
}

/// 'L': the listing of an image.
pub fn listing(words: &[u16]) -> Record {
    let listing = disassembly::disassemble_image(words);
    let mut question = Vec::new();
    put_count(&mut question, words.len());
    put_words(&mut question, words);
    let mut answer = Vec::new();
    put_count(&mut answer, listing.len());
    answer.extend(listing.bytes());
    Record::new(b'L', question, answer)
}

fn put_fields(answer: &mut Vec<u8>, instruction: Instruction) {
    let (x, y, z) = instruction.xyz();
    answer.extend(instruction.word().to_be_bytes());
    answer.extend([
        instruction.opcode_nibble(),
        opcode_number(instruction.opcode()),
    ]);
    answer.extend([
        instruction.x(),
        instruction.y(),
        instruction.z(),
        instruction.yz(),
    ]);
    answer.extend([x, y, z]);
    answer.extend(instruction.nibbles());
}

fn put_opcode(answer: &mut Vec<u8>, opcode: Opcode) {
    answer.push(opcode.nibble());
    put_counted(answer, opcode.mnemonic());
    put_counted(answer, opcode.encoding());
    put_counted(answer, opcode.syntax());
    put_counted(answer, opcode.cpp());
    put_counted(answer, &opcode.to_string());
    put_counted_in(answer, opcode.description(), LONG_TEXT);
    answer.push(group_number(opcode.group()));
    put_counted(answer, opcode.group().label());
}

/// A text with room for 32 bytes, and its length.
pub(crate) fn put_counted(answer: &mut Vec<u8>, text: &str) {
    put_counted_in(answer, text, TEXT);
}

fn put_counted_in(answer: &mut Vec<u8>, text: &str, width: usize) {
    put_padded(answer, text, width);
    answer.push(text.len() as u8);
}

fn put_optional(answer: &mut Vec<u8>, value: Option<u8>) {
    answer.extend([value.is_some() as u8, value.unwrap_or(0)]);
}

fn put_sources(answer: &mut Vec<u8>, sources: &[u8]) {
    assert!(
        sources.len() <= 2,
        "an instruction has two source registers at most"
    );
    let at = |index: usize| sources.get(index).copied().unwrap_or(0);
    answer.extend([sources.len() as u8, at(0), at(1)]);
}

fn opcode_number(opcode: Option<Opcode>) -> u8 {
    opcode.map_or(0, Opcode::nibble)
}

fn group_number(group: InstructionGroup) -> u8 {
    match group {
        InstructionGroup::DataTransfer => 0,
        InstructionGroup::ArithmeticLogic => 1,
        InstructionGroup::Control => 2,
    }
}
