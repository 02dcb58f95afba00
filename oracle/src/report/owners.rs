//! Who owns a value, from whom it is hidden, and how an instruction moves its owners on:
//! document 01, section 5, sentence by sentence, as document 02, Changes 2 and 7, have
//! changed it.

use crate::isa::{Instruction, Opcode};
use crate::sizes::{MEMORY_WORDS, REGISTERS, WORD_BITS};

/// The owner byte of what nobody owns: no reader is kept from it.
pub const NONE: u8 = 0;

/// Whether a value with these owners is hidden from a reader with this clearance: it has
/// an owner outside of it. Nothing else decides what is hidden.
pub fn hidden_from(owners: u8, clearance: u8) -> bool {
    owners & !clearance != 0
}

/// The owners of what is made of two values.
fn union(owners: u8, others: u8) -> u8 {
    owners | others
}

/// The owner byte of every value, one bit for each of eight owners. What they are does
/// not hang on the reader.
#[derive(Clone, Debug, PartialEq, Eq)]
pub struct Owners {
    pub memory: [u8; MEMORY_WORDS],
    pub registers: [u8; REGISTERS],
    pub mdr: u8,
}

impl Owners {
    /// Before the first instruction: words as they were handed in, registers
    /// and MDR without owners.
    pub fn at_start(memory: [u8; MEMORY_WORDS]) -> Self {
        Owners {
            memory,
            registers: [NONE; REGISTERS],
            mdr: NONE,
        }
    }

    /// One whole instruction. A guarded run begins on a fresh machine, so that
    /// it never begins or stops inside of one.
    pub fn follow(&mut self, word: u16) {
        self.fetch();
        self.execute(Instruction::from_word(word));
    }

    /// The word that is fetched is not hidden, else the run had stopped before it. It
    /// may have owners all the same, and MDR has none even then.
    fn fetch(&mut self) {
        self.mdr = NONE;
    }

    fn execute(&mut self, instruction: Instruction) {
        let (x, y, z) = instruction.xyz();
        let yz = instruction.yz();
        match instruction.opcode() {
            Some(Opcode::LoadImmediate) => self.set(x, NONE),
            Some(Opcode::LoadRegister) => self.set(y, self.of(z)),
            Some(Opcode::LoadMemory) => self.load(x, yz),
            Some(Opcode::StoreMemory) => self.store(x, yz),
            // Change 2: these leave 0 for every input, which tells nothing. It is
            // the digits that count, and never what a register holds.
            Some(Opcode::Xor) if y == z => self.set(x, NONE),
            Some(Opcode::ShiftRight | Opcode::ShiftLeft) if yz >= WORD_BITS => self.set(x, NONE),
            Some(Opcode::Add | Opcode::And | Opcode::Or | Opcode::Xor) => {
                self.set(x, union(self.of(y), self.of(z)))
            }
            // These, lesser shifts among them, keep the owners of what they change,
            // or change nothing that has any.
            Some(Opcode::Negate | Opcode::ShiftRight | Opcode::ShiftLeft) => {}
            Some(Opcode::Jump | Opcode::Halt) | None => {}
        }
    }

    fn load(&mut self, register: u8, address: u8) {
        self.mdr = self.memory[usize::from(address)];
        self.set(register, self.mdr);
    }

    fn store(&mut self, register: u8, address: u8) {
        self.mdr = self.of(register);
        self.memory[usize::from(address)] = self.mdr;
    }

    /// How many words of memory are hidden from this reader. Registers and MDR are no
    /// words.
    pub fn hidden_words(&self, clearance: u8) -> usize {
        let words = self.memory.iter();
        words
            .filter(|owners| hidden_from(**owners, clearance))
            .count()
    }

    fn of(&self, register: u8) -> u8 {
        self.registers[usize::from(register)]
    }

    fn set(&mut self, register: u8, owners: u8) {
        self.registers[usize::from(register)] = owners;
    }

    /// Whether the word is a JUMP whose test would tell this reader of a hidden value.
    /// R0 equals itself whatever it holds, so with x = 0 nothing is told.
    pub fn hide_the_test_of(&self, word: u16, clearance: u8) -> bool {
        let instruction = Instruction::from_word(word);
        let x = instruction.x();
        let is_hidden = |register| hidden_from(self.of(register), clearance);
        instruction.opcode() == Some(Opcode::Jump) && x != 0 && (is_hidden(x) || is_hidden(0))
    }
}
