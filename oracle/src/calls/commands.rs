//! The commands of the call program `massey_calls`, as its script has them.

use crate::encoding::{self, put_count, put_number, put_word, put_words};

/// One command, with its operands.
#[derive(Clone, Debug, PartialEq, Eq)]
pub enum Command {
    New,
    Load(Vec<u16>),
    Reset,
    Clear,
    Micro,
    Step,
    Run(u64, Vec<u8>),
    Push,
    Undo,
    ClearHistory,
    Dump,
    /// A field of the machine: its number, an index and a value.
    Set(u8, u16, u64),
    /// A byte of the store: its offset and its value.
    Byte(u32, u8),
    /// An instruction of the direct engine.
    Direct,
    /// A run of the direct engine.
    DirectRun(u64, Vec<u8>),
}

/// The numbers of the fields that `Command::Set` knows.
pub mod field {
    pub const PC: u8 = 0x00;
    pub const IR: u8 = 0x01;
    pub const REGISTER: u8 = 0x02;
    pub const MAR: u8 = 0x03;
    pub const MDR: u8 = 0x04;
    pub const INSTRUCTION_ADDRESS: u8 = 0x05;
    pub const TICK: u8 = 0x06;
    pub const EXECUTE_TICKS: u8 = 0x07;
    pub const HALTED: u8 = 0x08;
    pub const INSTRUCTIONS: u8 = 0x09;
    pub const MICRO_OPERATIONS: u8 = 0x0A;
    pub const BUS_READS: u8 = 0x0B;
    pub const BUS_WRITES: u8 = 0x0C;
    pub const IMAGE_LENGTH: u8 = 0x0D;
    pub const TRACE_COUNT: u8 = 0x0E;
    pub const TEXT_LENGTH: u8 = 0x0F;
    pub const TOUCHED_COUNT: u8 = 0x10;
    pub const TOUCHED: u8 = 0x11;
    pub const HISTORY_COUNT: u8 = 0x12;
    pub const MEMORY: u8 = 0x13;
    /// The first number that is no field.
    pub const END: u8 = 0x14;
    pub const COUNTERS: [u8; 4] = [INSTRUCTIONS, MICRO_OPERATIONS, BUS_READS, BUS_WRITES];
}

/// The first byte that is no command.
pub const END: u8 = 0x0F;

impl Command {
    /// The byte that names the command.
    pub fn number(&self) -> u8 {
        match self {
            Command::New => 0x00,
            Command::Load(_) => 0x01,
            Command::Reset => 0x02,
            Command::Clear => 0x03,
            Command::Micro => 0x04,
            Command::Step => 0x05,
            Command::Run(..) => 0x06,
            Command::Push => 0x07,
            Command::Undo => 0x08,
            Command::ClearHistory => 0x09,
            Command::Dump => 0x0A,
            Command::Set(..) => 0x0B,
            Command::Byte(..) => 0x0C,
            Command::Direct => 0x0D,
            Command::DirectRun(..) => 0x0E,
        }
    }

    /// The same by the direct engine, where it has such a call.
    pub fn direct(&self) -> Command {
        match self {
            Command::Step => Command::Direct,
            Command::Run(budget, breakpoints) => Command::DirectRun(*budget, breakpoints.clone()),
            other => other.clone(),
        }
    }

    /// The command as a script has it.
    pub fn bytes(&self) -> Vec<u8> {
        let mut bytes = vec![self.number()];
        match self {
            Command::Load(words) => put_image(&mut bytes, words),
            Command::Run(budget, breakpoints) | Command::DirectRun(budget, breakpoints) => {
                put_run(&mut bytes, *budget, breakpoints)
            }
            Command::Set(field, index, value) => put_field(&mut bytes, *field, *index, *value),
            Command::Byte(offset, value) => {
                bytes.extend(offset.to_be_bytes());
                bytes.push(*value);
            }
            _ => {}
        }
        bytes
    }
}

/// A script: the length of its store, and its commands.
pub fn script(store: u32, commands: &[Command]) -> Vec<u8> {
    let bytes = commands.iter().flat_map(Command::bytes);
    store.to_be_bytes().into_iter().chain(bytes).collect()
}

/// A run without breakpoints.
pub fn run(budget: u64) -> Command {
    Command::Run(budget, Vec::new())
}

/// A field that has one place.
pub fn set(field: u8, value: u64) -> Command {
    Command::Set(field, 0, value)
}

/// The commands, and the same by the direct engine where that is another list.
pub fn by_both_engines(commands: Vec<Command>) -> Vec<Vec<Command>> {
    let direct = by_direct_engine(&commands);
    match direct == commands {
        true => vec![commands],
        false => vec![commands, direct],
    }
}

/// The commands, with the direct engine's calls for those that it has.
pub fn by_direct_engine(commands: &[Command]) -> Vec<Command> {
    commands.iter().map(Command::direct).collect()
}

fn put_image(bytes: &mut Vec<u8>, words: &[u16]) {
    put_count(bytes, words.len());
    put_words(bytes, words);
}

fn put_run(bytes: &mut Vec<u8>, budget: u64, breakpoints: &[u8]) {
    put_number(bytes, budget);
    put_count(bytes, breakpoints.len());
    bytes.extend(breakpoints);
}

fn put_field(bytes: &mut Vec<u8>, field: u8, index: u16, value: u64) {
    bytes.push(field);
    put_word(bytes, index);
    put_number(bytes, value);
}

/// What is left of a script.
pub struct Input<'a>(pub &'a [u8]);

impl Input<'_> {
    pub fn is_empty(&self) -> bool {
        self.0.is_empty()
    }

    /// The next command; none where its byte names none or an operand is not
    /// wholly there.
    pub fn command(&mut self) -> Option<Command> {
        Some(match self.byte()? {
            0x00 => Command::New,
            0x01 => Command::Load(self.words()?),
            0x02 => Command::Reset,
            0x03 => Command::Clear,
            0x04 => Command::Micro,
            0x05 => Command::Step,
            0x06 => Command::Run(self.number(8)?, self.counted_bytes()?),
            0x07 => Command::Push,
            0x08 => Command::Undo,
            0x09 => Command::ClearHistory,
            0x0A => Command::Dump,
            0x0B => Command::Set(self.byte()?, self.word()?, self.number(8)?),
            0x0C => Command::Byte(self.number(4)? as u32, self.byte()?),
            0x0D => Command::Direct,
            0x0E => Command::DirectRun(self.number(8)?, self.counted_bytes()?),
            _ => return None,
        })
    }

    /// A number of so many bytes, high byte first.
    pub fn number(&mut self, width: usize) -> Option<u64> {
        encoding::number(&mut self.0, width)
    }

    fn byte(&mut self) -> Option<u8> {
        Some(self.number(1)? as u8)
    }

    fn word(&mut self) -> Option<u16> {
        Some(self.number(2)? as u16)
    }

    fn words(&mut self) -> Option<Vec<u16>> {
        let count = self.word()?;
        (0..count).map(|_| self.word()).collect()
    }

    fn counted_bytes(&mut self) -> Option<Vec<u8>> {
        let count = self.word()?;
        encoding::take(&mut self.0, count.into()).map(<[u8]>::to_vec)
    }
}
