//! What `massey_calls` must answer to a command: the original makes every call,
//! and beside it stands what it cannot hold, since a set command can make
//! states that no machine of the original comes to. Refusals are read from
//! document 01, section 1.
//!
//! Not all that a script can ask is fixed: what stands behind a list's live
//! places is not. `fixes` says whether an answer is, and a script that asks for
//! another is a fault of the script's maker.

use crate::calls::answers;
use crate::calls::commands::{field, Command};
use crate::calls::history::History;
use crate::calls::runs;
use crate::calls::snapshots;
use crate::calls::touched::Touched;
use crate::encoding::{put_count, put_words};
use crate::sizes::{MEMORY_WORDS, REGISTERS, TEXT, TRACE_RECORDS};
use crate::vm_limited::{Machine, Snapshot};

/// Stands for a byte of a text that is not fixed; no text of the original has
/// it.
const OPEN: char = '\u{7F}';

#[derive(Clone)]
pub struct Model {
    machine: Machine,
    image_len: usize,
    trace_count: usize,
    touched: Touched,
    history: History,
}

impl Model {
    /// A new machine beside a store of zeros.
    pub fn new(store: usize) -> Self {
        Model::beside(History::new(store))
    }

    fn beside(mut history: History) -> Self {
        let mut machine = Machine::new();
        machine.set_history_limit(history.limit());
        history.clear();
        Model {
            machine,
            image_len: 0,
            trace_count: 0,
            touched: Touched::of(&[]),
            history,
        }
    }

    pub fn machine(&self) -> &Machine {
        &self.machine
    }

    pub fn history(&self) -> &History {
        &self.history
    }

    pub fn touched(&self) -> &Touched {
        &self.touched
    }

    pub fn image_len(&self) -> usize {
        self.image_len
    }

    pub fn trace_count(&self) -> usize {
        self.trace_count
    }

    /// Whether the answer to a command is fixed.
    pub fn fixes(&self, command: &Command) -> bool {
        match command {
            Command::New | Command::Set(..) | Command::Byte(..) => true,
            Command::Dump => self.fixes_dump(),
            _ => self.lawful().is_some(),
        }
    }

    /// Makes the command and gives its answer.
    pub fn answer(&mut self, command: &Command) -> Vec<u8> {
        match command {
            Command::Dump => return self.dump(),
            Command::Set(number, index, value) => self.set(*number, (*index).into(), *value),
            Command::Byte(offset, value) => self.history.set_byte(*offset as usize, *value),
            call => return self.call(call),
        }
        Vec::new()
    }

    /// A call's answer: the refusal's number alone, or 0 and what it tells.
    fn call(&mut self, call: &Command) -> Vec<u8> {
        match self.serve(call) {
            Ok(told) => [&[0], &told[..]].concat(),
            Err(refusal) => vec![refusal],
        }
    }

    fn serve(&mut self, call: &Command) -> Result<Vec<u8>, u8> {
        if *call == Command::New {
            *self = Model::beside(self.history.clone());
            return Ok(Vec::new());
        }
        if matches!(call, Command::Push | Command::Undo) && self.history.is_short() {
            return Err(7);
        }
        self.test_machine()?;
        match call {
            Command::Push | Command::Undo => self.test_history()?,
            Command::Micro | Command::Step | Command::Direct => self.test_counters()?,
            _ => {}
        }
        self.lend_touched();
        let told = self.make(call);
        self.take_back();
        told
    }

    /// Makes a call on a machine that is one.
    fn make(&mut self, call: &Command) -> Result<Vec<u8>, u8> {
        let machine = &mut self.machine;
        match call {
            Command::Load(words) => {
                machine.load_image(words);
                self.image_len = machine.image_len();
            }
            Command::Reset => machine.reset(),
            Command::Clear => {
                machine.clear();
                self.image_len = 0;
                self.history.clear();
            }
            Command::Micro => return Ok(answers::op(machine.micro_step())),
            // The direct engine is due to answer and to leave the machine as
            // the original's own calls do.
            Command::Step | Command::Direct => {
                return Ok(answers::report(&machine.step_instruction()))
            }
            Command::Run(budget, breakpoints) | Command::DirectRun(budget, breakpoints) => {
                return runs::run(machine, *budget, breakpoints)
            }
            Command::Push => self.history.push(machine),
            Command::Undo => {
                let snapshot = newest(&self.history)?;
                self.history.undo(machine, &snapshot);
            }
            Command::ClearHistory => {
                machine.clear_history();
                self.history.clear();
            }
            Command::New | Command::Dump | Command::Set(..) | Command::Byte(..) => {
                unreachable!("{call:?} is served elsewhere")
            }
        }
        Ok(Vec::new())
    }

    /// The original has a list of its own for the touched addresses.
    fn lend_touched(&mut self) {
        let live = self.touched.live();
        self.machine.touched = live.expect("a lawful machine's addresses are fixed");
    }

    fn take_back(&mut self) {
        self.touched = Touched::of(&self.machine.touched);
        self.trace_count = self.machine.trace.len();
    }

    // -- refusals -----------------------------------------------------------

    /// 8, of every call.
    fn test_machine(&self) -> Result<(), u8> {
        match self.lawful() {
            Some(true) => Ok(()),
            Some(false) => Err(8),
            None => panic!("a script asks what is not fixed"),
        }
    }

    /// Whether it is a machine; none where that is not fixed.
    pub fn lawful(&self) -> Option<bool> {
        let machine = &self.machine;
        let tick = snapshots::is_lawful(
            machine.halted,
            machine.tick,
            machine.execute_ticks,
            machine.ir,
        );
        let parts = [
            Some(tick),
            Some(self.image_len <= MEMORY_WORDS),
            self.lawful_trace(),
            self.touched.is_lawful(),
        ];
        if parts.contains(&Some(false)) {
            return Some(false);
        }
        parts.iter().all(Option::is_some).then_some(true)
    }

    /// Not over the most records, and no text over its room.
    fn lawful_trace(&self) -> Option<bool> {
        let trace = &self.machine.trace;
        if self.trace_count > TRACE_RECORDS || trace.iter().any(|record| record.text.len() > TEXT) {
            return Some(false);
        }
        (self.trace_count == trace.len()).then_some(true)
    }

    /// 8, of push and undo: more records than the limit.
    fn test_history(&self) -> Result<(), u8> {
        match self.history.count() > self.history.limit() {
            true => Err(8),
            false => Ok(()),
        }
    }

    /// 9, of a tick and of an instruction.
    fn test_counters(&self) -> Result<(), u8> {
        match runs::is_over_counted(&self.machine) {
            true => Err(9),
            false => Ok(()),
        }
    }

    // -- set commands -------------------------------------------------------

    /// A number that is no field's sets nothing.
    fn set(&mut self, number: u8, index: usize, value: u64) {
        let machine = &mut self.machine;
        let count = usize::from(value as u16);
        match number {
            field::PC => machine.pc = value as u8,
            field::IR => machine.ir = value as u16,
            field::REGISTER => machine.registers[index % REGISTERS] = value as u16,
            field::MAR => machine.mar = value as u8,
            field::MDR => machine.mdr = value as u16,
            field::INSTRUCTION_ADDRESS => machine.instruction_address = value as u8,
            field::TICK => machine.tick = value as u8,
            field::EXECUTE_TICKS => machine.execute_ticks = value as u8,
            field::HALTED => machine.halted = value != 0,
            field::INSTRUCTIONS => machine.instructions = value,
            field::MICRO_OPERATIONS => machine.micro_operations = value,
            field::BUS_READS => machine.bus_reads = value,
            field::BUS_WRITES => machine.bus_writes = value,
            field::IMAGE_LENGTH => self.image_len = count,
            field::TRACE_COUNT => self.set_trace_count(count),
            field::TEXT_LENGTH => self.set_text_length(index % TRACE_RECORDS, value as u8),
            field::TOUCHED_COUNT => self.touched.set_count(count),
            field::TOUCHED => self.touched.set(index, value as u8),
            field::HISTORY_COUNT => self.history.set_count(count),
            field::MEMORY => machine.memory[index % MEMORY_WORDS] = value as u16,
            _ => {}
        }
    }

    /// Where it falls, the oldest records stay.
    fn set_trace_count(&mut self, count: usize) {
        self.machine.trace.truncate(count);
        self.trace_count = count;
    }

    /// The length of a record that is not live shows nowhere. A longer text
    /// has bytes at its end that are not fixed.
    fn set_text_length(&mut self, index: usize, length: u8) {
        if let Some(record) = self.machine.trace.get_mut(index) {
            record.text.truncate(length.into());
            while record.text.len() < length.into() {
                record.text.push(OPEN);
            }
        }
    }

    // -- the dump -----------------------------------------------------------

    fn fixes_dump(&self) -> bool {
        let trace = &self.machine.trace;
        let open = |text: &str| text.chars().take(TEXT).any(|byte| byte == OPEN);
        self.touched.live().is_some()
            && trace.len() >= self.trace_count.min(TRACE_RECORDS)
            && !trace.iter().any(|record| open(&record.text))
    }

    /// The whole machine, and the store.
    fn dump(&self) -> Vec<u8> {
        assert!(self.fixes_dump(), "a script dumps what is not fixed");
        let mut out = Vec::with_capacity(24_000 + self.history.store().len());
        answers::put_small(&mut out, &self.machine);
        put_count(&mut out, self.image_len);
        answers::put_padded_words(&mut out, self.machine.image());
        put_words(&mut out, &self.machine.memory);
        put_count(&mut out, self.touched.count());
        out.extend(self.touched.live().into_iter().flatten());
        put_count(&mut out, self.trace_count);
        for record in &self.machine.trace {
            answers::put_trace(&mut out, record);
        }
        out.extend((self.history.count() as u32).to_be_bytes());
        out.extend(self.history.store());
        out
    }
}

/// The snapshot that `undo` takes: 10 where there is none, 8 where the store
/// holds none that is one.
fn newest(history: &History) -> Result<Snapshot, u8> {
    match history.count() {
        0 => Err(10),
        _ => history.newest().ok_or(8),
    }
}
