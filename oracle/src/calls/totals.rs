//! The bus totals of document 02, Change 5: how many second fetch ticks, second
//! LOAD [yz] ticks and third STORE ticks were made since the last start. Bus reads
//! are due to be the first two together, and bus writes the third, undone ticks
//! included.
//!
//! Every call's ticks are made once more, by `micro_step` alone, on a machine of
//! their own, and are told apart by what `micro_step` answers: its phase and its
//! text. Neither the bus counters nor the answer's transfer are looked at, since
//! they are what is to be held.
//!
//! The document speaks of lists of tick, step, run, push and undo calls. A script
//! may also clear its history, and set fields and bytes of the store between its
//! calls. The document says nothing of these, so that the count holds there too is
//! more than it promises: none of them makes a tick or takes one off. Only where a
//! command sets bus reads or bus writes there is no count, until the next start.

use crate::calls::commands::{field, Command};
use crate::vm_limited::{Machine, MicroOp, Phase};

/// What a tick is to the bus.
#[derive(Clone, Copy, Debug, PartialEq, Eq)]
enum Kind {
    SecondFetch,
    SecondLoad,
    ThirdStore,
    Other,
}

impl Kind {
    /// By what the original answers to the tick.
    fn answered(op: &MicroOp) -> Self {
        match (op.phase, op.text.as_str()) {
            (Phase::Fetch, "M[MAR] -> MDR") => Kind::SecondFetch,
            (Phase::Execute, "M[MAR] -> MDR") => Kind::SecondLoad,
            (Phase::Execute, "MDR -> M[MAR]") => Kind::ThirdStore,
            _ => Kind::Other,
        }
    }

    /// By the machine before the tick: its tick's number, and IR's opcode.
    fn next_of(machine: &Machine) -> Self {
        match (machine.tick, machine.ir >> 12) {
            (1, _) => Kind::SecondFetch,
            (5, 0x3) => Kind::SecondLoad,
            (6, 0x4) => Kind::ThirdStore,
            _ => Kind::Other,
        }
    }
}

/// How many ticks of each kind were made since the last start, and how many undoes
/// were served, which take none of them off.
#[derive(Clone, Copy, Debug, Default, PartialEq, Eq)]
pub struct Totals {
    pub second_fetches: u64,
    pub second_loads: u64,
    pub third_stores: u64,
    pub undoes: u64,
}

impl Totals {
    /// The bus reads that are due.
    pub fn reads(&self) -> u64 {
        self.second_fetches + self.second_loads
    }

    /// The bus writes that are due.
    pub fn writes(&self) -> u64 {
        self.third_stores
    }

    fn count(&mut self, kind: Kind) {
        match kind {
            Kind::SecondFetch => self.second_fetches += 1,
            Kind::SecondLoad => self.second_loads += 1,
            Kind::ThirdStore => self.third_stores += 1,
            Kind::Other => {}
        }
    }
}

/// What was done since the last start.
pub struct Past {
    /// None where a command has set bus reads or bus writes.
    totals: Option<Totals>,
    /// Makes the ticks. Between two commands it is as the machine that the calls are
    /// made on, but for what no tick asks for.
    ticked: Machine,
}

impl Past {
    /// A new machine has none.
    pub fn none() -> Self {
        Past {
            totals: Some(Totals::default()),
            ticked: Machine::new(),
        }
    }

    pub fn totals(&self) -> Option<Totals> {
        self.totals
    }

    /// One command more, with its answer and the machine that it left.
    pub fn follow(&mut self, command: &Command, answer: &[u8], left: &Machine) {
        match command {
            Command::Micro | Command::Step | Command::Direct => {
                self.follow_ticks(is_served(answer), left);
            }
            Command::Run(..) | Command::DirectRun(..) => self.follow_run(answer, left),
            tickless => {
                self.follow_tickless(tickless, answer);
                self.ticked.restore(&left.snapshot());
            }
        }
    }

    /// A command that makes no tick.
    fn follow_tickless(&mut self, command: &Command, answer: &[u8]) {
        match command {
            Command::New | Command::Load(_) | Command::Reset | Command::Clear
                if is_served(answer) =>
            {
                self.totals = Some(Totals::default());
            }
            Command::Undo if is_served(answer) => {
                if let Some(totals) = &mut self.totals {
                    totals.undoes += 1;
                }
            }
            Command::Set(field::BUS_READS | field::BUS_WRITES, ..) => self.totals = None,
            _ => {}
        }
    }

    /// A run that is refused 9 part-way has made the ticks of what it completed.
    /// One that is served tells how many instructions it began.
    fn follow_run(&mut self, answer: &[u8], left: &Machine) {
        let ended = self.follow_ticks(is_served(answer) || *answer == [9], left);
        if let [0, _stop, _address, begun @ ..] = answer {
            assert_eq!(*begun, ended.to_be_bytes(), "as many as the run began");
        }
    }

    /// Makes as many ticks as the call counted, which must lead to the machine that
    /// it left; gives how many of them ended an instruction.
    fn follow_ticks(&mut self, may_tick: bool, left: &Machine) -> u64 {
        let ticks = left.micro_operations - self.ticked.micro_operations;
        assert!(may_tick || ticks == 0, "a refused call made ticks");
        let ended = (0..ticks).map(|_| u64::from(self.tick())).sum();
        if left.halted && !self.ticked.halted {
            // A spent budget halts the machine behind its last tick.
            self.ticked.run(0, &[]);
        }
        assert_eq!(self.ticked.snapshot(), left.snapshot());
        ended
    }

    /// Makes a tick and counts it; says whether it ended an instruction.
    fn tick(&mut self) -> bool {
        let due = Kind::next_of(&self.ticked);
        let op = self.ticked.micro_step();
        let kind = Kind::answered(&op);
        assert_eq!(kind, due, "{op:?}");
        if let Some(totals) = &mut self.totals {
            totals.count(kind);
        }
        op.ends_instruction
    }
}

fn is_served(answer: &[u8]) -> bool {
    answer[0] == 0
}
