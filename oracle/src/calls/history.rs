//! The history store: its bytes, and how many records of them count.

use crate::calls::snapshots::{self, RECORD};
use crate::sizes::HISTORY_RECORDS;
use crate::vm_limited::{Machine, Snapshot};

#[derive(Clone)]
pub struct History {
    store: Vec<u8>,
    count: usize,
    /// Whether the store is as the last push or undo left it, so that the
    /// original's own history must say the same.
    in_step: bool,
}

impl History {
    /// A store of zeros.
    pub fn new(length: usize) -> Self {
        History {
            store: vec![0; length],
            count: 0,
            in_step: true,
        }
    }

    pub fn store(&self) -> &[u8] {
        &self.store
    }

    pub fn count(&self) -> usize {
        self.count
    }

    pub fn limit(&self) -> usize {
        HISTORY_RECORDS.min(self.store.len() / RECORD)
    }

    /// Whether the store is too short for any record.
    pub fn is_short(&self) -> bool {
        self.store.len() < RECORD
    }

    /// No record counts any more; the bytes stay.
    pub fn clear(&mut self) {
        self.count = 0;
        self.in_step = true;
    }

    /// A set command's count, which may be of bytes that no push wrote.
    pub fn set_count(&mut self, count: usize) {
        self.in_step &= count == self.count;
        self.count = count;
    }

    pub fn set_byte(&mut self, offset: usize, value: u8) {
        if self.store.is_empty() {
            return;
        }
        let at = offset % self.store.len();
        self.in_step &= at >= self.count * RECORD || self.store[at] == value;
        self.store[at] = value;
    }

    /// Writes the machine's record behind the others; at the limit the oldest
    /// goes, and the others move down.
    pub fn push(&mut self, machine: &mut Machine) {
        if self.count == self.limit() {
            self.store.copy_within(RECORD..self.count * RECORD, 0);
        } else {
            self.count += 1;
        }
        let record = snapshots::written(&machine.snapshot());
        let at = (self.count - 1) * RECORD;
        self.store[at..at + RECORD].copy_from_slice(&record);
        if self.in_step {
            machine.push_history();
            assert_eq!(machine.history_len(), self.count);
        }
    }

    /// The newest record as the store has it now; none where it is refused 8.
    pub fn newest(&self) -> Option<Snapshot> {
        let at = (self.count - 1) * RECORD;
        snapshots::read(&self.store[at..at + RECORD])
    }

    /// Takes the newest record. In step, the original does it by itself, and
    /// must come to the snapshot that stands in the store.
    pub fn undo(&mut self, machine: &mut Machine, snapshot: &Snapshot) {
        if self.in_step {
            assert!(machine.undo(), "the original has a record to undo");
            assert_eq!(machine.snapshot(), *snapshot);
        } else {
            machine.restore(snapshot);
        }
        self.count -= 1;
    }
}
