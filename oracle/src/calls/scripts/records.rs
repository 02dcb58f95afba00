//! Scripts that change the record which `undo` takes, or point `undo` at bytes
//! that no push wrote.

use crate::calls::commands::{field, run, set, Command};
use crate::calls::scripts::draft::Draft;
use crate::calls::scripts::edges::{begun, each_call, tick_case, with, STORE};
use crate::calls::snapshots::{self, RECORD};

/// A record with any tick, execute ticks and opcode, and with halted bytes and
/// kinds of fault around what there is. A fault that comes back shows in the
/// runs of both engines, and the direct one's instruction must keep it.
pub fn ticks(number: usize) -> Vec<u8> {
    let (tick, execute_ticks, ir) = tick_case(number);
    let mut draft = Draft::started(STORE);
    for halted in 0..4 {
        for kind in 0..4 {
            let changes = [
                newest_byte(snapshots::IR, (ir >> 8) as u8),
                newest_byte(snapshots::IR + 1, ir as u8),
                newest_byte(snapshots::TICK, tick),
                newest_byte(snapshots::EXECUTE_TICKS, execute_ticks),
                newest_byte(snapshots::HALTED, halted),
                newest_byte(snapshots::FAULT_KIND, kind),
                newest_byte(snapshots::FAULT_WORD, 0xAB),
                newest_byte(snapshots::FAULT_ADDRESS, 0xCD),
            ];
            for call in [run(9), run(9).direct(), Command::Direct] {
                draft.add(Command::New);
                draft.add_all(begun());
                draft.add_all(changes.iter().cloned());
                draft.add_all([Command::Undo, Command::Dump, call, Command::Dump]);
            }
        }
    }
    draft.bytes()
}

/// A byte of the only record.
fn newest_byte(offset: usize, value: u8) -> Command {
    Command::Byte(offset as u32, value)
}

/// Every byte of the newest record in turn, with values around its bounds,
/// which `undo` then reads.
pub fn bytes(offset: usize) -> Vec<u8> {
    let mut draft = Draft::started(STORE);
    for value in [0, 1, 2, 3, 4, 6, 7, 0x7F, 0x80, 0xE0, 0xFF] {
        draft.add(Command::New);
        draft.add_all(begun());
        draft.add_all([
            Command::Step,
            Command::Push,
            Command::Step,
            Command::Byte((RECORD + offset) as u32, value),
            Command::Undo,
            Command::Dump,
            Command::Undo,
            Command::Undo,
            Command::Step,
            Command::Dump,
        ]);
    }
    draft.bytes()
}

/// Stores of up to three records, and up to five pushes.
pub const UNWRITTEN_SCRIPTS: usize = 4 * 6;

/// History counts that a set command made, over bytes that no push wrote.
pub fn unwritten(number: usize) -> Vec<u8> {
    let records = number % 4;
    let pushes = number / 4;
    let mut draft = Draft::started(records * RECORD + 7);
    for count in [0, 1, 2, 3, 4, 5, 6, 255, 256, 257, 65_535, 65_536, 65_537] {
        let pushed = (0..pushes).flat_map(|_| [Command::Push, Command::Micro]);
        let state = with(with(begun(), pushed), [set(field::HISTORY_COUNT, count)]);
        each_call(&mut draft, &state);
        draft.add(Command::New);
        draft.add_all(state);
        draft.add_all([Command::Push, Command::Undo, Command::Undo, Command::Dump]);
    }
    draft.bytes()
}
