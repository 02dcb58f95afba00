//! What stands at a place of a dump, in words, and where the bus counters do.

use oracle::encoding::number;
use oracle::sizes::{MEMORY_WORDS, REGISTERS, TEXT, TRACE_RECORDS};

/// The first of the two bus counters, the writes behind the reads.
const BUS_READS: &str = "bus reads";

/// The parts of a dump that are always as long, in their order.
const PARTS: [(&str, usize); 18] = [
    ("PC", 1),
    ("IR", 2),
    ("registers", 2 * REGISTERS),
    ("MAR", 1),
    ("MDR", 2),
    ("instruction address", 1),
    ("tick", 1),
    ("execute ticks", 1),
    ("halted", 1),
    ("fault", 4),
    ("instructions", 8),
    ("micro operations", 8),
    (BUS_READS, 8),
    ("bus writes", 8),
    ("last transfer", 4),
    ("last ALU record", 8),
    ("image", 2 + 2 * MEMORY_WORDS),
    ("memory", 2 * MEMORY_WORDS),
];

/// The bytes of a record of the trace: index, address, phase, length and text.
const TRACE_RECORD: usize = 8 + 1 + 1 + 1 + TEXT;

/// `dump` is a right one: its counts say where the parts behind them begin.
pub fn place(dump: &[u8], at: usize) -> String {
    let mut start = 0;
    for (name, length) in parts(dump) {
        if at < start + length {
            return format!("{name}, its byte {}", at - start);
        }
        start += length;
    }
    format!("the store, its byte {}", at - start)
}

/// Bus reads and bus writes; none where the dump ends before them.
pub fn bus_counters(dump: &[u8]) -> Option<[u64; 2]> {
    let before = PARTS.iter().take_while(|(name, _)| *name != BUS_READS);
    let at = before.map(|(_, length)| length).sum();
    let mut counters = dump.get(at..)?;
    Some([number(&mut counters, 8)?, number(&mut counters, 8)?])
}

/// All parts but the store.
fn parts(dump: &[u8]) -> Vec<(&'static str, usize)> {
    let mut parts = PARTS.to_vec();
    let fixed: usize = parts.iter().map(|(_, length)| length).sum();
    let touched = 2 + count(dump, fixed).min(MEMORY_WORDS);
    let trace = 2 + count(dump, fixed + touched).min(TRACE_RECORDS) * TRACE_RECORD;
    parts.extend([
        ("touched addresses", touched),
        ("trace", trace),
        ("history count", 4),
    ]);
    parts
}

fn count(dump: &[u8], at: usize) -> usize {
    usize::from(u16::from_be_bytes([dump[at], dump[at + 1]]))
}

#[cfg(test)]
mod tests {
    use super::{bus_counters, place};
    use oracle::calls::commands::{script, Command};
    use oracle::calls::program;

    /// The dump of a machine that has run, with a store of seven bytes.
    fn dump() -> Vec<u8> {
        let commands = [
            Command::Load(vec![0x4120, 0x4121, 0xE000]),
            Command::Run(9, Vec::new()),
            Command::Dump,
        ];
        let parts = program::parts(&script(7, &commands));
        parts[2].answer.clone()
    }

    #[test]
    fn the_parts_stand_where_the_dump_has_them() {
        let dump = dump();
        let end = dump.len();
        assert_eq!(place(&dump, 0), "PC, its byte 0");
        assert_eq!(place(&dump, 2), "IR, its byte 1");
        assert_eq!(place(&dump, end - 7), "the store, its byte 0");
        assert_eq!(place(&dump, end - 8), "history count, its byte 3");
        let touched = dump.windows(4).position(|four| four == [0, 2, 0x20, 0x21]);
        let touched = touched.expect("two addresses are touched");
        assert_eq!(place(&dump, touched + 2), "touched addresses, its byte 2");
        assert_eq!(place(&dump, touched + 4), "trace, its byte 0");
    }

    /// Three words are fetched, and two are stored.
    #[test]
    fn the_bus_counters_stand_where_the_dump_has_them() {
        let dump = dump();
        assert_eq!(bus_counters(&dump), Some([3, 2]));
        assert_eq!(place(&dump, 62), "bus reads, its byte 0");
        assert_eq!(place(&dump, 77), "bus writes, its byte 7");
        assert_eq!(bus_counters(&dump[..78]), Some([3, 2]));
        assert_eq!(bus_counters(&dump[..77]), None);
        assert_eq!(bus_counters(&[]), None);
    }
}
