//! The records of a report, by lengths that are written out: nothing is taken from the
//! model.

// Not every test looks at all of a report.
#![allow(dead_code)]

/// The bytes of a record of each kind, its kind among them.
fn record_length(kind: u8) -> usize {
    match kind {
        9 => 14,
        2 => 37,
        3 | 7 => 2,
        4 => 43,
        5 | 6 => 5,
        8 => 45,
        0x0A => 3,
        _ => panic!("no record has the kind {kind}"),
    }
}

/// The records of a report.
pub fn records(report: &[u8]) -> Vec<&[u8]> {
    let mut rest = report;
    let mut records = Vec::new();
    while let Some(kind) = rest.first() {
        let (record, behind) = rest.split_at(record_length(*kind));
        records.push(record);
        rest = behind;
    }
    records
}

/// The records of one kind.
pub fn of_kind(report: &[u8], kind: u8) -> Vec<&[u8]> {
    let mut records = records(report);
    records.retain(|record| record[0] == kind);
    records
}

pub fn text(text: &str) -> Vec<u8> {
    let mut bytes = text.as_bytes().to_vec();
    bytes.resize(32, 0);
    bytes
}

/// The end's counts: instructions, micro operations, bus reads, bus writes.
pub fn counts(report: &[u8]) -> [u64; 4] {
    let end = of_kind(report, 8)[0];
    std::array::from_fn(|index| {
        let at = 9 + 8 * index;
        u64::from_be_bytes(end[at..at + 8].try_into().unwrap())
    })
}

/// The stop, PC, IR, MAR, and MDR behind its owner byte.
pub fn end(report: &[u8]) -> [u8; 8] {
    of_kind(report, 8)[0][1..9].try_into().unwrap()
}

/// The fault's kind, word and address.
pub fn fault(report: &[u8]) -> [u8; 4] {
    of_kind(report, 8)[0][41..].try_into().unwrap()
}
