//! The tables of offsets add up.

use crate::document;

/// A row's offset and its number of bytes, each where it is a plain number.
fn span(row: &str) -> (Option<usize>, Option<usize>) {
    let mut cells = row.split('|').skip(1);
    let mut number = || cells.next()?.trim().replace(',', "").parse().ok();
    (number(), number())
}

#[test]
fn each_row_begins_where_the_one_before_ends() {
    let document = document("docs/FORMATS.md");
    let mut due = None;
    let mut inside = false;
    let mut joined = 0;
    for line in document.lines() {
        let (offset, bytes) = span(line);
        inside = line.starts_with("| offset | bytes |") || (inside && line.starts_with('|'));
        if let (true, Some(due), Some(offset)) = (inside, due, offset) {
            assert_eq!(offset, due, "{line}");
            joined += 1;
        }
        due = match (offset, bytes) {
            (Some(offset), Some(bytes)) if inside => Some(offset + bytes),
            _ => None,
        };
    }
    assert!(joined > 50, "{joined} rows were held to the one before");
}
