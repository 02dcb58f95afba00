//! The README's table of what is proved: each name stands where the row says.

use crate::{document, quoted, root};
use std::fs;
use std::path::Path;

/// All that stands in a file, or in the files of a folder.
fn text_of(place: &Path) -> String {
    if !place.is_dir() {
        let bytes = fs::read(place).expect("it can be read");
        return String::from_utf8_lossy(&bytes).into_owned();
    }
    let entries = fs::read_dir(place).expect("it can be read");
    entries
        .map(|entry| text_of(&entry.expect("it can be read").path()))
        .collect()
}

/// Whether a text has the name, and not only as a part of a longer one.
fn has(text: &str, name: &str) -> bool {
    let of_a_name = |c: char| c.is_alphanumeric() || "-_".contains(c);
    text.split(|c| !of_a_name(c)).any(|word| word == name)
}

#[test]
fn each_law_stands_where_the_row_says() {
    let document = document("README.md");
    let table = document
        .lines()
        .skip_while(|line| !line.starts_with("| what | how"));
    let mut found = 0;
    for row in table.skip(2).take_while(|line| line.starts_with('|')) {
        let cells: Vec<&str> = row.split('|').collect();
        let places = quoted(cells[3]).filter(|place| place.starts_with("crates/"));
        let text: String = places.map(|place| text_of(&root().join(place))).collect();
        for name in quoted(cells[2]).filter(|_| !text.is_empty()) {
            assert!(has(&text, name), "{name} is not there: {}", cells[3]);
            found += 1;
        }
    }
    assert!(found > 30, "{found} names were looked for");
}
