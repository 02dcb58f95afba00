//! The README: its paragraphs are short, and its table has every crate with the
//! files of its definitions.

use crate::{document, quoted, root};
use std::fs;
use std::path::Path;

/// The most words that a paragraph may have.
const LONGEST: usize = 80;

/// Whether a line is prose: no heading, no table, no indented command, no fence.
fn is_prose(line: &str) -> bool {
    let others = ["#", "|", "    ", "```"];
    !others.iter().any(|start| line.starts_with(start))
}

#[test]
fn no_paragraph_is_long() {
    let mut words = 0;
    let mut fenced = false;
    for line in document("README.md").lines() {
        fenced ^= line.starts_with("```");
        if line.is_empty() || line.starts_with("- ") || line.starts_with("```") {
            words = 0;
        }
        if !fenced && is_prose(line) {
            words += line.split_whitespace().count();
        }
        assert!(words <= LONGEST, "{words} words: {line}");
    }
}

/// The names in a folder, without their endings, in order; none where it is not there.
fn names_in(folder: &Path) -> Vec<String> {
    let Ok(entries) = fs::read_dir(folder) else {
        return Vec::new();
    };
    let paths = entries.map(|entry| entry.expect("it can be read").path());
    let stem = |path: &Path| path.file_stem().expect("it has a name").to_owned();
    let mut names: Vec<String> = paths
        .map(|path| stem(&path).into_string().expect("it is ASCII"))
        .collect();
    names.sort();
    names
}

/// The names in backquotes, in order.
fn sorted(cell: &str) -> Vec<String> {
    let mut names: Vec<String> = quoted(cell).map(String::from).collect();
    names.sort();
    names
}

/// The rows of the table of crates: the crates, and the files said to be theirs.
fn rows(document: &str) -> Vec<(Vec<String>, Vec<String>)> {
    let table = document
        .lines()
        .skip_while(|line| !line.starts_with("| room |"));
    let rows = table.skip(2).take_while(|line| line.starts_with('|'));
    rows.map(|row| {
        let cells: Vec<&str> = row.split('|').collect();
        let others = cells[4].contains("those of");
        (
            sorted(cells[2]),
            if others { Vec::new() } else { sorted(cells[4]) },
        )
    })
    .collect()
}

#[test]
fn each_crate_has_a_row_with_its_definitions() {
    let crates = root().join("crates");
    let mut due = Vec::new();
    for name in names_in(&crates) {
        let mut files = names_in(&crates.join(&name).join("specs"));
        files.retain(|file| file != "Lib");
        due.push((name, files));
    }
    let mut found = Vec::new();
    for (names, files) in rows(&document("README.md")) {
        found.extend(names.into_iter().map(|name| (name, files.clone())));
    }
    found.sort();
    let missing: Vec<_> = due.iter().filter(|row| !found.contains(row)).collect();
    let wrong: Vec<_> = found.iter().filter(|row| !due.contains(row)).collect();
    assert!(
        missing.is_empty() && wrong.is_empty(),
        "due {missing:?}, found {wrong:?}"
    );
}
