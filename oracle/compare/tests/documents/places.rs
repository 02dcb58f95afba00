//! What a document names is there: files, folders and headings.

use crate::{document, root};

/// The folders whose names begin a place.
const FOLDERS: [&str; 5] = ["crates/", "docs/", "oracle/", "bench/", "include/"];

/// The files and folders that stand in backquotes.
fn places(document: &str) -> Vec<&str> {
    let is_place = |part: &&str| FOLDERS.iter().any(|folder| part.starts_with(folder));
    let whole = |part: &&str| !part.contains(char::is_whitespace);
    document.split('`').filter(is_place).filter(whole).collect()
}

#[test]
fn each_place_that_is_named_is_there() {
    for name in ["README.md", "docs/FORMATS.md"] {
        let document = document(name);
        let mut missing = places(&document);
        missing.retain(|place| !root().join(place).exists());
        assert!(missing.is_empty(), "{name}: {missing:?}");
    }
}

/// The anchor of a heading.
fn anchor(heading: &str) -> String {
    let heading = heading.trim_start_matches('#').trim().to_lowercase();
    let kept = |c: &char| c.is_alphanumeric() || " -_".contains(*c);
    heading
        .chars()
        .filter(kept)
        .collect::<String>()
        .replace(' ', "-")
}

/// Whether a document has a heading with this anchor; an empty one is its start.
fn has(document: &str, wanted: &str) -> bool {
    let mut headings = document.lines().filter(|line| line.starts_with('#'));
    wanted.is_empty() || headings.any(|heading| anchor(heading) == wanted)
}

#[test]
fn each_link_leads_to_a_heading() {
    for name in [
        "docs/FORMATS.md",
        "docs/DECISIONS.md",
        "docs/DIFFERENCES.md",
    ] {
        let text = document(name);
        let links = text.split("](").skip(1);
        for link in links.filter_map(|part| Some(part.split_once(')')?.0)) {
            let (file, wanted) = link.split_once('#').unwrap_or((link, ""));
            let other = (!file.is_empty()).then(|| document(&format!("docs/{file}")));
            assert!(
                has(other.as_ref().unwrap_or(&text), wanted),
                "{name}: {link}"
            );
        }
    }
}
