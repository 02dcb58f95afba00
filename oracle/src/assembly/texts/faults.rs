//! Two and three faults, on one line and on several, in each order: which one
//! decides.

use crate::sizes::LISTING_WORDS;

/// Lines with and without faults. LA stands on the first line of each text, and
/// LB, LC, and so on, on none.
const LINES: [&str; 10] = [
    "HALT",
    "; free",
    "L{}: HALT",
    "HALT HALT",
    "LOAD R1, [LA]",
    "LOAD R1, [LB]",
    "LA: HALT",
    "LA: LOAD R1, [LC]",
    "LA: HALT x",
    "LOAD R1, [LD] ]",
];

/// So many words stand before the lines: then the first, the second or the third
/// of them is one too many, or none.
const BEFORE: [usize; 5] = [
    1,
    LISTING_WORDS - 3,
    LISTING_WORDS - 2,
    LISTING_WORDS - 1,
    LISTING_WORDS,
];

/// Every choice of one, two or three lines, behind so many words.
pub fn all() -> Vec<Vec<u8>> {
    let mut texts = Vec::new();
    for before in BEFORE {
        for lines in choices() {
            let with_last = texts.len() % 2 == 0;
            texts.push(text(before, &lines, with_last));
        }
    }
    texts
}

/// Every choice, in each order.
fn choices() -> Vec<Vec<&'static str>> {
    let mut choices: Vec<Vec<&str>> = vec![Vec::new()];
    let mut last = choices.clone();
    for _ in 0..3 {
        let longer = |lines: &Vec<&'static str>| {
            let lines = lines.clone();
            LINES
                .iter()
                .map(move |line| [&lines[..], &[*line]].concat())
        };
        last = last.iter().flat_map(longer).collect();
        choices.extend(last.clone());
    }
    choices
}

/// Every second text has no line feed behind its last line. A label with a hole in
/// it gets the line's number, so that it stands once.
pub fn text(before: usize, lines: &[&str], with_last: bool) -> Vec<u8> {
    let mut text = format!("LA: {}", "HALT\n".repeat(before));
    for (number, line) in lines.iter().enumerate() {
        text += &line.replace("{}", &number.to_string());
        text.push('\n');
    }
    if !with_last {
        text.pop();
    }
    text.into_bytes()
}
