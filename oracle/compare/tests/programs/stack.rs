//! `massey_report` and `massey_listing` under `ulimit -s 160`, and
//! `massey_assemble`, which holds a text of 262,145 bytes, under `ulimit -s 400`:
//! with the largest inputs and with such as are refused.

use crate::run::{command, long_input, output, path, same, shell};
use oracle::assembly;
use oracle::assembly::texts::{self, counts};
use oracle::images;
use oracle::random::Random;
use oracle::report::bytes::LONGEST;
use oracle::report::guarded::Input;
use oracle::report::inputs::examples::{longest_hidden_report, longest_report, owners_at};
use oracle::report::inputs::refused;
use oracle::report::program::{answer, bytes};
use oracle::sizes::{BREAKPOINTS, LARGEST_BUDGET, LISTING_TOO_LONG, LISTING_WORDS, MEMORY_WORDS};
use oracle::words::disassembly;

/// The stack that a program must run in, in KB.
fn kilobytes(name: &str) -> usize {
    match name {
        "massey_assemble" => 400,
        _ => 160,
    }
}

/// Holds the program to what is due, with the usual stack and with the small
/// one. The kernel moves the stack's start by up to 8 KB from run to run, so a
/// program that just fits is run a few times.
fn runs(name: &str, bytes: &[u8], due: &[u8], what: &str) {
    let mut usual = command(path(name));
    usual.stdin(long_input(bytes));
    same(&output(usual), due, &format!("{name}, {what}"));
    let kilobytes = kilobytes(name);
    let limit = format!("ulimit -s {kilobytes} && exec \"$0\"");
    for _ in 0..16 {
        let mut small = shell(&limit, name);
        small.stdin(long_input(bytes));
        let what = format!("{name} in {kilobytes} KB, {what}");
        same(&output(small), due, &what);
    }
}

/// Loads each of the 256 words and stores it where it was, its own code among
/// them, round and round: the whole budget is spent, every address is touched
/// and the trace is full. Invented, with a hidden word at 80.
fn longest_run() -> Input {
    let mut image = vec![
        0x1201, 0x3412, 0x3513, 0x3614, 0x3715, // R2 to R7: 1 and the four words at 12
        0x3100, 0x4100, // R1 from and to an address
        0x3305, 0x6332, 0xA334, 0xB335, 0x4305, // the load's next address, FF to 00
        0x3306, 0x6332, 0xA336, 0xB337, 0x4306, // the store's
        0xD005, 0x31FF, 0x3100, 0x41FF, 0x4100,
    ];
    image.resize(MEMORY_WORDS, 0x5EC7);
    Input {
        image,
        owners: owners_at(&[0x80]),
        budget: LARGEST_BUDGET,
        breakpoints: vec![0xFE; BREAKPOINTS],
        clearance: 0,
    }
}

#[test]
fn the_longest_report_of_the_longest_run() {
    let input = bytes(&longest_run());
    let due = answer(&input);
    assert_eq!(due.len(), LONGEST);
    runs("massey_report", &input, &due, "the longest run");
}

#[test]
fn the_longest_reports() {
    for (name, input) in [
        ("the longest report", longest_report()),
        ("the longest hidden report", longest_hidden_report()),
    ] {
        let input = bytes(&input);
        runs("massey_report", &input, &answer(&input), name);
    }
}

#[test]
fn refused_reports() {
    let whole = bytes(&longest_run());
    let longer = [&whole[..], &[0; 1_000]].concat();
    let mut inputs = vec![Vec::new(), whole[..whole.len() - 1].to_vec(), longer];
    let offences: [&[u8]; 4] = [&[1], &[3], &[4], &[1, 3, 4]];
    inputs.extend(offences.map(|refusals| bytes(&refused::offending(refusals))));
    let due: Vec<Vec<u8>> = inputs.iter().map(|input| answer(input)).collect();
    for number in [1, 3, 4, 6] {
        let line = format!("refused {number}\n").into_bytes();
        assert!(due.contains(&line), "no input is refused {number}");
    }
    for (input, due) in inputs.iter().zip(&due) {
        let what = format!("an input of {} bytes", input.len());
        runs("massey_report", input, due, &what);
    }
}

#[test]
fn the_longest_listings() {
    let mut random = Random::new(0x57_AC4);
    let dense = images::dense(&mut random, LISTING_WORDS);
    for words in [dense, images::mixed(&mut random, LISTING_WORDS), Vec::new()] {
        let due = disassembly::disassemble_image(&words).into_bytes();
        let what = format!("{} words", words.len());
        runs("massey_listing", &images::bytes(&words), &due, &what);
    }
}

#[test]
fn refused_listings() {
    for (length, due) in [
        (LISTING_TOO_LONG - 1, "refused 6\n"),
        (LISTING_TOO_LONG, "refused 1\n"),
        (4_000, "refused 1\n"),
    ] {
        let what = format!("{length} bytes");
        runs("massey_listing", &vec![0x41; length], due.as_bytes(), &what);
    }
}

/// Some texts around the program's bound, and some with 256 labels: as many words
/// as there may be, and each refusal, are among the answers.
#[test]
fn the_longest_texts() {
    let mut texts: Vec<Vec<u8>> = texts::bounds::all().into_iter().step_by(5).collect();
    texts.extend(texts::labels::full().into_iter().step_by(7));
    texts.extend([0, LISTING_WORDS, LISTING_WORDS + 1].map(|words| counts::text(words, "", "")));
    let due: Vec<Vec<u8>> = texts
        .iter()
        .map(|text| assembly::program::answer(text))
        .collect();
    for number in [6, 11, 12, 13] {
        let line = format!("refused {number}\n").into_bytes();
        assert!(due.contains(&line), "no text is refused {number}");
    }
    assert!(due.iter().any(|due| due.len() == 2 * LISTING_WORDS));
    for (text, due) in texts.iter().zip(&due) {
        let what = format!("a text of {} bytes", text.len());
        runs("massey_assemble", text, due, &what);
    }
}
