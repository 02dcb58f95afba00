//! `massey_disassemble`, for every word there is: each text, with buffers of many
//! lengths, and what document 02, Change 1, says of all of them.

use crate::calls::{self, Outcome};
use crate::tally::Tally;
use oracle::disasm;
use oracle::sizes::TEXT;
use oracle::words::disassembly;
use std::collections::HashMap;

const LONG_ENOUGH: [usize; 5] = [TEXT, TEXT + 1, 39, 64, 200];
const TOO_SHORT: [usize; 3] = [0, 1, TEXT - 1];

/// How many words end in themselves, and how many have the original's text. They
/// are written out, so that model and port cannot be wrong together.
const CHANGED: usize = 12_015;
const KEPT: usize = 53_521;

/// What holds of all texts comes first, lest single words take its place among
/// the differences that are shown.
pub fn compare(tally: &mut Tally) {
    let texts: Vec<Vec<u8>> = (0..=u16::MAX).map(text).collect();
    count(tally, &texts);
    all_differ(tally, &texts);
    for (word, text) in (0..=u16::MAX).zip(&texts) {
        compare_with_original(tally, word, text);
    }
    for word in 0..=u16::MAX {
        let served = expected(word);
        for out_len in LONG_ENOUGH {
            call(tally, word, out_len, &served);
        }
        for out_len in TOO_SHORT {
            call(tally, word, out_len, &Outcome::refused(5));
        }
    }
}

/// The port's text. A length that is none shows where the calls are compared.
fn text(word: u16) -> Vec<u8> {
    let mut out = [0; TEXT];
    let length = archive::disassemble(word, &mut out);
    out[..length.clamp(0, TEXT as i64) as usize].to_vec()
}

fn is_original(word: u16, text: &[u8]) -> bool {
    text == disasm::disassemble(word).as_bytes()
}

/// How many texts are the original's, and how many are not.
fn count(tally: &mut Tally, texts: &[Vec<u8>]) {
    let words = (0..=u16::MAX).zip(texts);
    let kept = words
        .filter(|(word, text)| is_original(*word, text))
        .count();
    for (found, due, whose) in [
        (texts.len() - kept, CHANGED, "not the original's"),
        (kept, KEPT, "the original's"),
    ] {
        tally.check(found == due, || {
            format!("massey_disassemble: {found} texts are {whose}, due {due}")
        });
    }
}

/// Two words have two texts.
fn all_differ(tally: &mut Tally, texts: &[Vec<u8>]) {
    let mut seen = HashMap::new();
    let mut words = (0..=u16::MAX).zip(texts);
    let same = words.find_map(|(word, text)| Some((seen.insert(text, word)?, word)));
    tally.check(same.is_none(), || {
        let (one, other) = same.expect("two have the same");
        format!("massey_disassemble: {one:04X} and {other:04X} have the same text")
    });
}

/// The original's text is due for exactly the words that do not end in
/// themselves.
fn compare_with_original(tally: &mut Tally, word: u16, text: &[u8]) {
    let (found, due) = (is_original(word, text), !disassembly::is_loose(word));
    tally.check(found == due, || {
        let text = text.escape_ascii();
        let what = match found {
            true => "is the original's, and must not be",
            false => "is not the original's, and must be",
        };
        format!("massey_disassemble({word:04X}): \"{text}\" {what}")
    });
}

fn expected(word: u16) -> Outcome {
    let text = disassembly::disassemble(word);
    let mut written = text.clone().into_bytes();
    written.resize(TEXT, 0);
    Outcome {
        result: text.len() as i64,
        written,
    }
}

fn call(tally: &mut Tally, word: u16, out_len: usize, expected: &Outcome) {
    let question = || format!("massey_disassemble({word:04X})");
    calls::compare(tally, out_len, expected, question, |out| {
        archive::disassemble(word, out)
    });
}
