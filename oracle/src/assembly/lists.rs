//! The records of `replay_words` on texts that are assembled, and the two lists
//! of them, as those in `words`.

use crate::assembly::model;
use crate::assembly::texts::{counts, faults, labels, rules, sample, FAMILIES};
use crate::encoding::{put_count, put_words};
use crate::images;
use crate::random::Random;
use crate::record::Record;
use crate::sizes::LISTING_WORDS;
use crate::words::disassembly::disassemble_image;

/// The kind of a record with a source text.
pub const KIND: u8 = b'S';

/// How many texts of each family the full list has, spread over it.
const OF_EACH: usize = 600;
/// A text that is too long for a record is left out.
const LONGEST: usize = 60_000;

/// 'S': a text behind its length in 2 bytes. The answer: the number of the
/// refusal, 0 for none, the count of words in 2 bytes, the words in 2 each.
pub fn record(text: &[u8]) -> Record {
    let mut question = Vec::new();
    put_count(&mut question, text.len());
    question.extend(text);
    let (refusal, words) = match model::assemble(text) {
        Ok(words) => (0, words),
        Err(number) => (number, Vec::new()),
    };
    Record::new(KIND, question, answer(refusal, &words))
}

fn answer(refusal: u8, words: &[u16]) -> Vec<u8> {
    let mut answer = vec![refusal];
    put_count(&mut answer, words.len());
    put_words(&mut answer, words);
    answer
}

/// The list that is replayed wherever the port is checked.
pub fn fixed() -> Vec<Record> {
    let mut texts = vec![sample::TEXT.as_bytes().to_vec()];
    texts.extend(rows());
    texts.extend(limits());
    texts.extend((0..10).map(|number| labels::any(7 * number)));
    texts.push(longest_listing());
    texts.iter().map(|text| record(text)).collect()
}

/// Of each rule what is taken, and every second text that is refused, so that the
/// list is short; the full one has all.
fn rows() -> Vec<Vec<u8>> {
    let taken = rules::rows().filter(|row| row.1.is_ok());
    let refused = rules::rows().filter(|row| row.1.is_err()).step_by(2);
    taken.chain(refused).map(|row| row.0.to_vec()).collect()
}

/// As many words as an image has, one less and one more, with and without the last
/// line feed; and which fault decides there.
fn limits() -> Vec<Vec<u8>> {
    let most = LISTING_WORDS;
    let mut texts = Vec::new();
    for words in [most - 1, most, most + 1] {
        texts.extend(["", "<"].map(|end| counts::text(words, "", end)));
    }
    for lines in [
        ["HALT x", "HALT"],
        ["HALT", "HALT x"],
        ["LOAD R1, [LB]", "; free"],
        ["; free", "LOAD R1, [LB]"],
        ["LOAD R1, [LB]", "HALT"],
        ["LA: HALT", "; free"],
        ["LA: HALT", "HALT x"],
    ] {
        texts.extend([most - 1, most].map(|before| faults::text(before, &lines, true)));
    }
    texts
}

/// The listing of as many words as there may be, with labels and without.
fn longest_listing() -> Vec<u8> {
    let mut random = Random::new(0x5A_55E7);
    disassemble_image(&images::dense(&mut random, LISTING_WORDS)).into_bytes()
}

/// The fixed list, and some texts of each family, the rows of all rules among
/// them.
pub fn full() -> Vec<Record> {
    let mut records = fixed();
    records.extend(rules::rows().map(|row| record(row.0)));
    for family in &FAMILIES {
        let count = (family.count)();
        let numbers = (0..count).step_by((count / OF_EACH).max(1));
        let texts = numbers.map(family.text);
        let short = texts.filter(|text| text.len() <= LONGEST);
        records.extend(short.map(|text| record(&text)));
    }
    records.push(record(&vec![b';'; LONGEST]));
    records
}

/// One for each refusal, a text without words, and one with a word.
pub fn samples() -> Vec<Record> {
    let too_many = counts::text(LISTING_WORDS + 1, "", "");
    vec![
        record(&too_many),
        record(b"LOAD R1, [LA]\n"),
        record(b"HALT x\n"),
        record(b"; free\n"),
        record(b"HALT ; x\n"),
    ]
}

/// Answers whose counts do not go with their words, and words beside a refusal.
pub fn malformed() -> Vec<(String, Vec<u8>)> {
    let with = |name: &str, text: &[u8], answer: &[u8]| {
        let question = record(text).question;
        (name.to_string(), [&[KIND], &question[..], answer].concat())
    };
    vec![
        with("a word less than its count", b"HALT", &[0, 0, 2, 0xE0, 0]),
        with("a word more than its count", b"HALT", &[0, 0, 0, 0xE0, 0]),
        with("half a word", b"HALT", &[0, 0, 1, 0xE0]),
        with("no count", b"HALT", &[0]),
        with("a word beside a refusal", b"x", &[11, 0, 1, 0xE0, 0]),
        with("a count beside a refusal", b"x", &[11, 0, 1]),
        with("a refusal of what is taken", b"HALT", &[11, 0, 0]),
        with("no refusal of what is refused", b"x", &[0, 0, 0]),
        with("another refusal", b"x", &[12, 0, 0]),
    ]
}
