//! Numbers, words and texts as bytes, high byte first: as every program of the
//! port reads and writes them.

use crate::sizes::TEXT;

pub fn put_word(out: &mut Vec<u8>, word: u16) {
    out.extend(word.to_be_bytes());
}

pub fn put_words(out: &mut Vec<u8>, words: &[u16]) {
    out.extend(words.iter().flat_map(|word| word.to_be_bytes()));
}

pub fn put_count(out: &mut Vec<u8>, count: usize) {
    let count = u16::try_from(count).expect("a count has two bytes");
    put_word(out, count);
}

pub fn put_number(out: &mut Vec<u8>, number: u64) {
    out.extend(number.to_be_bytes());
}

/// A text without its length, zeros up to its room.
pub fn put_text(out: &mut Vec<u8>, text: &str) {
    put_padded(out, text, TEXT);
}

/// The text, and zeros up to `width`.
pub fn put_padded(out: &mut Vec<u8>, text: &str, width: usize) {
    assert!(text.len() <= width, "{text:?} is over {width} bytes");
    let end = out.len() + width;
    out.extend(text.bytes());
    out.resize(end, 0);
}

/// The next bytes of an input, if there are so many.
pub fn take<'a>(rest: &mut &'a [u8], length: usize) -> Option<&'a [u8]> {
    let (taken, behind) = rest.split_at_checked(length)?;
    *rest = behind;
    Some(taken)
}

/// The next bytes of an input as a number of that width.
pub fn number(rest: &mut &[u8], width: usize) -> Option<u64> {
    let bytes = take(rest, width)?;
    Some(
        bytes
            .iter()
            .fold(0, |high, low| high << 8 | u64::from(*low)),
    )
}
