//! The call `massey_assemble`: every text, with buffers of the right length and
//! around it.

use crate::calls::{self, Outcome};
use crate::difference;
use crate::scripts::every;
use crate::tally::Tally;
use oracle::assembly::model;
use oracle::assembly::texts::Family;
use oracle::images;
use oracle::sizes::LISTING_WORDS;

/// Enough for every image.
const LONGEST: usize = 2 * LISTING_WORDS;
/// How much longer a buffer is than it need be.
const MORE: usize = 7;

pub fn compare(tally: &mut Tally, family: &Family) {
    for number in (0..(family.count)()).step_by(every()) {
        let text = (family.text)(number);
        let name = || {
            let (family, start) = (family.name, difference::excerpt(&text));
            format!("massey_assemble({family} {number}, {start})")
        };
        match model::assemble(&text) {
            Ok(words) => taken(tally, &text, &images::bytes(&words), name),
            Err(refusal) => refused(tally, &text, refusal, name),
        }
    }
}

/// No buffer, one byte short, exactly as long as the image, and longer: what
/// stands behind the image is kept. A buffer of no bytes is enough for no words.
fn taken(tally: &mut Tally, text: &[u8], image: &[u8], name: impl Fn() -> String) {
    let exact = image.len();
    let mut lengths = vec![exact, exact + MORE];
    lengths.extend(exact.checked_sub(1));
    lengths.extend((exact > 1).then_some(0));
    for out_len in lengths {
        let expected = match out_len < exact {
            true => Outcome::refused(5),
            false => Outcome {
                result: exact as i64,
                written: image.to_vec(),
            },
        };
        call(tally, text, out_len, &expected, &name);
    }
}

/// The text's refusal comes before that of the buffer, and every byte is kept.
fn refused(tally: &mut Tally, text: &[u8], refusal: u8, name: impl Fn() -> String) {
    for out_len in [0, LONGEST + MORE] {
        let expected = Outcome::refused(refusal.into());
        call(tally, text, out_len, &expected, &name);
    }
}

fn call(
    tally: &mut Tally,
    text: &[u8],
    out_len: usize,
    expected: &Outcome,
    name: &impl Fn() -> String,
) {
    calls::compare(tally, out_len, expected, name, |out| {
        archive::assemble(text, out)
    });
}
