//! The program `massey_assemble`: texts through a pipe, at once and in pieces, and
//! images through both programs and back.

use crate::difference;
use crate::program::{self, Run};
use crate::scripts::every;
use crate::tally::Tally;
use oracle::assembly::program::{answer, LONGEST};
use oracle::assembly::texts::{listings, Family, FAMILIES};
use oracle::images;
use std::io::Write;

/// How a text comes in pieces, how a long one does, and of how many texts in each
/// family.
const PIECES: [usize; 5] = [1, 3, 7, 100, 511];
const LONG_PIECES: [usize; 3] = [4_096, 10_000, 65_536];
const IN_PIECES: usize = 15;
/// A text that would take too long by single bytes.
const LONG: usize = LONGEST / 16;
/// Each so many-th listing goes through both programs.
const ROUND: usize = 3;

pub fn compare(tally: &mut Tally, family: &Family) {
    for number in (0..(family.count)()).step_by(family.each * every()) {
        let name = || format!("{} {number}", family.name);
        compare_one(tally, &(family.text)(number), None, name);
    }
}

/// A few texts of each family, spread over it, whose bytes come in pieces, so that
/// the program's reads come back short.
pub fn compare_pieces(tally: &mut Tally) {
    for family in &FAMILIES {
        let step = ((family.count)() / IN_PIECES).max(1);
        for (index, number) in (0..(family.count)()).step_by(step).enumerate() {
            let text = (family.text)(number);
            let pieces = match text.len() > LONG {
                true => &LONG_PIECES[..],
                false => &PIECES,
            };
            let piece = pieces[index % pieces.len()];
            let name = || format!("{} {number}, by {piece}", family.name);
            compare_one(tally, &text, Some(piece), name);
        }
    }
}

/// One run of the program.
fn compare_one(
    tally: &mut Tally,
    text: &[u8],
    piece: Option<usize>,
    name: impl FnOnce() -> String,
) {
    let run = Run {
        program: "massey_assemble",
        input: text,
        piece,
        wanted: &answer(text),
    };
    run.compare(tally, name, |output| {
        let bytes = difference::describe(output, run.wanted, 0);
        format!("{bytes}; the text is {}", difference::excerpt(text))
    });
}

/// What `massey_listing` writes for an image, `massey_assemble` reads: the image
/// comes back. No model is asked.
pub fn compare_round_trips(tally: &mut Tally) {
    for number in (0..listings::LISTINGS).step_by(ROUND * every()) {
        let image = images::bytes(&listings::image(number));
        let back = through("massey_listing", &image)
            .and_then(|listing| through("massey_assemble", &listing));
        tally.check(back.as_ref() == Ok(&image), || {
            let what = back.map_or_else(
                |error| error,
                |found| difference::describe(&found, &image, 0),
            );
            format!("the image of listing {number} and back: {what}")
        });
    }
}

fn through(program: &str, input: &[u8]) -> Result<Vec<u8>, String> {
    program::run(program, |pipe| pipe.write_all(input))
}
