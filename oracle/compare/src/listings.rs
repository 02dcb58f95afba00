//! `massey_listing`: images of every length, buffers of the right length and
//! around it, and every refusal, alone and with the others.

use crate::calls::{self, Outcome};
use crate::tally::Tally;
use oracle::images;
use oracle::random::Random;
use oracle::sizes::{LISTING_TOO_LONG, LISTING_WORDS};
use oracle::words::disassembly;

pub fn compare(tally: &mut Tally) {
    let mut random = Random::new(0x11_57);
    for words in 0..=LISTING_WORDS {
        for _ in 0..3 {
            around(tally, &images::bytes(&images::mixed(&mut random, words)));
        }
        around(tally, &images::bytes(&images::dense(&mut random, words)));
        let partly_used = images::partly_used(&mut random, words);
        around(tally, &images::bytes(&partly_used));
    }
    for _ in 0..2_000 {
        let words = random.below(LISTING_WORDS + 1);
        around(tally, &images::bytes(&images::dense(&mut random, words)));
    }
    refusals(tally, &mut random);
}

/// Every image length in bytes up to some past the limit, odd ones among them,
/// with buffers from none to ample: all refusals, in every company.
fn refusals(tally: &mut Tally, random: &mut Random) {
    for length in
        (0..=LISTING_TOO_LONG + 6).chain([1_024, 65_535, 65_536, 65_538, 100_000, 131_072])
    {
        let image: Vec<u8> = (0..length).map(|_| random.byte()).collect();
        around(tally, &image);
        for out_len in [0, 1, 12_000] {
            call(tally, &image, out_len);
        }
    }
}

/// Buffers exactly as long as the listing, one byte short, and longer.
fn around(tally: &mut Tally, image: &[u8]) {
    let exact = listing(image).len();
    for out_len in [exact - 1, exact, exact + 7] {
        call(tally, image, out_len);
    }
}

/// The listing of the whole words, of which no more than fit into a machine
/// are looked at: a longer image is refused before its listing matters.
fn listing(image: &[u8]) -> Vec<u8> {
    let words = images::whole_words(&image[..image.len().min(LISTING_TOO_LONG - 1)]);
    disassembly::disassemble_image(&words).into_bytes()
}

fn expected(image: &[u8], out_len: usize) -> Outcome {
    let listing = listing(image);
    if image.len() >= LISTING_TOO_LONG {
        Outcome::refused(1)
    } else if out_len < listing.len() {
        Outcome::refused(5)
    } else if image.len() % 2 == 1 {
        Outcome::refused(6)
    } else {
        Outcome {
            result: listing.len() as i64,
            written: listing,
        }
    }
}

fn call(tally: &mut Tally, image: &[u8], out_len: usize) {
    let question = || {
        let start: String = image
            .iter()
            .take(16)
            .map(|byte| format!("{byte:02X}"))
            .collect();
        format!("massey_listing({} bytes, {start}..)", image.len())
    };
    let expected = expected(image, out_len);
    calls::compare(tally, out_len, &expected, question, |out| {
        archive::listing(image, out)
    });
}
