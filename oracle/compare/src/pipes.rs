//! The program `massey_listing`, its input coming in pieces.

use crate::difference;
use crate::program::Run;
use crate::tally::Tally;
use oracle::images;
use oracle::random::Random;
use oracle::sizes::{LISTING_TOO_LONG, LISTING_WORDS};
use oracle::words::disassembly;

const PIECES: [usize; 5] = [1, 2, 3, 7, 100];
const WORDS: [usize; 6] = [0, 1, 2, 16, LISTING_WORDS - 1, LISTING_WORDS];
/// Odd inputs, and those around the longest image.
const ODD_OR_LONG: [usize; 11] = [
    1,
    3,
    31,
    LISTING_TOO_LONG - 3,
    LISTING_TOO_LONG - 1,
    LISTING_TOO_LONG,
    LISTING_TOO_LONG + 1,
    LISTING_TOO_LONG + 2,
    LISTING_TOO_LONG + 3,
    1_024,
    5_001,
];
const MEGABYTES: usize = 3 << 20;

pub fn compare(tally: &mut Tally) {
    let mut random = Random::new(0x0009_19E5);
    for piece in PIECES {
        for words in WORDS {
            let dense = images::dense(&mut random, words);
            let partly_used = images::partly_used(&mut random, words);
            for image in [dense, partly_used] {
                run(tally, &images::bytes(&image), piece);
            }
        }
        for length in ODD_OR_LONG {
            run(tally, &any_bytes(&mut random, length), piece);
        }
    }
    for _ in 0..120 {
        let length = random.below(LISTING_TOO_LONG + 3);
        let piece = random.pick(&PIECES);
        run(tally, &any_bytes(&mut random, length), piece);
    }
    for (length, piece) in [
        (MEGABYTES, 100),
        (MEGABYTES, 65_536),
        (MEGABYTES + 1, 4_096),
    ] {
        run(tally, &any_bytes(&mut random, length), piece);
    }
}

fn any_bytes(random: &mut Random, length: usize) -> Vec<u8> {
    (0..length).map(|_| random.byte()).collect()
}

fn run(tally: &mut Tally, bytes: &[u8], piece: usize) {
    let run = Run {
        program: "massey_listing",
        input: bytes,
        piece: Some(piece),
        wanted: &expected(bytes),
    };
    let name = || format!("{} bytes by {piece}", bytes.len());
    run.compare(tally, name, |output| {
        difference::describe(output, run.wanted, 0)
    });
}

fn expected(bytes: &[u8]) -> Vec<u8> {
    if bytes.len() >= LISTING_TOO_LONG {
        b"refused 1\n".to_vec()
    } else if bytes.len() % 2 == 1 {
        b"refused 6\n".to_vec()
    } else {
        disassembly::disassemble_image(&images::whole_words(bytes)).into_bytes()
    }
}
