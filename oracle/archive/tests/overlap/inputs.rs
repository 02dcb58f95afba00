//! What the calls are given. All of it is invented; a hidden word has a value
//! that is known again wherever it shows.

use oracle::assembly::texts::{counts, faults, labels, sample};
use oracle::images;
use oracle::random::Random;
use oracle::report::bytes::LONGEST;
use oracle::report::guarded::Input;
use oracle::report::inputs::examples::{example_11, longest_hidden_report};
use oracle::report::inputs::refused;
use oracle::report::inputs::sample::invented;
use oracle::report::owners::hidden_from;
use oracle::report::program::bytes;
use oracle::sizes::{BREAKPOINTS, LISTING_WORDS, MEMORY_WORDS};
use oracle::words::disassembly;

/// The first hidden word of those whose upper half is hidden.
const HALF: usize = MEMORY_WORDS / 2;
/// Enough for every listing.
const LISTING: usize = 11_709;

/// Inputs with hidden words, from the shortest to the longest that is served.
pub fn reports() -> Vec<(&'static str, Input)> {
    vec![
        ("example 11", example_11()),
        ("the sample", invented()),
        ("the longest hidden", longest_hidden_report()),
        ("a loop over hidden words", looping()),
        ("all hidden", all_hidden()),
    ]
}

/// The words that are hidden from the reader.
pub fn hidden(input: &Input) -> Vec<u16> {
    let owned = input.image.iter().zip(&input.owners);
    owned
        .filter(|(_, owners)| hidden_from(**owners, input.clearance))
        .map(|(word, _)| *word)
        .collect()
}

/// The upper half is hidden, by one owner or two in turn; two words of it are added and
/// stored again and again. The lower half has an owner that the reader may see. No
/// breakpoint is met.
fn looping() -> Input {
    let mut image = vec![0x3180, 0x3281, 0x6312, 0x43FF, 0x4440, 0xD000];
    image.resize(HALF, 0x1234);
    image.extend((HALF..MEMORY_WORDS).map(|at| 0x5E00 | at as u16));
    Input {
        image,
        owners: (0..MEMORY_WORDS).map(looping_owners).collect(),
        budget: 1_000,
        breakpoints: vec![0x7F; BREAKPOINTS],
        clearance: 0x02,
    }
}

fn looping_owners(address: usize) -> u8 {
    match address {
        0..HALF => 0x02,
        _ if address % 2 == 0 => 0x04,
        _ => 0x03,
    }
}

/// The run stops before its first instruction. Each value stands twice: no low
/// byte is 00 or 01, which a report has as an owner byte behind an index.
fn all_hidden() -> Input {
    Input {
        image: (0..MEMORY_WORDS as u16).map(|at| 0x5F80 | at).collect(),
        owners: vec![1; MEMORY_WORDS],
        budget: 9,
        breakpoints: Vec::new(),
        clearance: 0,
    }
}

/// The number that is due, the input, and the output's length.
pub type Refused = (i64, Vec<u8>, usize);

pub fn refused_reports() -> Vec<Refused> {
    let offending = |refusal| bytes(&refused::offending(&[refusal]));
    let whole = bytes(&looping());
    let longer = [&whole[..], &[0]].concat();
    let far_longer = [&whole[..], &vec![0; LONGEST]].concat();
    vec![
        (1, offending(1), LONGEST),
        (3, offending(3), LONGEST),
        (4, offending(4), LONGEST),
        (5, whole.clone(), LONGEST - 1),
        (6, whole[..whole.len() - 1].to_vec(), LONGEST),
        (6, longer, LONGEST),
        (6, far_longer, LONGEST),
    ]
}

/// Images whose listings are short and long, with labels on their own words.
pub fn images() -> Vec<Vec<u16>> {
    let mut random = Random::new(0x0E_71A9);
    let mut images: Vec<Vec<u16>> = [1, 2, 17, LISTING_WORDS - 1, LISTING_WORDS]
        .map(|words| images::dense(&mut random, words))
        .to_vec();
    images.push(images::mixed(&mut random, LISTING_WORDS));
    images
}

pub fn refused_listings() -> Vec<Refused> {
    let mut image = images::bytes(&looping().image);
    let short = (5, image.clone(), LISTING / 2);
    image.push(0);
    let odd = (6, image.clone(), LISTING);
    image.push(0);
    vec![short, odd, (1, image, LISTING)]
}

/// Texts that give no words, a few, and as many as there may be: with labels
/// before and behind their use, long and short lines.
pub fn texts() -> Vec<Vec<u8>> {
    let mut texts = vec![
        Vec::new(),
        b"; no words\n".to_vec(),
        b"HALT".to_vec(),
        b"LOAD R1, [LZ]\nLZ: HALT\n".to_vec(),
        sample::TEXT.into(),
        counts::text(LISTING_WORDS, "", ""),
        labels::full().swap_remove(1),
    ];
    let listing = |words: &Vec<u16>| disassembly::disassemble_image(words).into_bytes();
    texts.extend(images().iter().map(listing));
    texts
}

/// Each refusal, at the start of a text, at its end, and behind many words.
pub fn refused_texts() -> Vec<Refused> {
    let longest = 2 * LISTING_WORDS;
    let too_many = counts::text(LISTING_WORDS + 1, "", "");
    let faulty = |line| faults::text(LISTING_WORDS - 1, &[line], true);
    let whole = counts::text(LISTING_WORDS, "", "");
    vec![
        (5, b"HALT".to_vec(), 1),
        (5, whole, longest - 1),
        (11, b"x".to_vec(), longest),
        (11, [&b"x\n"[..], &too_many].concat(), longest),
        (11, faulty("HALT x"), longest),
        (12, b"LOAD R1, [LB]".to_vec(), longest),
        (12, faulty("LOAD R1, [LB]"), longest),
        (12, faulty("LA: HALT"), longest),
        (13, too_many, longest),
    ]
}
