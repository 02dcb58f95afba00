//! The two lists of `replay_words` on words, texts and listings: the fixed one,
//! small enough to be kept, and the full one, which is made when it is needed.

use crate::images::{self, PARTLY_USED};
use crate::random::Random;
use crate::record::Record;
use crate::sizes::LISTING_WORDS;
use crate::words::texts;

/// Digits at the ends of the decimal and the letter range.
const EDGES: [u16; 5] = [0x0, 0x1, 0x9, 0xA, 0xF];
/// Bytes at those ends, and with a high half that encoding must drop.
const EDGE_BYTES: [u8; 12] = [
    0x00, 0x01, 0x09, 0x0A, 0x0F, 0x10, 0x1E, 0x7F, 0x80, 0xE5, 0xF0, 0xFF,
];
const HEX_VALUES: [u16; 9] = [0x0, 0x1, 0xF, 0x10, 0xFF, 0x100, 0xFFF, 0x1000, 0xFFFF];
/// Among them numbers that are small once they are cut to 8, 16 or 32 bits.
const HEX_DIGITS: [u64; 16] = [
    0,
    1,
    2,
    3,
    4,
    5,
    6,
    31,
    32,
    33,
    40,
    260,
    65_540,
    1 << 32,
    (1 << 32) + 5,
    u64::MAX,
];
/// Lengths where the head's number of words gains a digit or its plural, and
/// those near the largest image.
const LENGTHS: [usize; 11] = [0, 1, 2, 9, 10, 11, 99, 100, 101, MOST - 1, MOST];
const DENSE_LENGTHS: [usize; 12] = [1, 2, 3, 7, 16, 17, 40, 128, 129, MOST - 2, MOST - 1, MOST];
const MOST: usize = LISTING_WORDS;
/// Wrong lengths, and characters of two to four bytes, digits of other scripts
/// among them.
const OTHER_NAMES: [&str; 24] = [
    "",
    "R",
    "r",
    "1",
    "é",
    "R10",
    "RA0",
    "R1 ",
    " R1",
    "RR1",
    "R1\n",
    "Register 1",
    "Ré",
    "éR",
    "é1",
    "éé",
    "ß1",
    "R１",
    "Ｒ1",
    "R٣",
    "𝐑1",
    "R𝟏",
    "R1é",
    "éR1",
];

/// The list that is replayed wherever the port is checked.
pub fn fixed() -> Vec<Record> {
    let mut random = Random::new(0x4D41_5353_4559);
    let mut records = vec![texts::all()];
    records.extend(edge_words(&mut random).into_iter().map(texts::word));
    records.extend((0..=255).map(texts::nibble));
    records.extend((0..=255).map(texts::byte));
    records.extend(edge_encodings(&mut random).into_iter().map(texts::encode));
    for value in HEX_VALUES {
        records.extend(HEX_DIGITS.map(|digits| texts::hex(value, digits)));
    }
    records.extend(names().iter().map(|name| texts::parse(name)));
    records.extend(LENGTHS.map(|words| texts::listing(&images::mixed(&mut random, words))));
    records.extend(DENSE_LENGTHS.map(|words| texts::listing(&images::dense(&mut random, words))));
    records.extend(PARTLY_USED.map(texts::word));
    records.extend(partly_used().map(|image| texts::listing(&image)));
    records
}

/// The fixed list, every word there is, and many more of the kinds that have
/// too many questions to ask them all.
pub fn full() -> Vec<Record> {
    let mut random = Random::new(0x0F_F1CE);
    let mut records = fixed();
    records.extend((0..=u16::MAX).map(texts::word));
    records.extend((0..4_096).map(|_| texts::encode(any_digits(&mut random))));
    records.extend((0..20_000).map(|_| any_hex(&mut random)));
    records.extend((0..300).map(|_| any_listing(&mut random)));
    records
}

/// One record of each kind, and of 'N' and 'P' with either answer.
pub fn samples() -> Vec<Record> {
    vec![
        texts::word(0x5123),
        texts::word(0xE000),
        texts::nibble(0x0D),
        texts::nibble(0x05),
        texts::all(),
        texts::encode([1, 2, 3, 4]),
        texts::byte(0x2A),
        texts::hex(0xFF, 4),
        texts::parse(b"RA"),
        texts::parse(b"R10"),
        texts::listing(&[0x3101, 0xE000]),
    ]
}

/// For each opcode nibble, every pair of edges at every two of x, y and z, and
/// a dozen words by chance.
pub(crate) fn edge_words(random: &mut Random) -> Vec<u16> {
    let mut words = Vec::new();
    for opcode in 0..16u16 {
        for (i, x) in EDGES.iter().enumerate() {
            for (j, y) in EDGES.iter().enumerate() {
                let z = EDGES[(i + j) % EDGES.len()];
                words.push(opcode << 12 | x << 8 | y << 4 | z);
            }
        }
        words.extend((0..12).map(|_| opcode << 12 | random.word() >> 4));
    }
    words
}

/// An image of one word and two of the most. Each word whose text may end in it,
/// which then is listed as `.word`, stands in lines without a label, and from the
/// middle on in one with a label. The last line has such a word, without a label
/// and with one.
fn partly_used() -> [Vec<u16>; 3] {
    let labelled: Vec<usize> = (MOST / 2..).take(PARTLY_USED.len()).collect();
    let last = [&labelled[..], &[MOST - 1]].concat();
    [
        vec![PARTLY_USED[0]],
        referring_to(&labelled),
        referring_to(&last),
    ]
}

/// These words again and again, up to the most. Some in the first half refer to
/// the addresses, by each opcode that does.
fn referring_to(addresses: &[usize]) -> Vec<u16> {
    let mut image: Vec<u16> = PARTLY_USED.into_iter().cycle().take(MOST).collect();
    for (word, address) in image[MOST / 4..].iter_mut().zip(addresses) {
        let opcode = [0x3000, 0x4000, 0xD000][address % 3];
        *word = opcode | *address as u16;
    }
    image
}

fn edge_encodings(random: &mut Random) -> Vec<[u8; 4]> {
    let mut encodings: Vec<[u8; 4]> = (0..16)
        .map(|opcode| [opcode, random.byte(), random.byte(), random.byte()])
        .collect();
    encodings.extend((0..92).map(|_| [(); 4].map(|()| random.pick(&EDGE_BYTES))));
    encodings.extend((0..92).map(|_| any_digits(random)));
    encodings
}

fn any_digits(random: &mut Random) -> [u8; 4] {
    (random.draw() as u32).to_be_bytes()
}

fn any_hex(random: &mut Random) -> Record {
    // Short numbers are asked for as often as long ones.
    let value = random.word() >> random.below(17).min(15);
    let digits = match random.below(4) {
        0 | 1 => random.below(8) as u64,
        2 => random.below(48) as u64,
        _ => random.draw() >> random.below(64),
    };
    texts::hex(value, digits)
}

fn any_listing(random: &mut Random) -> Record {
    let words = random.below(MOST + 1);
    texts::listing(&match random.below(3) {
        0 => images::mixed(random, words),
        _ => images::dense(random, words),
    })
}

/// Names of registers and what only looks like one.
fn names() -> Vec<Vec<u8>> {
    // Every ASCII character in either place.
    let mut names: Vec<Vec<u8>> = (0..128).map(|second| vec![b'R', second]).collect();
    names.extend((0..128).map(|second| vec![b'r', second]));
    names.extend((0..128).map(|first| vec![first, b'1']));
    names.extend(OTHER_NAMES.map(|name| name.as_bytes().to_vec()));
    names.push(format!("R1{}", "1".repeat(253)).into());
    names.push(format!("R{}", "é".repeat(127)).into());
    names.extend(no_texts());
    names
}

/// Bytes that are no UTF-8: stray, cut short, overlong, a half of a surrogate.
fn no_texts() -> Vec<Vec<u8>> {
    let cases: [&[u8]; 9] = [
        b"\xFF",
        b"R\xFF",
        b"R\xC3",
        b"\xC3R",
        b"\x801",
        b"R1\x80",
        b"R\xC0\xB1",
        b"\xD2\x31",
        b"R\xED\xA0\x80",
    ];
    cases.map(<[u8]>::to_vec).to_vec()
}
