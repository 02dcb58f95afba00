//! The two lists of `replay_readings`, as those of `replay_words` in `words`.

use crate::images::PARTLY_USED;
use crate::programs::{self, HALT, JUMP};
use crate::random::Random;
use crate::readings::{self, Question};
use crate::record::Record;
use crate::report::inputs::sample;
use crate::sizes::{CODE_WORDS, MEMORY_WORDS};

/// How many machines by chance the full list has.
const MACHINES: usize = 20_000;

/// Image lengths around none, one and the machine's size, and over it.
const LENGTHS: [usize; 10] = [
    0,
    1,
    2,
    15,
    16,
    MEMORY_WORDS - 1,
    MEMORY_WORDS,
    MEMORY_WORDS + 1,
    MEMORY_WORDS + 2,
    300,
];

/// The most ticks that a record may ask for.
const MOST_TICKS: u32 = 65_535;

/// Instructions of seven, six and four ticks, and one that is unknown.
const PROGRAM: [u16; 5] = [0x4105, 0x6123, 0x3101, 0x5123, HALT];

fn question(image: &[u16], ticks: u32, address: u8) -> Question {
    Question {
        image: image.to_vec(),
        ticks,
        address,
    }
}

/// The list that is replayed wherever the port is checked.
pub fn fixed() -> Vec<Record> {
    let mut random = Random::new(0x4EAD);
    let mut questions = lengths(&mut random);
    questions.extend(every_tick());
    questions.extend(halted());
    questions.extend(ends_of_memory(&mut random));
    questions.extend(partly_used());
    let mut records: Vec<Record> = questions.iter().map(readings::record).collect();
    records.extend(sample::records());
    records
}

/// The fixed list, and many more.
pub fn full() -> Vec<Record> {
    let mut random = Random::new(0x4EAD_F011);
    let mut records = fixed();
    records.extend(large().iter().map(readings::record));
    records.extend((0..MACHINES).map(|_| readings::record(&any(&mut random))));
    records
}

/// A running machine, one in mid-instruction, and a halted one.
pub fn samples() -> Vec<Record> {
    let mut records: Vec<Record> = [
        question(&[0x1105, HALT], 0, 0),
        question(&[0x1105, HALT], 3, 1),
        question(&[0x1105, HALT], 20, 2),
    ]
    .iter()
    .map(readings::record)
    .collect();
    records.extend(sample::short());
    records
}

/// Images of lengths of interest; the address is the last word's, or the first
/// behind it.
fn lengths(random: &mut Random) -> Vec<Question> {
    LENGTHS
        .map(|length| {
            let image: Vec<u16> = (0..length).map(|_| random.word()).collect();
            let behind = random.below(2);
            let address = (length + behind).saturating_sub(1).min(CODE_WORDS - 1) as u8;
            question(&image, random.below(3) as u32, address)
        })
        .to_vec()
}

/// Every number of ticks through a few instructions, the last of which halts.
fn every_tick() -> Vec<Question> {
    (0..=24)
        .map(|ticks| question(&PROGRAM, ticks, (ticks % 5) as u8))
        .collect()
}

/// Machines that HALT or an unknown word stopped, at each of the last ticks and
/// long after them.
fn halted() -> Vec<Question> {
    let mut questions = Vec::new();
    for word in [HALT, 0x0000, 0x5000, 0xF123] {
        for ticks in [3, 4, 5, 1_000] {
            questions.push(question(&[word, 0x1105], ticks, 0));
        }
    }
    questions.push(question(&[JUMP], MOST_TICKS, 0));
    questions
}

/// Words and PC at the last address.
fn ends_of_memory(random: &mut Random) -> Vec<Question> {
    let mut image: Vec<u16> = (0..CODE_WORDS).map(|_| random.word()).collect();
    image[0] = JUMP | 0xFF;
    image[CODE_WORDS - 1] = 0x4000;
    (4..=12).map(|ticks| question(&image, ticks, 255)).collect()
}

/// Each word whose text may end in it; and an address where a store puts such a
/// word, just before it is there, just behind, and when it was carried out.
fn partly_used() -> Vec<Question> {
    let mut questions: Vec<Question> = (0..PARTLY_USED.len() as u8)
        .map(|address| question(&PARTLY_USED, 0, address))
        .collect();
    let storing = [0x3103, 0x4102, HALT, 0xEABC];
    questions.extend([13, 14, 18].map(|ticks| question(&storing, ticks, 2)));
    questions
}

/// Images far over what a machine holds.
fn large() -> Vec<Question> {
    let image: Vec<u16> = (0..32_000).map(|at| at ^ 0x5A5A).collect();
    let twice = 2 * MEMORY_WORDS;
    [twice - 1, twice, twice + 1, 5_000, 32_000]
        .map(|length| question(&image[..length], 9, 254))
        .to_vec()
}

fn any(random: &mut Random) -> Question {
    let ticks = match random.below(16) {
        0 => random.below(3_000),
        1..=4 => random.below(200),
        _ => random.below(24),
    };
    Question {
        image: programs::any(random),
        ticks: ticks as u32,
        address: random.byte(),
    }
}

/// A record that asks for a tick more than there may be, with its answer.
pub fn malformed() -> Vec<(String, Vec<u8>)> {
    let record = readings::record(&question(&[JUMP], MOST_TICKS + 1, 0)).bytes();
    vec![("too many ticks".into(), record[2..].to_vec())]
}
