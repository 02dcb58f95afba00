//! Lists that are wrong: the program must say so, or its 'passed' means
//! nothing.

use crate::replay::{self, Counts};
use crate::tally::Tally;
use oracle::random::Random;
use oracle::record::{self, framed, Record};
use oracle::replays::Replay;

/// Records damaged at one byte each, of every kind.
const DAMAGED: usize = 200;
/// An answer that is short enough to damage each of its bytes in turn, and a
/// question that is short enough to be cut at each of its bytes.
const SHORT: usize = 400;
const SHORT_QUESTION: usize = 2_000;

/// `records` is the program's full list.
pub fn compare(tally: &mut Tally, replay: &Replay, records: &[Record]) {
    let mut random = Random::new(0xDA_3A6E);
    for kind in replay.kinds {
        let pool: Vec<&Record> = records
            .iter()
            .filter(|record| record.kind == *kind)
            .collect();
        damaged_answers(tally, replay, &mut random, &pool);
        let short: Vec<&Record> = pool
            .into_iter()
            .filter(|record| record.answer.len() <= SHORT)
            .filter(|record| record.question.len() <= SHORT_QUESTION)
            .collect();
        damaged_everywhere(tally, replay, &mut random, &short);
        let last = random.pick(&short);
        cut_everywhere(tally, replay, last);
    }
    cut_large(tally, replay, &mut random);
    malformed_between_good(tally, replay);
}

/// One byte of each answer is changed: none may pass.
fn damaged_answers(tally: &mut Tally, replay: &Replay, random: &mut Random, pool: &[&Record]) {
    let damaged: Vec<Record> = (0..DAMAGED)
        .map(|_| {
            let record = random.pick(pool);
            let at = random.below(record.answer.len());
            damage(random, record, at)
        })
        .collect();
    all_fail(tally, replay, &damaged);
}

/// Every byte of a few answers is changed in turn, so that none is unread.
fn damaged_everywhere(tally: &mut Tally, replay: &Replay, random: &mut Random, pool: &[&Record]) {
    for _ in 0..4 {
        let record = random.pick(pool);
        let damaged: Vec<Record> = (0..record.answer.len())
            .map(|at| damage(random, record, at))
            .collect();
        all_fail(tally, replay, &damaged);
    }
}

fn damage(random: &mut Random, record: &Record, at: usize) -> Record {
    let mut damaged = record.clone();
    damaged.answer[at] ^= 1 + random.below(255) as u8;
    damaged
}

/// Each record is one comparison, passed where the program says 'failed'.
fn all_fail(tally: &mut Tally, replay: &Replay, damaged: &[Record]) {
    let counted = replay::run(replay, &record::list_bytes(damaged));
    let wanted = Counts {
        passed: 0,
        failed: damaged.len() as u64,
    };
    if counted == Ok(wanted) {
        tally.add(wanted.failed, 0);
    } else {
        tally.add(0, wanted.failed);
        let kind = damaged[0].kind as char;
        tally.show(|| format!("damaged {kind:?}: {counted:?}, not {wanted:?}"));
    }
}

/// A list that ends at each byte of its last record: the rest fails as one.
fn cut_everywhere(tally: &mut Tally, replay: &Replay, last: &Record) {
    let whole = record::list_bytes(&(replay.samples)()[..2]);
    let last = last.bytes();
    for cut in 0..last.len() {
        let list = [&whole[..], &last[..cut]].concat();
        counts_as(tally, replay, &list, 2, (cut > 0) as u64, || {
            format!("two records and {cut} bytes of {} of a third", last.len())
        });
    }
}

/// Cuts far inside a long list, where a reader's buffer may end too; and a
/// list with nothing in it.
fn cut_large(tally: &mut Tally, replay: &Replay, random: &mut Random) {
    let mut list = Vec::new();
    let mut ends = vec![0];
    for record in (replay.fixed)() {
        list.extend(record.bytes());
        ends.push(list.len());
    }
    let by_chance = (0..40).map(|_| random.below(list.len()));
    let ends_of_buffers = [0, 4_096, 8_192, 65_536, 131_072, 262_144, 524_288];
    let there = ends_of_buffers.into_iter().filter(|at| *at <= list.len());
    for at in by_chance.chain(there) {
        let passed = ends.iter().filter(|end| **end <= at).count() - 1;
        let failed = (ends[passed] < at) as u64;
        counts_as(tally, replay, &list[..at], passed as u64, failed, || {
            format!("{at} bytes of a list")
        });
    }
}

/// Each malformed record fails alone, and the good one behind it passes.
fn malformed_between_good(tally: &mut Tally, replay: &Replay) {
    let samples = (replay.samples)();
    let good = samples[samples.len() - 1].bytes();
    let mut malformed = malformed(replay, &samples);
    malformed.extend((replay.malformed)());
    for (name, body) in &malformed {
        let list = [&good[..], &framed(body), &good].concat();
        counts_as(tally, replay, &list, 2, 1, || {
            format!("{name}: {} bytes between good ones", body.len())
        });
    }
    let together: Vec<u8> = malformed
        .iter()
        .flat_map(|(_, body)| [framed(body), good.clone()].concat())
        .collect();
    let count = malformed.len() as u64;
    counts_as(tally, replay, &together, count, count, || {
        "all malformed records in one list".into()
    });
}

/// Records of no known kind, or of a length that is not their kind's.
fn malformed(replay: &Replay, samples: &[Record]) -> Vec<(String, Vec<u8>)> {
    let mut malformed = vec![("no kind".to_string(), Vec::new())];
    for kind in (0..=255).filter(|kind| !replay.kinds.contains(kind)) {
        let name = format!("unknown kind {kind:02X}");
        malformed.push((name.clone(), vec![kind]));
        malformed.push((name, [&[kind], &body(&samples[0])[1..]].concat()));
    }
    malformed.push(("unknown kind, longest".into(), vec![b'?'; 65_535]));
    for record in samples {
        malformed.extend(wrong_lengths(replay, record));
    }
    malformed
}

fn wrong_lengths(replay: &Replay, record: &Record) -> Vec<(String, Vec<u8>)> {
    let body = body(record);
    let longer = [&body[..], &[0]].concat();
    let longest = [&body[..], &vec![0; 65_535 - body.len()]].concat();
    let name = |what: &str| format!("{what} {:?}", record.kind as char);
    let mut wrong = vec![
        (name("one byte more in"), longer),
        (name("longest"), longest),
        (name("one byte less in"), body[..body.len() - 1].to_vec()),
        (name("nothing but"), vec![record.kind]),
    ];
    if replay.counted.contains(&record.kind) {
        wrong.extend(wrong_counts(&body).map(|body| (name("another count in"), body)));
    }
    wrong
}

/// The question of 'P' begins with a count of one byte, that of 'L', 'S', 'R' and
/// 'G' with one of two; here it is another one than the bytes behind it say.
fn wrong_counts(body: &[u8]) -> [Vec<u8>; 4] {
    let low = if body[0] == b'P' { 1 } else { 2 };
    let with = |at: usize, value: u8| {
        let mut changed = body.to_vec();
        changed[at] = value;
        changed
    };
    [
        with(low, body[low] + 1),
        with(low, body[low] - 1),
        with(low, 255),
        with(1, 254),
    ]
}

/// A record without its length.
fn body(record: &Record) -> Vec<u8> {
    record.bytes()[2..].to_vec()
}

fn counts_as(
    tally: &mut Tally,
    replay: &Replay,
    list: &[u8],
    passed: u64,
    failed: u64,
    what: impl FnOnce() -> String,
) {
    let counted = replay::run(replay, list);
    let wanted = Counts { passed, failed };
    tally.check(counted == Ok(wanted), || {
        format!(
            "{}, {}: {counted:?}, not {wanted:?}",
            replay.program,
            what()
        )
    });
}
