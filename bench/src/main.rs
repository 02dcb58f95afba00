//! Times the port's archive against the original, both in one run, and prints
//! a table. Lent buffers are used again and again and never cleared between
//! calls; the original makes a new `String` each time, as its callers get it.
//! Where the original has no such call, the first column has what the row's name
//! or its part here says: plain Rust, or another call of the port.

mod assembly;
mod history;
mod machine;
mod report;
mod timing;

use oracle::random::Random;
use oracle::sizes::{LISTING_WORDS, TEXT};
use oracle::words::disassembly;
use oracle::{disasm, images, isa};
use std::hint::black_box;
use std::time::{Duration, Instant};

const SETS: usize = 16;
const ROUNDS: usize = 60;
/// How long one side runs in one round.
const TURN: Duration = Duration::from_millis(3);
/// Enough for the longest listing.
const LISTING: usize = 12_288;

fn main() {
    let sets: Vec<Vec<u16>> = (1..=SETS).map(|seed| mix(seed as u64)).collect();
    agree(&sets);
    println!("| name | Rust ns | ours ns | ratio | limit |");
    println!("|---|---:|---:|---:|---:|");
    row("`format_word` of all 65,536 words", "none", formatting());
    row(
        "`disassemble` of 256 words",
        "0.1",
        disassembling(&sets[..1]),
    );
    // Sixteen times as many words: no processor learns their order by heart.
    row(
        "the same, of 16 images in turn",
        "0.12",
        disassembling(&sets),
    );
    row("listing of 256 words", "none", listing(&sets));
    assembly::agree(&sets);
    // The original has no assembler: the first column is plain Rust, and in the
    // last of these rows it is the port's own listing.
    row(
        "assembling the listing of 256 words",
        "2",
        assembly::assembling(&sets),
    );
    row(
        "the same, 256 jumps to 256 labels",
        "2",
        assembly::assembling(&assembly::jumps()),
    );
    row(
        "the same, `.word` alone",
        "2",
        assembly::assembling(&assembly::data()),
    );
    row(
        "assembling, to the port's own listing of the same words",
        "10",
        assembly::to_the_listing(&sets),
    );
    let programs = machine::programs();
    machine::agree(&programs);
    for call in &machine::CALLS_TIMED {
        row(call.name, call.limit, machine::timed(call, &programs));
    }
    for (name, program) in ["eight opcodes", "all of the ALU", "stores alone"]
        .iter()
        .zip(&programs)
    {
        row(
            &format!("`run`, budget 1,000,000, {name}"),
            machine::RUN_LIMIT,
            machine::timed(&machine::CALLS_TIMED[0], std::slice::from_ref(program)),
        );
    }
    report::agree(&programs);
    row(
        "the report call, budget 1,000,000, to a `run`",
        machine::RUN_LIMIT,
        report::whole(&programs, &[]),
    );
    row(
        "the same with 256 breakpoints",
        machine::RUN_LIMIT,
        report::whole(&programs, &machine::BREAKPOINTS),
    );
    row(
        "the report of an empty image, to 256 words",
        "0.3",
        report::empty(&sets[0]),
    );
    let mut store = history::store();
    history::agree(&programs[0], &mut store);
    row(
        "`push_history` at the limit of 20,000",
        "2",
        history::pushing(&programs[0], &mut store),
    );
    for changed in [0, 16, 64] {
        row(
            &format!("`undo`, {changed} words changed"),
            "2",
            history::undoing(&programs[0], changed, &mut store),
        );
    }
}

/// Each of the sixteen first digits equally often, in an order by chance.
fn mix(seed: u64) -> Vec<u16> {
    let mut random = Random::new(seed);
    let mut words: Vec<u16> = (0..LISTING_WORDS)
        .map(|index| (index as u16) << 12 | random.word() >> 4)
        .collect();
    for last in (1..LISTING_WORDS).rev() {
        words.swap(last, random.below(last + 1));
    }
    words
}

/// Times mean nothing where the two sides do not do the same. The port ends some
/// texts in the word, which the original does not: so it is held to the model.
fn agree(sets: &[Vec<u16>]) {
    let (mut text, mut out) = ([0; TEXT], [0; LISTING]);
    for word in 0..=u16::MAX {
        let length = timing::format_word(word, &mut text) as usize;
        assert_eq!(text[..length], *isa::format_word(word).as_bytes());
    }
    for words in sets {
        for word in words {
            let length = archive::disassemble(*word, &mut text) as usize;
            assert_eq!(text[..length], *disassembly::disassemble(*word).as_bytes());
        }
        let length = archive::listing(&images::bytes(words), &mut out) as usize;
        assert_eq!(
            out[..length],
            *disassembly::disassemble_image(words).as_bytes()
        );
    }
}

fn formatting() -> (f64, f64) {
    let mut out = [0; TEXT];
    let mut rust = || {
        for word in 0..=u16::MAX {
            black_box(isa::format_word(black_box(word)));
        }
    };
    let mut ours = || {
        for word in 0..=u16::MAX {
            black_box(timing::format_word(black_box(word), black_box(&mut out)));
        }
    };
    medians(ROUNDS, 1, &mut rust, &mut ours)
}

fn disassembling(sets: &[Vec<u16>]) -> (f64, f64) {
    let mut out = [0; TEXT];
    let mut rust = || {
        for word in sets.iter().flatten() {
            black_box(disasm::disassemble(black_box(*word)));
        }
    };
    let mut ours = || {
        for word in sets.iter().flatten() {
            black_box(archive::disassemble(black_box(*word), black_box(&mut out)));
        }
    };
    medians(ROUNDS, sets.len(), &mut rust, &mut ours)
}

fn listing(sets: &[Vec<u16>]) -> (f64, f64) {
    let byte_sets: Vec<Vec<u8>> = sets.iter().map(|words| images::bytes(words)).collect();
    let mut out = vec![0; LISTING];
    let mut rust = || {
        for words in sets {
            black_box(disasm::disassemble_image(black_box(words)));
        }
    };
    let mut ours = || {
        for image in &byte_sets {
            black_box(archive::listing(black_box(image), black_box(&mut out)));
        }
    };
    medians(ROUNDS, sets.len(), &mut rust, &mut ours)
}

/// The median nanoseconds for one set, of either side. The sides take turns,
/// and the one that begins changes, so that what disturbs one disturbs both.
fn medians(
    rounds: usize,
    sets: usize,
    rust: &mut dyn FnMut(),
    ours: &mut dyn FnMut(),
) -> (f64, f64) {
    let (rust_passes, our_passes) = (passes(rust), passes(ours));
    let (mut rust_times, mut our_times) = (Vec::new(), Vec::new());
    for round in 0..rounds {
        if round % 2 == 0 {
            rust_times.push(timed(rust, rust_passes));
            our_times.push(timed(ours, our_passes));
        } else {
            our_times.push(timed(ours, our_passes));
            rust_times.push(timed(rust, rust_passes));
        }
    }
    let a_set = |times| median(times) / sets as f64;
    (a_set(rust_times), a_set(our_times))
}

/// How many passes over all sets fill a turn. The first pass warms up.
fn passes(side: &mut dyn FnMut()) -> u32 {
    side();
    let start = Instant::now();
    let mut passes = 0;
    while start.elapsed() < TURN {
        side();
        passes += 1;
    }
    passes
}

fn timed(side: &mut dyn FnMut(), passes: u32) -> f64 {
    let start = Instant::now();
    for _ in 0..passes {
        side();
    }
    start.elapsed().as_nanos() as f64 / f64::from(passes)
}

fn median(mut times: Vec<f64>) -> f64 {
    times.sort_by(f64::total_cmp);
    (times[(times.len() - 1) / 2] + times[times.len() / 2]) / 2.0
}

fn row(name: &str, limit: &str, (rust, ours): (f64, f64)) {
    println!(
        "| {name} | {rust:.0} | {ours:.0} | {:.4} | {limit} |",
        ours / rust
    );
}
