//! Programs that come to an address after a number of instructions that can be
//! chosen: an engine that makes many instructions at once may be wrong only
//! where a run ends, or the program changes, near the end of such a stretch.

use crate::programs::{HALT, IDLE, JUMP};
use crate::sizes::BREAKPOINTS;

/// Where the loop begins, and where a countdown comes out of it.
pub const LOOP: u16 = 0x20;
pub const OUT: u16 = 0x40;
/// The words that the loop counts with: how many turns, and minus one.
const COUNT: u16 = 0x70;
/// Words that a program can write over its own.
pub const DATA: u16 = 0x80;
pub const HALT_WORD: u16 = DATA;
pub const IDLE_WORD: u16 = DATA + 1;
pub const UNKNOWN_WORD: u16 = DATA + 2;
/// Where words of no meaning stand.
pub const VALUES: u16 = DATA + 8;
const VALUE_WORDS: [u16; 5] = [0x5EC7, 0x8001, 0x0003, 0xFFFF, 0x1234];
const UNKNOWN: u16 = 0x5123;

/// Numbers of instructions around one and a multiple of 256.
pub const BOUNDS: usize = 60;

pub fn bound(number: usize) -> usize {
    [250, 506, 762, 1_018][number / 15] + number % 15
}

/// The bound of a case, and what is left of the case's number. From one rest to
/// the next the bounds are shifted, so that each n-th case alone comes to all.
pub fn bound_of(case: usize) -> (usize, usize) {
    let rest = case / BOUNDS;
    (bound((case + rest) % BOUNDS), rest)
}

/// More instructions than any run here is allowed.
pub const ENDLESS: usize = 60_000;

// -- bodies -----------------------------------------------------------------

/// What a loop does in each turn, besides counting. None changes R0 to R2.
pub type Body = &'static [u16];

pub const COUNTING: Body = &[];

/// Every operation of the ALU, and loads of registers. Two words have digits that
/// they do not use.
pub const RECKONING: Body = &[
    0x13F7, 0x6553, 0x2065, 0x7F6A, 0x8603, 0x2E75, 0x9702, 0xA876, 0xB976, 0xCA89,
];

/// Stores to many addresses, and loads from some.
pub const STORING: Body = &[
    0x1301, 0x6443, 0x4490, 0x4498, 0x43A0, 0x44A8, 0x44B0, 0x34A8, 0x43B8, 0x44C0, 0x44C8, 0x33B0,
    0x44D0, 0x44D8, 0x43E0, 0x44E8, 0x44F0, 0x44FF,
];

/// Two words of the loop change places in each turn, right before they are
/// come to.
pub const SWAPPING: Body = &[
    0x3324, 0x3425, 0x4424, 0x4325, 0x6553, 0xC564, 0x4590, 0x3690,
];

/// The last word is a store whose address is one higher in each turn, so that
/// one more address is touched.
pub const SWEEPING: Body = &[0x1401, 0x3324, 0x6334, 0x4324, 0x438F];

pub const BODIES: [Body; 5] = [COUNTING, RECKONING, STORING, SWAPPING, SWEEPING];

// -- the program ------------------------------------------------------------

/// A program that begins at 00 and comes to `OUT` after just so many
/// instructions. The first is a store, since that has the most ticks.
pub fn countdown(instructions: usize, body: &[u16], out: &[u16]) -> Vec<u16> {
    let turn = body.len() + 3;
    // Four instructions lead into the loop, and its last turn is one shorter.
    let left = instructions - 3;
    let (turns, idle) = (left / turn, left % turn);
    assert!(turns > 0, "{instructions} instructions are no turn");
    let first = LOOP - 2 - idle as u16;
    let mut image = vec![0; usize::from(DATA) + 16];
    put(&mut image, 0, &[0x4000 | (COUNT + 2), JUMP | first]);
    put(&mut image, first, &vec![IDLE; idle]);
    put(
        &mut image,
        LOOP - 2,
        &[0x3100 | COUNT, 0x3200 | (COUNT + 1)],
    );
    put(&mut image, LOOP, body);
    let behind = LOOP + body.len() as u16;
    put(&mut image, behind, &[0x6112, 0xD100 | OUT, JUMP | LOOP]);
    put(&mut image, OUT, out);
    put(&mut image, COUNT, &[turns as u16, 0xFFFF]);
    put(&mut image, HALT_WORD, &[HALT, IDLE, UNKNOWN]);
    put(&mut image, VALUES, &VALUE_WORDS);
    image
}

fn put(image: &mut [u16], at: u16, words: &[u16]) {
    let at = usize::from(at);
    image[at..at + words.len()].copy_from_slice(words);
}

/// The address of the jump back to the loop's begin.
pub fn jump_back(body: &[u16]) -> u16 {
    LOOP + body.len() as u16 + 2
}

// -- ways out ---------------------------------------------------------------

/// What a countdown comes to.
pub struct Out {
    pub words: Vec<u16>,
    /// The instructions that are then begun.
    pub more: usize,
    /// Where a breakpoint ends the run so; without one it goes on.
    pub breakpoint: Option<u8>,
}

pub const OUTS: usize = 8;

/// HALT, an unknown word and two breakpoints, the second where the run began;
/// then words that are written over just before they are come to.
pub fn out(number: usize, body: &[u16]) -> Out {
    let over_next = |word: u16| vec![0x3300 | word, 0x4300 | (OUT + 2)];
    let then = |words: Vec<u16>, behind: &[u16]| [&words[..], behind].concat();
    let (words, more, breakpoint) = match number {
        0 => (vec![HALT], 1, None),
        1 => (vec![UNKNOWN], 1, None),
        2 => (vec![IDLE, HALT], 0, Some(OUT as u8)),
        3 => (vec![JUMP], 1, Some(0)),
        4 => (then(over_next(IDLE_WORD), &[HALT, HALT]), 4, None),
        5 => (then(over_next(HALT_WORD), &[IDLE, UNKNOWN]), 3, None),
        6 => (then(over_next(UNKNOWN_WORD), &[IDLE, HALT]), 3, None),
        _ => (
            over_jump_back(0x3300 | HALT_WORD, body),
            body.len() + 6,
            None,
        ),
    };
    Out {
        words,
        more,
        breakpoint,
    }
}

/// Loads R3 so, writes it over the jump back to the loop's begin, and begins
/// the loop anew: R1 is over its end, so that the jump is come to.
pub fn over_jump_back(load: u16, body: &[u16]) -> Vec<u16> {
    vec![load, 0x4300 | jump_back(body), JUMP | LOOP]
}

/// No breakpoint, one, and the most. The one and one of the many end the run where
/// `out` says so; else they are where the run begins, which ends nothing.
pub fn breakpoint_lists(out: &Out, place: usize) -> [Vec<u8>; 3] {
    let met = out.breakpoint.unwrap_or(0);
    // PC comes to none of these.
    let mut many: Vec<u8> = (0..BREAKPOINTS).map(|at| 0xE0 | at as u8 & 0x0F).collect();
    many[place % BREAKPOINTS] = met;
    [Vec::new(), vec![met], many]
}
