//! The families that meet cleared registers: they come to what their makers say,
//! by counts that are written out here.

use oracle::report::guarded::{self, Input, Run, Stop};
use oracle::report::inputs::{cleared, sample, stretches};
use oracle::report::owners::Owners;
use oracle::report::program::bytes;
use oracle::vm::Machine;

fn run(input: &Input) -> Run {
    guarded::run(input).expect("it is served")
}

/// A word that moves owners as this one did before document 02, Change 2: then
/// XOR's were those of AND, and those of every shift were kept.
fn before(word: u16) -> u16 {
    match word >> 12 {
        0x8 | 0x9 => word & 0xFF00,
        0xC => 0xA000 | word & 0xFFF,
        _ => word,
    }
}

/// The jumps that this run makes though their tests were hidden before Change 2:
/// of each, how many instructions are made until it is come to.
fn passed(input: &Input) -> Vec<u64> {
    let mut machine = Machine::new();
    machine.load_image(&input.image);
    let mut owners = Owners::at_start(std::array::from_fn(|address| input.owners[address]));
    let mut step = || {
        let word = machine.memory[usize::from(machine.pc)];
        let hidden = owners.hide_the_test_of(word, input.clearance);
        owners.follow(before(word));
        machine.step_instruction();
        hidden
    };
    let executed = run(input).executed;
    (0..executed).filter(|_| step()).collect()
}

/// Of the runs to the end: how many stop at the jump, and how many make it though
/// they stopped there before.
fn at_the_jump(opcodes: &[u16]) -> [usize; 2] {
    let words = cleared::words().into_iter().enumerate();
    let chosen = words.filter(|(_, word)| opcodes.contains(&(word >> 12)));
    let mut counts = [0; 2];
    for (number, _) in chosen {
        for inputs in cleared::one(number).chunks(2) {
            let short = run(&inputs[0]);
            assert_eq!((short.stop, short.executed), (Stop::Budget, 5));
            let stop = run(&inputs[1]).stop;
            assert!([Stop::Halted, Stop::HiddenTest].contains(&stop));
            counts[0] += usize::from(stop == Stop::HiddenTest);
            counts[1] += passed(&inputs[1]).len();
        }
    }
    counts
}

/// The counts follow from the rule. Of the 16 choices of marks one register is
/// hidden in 8, one of two in 12, one of three in 14; of the 4 choices for a shift
/// one register is in 2, one of two in 3. A jump asks for x and R0, or for R1 where
/// x is R0: for x and the other.
#[test]
fn chosen_words() {
    // For each x, 4 with y = z, and 12 without, of which 6 have the other in them.
    // What is new: y = z is hidden, and not the other.
    let xors = [4 * (4 * 8 + 6 * 12 + 6 * 14), 4 * 3 * 4];
    assert_eq!(at_the_jump(&[0xC]), xors);
    // For each x, 1 with the other and itself, and 3 with another and itself.
    let sums = [3 * 4 * (8 + 3 * 12), 0];
    assert_eq!(at_the_jump(&[0x6, 0xA, 0xB]), sums);
    // For both x, 240 that clear, and 16 that do not.
    for shift in [0x8, 0x9] {
        assert_eq!(at_the_jump(&[shift]), [2 * (240 * 2 + 16 * 3), 2 * 240]);
    }
}

#[test]
fn the_sample_has_both() {
    let (halted, hidden) = (Stop::Halted, Stop::HiddenTest);
    let due = [
        (0xC111, halted),
        (0xC112, hidden),
        (0xC122, halted),
        (0x8110, halted),
        (0x810F, hidden),
        (0x9110, halted),
        (0x910F, hidden),
        (0xA111, hidden),
    ];
    assert_eq!(due.map(|row| row.0), cleared::ROWS);
    for (word, stop) in due {
        let row = cleared::row(word);
        assert_eq!(run(&row).stop, stop, "{word:04X}");
        assert!(sample::inputs().contains(&bytes(&row)));
    }
}

/// Enough of the pairs go on past a jump on what was cleared, and enough stop at
/// one on what was not; some do both.
#[test]
fn pairs_go_on_or_stop() {
    let (mut passing, mut stopping, mut both) = (0, 0, 0);
    for number in 0..cleared::PAIR_CASES {
        let input = &cleared::pairs(number)[0];
        let passes = !passed(input).is_empty();
        let stops = run(input).stop == Stop::HiddenTest;
        passing += usize::from(passes);
        stopping += usize::from(stops);
        both += usize::from(passes && stops);
    }
    assert!(passing > 1_800, "{passing}");
    assert!(stopping > 450, "{stopping}");
    assert!(both > 140, "{both}");
}

/// Loops by chance make such jumps past the first stretches too.
#[test]
fn loops_go_on_past_stretches() {
    let cases = (0..stretches::RANDOM_CASES).map(|number| passed(&stretches::any(number)[0]));
    let lasts: Vec<u64> = cases.filter_map(|passed| passed.last().copied()).collect();
    let past = |bound: u64| lasts.iter().filter(|last| **last >= bound).count();
    let found = [256, 512, 768].map(past);
    assert!(
        found[0] > 900 && found[1] > 600 && found[2] > 350,
        "{found:?}"
    );
}
