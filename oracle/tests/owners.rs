//! Owners and readers, document 02, Change 7: the model's reports, by answers that are
//! written out here. `owner_families.rs` has what the families for it come to.

mod records;

use oracle::report::bytes;
use oracle::report::guarded::{self, Input};
use oracle::report::inputs::examples::{input, with_word_10};
use oracle::report::inputs::{refused, sample};
use oracle::report::program::{self, answer};
use records::{counts, end, fault, of_kind, records, text};
use std::collections::HashSet;

const HALT: u16 = 0xE000;

fn report(input: &Input) -> Vec<u8> {
    bytes::report(input).expect("it is served")
}

/// An input whose words at these addresses have these owners, for this reader.
fn owned(image: &[u16], owners: &[(usize, u8)], clearance: u8, budget: u64) -> Input {
    let mut input = input(image, &[], budget);
    for (address, owners) in owners {
        input.owners[*address] = *owners;
    }
    Input { clearance, ..input }
}

/// The number in the last record.
fn hidden_words(report: &[u8]) -> u16 {
    let [.., 0x0A, high, low] = report else {
        panic!("a report ends in the record of kind 0A")
    };
    u16::from_be_bytes([*high, *low])
}

/// A register's owners and value, and a final word's.
fn register(report: &[u8], index: usize) -> [u8; 3] {
    of_kind(report, 5)[index][2..].try_into().unwrap()
}

fn word(report: &[u8], address: usize) -> [u8; 3] {
    of_kind(report, 6)[address][2..].try_into().unwrap()
}

/// Owners with their value, where that is hidden and where it is not.
fn value(owners: u8, hidden: bool, word: u16) -> [u8; 3] {
    let [high, low] = if hidden { [0, 0] } else { word.to_be_bytes() };
    [owners, high, low]
}

// -- what is hidden ---------------------------------------------------------

/// Owners and clearances of readers who are kept from nothing by them.
const SHOWN: [(u8, u8); 14] = [
    (0x00, 0x00),
    (0x00, 0xFF),
    (0x00, 0x10),
    (0x01, 0x01),
    (0x01, 0xFF),
    (0x02, 0x03),
    (0x03, 0x03),
    (0x80, 0x80),
    (0x80, 0xF0),
    (0x7F, 0xFF),
    (0xFE, 0xFE),
    (0xFF, 0xFF),
    (0x20, 0xA5),
    (0x81, 0xA5),
];

/// Of readers who are.
const HIDDEN: [(u8, u8); 17] = [
    (0x01, 0x00),
    (0x80, 0x00),
    (0xFF, 0x00),
    (0x01, 0xFE),
    (0x02, 0x01),
    (0x03, 0x01),
    (0x03, 0x02),
    (0x80, 0x7F),
    (0x81, 0x01),
    (0x81, 0x80),
    (0xFF, 0xFE),
    (0xFF, 0x7F),
    (0x5A, 0xA5),
    (0xA5, 0xA4),
    (0x10, 0x0F),
    (0x0F, 0x07),
    (0xFF, 0x0F),
];

/// Each of these pairs, and whether it hides.
fn each_pair() -> impl Iterator<Item = (u8, u8, bool)> {
    let shown = SHOWN.map(|(owners, clearance)| (owners, clearance, false));
    let hidden = HIDDEN.map(|(owners, clearance)| (owners, clearance, true));
    shown.into_iter().chain(hidden)
}

/// A word that is come to: its two records, the stop, and the number of hidden words.
#[test]
fn words_that_are_come_to() {
    for (owners, clearance, hidden) in each_pair() {
        let report = report(&owned(
            &[0x1105, 0x2F31, HALT],
            &[(1, owners)],
            clearance,
            9,
        ));
        let name = format!("{owners:02X} for {clearance:02X}");
        let shown = if hidden { "" } else { "LOAD R3, R1 ; 2F31" };
        let due = [&[2, 1][..], &value(owners, hidden, 0x2F31), &text(shown)].concat();
        assert_eq!(of_kind(&report, 2)[1], due, "{name}");
        assert_eq!(word(&report, 1), value(owners, hidden, 0x2F31), "{name}");
        assert_eq!(hidden_words(&report), u16::from(hidden), "{name}");
        assert_eq!(report[13], clearance, "{name}");
        let (stop, begun) = if hidden { ([4, 1], 1) } else { ([0, 3], 3) };
        assert_eq!(end(&report)[..2], stop, "{name}");
        assert_eq!(counts(&report)[0], begun, "{name}");
        // Whoever owns an instruction owns nothing that it does.
        assert_eq!(register(&report, 3), [0, 0, if hidden { 0 } else { 5 }]);
    }
}

/// A word that is loaded, stored and asked for: registers, MDR and both words.
#[test]
fn words_that_are_asked_for() {
    for (owners, clearance, hidden) in each_pair() {
        let image = with_word_10(&[0x3110, 0x4111, 0xD105, HALT], 0x5EC7);
        let asked = report(&owned(&image, &[(0x10, owners)], clearance, 9));
        let name = format!("{owners:02X} for {clearance:02X}");
        let due = value(owners, hidden, 0x5EC7);
        assert_eq!(register(&asked, 1), due, "{name}");
        assert_eq!([word(&asked, 0x10), word(&asked, 0x11)], [due; 2], "{name}");
        assert_eq!(hidden_words(&asked), 2 * u16::from(hidden), "{name}");
        let stop = if hidden { [5, 2] } else { [0, 4] };
        assert_eq!(end(&asked)[..2], stop, "{name}");
        let cut = report(&owned(&image, &[(0x10, owners)], clearance, 2));
        assert_eq!(end(&cut)[5..], due, "{name}");
    }
}

/// Either register of a test can hide it, for one reader and not for another.
#[test]
fn tests_of_jumps() {
    for (asked, zero, clearance, stop) in [
        (0x00, 0x00, 0x00, 0),
        (0x01, 0x00, 0x00, 5),
        (0x00, 0x01, 0x00, 5),
        (0x01, 0x02, 0x03, 0),
        (0x01, 0x02, 0x01, 5),
        (0x01, 0x02, 0x02, 5),
        (0x04, 0x04, 0x04, 0),
        (0x0C, 0x00, 0x04, 5),
        (0x00, 0xC0, 0x7F, 5),
        (0xFF, 0xFF, 0xFF, 0),
    ] {
        let code = |jump: u16| {
            let mut image = with_word_10(&[0x3110, 0x3011, jump, HALT, HALT], 7);
            image.push(7);
            owned(&image, &[(0x10, asked), (0x11, zero)], clearance, 9)
        };
        let name = format!("{asked:02X} and {zero:02X} for {clearance:02X}");
        let pc = if stop == 5 { 2 } else { 5 };
        assert_eq!(end(&report(&code(0xD104)))[..2], [stop, pc], "{name}");
        // A jump on R0 tells nothing.
        assert_eq!(end(&report(&code(0xD004)))[..2], [0, 5], "{name}");
    }
}

// -- whole reports ----------------------------------------------------------

/// The trace of LOAD R1, [03] at 00 and STORE R1, [04] at 01.
fn a_load_and_a_store() -> Vec<Vec<u8>> {
    let fetch = ["PC -> MAR", "M[MAR] -> MDR", "MDR -> IR", "PC + 1 -> PC"];
    let load = ["03 -> MAR", "M[MAR] -> MDR", "MDR -> R1"];
    let store = ["04 -> MAR", "R1 -> MDR", "MDR -> M[MAR]"];
    let mut trace: Vec<Vec<u8>> = Vec::new();
    for (address, execute) in [(0, load), (1, store)] {
        let ticks = fetch.iter().map(|shown| (0, shown));
        for (phase, shown) in ticks.chain(execute.iter().map(|shown| (2, shown))) {
            let number = [0, 0, 0, 0, 0, 0, 0, trace.len() as u8 + 1];
            trace.push([&[4][..], &number, &[address, phase], &text(shown)].concat());
        }
    }
    trace
}

/// A whole report but for words that are zero, written out. The reader may see owners 02
/// and 04; the load has one of them, and is carried out.
#[test]
fn a_small_report() {
    let owners = [(0, 0x04), (3, 0x06), (4, 0x01), (5, 0x09)];
    let input = Input {
        breakpoints: vec![2],
        ..owned(&[0x3103, 0x4104, HALT, 0x494E], &owners, 0x06, 2)
    };
    let report = report(&input);
    let mut due: Vec<Vec<u8>> = vec![vec![9, 0, 4, 0, 0, 0, 0, 0, 0, 0, 2, 0, 1, 6]];
    let start = |address: u8, owners: u8, word: [u8; 2], shown: &str| {
        [&[2, address, owners][..], &word, &text(shown)].concat()
    };
    due.push(start(0, 4, [0x31, 0x03], "LOAD R1, [03]"));
    due.push(start(1, 0, [0x41, 0x04], "STORE R1, [04]"));
    due.push(start(2, 0, [0xE0, 0x00], "HALT"));
    due.push(start(3, 6, [0x49, 0x4E], "STORE R9, [4E]"));
    due.push(start(4, 1, [0, 0], ""));
    due.push(start(5, 9, [0, 0], ""));
    let unknown = "??? (not a MASSEY opcode) ; 0000";
    due.extend((6..=255).map(|address| start(address, 0, [0, 0], unknown)));
    due.push(vec![3, 2]);
    due.extend(a_load_and_a_store());
    due.push(vec![5, 0, 0, 0, 0]);
    due.push(vec![5, 1, 6, 0x49, 0x4E]);
    due.extend((2..16).map(|index| vec![5, index, 0, 0, 0]));
    due.push(vec![6, 0, 4, 0x31, 0x03]);
    due.push(vec![6, 1, 0, 0x41, 0x04]);
    due.push(vec![6, 2, 0, 0xE0, 0x00]);
    due.push(vec![6, 3, 6, 0x49, 0x4E]);
    due.push(vec![6, 4, 6, 0x49, 0x4E]);
    due.push(vec![6, 5, 9, 0, 0]);
    due.extend((6..=255).map(|address| vec![6, address, 0, 0, 0]));
    due.push(vec![7, 4]);
    // The breakpoint behind the store: MDR has what was stored, with its owners.
    let mut end = vec![8, 1, 2, 0x41, 0x04, 4, 6, 0x49, 0x4E];
    for count in [2u64, 14, 3, 1] {
        end.extend(count.to_be_bytes());
    }
    end.extend([0, 0, 0, 0]);
    due.push(end);
    due.push(vec![0x0A, 0, 1]);
    assert_eq!(records(&report), due);
}

/// Holds a report to these registers and words, and to nothing with owners besides.
fn has(report: &[u8], registers: &[(usize, [u8; 3])], words: &[(usize, [u8; 3])]) {
    for (index, due) in registers {
        assert_eq!(register(report, *index), *due, "R{index:X}");
    }
    for (address, due) in words {
        assert_eq!(word(report, *address), *due, "word {address:02X}");
    }
    for (kind, named) in [(5, registers), (6, words)] {
        let with_owners = of_kind(report, kind).into_iter().filter(|one| one[2] != 0);
        let named = named.iter().filter(|one| one.1[0] != 0);
        assert_eq!(with_owners.count(), named.count(), "kind {kind}");
    }
}

/// The program's own sample, all that has owners in it.
#[test]
fn the_sample() {
    let report = report(&sample::invented());
    assert_eq!(report.len(), 14_690);
    let head = [9, 0, 24, 0, 0, 0, 0, 0, 0, 0, 20, 0, 3, 6];
    assert!(report.starts_with(&head));
    has(
        &report,
        &[
            (1, [0, 0x00, 0x07]),
            (2, [2, b'I', b'N']),
            (3, [4, b'V', b'E']),
            (4, [6, 0x9F, 0x93]),
            (5, [1, 0, 0]),
            (6, [7, 0, 0]),
            (7, [3, 0, 0]),
            (9, [0, 0, 0]),
        ],
        &[
            (0x03, [4, 0x64, 0x23]),
            (0x0B, [8, 0, 0]),
            (0x10, [2, b'I', b'N']),
            (0x11, [4, b'V', b'E']),
            (0x12, [1, 0, 0]),
            (0x13, [3, 0, 0]),
            (0x14, [0, b' ', b'S']),
            (0x18, [6, 0x9F, 0x93]),
            (0x19, [7, 0, 0]),
            (0x1A, [0, 0, 7]),
            (0x20, [0x80, 0, 0]),
            (0x21, [6, 0, 0]),
        ],
    );
    assert_eq!(end(&report), [0, 0x10, 0xE0, 0, 0x0F, 0, 0xE0, 0]);
    assert_eq!(counts(&report), [15, 88, 19, 3]);
    assert_eq!(fault(&report), [0; 4]);
    assert_eq!(hidden_words(&report), 5);
    assert_eq!(of_kind(&report, 3), [[3, 0x0B], [3, 0], [3, 0x0B]]);
    assert_eq!(of_kind(&report, 7), [[7, 0x18], [7, 0x19], [7, 0x1A]]);
}

/// For one who may see nothing it stops before the addition, and for one who may see
/// owner 04 at the jump on the copy. For the other two it ends as for the first reader.
#[test]
fn the_sample_for_other_readers() {
    let [nothing, less, more, all] = sample::other_readers().map(|input| report(&input));
    assert_eq!([nothing[13], less[13], more[13], all[13]], [0, 4, 7, 0xFF]);
    assert_eq!(end(&nothing)[..2], [4, 3]);
    assert_eq!(hidden_words(&nothing), 8);
    has(
        &nothing,
        &[(1, [2, 0, 0]), (2, [2, 0, 0]), (3, [4, 0, 0])],
        &[
            (0x03, [4, 0, 0]),
            (0x0B, [8, 0, 0]),
            (0x10, [2, 0, 0]),
            (0x11, [4, 0, 0]),
            (0x12, [1, 0, 0]),
            (0x13, [3, 0, 0]),
            (0x20, [0x80, 0, 0]),
            (0x21, [6, 0, 0]),
        ],
    );
    // MDR is as the second load left it.
    assert_eq!(end(&nothing)[5..], [4, 0, 0]);
    assert_eq!(end(&less)[..2], [5, 0x0D]);
    assert_eq!(hidden_words(&less), 8);
    assert_eq!(register(&less, 3), [4, b'V', b'E']);
    assert_eq!(register(&less, 4), [6, 0, 0]);
    assert_eq!(word(&less, 0x03), [4, 0x64, 0x23]);
    assert_eq!(end(&less)[5..], [3, 0, 0]);
    for (report, hidden) in [(&more, 2), (&all, 0)] {
        assert_eq!(end(report), [0, 0x10, 0xE0, 0, 0x0F, 0, 0xE0, 0]);
        assert_eq!(hidden_words(report), hidden);
        assert_eq!(register(report, 5), [1, b'N', b'T']);
        assert_eq!(register(report, 6), [7, 0xDF, 0xD7]);
        assert_eq!(word(report, 0x19), [7, 0xDF, 0xD7]);
        assert_eq!(register(report, 7), [3, b'E', b'D']);
        assert_eq!(register(report, 9), [0, 0, 0]);
    }
    assert_eq!(word(&more, 0x0B), [8, 0, 0]);
    assert_eq!(word(&all, 0x0B), [8, 0xEA, 0xBC]);
    assert_eq!(of_kind(&all, 2)[0x0B][5..], text("HALT ; EABC"));
    let inputs = sample::inputs();
    let readers = sample::other_readers();
    assert!(readers
        .iter()
        .all(|reader| inputs.contains(&program::bytes(reader))));
}

/// In the fixed list: four owners behind a load, behind a store, and at a jump.
#[test]
fn owners_at_the_end() {
    let ends: Vec<_> = sample::owners_at_the_end()
        .iter()
        .map(|input| {
            assert!(sample::inputs().contains(&program::bytes(input)));
            let end = end(&report(input));
            (end[0], end[1], [end[5], end[6], end[7]])
        })
        .collect();
    let due = [
        (3, 1, [0xC3, 0, 0]),
        (3, 2, [0xC3, 0, 0]),
        (5, 2, [0xC3, 0, 0]),
        (3, 1, [0xC3, 0x5E, 0xC7]),
        (3, 2, [0xC3, 0x5E, 0xC7]),
        (3, 3, [0, 0xD1, 0x04]),
    ];
    assert_eq!(ends, due);
}

/// The fixed list has every stop, readers who may see nothing, all and some, and registers
/// with several owners, shown and hidden.
#[test]
fn the_fixed_list() {
    let (mut stops, mut clearances) = (HashSet::new(), HashSet::new());
    let mut several = [0, 0];
    for input in sample::inputs() {
        let report = answer(&input);
        if report[0] != 9 {
            continue;
        }
        let clearance = report[13];
        stops.insert(end(&report)[0]);
        clearances.insert(clearance);
        for owners in (0..16).map(|index| register(&report, index)[0]) {
            let hidden = usize::from(owners & !clearance > 0);
            several[hidden] += usize::from(owners.count_ones() > 1);
        }
    }
    assert_eq!(stops, (0..6).collect());
    assert!(clearances.contains(&0) && clearances.contains(&0xFF));
    assert!(clearances.len() > 8, "{clearances:02X?}");
    assert!(several.iter().all(|count| *count > 9), "{several:?}");
}

// -- unions -----------------------------------------------------------------

/// The owners of two words, and those of what is made of both. No other rule gives all of
/// the last: not the larger byte, nor AND, nor XOR, nor the sum.
const UNIONS: [[u8; 3]; 12] = [
    [0x00, 0x00, 0x00],
    [0x00, 0x81, 0x81],
    [0x01, 0x02, 0x03],
    [0x03, 0x01, 0x03],
    [0x05, 0x06, 0x07],
    [0x80, 0x80, 0x80],
    [0xF0, 0x0F, 0xFF],
    [0xC3, 0x3C, 0xFF],
    [0xFF, 0x01, 0xFF],
    [0x55, 0x33, 0x77],
    [0xAA, 0xA0, 0xAA],
    [0x7F, 0x80, 0xFF],
];

#[test]
fn unions() {
    let results = [
        (0x6000, 0x2143),
        (0xA000, 0x0204),
        (0xB000, 0x1F3F),
        (0xC000, 0x1D3B),
    ];
    for [one, other, both] in UNIONS {
        for (opcode, result) in results {
            for digits in [0x312, 0x321] {
                let mut image = with_word_10(&[0x3110, 0x3211, opcode | digits, 0x4312], 0x1234);
                image.push(0x0F0F);
                for (clearance, hidden) in [(both, false), (!both, both != 0), (0xFF, false)] {
                    let owners = [(0x10, one), (0x11, other)];
                    let report = report(&owned(&image, &owners, clearance, 4));
                    let due = value(both, hidden, result);
                    let name = format!("{one:02X} {other:02X} {opcode:04X} {clearance:02X}");
                    assert_eq!(register(&report, 3), due, "{name}");
                    assert_eq!(word(&report, 0x12), due, "{name}");
                    assert_eq!(end(&report)[5..], due, "{name}");
                    // What it was made of keeps its own.
                    assert_eq!(register(&report, 1)[0], one, "{name}");
                    assert_eq!(register(&report, 2)[0], other, "{name}");
                }
            }
        }
    }
}

/// A union that one owner hides, though the reader may see all the others.
#[test]
fn one_owner_hides_a_union() {
    let mut image = with_word_10(&[0x3110, 0x3211, 0x6312, 0xD30F], 0x1234);
    image.push(0x0F0F);
    let end = |clearance| {
        let report = report(&owned(&image, &[(0x10, 0x0F), (0x11, 0xF0)], clearance, 9));
        (end(&report)[0], register(&report, 3))
    };
    // It is not taken, and the word behind it is unknown.
    assert_eq!(end(0xFF), (2, [0xFF, 0x21, 0x43]));
    for bit in 0..8 {
        assert_eq!(end(!(1 << bit)), (5, [0xFF, 0, 0]), "{bit}");
    }
}

/// R1, R2 and R3 have an owner each, and so has word 13. Whatever is written over, a
/// register or a word, loses what it had.
#[test]
fn what_is_written_over_loses_its_owners() {
    for (code, owners) in [
        (0x6123, 0x06),
        (0xA132, 0x06),
        (0xB122, 0x02),
        (0xC123, 0x06),
        (0x6112, 0x03),
        (0x2F12, 0x02),
        (0x3113, 0x08),
        (0x3114, 0x00),
        (0x1105, 0x00),
        (0xC122, 0x00),
        (0x8110, 0x00),
        (0x810F, 0x01),
        (0x7A1B, 0x01),
    ] {
        let code = [0x3110, 0x3211, 0x3312, code, 0x4113];
        let mut image = with_word_10(&code, 0x1111);
        image.extend([0x2222, 0x4444, 0x8888]);
        let each = [(0x10, 1), (0x11, 2), (0x12, 4), (0x13, 8)];
        let report = report(&owned(&image, &each, 0xFF, 5));
        assert_eq!(register(&report, 1)[0], owners, "{code:04X?}");
        assert_eq!(word(&report, 0x13)[0], owners, "{code:04X?}");
        let others = [register(&report, 2)[0], register(&report, 3)[0]];
        assert_eq!(others, [2, 4], "{code:04X?}");
    }
}

// -- MDR --------------------------------------------------------------------

/// Its owners behind each instruction. The second word has an owner whom the reader may
/// see, and MDR has none behind it all the same, though its value shows.
#[test]
fn mdr_behind_each_instruction() {
    let mut image = with_word_10(&[0x3110, 0x2F31, 0x4111, 0x3212, HALT], 0x5EC7);
    image.extend([0, 0x1234]);
    let owners = [(1, 0x02), (0x10, 0x05), (0x12, 0xC1)];
    let due = [
        [0, 0, 0],
        [0x05, 0x5E, 0xC7],
        [0, 0x2F, 0x31],
        [0x05, 0x5E, 0xC7],
        [0xC1, 0, 0],
        [0, 0xE0, 0x00],
    ];
    for (budget, due) in due.into_iter().enumerate() {
        let report = report(&owned(&image, &owners, 0x07, budget as u64));
        assert_eq!(end(&report)[5..], due, "budget {budget}");
    }
}

// -- how many words ---------------------------------------------------------

/// Words 10 and 12 have an owner each, words 11 and 13 get one, and word 14 gets both.
#[test]
fn hidden_words_for_each_reader() {
    let code = [0x3110, 0x4111, 0x3212, 0x4213, 0x6312, 0x4314, HALT];
    let mut image = with_word_10(&code, 0x5EC7);
    image.extend([0, 0x1234]);
    for (clearance, due) in [
        (0x00, [2, 2, 3, 3, 4, 4, 5, 5]),
        (0x01, [1, 1, 1, 1, 2, 2, 3, 3]),
        (0x02, [1, 1, 2, 2, 2, 2, 3, 3]),
        (0x03, [0; 8]),
        (0xFC, [2, 2, 3, 3, 4, 4, 5, 5]),
    ] {
        let input = |budget| owned(&image, &[(0x10, 1), (0x12, 2)], clearance, budget);
        assert_eq!(guarded::hidden_counts(&input(9)).unwrap(), due);
        for (budget, due) in due.into_iter().enumerate() {
            let report = report(&input(budget as u64));
            assert_eq!(usize::from(hidden_words(&report)), due, "{clearance:02X}");
        }
    }
}

/// Owners of words behind the image are counted, for the readers who are kept from them.
#[test]
fn all_words_have_owners() {
    for (clearance, hidden) in [
        (0x00, 255),
        (0xFF, 0),
        (0x01, 254),
        (0x7F, 128),
        (0x0F, 240),
    ] {
        let input = Input {
            owners: (0..=255).collect(),
            clearance,
            ..input(&[HALT], &[], 9)
        };
        assert_eq!(hidden_words(&report(&input)), hidden, "{clearance:02X}");
    }
}

// -- the program's input ----------------------------------------------------

#[test]
fn every_owner_byte_is_lawful() {
    let inputs = refused::owner_bytes();
    assert_eq!(inputs.len(), 256 + 2 * 256);
    for input in &inputs {
        assert!(answer(input).starts_with(&[9, 0, 2]));
    }
}

/// The clearance is the last byte, behind the breakpoints; without it, and with one byte
/// more, the input is refused.
#[test]
fn where_the_clearance_stands() {
    let (refused, served) = (&b"refused 6\n"[..], 9);
    for (words, breakpoints, length) in [(0, 0, 269), (1, 0, 271), (1, 256, 527), (256, 256, 1_037)]
    {
        let input = Input {
            breakpoints: vec![0x77; breakpoints],
            ..owned(&vec![HALT; words], &[], 0x5A, 9)
        };
        let whole = program::bytes(&input);
        assert_eq!(whole.len(), length);
        assert_eq!(whole[length - 1], 0x5A);
        assert_eq!(answer(&whole)[0], served);
        assert_eq!(answer(&whole)[13], 0x5A);
        assert_eq!(answer(&whole[..length - 1]), refused);
        for more in [1, 2] {
            assert_eq!(answer(&[&whole[..], &vec![0x5A; more]].concat()), refused);
        }
    }
}

/// The lengths around the longest input are in the family, served and refused.
#[test]
fn lengths_around_the_longest() {
    let inputs = refused::lengths();
    for (length, is_served) in [
        (1_036, false),
        (1_037, true),
        (1_038, false),
        (1_039, false),
    ] {
        let so_long = inputs.iter().filter(|input| input.len() == length);
        // 256 words and 256 breakpoints, as both counts say.
        let full = so_long.filter(|input| [&input[..2], &input[778..780]] == [[1, 0]; 2]);
        let answers: Vec<Vec<u8>> = full.map(|input| answer(input)).collect();
        assert!(answers.len() >= 5, "{length}");
        assert!(answers.iter().all(|answer| (answer[0] == 9) == is_served));
    }
}
