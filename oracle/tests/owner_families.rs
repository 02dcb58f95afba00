//! The families with owners and readers, document 02, Change 7: they come to what their
//! makers say, by rules and counts that are written out here.

mod records;

use oracle::report::bytes;
use oracle::report::guarded::{self, Input};
use oracle::report::inputs::owner_bytes::{self, MDR_ENDS, OTHERS, RESULTS};
use oracle::report::inputs::readers::CLEARANCES;
use oracle::report::inputs::{opcodes, owner_pairs, pairs, random, FAMILIES};
use oracle::report::program::served;
use oracle::vm::Machine;
use records::{end, of_kind};
use std::collections::HashSet;

fn report(input: &Input) -> Vec<u8> {
    bytes::report(input).expect("it is served")
}

/// The number in the last record.
fn hidden_words(report: &[u8]) -> usize {
    let last = report.len() - 2;
    usize::from(u16::from_be_bytes([report[last], report[last + 1]]))
}

/// Owners, and a value that is hidden or not.
fn value(owners: u8, hidden: bool, word: u16) -> [u8; 3] {
    let [high, low] = if hidden { [0, 0] } else { word.to_be_bytes() };
    [owners, high, low]
}

/// Whether an owner has this value that the reader has not, owner by owner.
fn is_hidden(owners: u8, clearance: u8) -> bool {
    let has = |byte: u8, owner: u32| byte / 2_u8.pow(owner) % 2 == 1;
    (0..8).any(|owner| has(owners, owner) && !has(clearance, owner))
}

/// The owners of either, owner by owner.
fn either(one: u8, other: u8) -> u8 {
    let has = |byte: u8, owner: &u32| byte / 2_u8.pow(*owner) % 2 == 1;
    let owners = (0..8).filter(|owner| has(one, owner) || has(other, owner));
    owners.map(|owner| 2_u8.pow(owner)).sum()
}

// -- every byte for every reader --------------------------------------------

#[test]
fn the_readers() {
    let due = [
        0x00, 0xFF, 0x01, 0x02, 0x04, 0x08, 0x10, 0x20, 0x40, 0x80, 0xFE, 0xFD, 0xFB, 0xF7, 0xEF,
        0xDF, 0xBF, 0x7F,
    ];
    assert_eq!(CLEARANCES, due);
}

/// How many of the 256 owner bytes are hidden from each reader: all but none, none, all but
/// none and the one that may be seen, and the half that has the one that may not.
#[test]
fn how_many_bytes_are_hidden() {
    let due = [&[255, 0][..], &[254; 8], &[128; 8]].concat();
    let mut found = [[0; 3]; CLEARANCES.len()];
    for number in 0..owner_bytes::BYTE_CASES {
        let case = owner_bytes::bytes(number);
        for (index, stop) in [4, 5, 5].into_iter().enumerate() {
            let stopped = end(&report(&case[index]))[0] == stop;
            found[number / 256][index] += usize::from(stopped);
        }
    }
    assert_eq!(
        found.to_vec(),
        due.iter().map(|due| [*due; 3]).collect::<Vec<_>>()
    );
}

/// Each report of the family, by what its owner byte and its reader are.
#[test]
fn every_byte_for_every_reader() {
    for number in 0..owner_bytes::BYTE_CASES {
        let (owners, clearance) = owner_bytes::byte_and_clearance(number);
        let hidden = is_hidden(owners, clearance);
        let [come_to, asked @ ..] = &owner_bytes::bytes(number)[..] else {
            panic!("a case has inputs")
        };
        let come_to = report(come_to);
        let (stop, mdr) = if hidden { (4, 0x1105) } else { (3, 0x2F31) };
        assert_eq!(end(&come_to)[0], stop, "{number}");
        assert_eq!(end(&come_to)[5..], value(0, false, mdr), "{number}");
        let starting = &of_kind(&come_to, 2)[1][2..5];
        assert_eq!(starting, value(owners, hidden, 0x2F31), "{number}");
        assert_eq!(hidden_words(&come_to), 2 * usize::from(hidden), "{number}");
        let word = if number % 2 == 0 { 0 } else { 0x5EC7 };
        for (input, register) in asked.iter().zip([1, 0]) {
            let report = report(input);
            let due = value(owners, hidden, word);
            assert_eq!(of_kind(&report, 5)[register][2..], due, "{number}");
            assert_eq!(of_kind(&report, 6)[0x11][2..], due, "{number}");
            let stop = if hidden { 5 } else { 0 };
            assert_eq!(end(&report)[0], stop, "{number}");
            assert_eq!(hidden_words(&report), 2 * usize::from(hidden), "{number}");
        }
    }
}

// -- unions -----------------------------------------------------------------

/// All that is made of the byte and of each other has the owners of either.
#[test]
fn every_union() {
    for number in 0..owner_bytes::OWNER_BYTES {
        let others = owner_bytes::others(number);
        for input in owner_bytes::unions(number) {
            let report = report(&input);
            assert_eq!(end(&report)[0], 0, "{number}");
            let words = of_kind(&report, 6);
            for result in 0..4 * OTHERS {
                let both = either(number as u8, others[result / 4]);
                let found = words[RESULTS + result];
                assert_eq!(found[2], both, "{number}, {result}");
                if is_hidden(both, input.clearance) {
                    assert_eq!(found[3..], [0, 0], "{number}, {result}");
                }
            }
        }
    }
}

/// Of 3,072 pairs, how many tell the union from the larger byte, AND, XOR and the sum.
#[test]
fn pairs_tell_unions_from_other_rules() {
    let rules: [fn(u8, u8) -> u8; 4] = [
        |one, other| one.max(other),
        |one, other| one & other,
        |one, other| one ^ other,
        |one, other| one.wrapping_add(other),
    ];
    let mut told = [0; 4];
    for number in 0..owner_bytes::OWNER_BYTES {
        for other in owner_bytes::others(number) {
            let one = number as u8;
            for (rule, told) in rules.iter().zip(&mut told) {
                *told += usize::from(rule(one, other) != either(one, other));
            }
        }
    }
    assert!(told.iter().all(|told| *told > 1_000), "{told:?}");
}

/// Each register has an owner of its own, and the target of an instruction has those of
/// its sources: of ADD and of LOAD y, z, whoever the reader is.
#[test]
fn opcodes_with_an_owner_for_each_register() {
    let mut met = [0; 2];
    for number in 0..opcodes::OPCODE_CASES {
        let case = opcodes::one(number);
        let word = case[2].image[4];
        let [x, y, z] = [8, 4, 0].map(|shift| usize::from(word >> shift & 0xF));
        let (kind, target, owners) = match word >> 12 {
            0x6 => (0, x, either(1 << y, 1 << z)),
            0x2 => (1, y, 1 << z),
            _ => continue,
        };
        let report = report(&case[2]);
        let hidden = is_hidden(owners, case[2].clearance);
        let found = of_kind(&report, 5)[target];
        assert_eq!(found[2], owners, "{word:04X}");
        // None of the values, nor a sum of two, is 0.
        assert_eq!(found[3..] == [0, 0], hidden, "{word:04X}");
        met[kind] += 1;
    }
    assert_eq!(met, [512, 512]);
}

// -- MDR --------------------------------------------------------------------

/// What is left in MDR, and the stop, by what comes behind the load or the store.
fn mdr_due(owners: u8, clearance: u8, end: usize) -> (u8, [u8; 3]) {
    let hidden = is_hidden(owners, clearance);
    let left = value(owners, hidden, 0x5EC7);
    let halted = (0, value(0, false, 0xE000));
    match end {
        0 => (1, left),
        1 => (3, left),
        // From a reader who may see all, nothing is hidden.
        2 if clearance == 0xFF => halted,
        2 => (4, left),
        3 if hidden => (5, left),
        3 | 4 => halted,
        5 => (2, value(0, false, 0x5000)),
        _ => (3, value(0, false, 0x2F32)),
    }
}

#[test]
fn every_byte_in_mdr() {
    let mut stops = [0; 6];
    for number in 0..owner_bytes::OWNER_BYTES {
        let case = owner_bytes::mdr(number);
        assert_eq!(case.len(), 4 * MDR_ENDS);
        for (index, input) in case.iter().enumerate() {
            let end = end(&report(input));
            let due = mdr_due(number as u8, input.clearance, index % MDR_ENDS);
            let found = (end[0], [end[5], end[6], end[7]]);
            assert_eq!(found, due, "{number}, {index}");
            stops[usize::from(end[0])] += 1;
        }
    }
    // Twice for each byte and reader: HALT; behind a jump where nothing is hidden, which is
    // for 256 readers and once more for no owner; and where nobody is kept from a word,
    // which is so for the byte 00 and for the byte FF.
    let halted = 2 * (2 * 256 + 256 + 1 + 2);
    let (each, hidden_words) = (2 * 2 * 256, 2 * (2 * 256 - 2));
    assert_eq!(stops, [halted, each, each, 2 * each, hidden_words, 2 * 255]);
}

// -- stores -----------------------------------------------------------------

/// Two of the four words and registers are hidden, and a store makes the word what the
/// register is. Counted are the stores by what they do: hide, open, and neither.
#[test]
fn stores_of_every_kind() {
    let mut kinds = [0; 3];
    for number in 0..owner_bytes::STORE_CASES {
        let digit = |place: u32| number / 4_usize.pow(place) % 4;
        let mut words = [false, false, true, true];
        let mut counts = vec![2];
        for (place, word) in [(0, digit(3)), (1, digit(3)), (2, (digit(3) + 1) % 4)] {
            let hidden = digit(place) >= 2;
            let kind = [(true, false), (false, true)];
            let kind = kind.iter().position(|kind| *kind == (hidden, words[word]));
            kinds[kind.unwrap_or(2)] += 1;
            words[word] = hidden;
            counts.push(words.iter().filter(|hidden| **hidden).count());
        }
        let due = [2, counts[0], counts[1], counts[2], counts[3], counts[3]];
        let case = owner_bytes::stores(number);
        let found: Vec<usize> = case
            .iter()
            .map(|input| hidden_words(&report(input)))
            .collect();
        assert_eq!(found, due, "{number}");
    }
    // Of each three stores, a quarter hides and a quarter opens.
    assert_eq!(kinds, [192, 192, 384]);
}

/// All four kinds of owners are over each other, and no case has a reader without one.
#[test]
fn stores_have_owners_of_every_kind() {
    for number in 0..owner_bytes::STORE_CASES {
        let input = &owner_bytes::stores(number)[0];
        let [none, inside, outside, both] = input.owners[0x20..0x24] else {
            panic!("there are four words")
        };
        assert_eq!(none, 0);
        assert!(inside != 0 && !is_hidden(inside, input.clearance));
        assert!(outside != 0 && !is_hidden(outside, !input.clearance));
        assert_eq!(both, either(inside, outside));
    }
}

// -- pairs ------------------------------------------------------------------

/// Other readers, of each owner, and nothing else; in one of four nothing has an owner.
#[test]
fn cases_of_readers() {
    let mut without_owners = 0;
    for number in 0..owner_pairs::CLEARANCE_CASES {
        let case = owner_pairs::clearances(number);
        let first = &case[0];
        let flips: HashSet<u8> = case
            .iter()
            .map(|it| it.clearance ^ first.clearance)
            .collect();
        let due = [0, 0xFF, 0x01, 0x02, 0x04, 0x08, 0x10, 0x20, 0x40, 0x80];
        assert_eq!(flips, due.into_iter().collect());
        for other in &case {
            let same_reader = Input {
                clearance: first.clearance,
                ..other.clone()
            };
            assert_eq!(same_reader, *first, "{number}");
        }
        without_owners += usize::from(first.owners.iter().all(|owners| *owners == 0));
    }
    assert!((75..150).contains(&without_owners), "{without_owners}");
}

/// One owner of one word, at every address, inside the image and outside.
#[test]
fn cases_of_owners() {
    let mut inside = 0;
    for address in 0..owner_pairs::OWNER_CASES {
        let case = owner_pairs::owner_bits(address);
        assert_eq!(case.len(), 9);
        for (bit, other) in case[1..].iter().enumerate() {
            let mut same_owners = other.clone();
            same_owners.owners[address] ^= 1 << bit;
            assert_eq!(same_owners, case[0], "{address}");
        }
        inside += usize::from(address < case[0].image.len());
    }
    assert!((40..216).contains(&inside), "{inside}");
}

/// One word, which has an owner outside the clearance in the first family, and none in the
/// second.
#[test]
fn cases_of_words() {
    // Hidden: 255 bytes from who may see nothing, 254 and 128 from the others.
    let due = 255 + 8 * 254 + 8 * 128;
    assert_eq!((due, 18 * 256 - due), (3_311, 1_297));
    for (name, cases, hidden) in [
        ("words_outside", due, true),
        ("words_inside", 18 * 256 - due, false),
    ] {
        let family = FAMILIES.iter().find(|family| family.name == name);
        let family = family.expect("there is such a family");
        assert_eq!((family.count)(), cases);
        for number in 0..cases {
            let case = (family.inputs)(number);
            let case: Vec<Input> = case.iter().map(|input| served(input).unwrap()).collect();
            let [first, other] = &case[..] else {
                panic!("a case has two inputs")
            };
            assert_ne!(first.image[0x10], other.image[0x10]);
            assert_eq!(is_hidden(first.owners[0x10], first.clearance), hidden);
            let mut same_word = other.clone();
            same_word.image[0x10] = first.image[0x10];
            assert_eq!(same_word, *first, "{name} {number}");
        }
    }
}

/// For a reader who may see the word, no two of its values have one report.
#[test]
fn shown_values() {
    for number in 0..pairs::SHOWN_VALUES {
        let case = pairs::shown_values(number);
        let reports: HashSet<Vec<u8>> = case.iter().map(report).collect();
        assert_eq!((case.len(), reports.len()), (256, 256), "{number}");
        assert!(case.iter().all(|input| input.clearance == 0x07));
    }
}

// -- by chance --------------------------------------------------------------

/// What a program by chance meets of owners and its reader.
fn met(input: &Input) -> [bool; 6] {
    let run = guarded::run(input).expect("it is served");
    let mut machine = Machine::new();
    machine.load_image(&input.image);
    // A word is known to have its owners as long as nothing is stored over it.
    let mut carried_out = false;
    for _ in 0..run.executed.min(100) {
        let pc = usize::from(machine.pc);
        carried_out |= input.owners[pc] != 0 && !machine.touched.contains(&machine.pc);
        machine.step_instruction();
    }
    let several = |owners: &u8| owners.count_ones() > 1;
    let shown = |owners: &u8| *owners != 0 && !is_hidden(*owners, input.clearance);
    let hidden = |owners: &u8| is_hidden(*owners, input.clearance);
    let registers = || run.owners.registers.iter();
    [
        // Marks and their reader, as document 01 has them.
        input.clearance == 0 && input.owners.iter().all(|owners| *owners < 2),
        input.clearance == 0xFF,
        carried_out,
        registers().any(|owners| several(owners) && shown(owners)),
        registers().any(|owners| several(owners) && hidden(owners)),
        registers().any(shown) && registers().any(hidden),
    ]
}

/// Enough of them have each of these.
#[test]
fn programs_by_chance() {
    let mut sums = [0; 6];
    let inputs = (0..random::RANDOM_INPUTS).step_by(4).map(random::any);
    for found in inputs.map(|input| met(&input)) {
        (0..6).for_each(|kind| sums[kind] += usize::from(found[kind]));
    }
    let due = [900, 400, 2_500, 600, 400, 80];
    assert!((0..6).all(|kind| sums[kind] > due[kind]), "{sums:?}");
}
