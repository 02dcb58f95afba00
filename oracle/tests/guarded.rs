//! The model of the guarded run, of its report and of the report program, held
//! to sentences of document 01, and to document 02, Changes 2 and 6, by answers that
//! are written out here. `hidden_words.rs` has more of Change 6, `owners.rs` has Change 7.

mod records;

use oracle::record;
use oracle::report::bytes::LONGEST;
use oracle::report::guarded::{self, Input, Run, Stop};
use oracle::report::inputs::examples::{self, input, owners_at, with_word_10};
use oracle::report::inputs::{self, cleared, pairs, sample, Relation, FAMILIES};
use oracle::report::program::{answer, bytes, refused, DECIDING};
use records::{counts, end, fault, of_kind, records, text};

const HALT: u16 = 0xE000;

fn run(input: &Input) -> Run {
    guarded::run(input).expect("it is served")
}

fn report(input: &Input) -> Vec<u8> {
    oracle::report::bytes::report(input).expect("it is served")
}

// -- the examples of section 9 ----------------------------------------------

#[test]
fn example_10() {
    let report = report(&examples::example_10());
    assert_eq!(end(&report), [0, 1, 0xE0, 0, 0, 0, 0xE0, 0]);
    assert_eq!(counts(&report), [1, 4, 1, 0]);
    assert_eq!(fault(&report), [0; 4]);
    assert_eq!(of_kind(&report, 3), [[3, 0]]);
}

#[test]
fn example_11() {
    let report = report(&examples::example_11());
    assert_eq!(of_kind(&report, 9)[0][..3], [9, 0, 17]);
    assert_eq!(of_kind(&report, 5)[1], [5, 1, 0, 0, 5]);
    let words = of_kind(&report, 6);
    assert_eq!(words[0x10], [6, 0x10, 1, 0, 0]);
    assert_eq!(words[0x11], [6, 0x11, 1, 0, 0]);
    assert_eq!(words[0x12], [6, 0x12, 0, 0, 5]);
    assert_eq!(counts(&report), [5, 30, 6, 2]);
    assert_eq!(end(&report), [0, 5, 0xE0, 0, 4, 0, 0xE0, 0]);
    assert_eq!(of_kind(&report, 7), [[7, 0x11], [7, 0x12]]);
}

#[test]
fn example_12() {
    let report = report(&examples::example_12());
    // MAR and MDR are as the LOAD left them, and MDR is hidden.
    assert_eq!(end(&report), [5, 1, 0x31, 0x10, 0x10, 1, 0, 0]);
    assert_eq!(counts(&report), [1, 7, 2, 0]);
    assert_eq!(fault(&report), [0; 4]);
    let run = run(&examples::example_12());
    assert!(!run.machine.halted && run.executed == 1);
}

#[test]
fn example_13() {
    let report = report(&examples::example_13());
    assert_eq!(end(&report), [2, 6, 0, 0, 5, 0, 0, 0]);
    assert_eq!(counts(&report), [2, 16, 4, 0]);
    assert_eq!(fault(&report), [1, 0, 0, 5]);
    let jump = of_kind(&report, 4)[11];
    assert_eq!(jump[9..11], [1, 2]);
    assert_eq!(jump[11..], text("if R0 = R0: 05 -> PC"));
}

#[test]
fn example_14() {
    let report = report(&examples::example_14());
    assert_eq!(report.len(), 11_066);
    let mut due = vec![8, 2, 1, 0, 0, 0, 0, 0, 0];
    for count in [0u64, 4, 1, 0] {
        due.extend(count.to_be_bytes());
    }
    due.extend([1, 0, 0, 0]);
    // Document 02, Change 6: no word is hidden.
    due.extend([0x0A, 0, 0]);
    assert!(report.ends_with(&due));
}

#[test]
fn example_15() {
    let [accepted, over] = examples::example_15();
    assert_eq!((accepted.budget, over.budget), (1_000_000, 1_000_001));
    let head = [9, 0, 1, 0, 0, 0, 0, 0, 0x0F, 0x42, 0x40, 0, 0, 0];
    assert!(report(&accepted).starts_with(&head));
    assert_eq!(oracle::report::bytes::report(&over), Err(4));
    assert_eq!(answer(&bytes(&over)), b"refused 4\n");
}

// -- the report's bytes -----------------------------------------------------

/// A whole report but for words that are zero, written out.
#[test]
fn a_small_report() {
    let input = Input {
        breakpoints: vec![9, 9, 4],
        ..input(&[0x1203, 0x4201, HALT], &[2], 7)
    };
    let report = report(&input);
    let found = records(&report);
    let mut due: Vec<Vec<u8>> = vec![vec![9, 0, 3, 0, 0, 0, 0, 0, 0, 0, 7, 0, 3, 0]];
    let start = |address: u8, mark: u8, word: [u8; 2], shown: &str| {
        [&[2, address, mark][..], &word, &text(shown)].concat()
    };
    due.push(start(0, 0, [0x12, 0x03], "LOAD R2, 03"));
    due.push(start(1, 0, [0x42, 0x01], "STORE R2, [01]"));
    due.push(start(2, 1, [0, 0], ""));
    for address in 3..=255 {
        let unknown = "??? (not a MASSEY opcode) ; 0000";
        due.push(start(address, 0, [0, 0], unknown));
    }
    due.extend([vec![3, 9], vec![3, 9], vec![3, 4]]);
    let ticks = [
        (0, 0, "PC -> MAR"),
        (0, 0, "M[MAR] -> MDR"),
        (0, 0, "MDR -> IR"),
        (0, 0, "PC + 1 -> PC"),
        (0, 2, "03 -> R2"),
        (1, 0, "PC -> MAR"),
        (1, 0, "M[MAR] -> MDR"),
        (1, 0, "MDR -> IR"),
        (1, 0, "PC + 1 -> PC"),
        (1, 2, "01 -> MAR"),
        (1, 2, "R2 -> MDR"),
        (1, 2, "MDR -> M[MAR]"),
    ];
    for (index, (address, phase, shown)) in ticks.into_iter().enumerate() {
        let number = [0, 0, 0, 0, 0, 0, 0, index as u8 + 1];
        due.push([&[4][..], &number, &[address, phase], &text(shown)].concat());
    }
    for index in 0..16 {
        due.push(vec![5, index, 0, 0, if index == 2 { 3 } else { 0 }]);
    }
    due.push(vec![6, 0, 0, 0x12, 0x03]);
    due.push(vec![6, 1, 0, 0, 3]);
    due.push(vec![6, 2, 1, 0, 0]);
    due.extend((3..=255).map(|address| vec![6, address, 0, 0, 0]));
    due.push(vec![7, 1]);
    // Stop 4 before address 02: MAR is 01, MDR is what was stored.
    let mut end = vec![8, 4, 2, 0x42, 0x01, 1, 0, 0, 3];
    for count in [2u64, 12, 2, 1] {
        end.extend(count.to_be_bytes());
    }
    end.extend([0, 0, 0, 0]);
    due.push(end);
    due.push(vec![0x0A, 0, 1]);
    assert_eq!(found, due);
}

#[test]
fn the_longest_report() {
    let input = examples::longest_report();
    let report = report(&input);
    assert_eq!((LONGEST, report.len()), (33_934, 33_934));
    let kinds = [9, 2, 3, 4, 5, 6, 7, 8, 0x0A].map(|kind| of_kind(&report, kind).len());
    assert_eq!(kinds, [1, 256, 256, 512, 16, 256, 256, 1, 1]);
    // 256 stores of seven ticks; the breakpoint is at the address behind FF.
    assert_eq!(counts(&report), [256, 1_792, 256, 256]);
    assert_eq!(end(&report)[..2], [1, 0]);
    // The oldest of 512 went first.
    assert_eq!(of_kind(&report, 4)[0][1..9], 1_281u64.to_be_bytes());
    let report = self::report(&examples::longest_hidden_report());
    assert_eq!(end(&report)[..2], [4, 0xFF]);
    assert_eq!(of_kind(&report, 7).len(), 254);
    let hidden = of_kind(&report, 6)
        .iter()
        .filter(|word| word[2] == 1)
        .count();
    assert_eq!(hidden, 255, "all but the last instruction");
    assert!(report.ends_with(&[0x0A, 0, 0xFF]));
}

#[test]
fn texts_of_32_bytes() {
    let input = input(&[0x1101, 0xD120, 0x5ABC], &[], 9);
    let report = report(&input);
    assert_eq!(
        of_kind(&report, 2)[2][5..],
        *b"??? (not a MASSEY opcode) ; 5ABC"
    );
    assert_eq!(
        of_kind(&report, 4)[9][11..],
        *b"if R1 = R0: 20 -> PC (not taken)"
    );
    assert_eq!(fault(&report), [1, 0x5A, 0xBC, 2]);
}

/// A hidden word shows nowhere, and neither does what was made of it.
#[test]
fn a_hidden_value_is_written_0000() {
    let report = report(&pairs::value(0, 0x5EC7));
    assert_eq!(
        of_kind(&report, 2)[0x10][1..],
        [&[0x10, 5][..], &[0; 34]].concat()
    );
    for (kind, count) in [(5, 5), (6, 3)] {
        let records = of_kind(&report, kind);
        let hidden: Vec<_> = records.iter().filter(|record| record[2] == 5).collect();
        assert_eq!(hidden.len(), count, "kind {kind}");
        assert!(hidden.iter().all(|record| record[3..] == [0, 0]));
    }
    // What was cleared is open, and 0 all the same.
    assert_eq!(of_kind(&report, 5)[7], [5, 7, 0, 0, 0]);
    assert_eq!(of_kind(&report, 6)[0x14], [6, 0x14, 0, 0, 0]);
}

/// What is written is noted, though the value is the same.
#[test]
fn touched_goes_by_writing() {
    let input = input(&[0x4120, 0x3100, 0x4100, 0x4120, HALT], &[], 9);
    assert_eq!(of_kind(&report(&input), 7), [[7, 0x20], [7, 0]]);
}

#[test]
fn a_spent_budget_is_a_fault() {
    let spent = |budget| report(&input(&[0x1101, 0x1102, HALT], &[], budget));
    assert_eq!(end(&spent(0)), [3, 0, 0, 0, 0, 0, 0, 0]);
    assert_eq!(fault(&spent(0)), [2, 0, 0, 0]);
    assert_eq!(end(&spent(2)), [3, 2, 0x11, 0x02, 1, 0, 0x11, 0x02]);
    assert_eq!(fault(&spent(2)), [2, 0x11, 0x02, 2]);
    // HALT as the last instruction of a budget is no spent budget.
    assert_eq!(end(&spent(3))[0], 0);
    assert_eq!(fault(&spent(3)), [0; 4]);
}

// -- owners and stops -------------------------------------------------------

#[test]
fn the_order_of_the_stops() {
    let stop = |image: &[u16], marked: &[u8], budget, breakpoints: &[u8]| {
        let input = Input {
            breakpoints: breakpoints.to_vec(),
            ..input(image, marked, budget)
        };
        run(&input).stop
    };
    let hidden = with_word_10(&[0x3110, 0xD105], 7);
    // A word that is hidden and a jump whose test is: the word comes first.
    assert_eq!(stop(&hidden, &[0x10, 1], 9, &[]), Stop::HiddenWord);
    assert_eq!(stop(&hidden, &[0x10], 9, &[]), Stop::HiddenTest);
    assert_eq!(stop(&hidden, &[0x10, 1], 1, &[]), Stop::Budget);
    assert_eq!(stop(&hidden, &[0x10], 1, &[]), Stop::Budget);
    assert_eq!(stop(&hidden, &[0x10, 1], 1, &[1]), Stop::Breakpoint);
    assert_eq!(stop(&hidden, &[0x10], 1, &[1]), Stop::Breakpoint);
    // Before the first instruction there is no breakpoint.
    assert_eq!(stop(&hidden, &[0], 9, &[0]), Stop::HiddenWord);
    assert_eq!(stop(&hidden, &[0], 0, &[0]), Stop::Budget);
    // A halted machine has ended, whatever stands behind HALT.
    assert_eq!(stop(&[HALT], &[1], 1, &[1]), Stop::Halted);
    assert_eq!(stop(&[0x5000], &[1], 1, &[1]), Stop::Fault);
    // Only a jump's test tells, and a jump on R0 does not.
    let no_test = with_word_10(&[0x3110, 0xD003, HALT, 0x6111, HALT], 7);
    assert_eq!(stop(&no_test, &[0x10], 9, &[]), Stop::Halted);
    let zero = with_word_10(&[0x3010, 0xD203], 7);
    assert_eq!(stop(&zero, &[0x10], 9, &[]), Stop::HiddenTest);
}

/// Whether R1, R2 and MDR, and word 11, have the owners of word 10 behind LOAD R1, [10]
/// and these instructions; else they have none. It is the same for every owner byte, and
/// for every reader who is not kept from the code.
fn owned_behind(code: &[u16]) -> [bool; 4] {
    let found = [(1, 0), (0x80, 0), (0xC3, 0x43), (0xC3, 0xC3), (0xFF, 0xFF)].map(|owners| {
        let image = with_word_10(&[&[0x3110], code].concat(), 0x5EC7);
        let mut input = input(&image, &[], 1 + code.len() as u64);
        (input.owners[0x10], input.clearance) = owners;
        let run = run(&input);
        assert_eq!(run.stop, Stop::Budget);
        let found = [
            run.owners.registers[1],
            run.owners.registers[2],
            run.owners.mdr,
            run.owners.memory[0x11],
        ];
        assert!(found.iter().all(|found| [0, owners.0].contains(found)));
        found.map(|found| found == owners.0)
    });
    assert!(found.iter().all(|one| *one == found[0]), "{code:04X?}");
    found[0]
}

#[test]
fn how_instructions_move_owners() {
    let (open, hidden) = (false, true);
    assert_eq!(owned_behind(&[]), [hidden, open, hidden, open]);
    assert_eq!(owned_behind(&[0x1100]), [open, open, open, open]);
    assert_eq!(owned_behind(&[0x2021]), [hidden, hidden, open, open]);
    assert_eq!(owned_behind(&[0x2012]), [open, open, open, open]);
    assert_eq!(owned_behind(&[0x3210]), [hidden, hidden, hidden, open]);
    assert_eq!(owned_behind(&[0x3111]), [open, open, open, open]);
    assert_eq!(owned_behind(&[0x4111]), [hidden, open, hidden, hidden]);
    assert_eq!(owned_behind(&[0x4111, 0x4211]), [hidden, open, open, open]);
    assert_eq!(
        owned_behind(&[0x4111, 0x6000]),
        [hidden, open, open, hidden]
    );
    for opcode in [0x6000, 0xA000, 0xB000, 0xC000] {
        for digits in [0x213, 0x231, 0x212, 0x221] {
            let owned = owned_behind(&[opcode | digits]);
            assert_eq!(owned, [hidden, hidden, open, open]);
        }
        assert_eq!(owned_behind(&[opcode | 0x233]), [hidden, open, open, open]);
        assert_eq!(owned_behind(&[opcode | 0x133]), [open, open, open, open]);
    }
    for opcode in [0x6000, 0xA000, 0xB000] {
        let owned = owned_behind(&[opcode | 0x211]);
        assert_eq!(owned, [hidden, hidden, open, open]);
    }
    for keeps in [
        0x7010, 0x8103, 0x810F, 0x9103, 0x910F, 0x7210, 0x6111, 0xC112,
    ] {
        assert_eq!(owned_behind(&[keeps]), [hidden, open, open, open]);
    }
    // In NEGATE and in LOAD y, z it is y that counts, and x that does not.
    assert_eq!(owned_behind(&[0x7120]), [hidden, open, open, open]);
    assert_eq!(owned_behind(&[0x2134]), [hidden, open, open, open]);
}

// -- cleared registers: document 02, Change 2 -------------------------------

/// Only the target loses its owners; MDR has none, as behind every fetch.
#[test]
fn how_owners_are_cleared() {
    let (open, hidden) = (false, true);
    for clears in [0xC111, 0xC122, 0xC100, 0x8110, 0x81FF, 0x9110, 0x91FF] {
        assert_eq!(owned_behind(&[clears]), [open, open, open, open]);
    }
    // R2 alone is opened, whether it was hidden or not, and R1 is hidden as before.
    for clears in [0xC211, 0xC222, 0x8210, 0x92FF] {
        assert_eq!(owned_behind(&[clears]), [hidden, open, open, open]);
        let copied = owned_behind(&[0x2021, clears]);
        assert_eq!(copied, [hidden, open, open, open]);
    }
    // A store of what was cleared opens the word, and one before it does not.
    let stored = [0x4111, 0xC111];
    assert_eq!(owned_behind(&stored), [open, open, open, hidden]);
    let stored_again = [0x4111, 0xC111, 0x4111];
    assert_eq!(owned_behind(&stored_again), [open, open, open, open]);
    // Nothing lasts: what is loaded next is hidden again.
    let loaded_again = [0xC111, 0x3110];
    assert_eq!(owned_behind(&loaded_again), [hidden, open, hidden, open]);
}

/// The stop and PC of a program whose word 10 is hidden, whatever the word is.
fn stopped(code: &[u16]) -> (Stop, u8) {
    let ends = [0x5EC7, 0x0000, 0x0001, 0x8000, 0xFFFF].map(|word| {
        let run = run(&input(&with_word_10(code, word), &[0x10], 9));
        (run.stop, run.machine.pc)
    });
    assert!(ends.iter().all(|end| *end == ends[0]), "{code:04X?}");
    ends[0]
}

/// The jump is taken, to HALT at 05.
const TAKEN: (Stop, u8) = (Stop::Halted, 6);
/// The test of the jump at 02 is hidden.
const HIDDEN_TEST: (Stop, u8) = (Stop::HiddenTest, 2);

/// LOAD [10], one instruction, and a jump to 05.
fn jumped(load: u16, word: u16, jump: u16) -> (Stop, u8) {
    stopped(&[load, word, jump, HALT, 0, HALT])
}

#[test]
fn jumps_on_a_cleared_register() {
    for clears in [
        0xC111, 0xC122, 0xC100, 0xC1FF, 0x8110, 0x8111, 0x811F, 0x8120, 0x8180, 0x81FF, 0x9110,
        0x9111, 0x911F, 0x9120, 0x9180, 0x91FF,
    ] {
        assert_eq!(jumped(0x3110, clears, 0xD105), TAKEN, "{clears:04X}");
    }
    for keeps in [
        0xC112, 0xC121, 0xC110, 0xC101, 0x8100, 0x8101, 0x810F, 0x9100, 0x9101, 0x910F, 0xA111,
        0xB111, 0x6111, 0x7010, 0x2011,
    ] {
        assert_eq!(jumped(0x3110, keeps, 0xD105), HIDDEN_TEST, "{keeps:04X}");
    }
}

/// It is x that is opened, whichever register is taken with itself, and no other.
#[test]
fn which_register_is_opened() {
    for (load, word, jump, due) in [
        // R2, from R1 that stays hidden, and from R1 that is open.
        (0x3110, 0xC211, 0xD205, TAKEN),
        (0x3110, 0xC211, 0xD105, HIDDEN_TEST),
        (0x3210, 0xC211, 0xD205, TAKEN),
        // R1, from R2 that stays hidden.
        (0x3210, 0xC122, 0xD105, TAKEN),
        (0x3210, 0xC122, 0xD205, HIDDEN_TEST),
        // x is y, or x is z, and y is not z.
        (0x3210, 0xC112, 0xD105, HIDDEN_TEST),
        (0x3210, 0xC121, 0xD105, HIDDEN_TEST),
        (0x3210, 0xC221, 0xD205, HIDDEN_TEST),
        (0x3210, 0xC212, 0xD205, HIDDEN_TEST),
        // R0, with which every jump compares.
        (0x3010, 0xC011, 0xD105, TAKEN),
        (0x3010, 0xC000, 0xD105, TAKEN),
        (0x3010, 0xC001, 0xD105, HIDDEN_TEST),
        (0x3010, 0xC100, 0xD105, HIDDEN_TEST),
        (0x3110, 0xC011, 0xD105, HIDDEN_TEST),
        (0x3010, 0x8010, 0xD105, TAKEN),
        (0x3010, 0x90FF, 0xD105, TAKEN),
        (0x3010, 0x800F, 0xD105, HIDDEN_TEST),
        (0x3010, 0x8110, 0xD105, HIDDEN_TEST),
        (0x3010, 0x9110, 0xD105, HIDDEN_TEST),
        (0x3110, 0x8010, 0xD105, HIDDEN_TEST),
        (0x3110, 0x8210, 0xD105, HIDDEN_TEST),
        (0x3210, 0x9210, 0xD205, TAKEN),
    ] {
        let found = jumped(load, word, jump);
        assert_eq!(found, due, "{load:04X} {word:04X} {jump:04X}");
    }
}

/// R2 is 20, and R0 is 0: it is the byte that counts, and not what the register
/// of its last digit holds.
#[test]
fn the_byte_of_a_shift_counts() {
    let end = |shift: u16| stopped(&[0x1220, 0x3110, shift, 0xD106, HALT, 0, HALT]);
    for shift in [0x8102, 0x9102, 0x8100] {
        assert_eq!(end(shift), (Stop::HiddenTest, 3), "{shift:04X}");
    }
    for shift in [0x8110, 0x9112, 0x8120] {
        assert_eq!(end(shift), (Stop::Halted, 7), "{shift:04X}");
    }
}

/// Reports of such a run, and of one that is hidden as before.
#[test]
fn reports_of_cleared_registers() {
    let report_of = |word: u16| {
        let code = [0x3110, word, 0xD105, HALT, 0, HALT];
        report(&input(&with_word_10(&code, 0x5EC7), &[0x10], 9))
    };
    let cleared = report_of(0xC111);
    assert_eq!(of_kind(&cleared, 5)[1], [5, 1, 0, 0, 0]);
    assert_eq!(of_kind(&cleared, 6)[0x10], [6, 0x10, 1, 0, 0]);
    let jump = of_kind(&cleared, 4)[16];
    assert_eq!(jump[11..], text("if R1 = R0: 05 -> PC"));
    assert_eq!(end(&cleared), [0, 6, 0xE0, 0, 5, 0, 0xE0, 0]);
    assert_eq!(counts(&cleared), [4, 21, 5, 0]);
    let kept = report_of(0xC112);
    assert_eq!(of_kind(&kept, 5)[1], [5, 1, 1, 0, 0]);
    assert_eq!(end(&kept), [5, 2, 0xC1, 0x12, 1, 0, 0xC1, 0x12]);
    assert_eq!(counts(&kept), [2, 12, 3, 0]);
    // Cleared twice, with a jump behind each; then it is stored.
    let twice = report(&pairs::value(8, 0x5EC7));
    assert_eq!(of_kind(&twice, 6)[0x11], [6, 0x11, 0, 0, 0]);
    assert_eq!(end(&twice), [0, 9, 0xE0, 0, 8, 0, 0xE0, 0]);
    assert_eq!(counts(&twice), [7, 38, 8, 1]);
}

// -- MDR, and code that is written over -------------------------------------

/// Each fetch leaves MDR without owners, so they show only where a run ends right behind
/// LOAD [yz] or STORE.
#[test]
fn the_owners_of_mdr() {
    let image = with_word_10(&[0x3110, 0x1200, 0x4111, 0x4212, 0x3311, HALT], 0x5EC7);
    let shown = |budget| {
        let report = report(&input(&image, &[0x10], budget));
        end(&report)[5..].to_vec()
    };
    let due = [
        [0, 0, 0],
        [1, 0, 0],
        [0, 0x12, 0x00],
        [1, 0, 0],
        [0, 0, 0],
        [1, 0, 0],
        [0, 0xE0, 0x00],
        [0, 0xE0, 0x00],
    ];
    for (budget, due) in due.into_iter().enumerate() {
        assert_eq!(shown(budget as u64), due, "budget {budget}");
    }
    // With the word open, its value is there.
    let open = report(&input(&image, &[], 1));
    assert_eq!(end(&open)[5..], [0, 0x5E, 0xC7]);
}

/// A word that was opened is carried out; one that was hidden stops the run.
#[test]
fn code_that_is_written_over() {
    let code = [0x3110, 0x4103, 0x1200, 0x1300, HALT];
    let image = with_word_10(&code, HALT);
    let opened = run(&input(&image, &[3], 9));
    assert_eq!((opened.stop, opened.executed), (Stop::Halted, 4));
    let hidden = run(&input(&image, &[0x10], 9));
    assert_eq!((hidden.stop, hidden.executed), (Stop::HiddenWord, 3));
}

// -- refusals ---------------------------------------------------------------

#[test]
fn refusals_of_the_run() {
    let good = || input(&[HALT], &[], 1);
    let refusal = |input: &Input| guarded::run(input).err();
    let image = |words| Input {
        image: vec![HALT; words],
        ..good()
    };
    let owners = |owners| Input { owners, ..good() };
    let breakpoints = |count| Input {
        breakpoints: vec![0; count],
        ..good()
    };
    assert_eq!(
        [256, 257].map(|words| refusal(&image(words))),
        [None, Some(1)]
    );
    assert_eq!(
        [0, 255, 256, 257].map(|count| refusal(&owners(vec![1; count]))),
        [Some(2), Some(2), None, Some(2)]
    );
    // Every byte is lawful.
    assert_eq!(refusal(&owners((0..=255).collect())), None);
    assert_eq!(
        [256, 257].map(|count| refusal(&breakpoints(count))),
        [None, Some(3)]
    );
    let mut all = Input {
        image: vec![0; 257],
        owners: Vec::new(),
        budget: 1_000_001,
        breakpoints: vec![0; 257],
        clearance: 0,
    };
    assert_eq!(refusal(&all), Some(1));
    all.image.pop();
    assert_eq!(refusal(&all), Some(2));
    all.owners = owners_at(&[]);
    assert_eq!(refusal(&all), Some(3));
    all.breakpoints.pop();
    assert_eq!(refusal(&all), Some(4));
    all.budget -= 1;
    assert_eq!(refusal(&all), None);
}

/// The program's input by its parts; each as it is handed in. The breakpoints and the
/// clearance are zeros.
fn whole(
    length: u16,
    words: usize,
    owners: &[u8],
    budget: u64,
    count: u16,
    more: usize,
) -> Vec<u8> {
    let mut bytes = length.to_be_bytes().to_vec();
    bytes.extend(vec![0xE0; 2 * words]);
    bytes.extend(owners);
    bytes.extend(budget.to_be_bytes());
    bytes.extend(count.to_be_bytes());
    bytes.extend(vec![0; more]);
    bytes
}

#[test]
fn refusals_of_the_program() {
    let good = owners_at(&[]);
    let others: Vec<u8> = (1..=255).rev().chain([2]).collect();
    let (most, over) = (1_000_000, 1_000_001);
    let is = |number: u8, bytes: &[u8]| assert_eq!(answer(bytes), refused(number));
    assert_eq!(refused(6), b"refused 6\n");
    // Nothing, or half a number.
    is(6, &[]);
    is(6, &[1]);
    is(6, &[0xFF]);
    is(6, &[0, 0]);
    is(6, &[1, 0]);
    // A number that is wholly there is tested, though what it counts is not.
    is(1, &[1, 1]);
    is(1, &[0xFF, 0xFF, 0]);
    is(3, &whole(1, 1, &good, most, 257, 0));
    is(3, &whole(1, 1, &good, most, 0xFFFF, 9));
    is(6, &whole(1, 1, &good, most, 256, 0));
    is(6, &whole(1, 1, &good, most, 256, 255));
    is(6, &whole(1, 1, &good, most, 256, 256));
    // Owners are never refused, whether all are there or not.
    let cut = 2 + 2 + 256;
    is(6, &whole(1, 1, &others, most, 0, 0)[..cut - 1]);
    is(6, &whole(1, 1, &others, most, 0, 0)[..cut]);
    is(3, &whole(1, 1, &others, over, 257, 0));
    // The budget too, whatever is missing behind it.
    is(6, &whole(1, 1, &good, over, 0, 0)[..cut + 7]);
    is(4, &whole(1, 1, &good, over, 0, 0)[..cut + 8]);
    is(4, &whole(1, 1, &good, over, 257, 0)[..cut + 9]);
    is(3, &whole(1, 1, &good, over, 257, 0));
    is(4, &whole(1, 1, &good, over, 9, 0));
    is(4, &whole(1, 1, &good, over, 0, 1));
    is(4, &whole(1, 1, &good, over, 0, 2));
    // Without the clearance, and longer than the counts say.
    is(6, &whole(1, 1, &good, most, 0, 0));
    is(6, &whole(1, 1, &good, most, 2, 2));
    is(6, &whole(1, 1, &good, most, 0, 2));
    is(6, &whole(1, 1, &good, most, 2, 4));
    // A word too many moves the parts, and one byte is left behind the clearance.
    is(6, &whole(1, 2, &good, 0, 0, 0));
    is(6, &whole(2, 1, &good, 0, 0, 0));
    is(6, &whole(256, 256, &good, most, 256, 258));
    for owners in [good, others] {
        assert_eq!(&answer(&whole(1, 1, &owners, most, 0, 1))[..2], [9, 0]);
    }
    assert_eq!(
        answer(&whole(1, 1, &owners_at(&[]), most, 0, 1)).len(),
        11_066
    );
}

/// A whole input is refused by the program as by the run itself.
#[test]
fn the_program_refuses_as_the_run_does() {
    for number in 0..200 {
        let input = inputs::random::any(number);
        assert_eq!(answer(&bytes(&input)), report(&input));
    }
    let over = Input {
        breakpoints: vec![0; 300],
        ..input(&[HALT; 300], &[], 2_000_000)
    };
    assert_eq!(
        answer(&bytes(&over)),
        refused(guarded::refusal(&over).unwrap())
    );
}

#[test]
fn so_many_bytes_decide() {
    assert_eq!(DECIDING, 1_038);
    // One less does not: the longest input that is served, and one byte more.
    let served = whole(256, 256, &owners_at(&[]), 0, 256, 257);
    let longer = [&served[..], &[0]].concat();
    assert_eq!(served.len(), 1_037);
    assert_ne!(answer(&served), answer(&longer));
    let inputs = [inputs::refused::lengths(), inputs::refused::companies()].concat();
    let damaged = (0..400).map(inputs::refused::damaged);
    for input in inputs.into_iter().chain(damaged) {
        let cut = &input[..input.len().min(DECIDING)];
        assert_eq!(answer(&input), answer(cut));
    }
}

// -- the lists --------------------------------------------------------------

/// Holds the model itself to what each family says of its reports.
#[test]
fn pairs() {
    let told = [Relation::Same, Relation::Different];
    for family in FAMILIES
        .iter()
        .filter(|family| told.contains(&family.relation))
    {
        for number in 0..(family.count)() {
            let answers: Vec<Vec<u8>> = (family.inputs)(number)
                .iter()
                .map(|input| answer(input))
                .collect();
            let (first, others) = answers.split_first().unwrap();
            let is_report = |answer: &Vec<u8>| !answer.starts_with(b"refused");
            assert!(answers.iter().all(is_report), "{} {number}", family.name);
            let same = |other: &Vec<u8>| other == first;
            let holds = match family.relation {
                Relation::Same => others.iter().all(same),
                _ => !others.iter().any(same),
            };
            assert!(holds, "{} {number}", family.name);
        }
    }
}

/// Some of every family, the long runs among them; at each the model holds its
/// machine to the original's.
#[test]
fn the_families_are_answered() {
    for family in &FAMILIES {
        let count = (family.count)();
        for number in (0..count).step_by(1 + count / 40) {
            for input in (family.inputs)(number) {
                let answer = answer(&input);
                assert!(answer.len() == 10 || (10_894..=LONGEST).contains(&answer.len()));
            }
        }
    }
}

/// Pairs are such that they differ where they say, and nowhere else.
#[test]
fn pairs_differ_in_one_thing() {
    for number in 0..pairs::OPEN_CASES {
        let pair = pairs::open(number);
        let (a, b) = (&pair[0], &pair[1]);
        let differ = [
            a.image.len() != b.image.len(),
            a.budget != b.budget,
            a.breakpoints != b.breakpoints,
            a.owners != b.owners,
            a.clearance != b.clearance,
            a.image.len() == b.image.len() && a.image != b.image,
        ];
        let due = [0, 1, 2, 2, 3, 4, 5][number % 7];
        assert_eq!(
            differ,
            std::array::from_fn(|thing| thing == due),
            "{number}"
        );
    }
    let hidden = (0..pairs::HIDDEN_CASES).map(pairs::hidden);
    let cleared = (0..cleared::PAIR_CASES).map(cleared::pairs);
    for case in hidden.chain(cleared) {
        for other in &case[1..] {
            assert_ne!(*other, case[0]);
            let zipped = case[0].image.iter().zip(&other.image).enumerate();
            let mut differing = zipped.filter(|(_, (a, b))| a != b);
            assert!(differing.all(|(address, _)| other.owners[address] & !other.clearance != 0));
            let same_words = Input {
                image: case[0].image.clone(),
                ..other.clone()
            };
            assert_eq!(same_words, case[0]);
        }
    }
}

/// Every value of one hidden word, in programs that stop at a jump, with the
/// word in MDR, and at a copy of it, and in one that clears it and goes on; the
/// family `values` has one that moves it and halts.
#[test]
fn all_values_of_a_hidden_word() {
    for program in [1, 5, 7, 8] {
        let first = report(&pairs::value(program, 0));
        for word in 1..=u16::MAX {
            let other = report(&pairs::value(program, word));
            assert!(other == first, "program {program}, word {word:04X}");
        }
    }
}

/// The list of the sample is read back as it was made.
#[test]
fn the_sample() {
    let list = record::list_bytes(&sample::records());
    let mut rest = &list[..];
    let mut lengths = Vec::new();
    let mut refusals = Vec::new();
    for input in sample::inputs() {
        let (length, behind) = rest.split_at(2);
        let length = usize::from(u16::from_be_bytes(length.try_into().unwrap()));
        let (record, behind) = behind.split_at(length);
        let (head, found) = record.split_at(3 + input.len());
        let count = (input.len() as u16).to_be_bytes();
        assert_eq!(head, [&[sample::KIND], &count[..], &input].concat());
        assert_eq!(found, answer(&input));
        lengths.push(found.len());
        refusals.extend(found.strip_prefix(b"refused ").map(|line| line[0]));
        rest = behind;
    }
    assert!(rest.is_empty());
    assert!(lengths.len() >= 40 && lengths.contains(&LONGEST));
    for number in b"1346" {
        assert!(refusals.contains(number));
    }
    assert!(bytes(&sample::invented())
        .windows(16)
        .any(|said| said == b"INVENTED SAMPLE."));
}
