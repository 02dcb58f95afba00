//! The model of texts that keep the whole word, held to document 02, Change 1, and
//! of listings that have `.word` for such words, by Change 4: by texts, lines and
//! counts that are written out here.

use oracle::calls::commands::{script, Command};
use oracle::calls::program;
use oracle::calls::scripts::sample::script as calls_sample;
use oracle::disasm;
use oracle::readings::{self, Question};
use oracle::report::bytes::report;
use oracle::report::inputs::examples::input;
use oracle::report::inputs::sample::invented;
use oracle::words::disassembly::{disassemble, disassemble_image, is_loose};
use oracle::words::{sample, texts};
use std::collections::HashSet;

/// Words with a digit other than 0 that is not used: each such digit alone, and
/// some together.
const ENDING: [(u16, &str); 13] = [
    (0x2F12, "LOAD R1, R2 ; 2F12"),
    (0x2100, "LOAD R0, R0 ; 2100"),
    (0x2AFF, "LOAD RF, RF ; 2AFF"),
    (0x7100, "NEGATE R0 ; 7100"),
    (0x7001, "NEGATE R0 ; 7001"),
    (0x7011, "NEGATE R1 ; 7011"),
    (0x7F10, "NEGATE R1 ; 7F10"),
    (0x7BCD, "NEGATE RC ; 7BCD"),
    (0xE100, "HALT ; E100"),
    (0xE010, "HALT ; E010"),
    (0xE001, "HALT ; E001"),
    (0xEABC, "HALT ; EABC"),
    (0xEFFF, "HALT ; EFFF"),
];

/// Words whose text is the original's.
const PLAIN: [(u16, &str); 18] = [
    (0x2012, "LOAD R1, R2"),
    (0x2000, "LOAD R0, R0"),
    (0x20FF, "LOAD RF, RF"),
    (0x7010, "NEGATE R1"),
    (0x7000, "NEGATE R0"),
    (0xE000, "HALT"),
    (0x0000, "??? (not a MASSEY opcode) ; 0000"),
    (0x5BCD, "??? (not a MASSEY opcode) ; 5BCD"),
    (0xFFFF, "??? (not a MASSEY opcode) ; FFFF"),
    (0x1F12, "LOAD RF, 12"),
    (0x3F12, "LOAD RF, [12]"),
    (0x4F12, "STORE RF, [12]"),
    (0x6F12, "RF = R1 + R2"),
    (0x8F12, "SHIFT RF RIGHT 12"),
    (0x9F12, "SHIFT RF LEFT 12"),
    (0xAF12, "RF = R1 AND R2"),
    (0xCF12, "RF = R1 XOR R2"),
    (0xDF12, "JUMP [12] IF RF=R0"),
];

fn all_words() -> impl Iterator<Item = u16> {
    0..=u16::MAX
}

/// A text, and zeros up to 32 bytes.
fn padded(text: &str) -> Vec<u8> {
    let mut bytes = text.as_bytes().to_vec();
    bytes.resize(32, 0);
    bytes
}

#[test]
fn texts_that_end_in_the_word() {
    for (word, text) in ENDING {
        assert_eq!(disassemble(word), text);
        assert!(is_loose(word), "{word:04X}");
    }
}

#[test]
fn texts_that_stay() {
    for (word, text) in PLAIN {
        assert_eq!(disassemble(word), text);
        assert!(!is_loose(word), "{word:04X}");
    }
}

/// Of LOAD y, z 15 × 256 words, of NEGATE 16 × 255 and of HALT 4,095.
#[test]
fn the_words_that_are_no_longer_the_originals() {
    let is_changed = |word: &u16| disassemble(*word) != disasm::disassemble(*word);
    let changed: Vec<u16> = all_words().filter(is_changed).collect();
    let of = |opcode: u16| changed.iter().filter(|word| **word >> 12 == opcode).count();
    assert_eq!(changed.len(), 12_015);
    assert_eq!([of(0x2), of(0x7), of(0xE)], [3_840, 4_080, 4_095]);
    let loose: Vec<u16> = all_words().filter(|word| is_loose(*word)).collect();
    assert_eq!(changed, loose);
}

#[test]
fn two_words_have_two_texts() {
    let texts: HashSet<String> = all_words().map(disassemble).collect();
    assert_eq!(texts.len(), 65_536);
    // Of the original this is not so, else nothing had to change.
    let before: HashSet<String> = all_words().map(disasm::disassemble).collect();
    assert_eq!(before.len(), 65_536 - 12_015);
}

#[test]
fn no_text_is_too_long() {
    let longest = |loose: bool| {
        let words = all_words().filter(|word| is_loose(*word) == loose);
        words.map(|word| disassemble(word).len()).max()
    };
    assert_eq!((longest(true), longest(false)), (Some(18), Some(32)));
}

/// A whole listing: loose words with a label and without, each between lines
/// that stay, the first and the last among them. A reference past the last word
/// is in digits.
#[test]
fn a_listing() {
    let words = [
        0x7011, 0xD003, 0x2012, 0x2F12, 0xE000, 0x5BCD, 0x3108, 0x4209, 0xEABC,
    ];
    let due = "\
; Disassembled from 9 words of machine code.
; Labels were generated for the addresses this program refers to.
; Edit this assembly and press Assemble to build a new machine code image.

L00:    .word 7011                ; 00  7011
        JUMP  [L03] IF R0=R0      ; 01  D003
        LOAD R1, R2               ; 02  2012
L03:    .word 2F12                ; 03  2F12
        HALT                      ; 04  E000
        .word 5BCD                ; 05  5BCD
        LOAD  R1, [L08]           ; 06  3108
        STORE R2, [09]            ; 07  4209
L08:    .word EABC                ; 08  EABC
";
    assert_eq!(disassemble_image(&words), due);
    assert!(texts::listing(&words).answer.ends_with(due.as_bytes()));
    assert_eq!(disassemble_image(&[]), disasm::disassemble_image(&[]));
}

/// 256 images that have every word between them: a line has 45 bytes, and but
/// for the text of a loose word it is the original's.
#[test]
fn the_lines_of_every_word() {
    for high in 0..=255u16 {
        let words: Vec<u16> = (0..=255).map(|low| high << 8 | low).collect();
        let (ours, before) = (disassemble_image(&words), disasm::disassemble_image(&words));
        assert_eq!(ours.len(), before.len());
        let lines: Vec<&str> = ours.split_inclusive('\n').collect();
        let originals: Vec<&str> = before.split_inclusive('\n').collect();
        assert_eq!((lines.len(), &lines[..4]), (260, &originals[..4]));
        for (word, (line, original)) in words.iter().zip(lines.iter().zip(&originals).skip(4)) {
            assert_eq!(line.len(), 45);
            let text = match is_loose(*word) {
                true => format!(".word {word:04X}"),
                false => original[8..34].trim_end().to_string(),
            };
            let due = format!("{}{text:<26}{}", &original[..8], &original[34..]);
            assert_eq!(*line, due);
        }
    }
}

// -- who follows ------------------------------------------------------------

/// The step report of either engine; the texts of its ticks stay.
#[test]
fn the_step_report() {
    for step in [Command::Step, Command::Direct] {
        for (word, text) in ENDING.iter().chain(&PLAIN) {
            let load = Command::Load(vec![*word]);
            let parts = program::parts(&script(0, &[load, step.clone()]));
            assert_eq!(parts[1].answer[4..36], padded(text));
        }
        let load = Command::Load(vec![0x2F12]);
        let parts = program::parts(&script(0, &[load, step]));
        assert_eq!(parts[1].answer[36 + 1 + 4 * 32..][..32], padded("R2 -> R1"));
    }
}

/// Kind 02: without owners, with such as the reader may see, and hidden.
#[test]
fn the_report() {
    for (word, text) in ENDING.iter().chain(&PLAIN) {
        let starting = |owners: u8| {
            let mut input = input(&[*word], &[], 0);
            (input.owners[0], input.clearance) = (owners, 0x06);
            let report = report(&input).expect("it is served");
            report[14..14 + 37].to_vec()
        };
        let [high, low] = word.to_be_bytes();
        for owners in [0x00, 0x02, 0x06] {
            let shown = [&[2, 0, owners, high, low][..], &padded(text)].concat();
            assert_eq!(starting(owners), shown);
        }
        for owners in [0x01, 0x07, 0xF9] {
            assert_eq!(starting(owners), [&[2, 0, owners][..], &[0; 34]].concat());
        }
    }
}

/// `disassemble_at` in the record of a machine with one word, and the record of
/// the word itself.
#[test]
fn readings_and_texts() {
    for (word, text) in ENDING.iter().chain(&PLAIN) {
        let question = Question {
            image: vec![*word],
            ticks: 0,
            address: 0,
        };
        let answer = readings::record(&question).answer;
        assert_eq!(answer[8 + 8 + 2 + 1 + 2..][..32], padded(text));
        let answer = texts::word(*word).answer;
        let field = &answer[15 + 3 * 33..][..33];
        assert_eq!(field, [&padded(text)[..], &[text.len() as u8]].concat());
    }
}

// -- the samples ------------------------------------------------------------

/// The samples that are kept beside the programs meet such words: in lines with
/// a label and without, open and hidden, and by both engines.
#[test]
fn the_samples() {
    let listing = sample::listing();
    assert!(listing.contains("\n        .word 7051                ; 05  7051\n"));
    assert!(listing.contains("\nL09:    .word 2F12                ; 09  2F12\n"));
    let input = invented();
    let loose = input.image.iter().zip(&input.owners);
    let loose: Vec<_> = loose.filter(|(word, _)| is_loose(**word)).collect();
    assert_eq!(loose, [(&0x2F21, &0), (&0xEABC, &0x08)]);
    for step in [Command::Step, Command::Direct] {
        let parts = program::parts(&calls_sample());
        let steps = parts
            .iter()
            .filter(|part| part.command.as_ref() == Some(&step));
        let texts: HashSet<&[u8]> = steps.filter_map(|part| part.answer.get(4..36)).collect();
        let met = |(_, text): &&(u16, &str)| texts.contains(&padded(text)[..]);
        assert_eq!(ENDING.iter().filter(met).count(), 9);
    }
}
