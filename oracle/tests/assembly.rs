//! The model of the assembler, held to document 02, Change 4, by texts and answers
//! that are written out here and beside the rules, and by what it must give back:
//! the image of a listing, however it was lawfully rewritten.

use oracle::assembly::model::assemble;
use oracle::assembly::program::{answer, DECIDING, LONGEST};
use oracle::assembly::texts::rules::{self, RULES};
use oracle::assembly::texts::{listings, rewritten, sample, Family, FAMILIES};
use oracle::assembly::{lines, lists};
use oracle::images;
use oracle::random::Random;
use oracle::replays::REPLAYS;
use oracle::words::disassembly::disassemble_image;
use std::collections::HashSet;

fn family(name: &str) -> &'static Family {
    let found = FAMILIES.iter().find(|family| family.name == name);
    found.expect("there is such a family")
}

fn texts(name: &str) -> impl Iterator<Item = Vec<u8>> {
    let family = family(name);
    (0..(family.count)()).map(family.text)
}

/// So many lines, each with a word.
fn halts(count: usize) -> String {
    "HALT\n".repeat(count)
}

fn number(text: &str) -> u8 {
    assemble(text.as_bytes()).expect_err("it is refused")
}

// -- the grammar ------------------------------------------------------------

/// Each rule's texts, which have their answers beside them. A rule has texts that
/// are taken or such as are refused, and most have both.
#[test]
fn each_rule() {
    for rule in RULES {
        for (text, due) in rule.rows {
            let (name, shown) = (rule.name, text.escape_ascii());
            assert_eq!(assemble(text), due.map(<[u16]>::to_vec), "{name}: {shown}");
        }
    }
    let texts: HashSet<&[u8]> = rules::rows().map(|row| row.0).collect();
    assert_eq!(texts.len(), rules::rows().count(), "each text once");
}

/// All 41,233 words that an instruction line can give, in the form that a listing
/// has for them, and all words by `.word`.
#[test]
fn every_word_by_itself() {
    let mut instructions = 0;
    for word in 0..=u16::MAX {
        let by_word = format!(".word {word:04X}");
        assert_eq!(assemble(by_word.as_bytes()), Ok(vec![word]));
        let text = oracle::words::disassembly::disassemble(word);
        if !text.contains(';') {
            assert_eq!(assemble(text.as_bytes()), Ok(vec![word]), "{text}");
            instructions += 1;
        }
    }
    assert_eq!(instructions, 41_233);
}

/// Lines with every byte at each of their places. Beside each place stand the
/// bytes that keep the line lawful, but for its own; `ANY` is every byte.
#[test]
fn every_byte_at_each_place() {
    const DIGITS: &str = "0123456789ABCDEF";
    const NAMES: &str = "0123456789ABCDEFGHIJKLMNOPQRSTUVWXYZ";
    const FREE: &str = " ;\n";
    for (line, lawful) in [
        ("HALT", vec![";", "", "", ""]),
        (" HALT ", vec![FREE, ";", "", "", "", FREE]),
        ("L7: HALT", vec![";", NAMES, "", "", "", "", "", ""]),
        ("HALT;x", vec![";", "", "", "", "", ANY]),
        (
            ".word 0000",
            [vec![";", "", "", "", "", ""], vec![DIGITS; 4]].concat(),
        ),
        (
            "NEGATE R0",
            [vec![";", "", "", "", "", "", "", ""], vec![DIGITS]].concat(),
        ),
    ] {
        assert_eq!(line.len(), lawful.len(), "{line}");
        for (place, lawful) in lawful.into_iter().enumerate() {
            every_byte(line, place, lawful);
        }
    }
}

/// Stands for every byte.
const ANY: &str = "any";

fn every_byte(line: &str, place: usize, lawful: &str) {
    for byte in 0..=255u8 {
        let mut changed = line.as_bytes().to_vec();
        let stays = changed[place] == byte;
        changed[place] = byte;
        let due = stays || lawful == ANY || lawful.contains(char::from(byte));
        let shown = changed.escape_ascii();
        assert_eq!(assemble(&changed).is_ok(), due, "{shown}");
    }
}

#[test]
fn labels_of_every_length() {
    for length in 0..=9 {
        let name = format!("L{}", "X".repeat(length));
        let on = format!("{name}: HALT\n");
        let used = format!("LOAD R1, [{name}]\n");
        let both = format!("{used}{on}");
        if (1..=6).contains(&length) {
            assert_eq!(assemble(on.as_bytes()), Ok(vec![0xE000]));
            assert_eq!(number(&used), 12);
            assert_eq!(assemble(both.as_bytes()), Ok(vec![0x3101, 0xE000]));
        } else {
            assert_eq!([&on, &used, &both].map(|text| number(text)), [11; 3]);
        }
    }
}

/// A text of a hundred lines that take no address, with two words and a label.
#[test]
fn free_lines_take_no_address() {
    let free = "\n   \n;\n  ; L1: HALT\n".repeat(25);
    let text = format!("{free}LOAD R1, [L1]\n{free}L1: HALT\n{free}");
    assert_eq!(assemble(text.as_bytes()), Ok(vec![0x3101, 0xE000]));
    assert_eq!(assemble(free.as_bytes()), Ok(Vec::new()));
}

#[test]
fn the_lines_of_a_text() {
    for (text, due) in [
        ("", vec![]),
        ("a", vec!["a"]),
        ("a\n", vec!["a"]),
        ("\n", vec![""]),
        ("a\n\n", vec!["a", ""]),
        ("a\nb", vec!["a", "b"]),
        ("\n\na", vec!["", "", "a"]),
    ] {
        let due: Vec<&[u8]> = due.into_iter().map(str::as_bytes).collect();
        assert_eq!(lines::of(text.as_bytes()), due, "{text:?}");
    }
}

// -- the number of words, and which fault decides ---------------------------

#[test]
fn as_many_words_as_an_image_has() {
    for count in [0, 1, 2, 254, 255, 256, 257, 258, 300, 512, 1_000] {
        let text = halts(count);
        for text in [&text[..], text.trim_end(), &format!("{text}\n ;\n")] {
            let due = match count {
                0..=256 => Ok(vec![0xE000; count]),
                _ => Err(13),
            };
            assert_eq!(assemble(text.as_bytes()), due, "{count} words");
        }
    }
}

/// The last of 256 lines can be named and referred to; a reference may be past the
/// last word, in digits.
#[test]
fn the_last_address() {
    let text = format!("{}LLAST: JUMP [LLAST] IF R1=R0\n", halts(255));
    let due = [vec![0xE000; 255], vec![0xD1FF]].concat();
    assert_eq!(assemble(text.as_bytes()), Ok(due));
    assert_eq!(assemble(b"JUMP [FF] IF R1=R0"), Ok(vec![0xD1FF]));
}

/// Two and three faults in each order, on one line and on several.
#[test]
fn the_first_faulty_line_decides() {
    let full = halts(256);
    for (behind, due) in [
        // 13, then what stands behind it.
        ("HALT\n", 13),
        ("HALT\nHALT x\n", 13),
        ("HALT\nLOAD R1, [LB]\n", 13),
        ("LOAD R1, [LB]\n", 13),
        ("LB: HALT\nLB: HALT\n", 13),
        // 11 before 13, on that line and on the one before.
        ("HALT x\n", 11),
        ("HALT x\nHALT\n", 11),
        ("LB:\n", 11),
        ("\t\n", 11),
        ("; x\nHALT x", 11),
        ("LOAD R1, [LB] x\n", 11),
    ] {
        assert_eq!(number(&format!("{full}{behind}")), due, "{behind:?}");
    }
    // 12 comes behind all lines, wherever it stands.
    let missing = "LOAD R1, [LB]\n";
    let doubled = "LA: HALT\nLA: HALT\n";
    for fault in [missing, doubled] {
        assert_eq!(number(fault), 12);
        assert_eq!(number(&format!("{fault}x\n")), 11);
        assert_eq!(number(&format!("x\n{fault}")), 11);
        assert_eq!(number(&format!("{fault}{full}")), 13);
        assert_eq!(number(&format!("{fault}{full}x\n")), 13);
        assert_eq!(number(&format!("{fault}x\n{full}")), 11);
    }
    assert_eq!(number(&format!("{missing}{}", halts(255))), 12);
    assert_eq!(number(&format!("{}{doubled}", halts(254))), 12);
    assert_eq!(number(&format!("{}{doubled}", halts(255))), 13);
    assert_eq!(number(&format!("{missing}{doubled}")), 12);
}

/// All of three lines with a fault each, behind 255 words: the first line still
/// has an address, and the second has none.
#[test]
fn three_faulty_lines_in_each_order() {
    let lines = ["HALT x\n", "LOAD R1, [LB]\n", "HALT\n"];
    for (order, due) in [
        ([0, 1, 2], 11),
        ([0, 2, 1], 11),
        ([1, 0, 2], 11),
        ([1, 2, 0], 13),
        ([2, 0, 1], 11),
        ([2, 1, 0], 13),
    ] {
        let behind: String = order.map(|at| lines[at]).concat();
        assert_eq!(number(&format!("{}{behind}", halts(255))), due, "{order:?}");
    }
}

// -- round trips ------------------------------------------------------------

/// Of an image of one word to 256 the listing gives the image.
fn comes_back(words: &[u16]) {
    let listing = disassemble_image(words);
    assert_eq!(
        assemble(listing.as_bytes()).as_deref(),
        Ok(words),
        "{listing}"
    );
}

#[test]
fn listings_give_their_images() {
    let mut random = Random::new(0x20_BACC);
    for length in 0..=256 {
        comes_back(&images::mixed(&mut random, length));
        comes_back(&images::dense(&mut random, length));
        comes_back(&images::partly_used(&mut random, length));
    }
    for _ in 0..3_000 {
        comes_back(&listings::any(&mut random, 256));
    }
    let jumps: Vec<u16> = (0..256).map(|address| 0xD000 | address).collect();
    comes_back(&jumps);
    for number in 0..listings::LISTINGS {
        let due = listings::image(number);
        assert_eq!(assemble(&listings::text(number)), Ok(due), "{number}");
    }
}

/// The original's own listing does not: a loose word loses a digit.
#[test]
fn the_originals_listing_lost_a_digit() {
    let listing = oracle::disasm::disassemble_image(&[0x2F12]);
    assert_eq!(assemble(listing.as_bytes()), Ok(vec![0x2012]));
}

#[test]
fn lawful_edits_give_their_images() {
    let mut full = 0;
    for number in 0..rewritten::REWRITTEN {
        let (image, text) = (rewritten::image(number), rewritten::text(number));
        full += usize::from(image.len() == 256);
        assert_eq!(assemble(&text), Ok(image), "{}", text.escape_ascii());
    }
    assert!(full > 100, "{full}");
}

// -- the families -----------------------------------------------------------

/// How many texts are taken, and how many are refused 11, 12 and 13.
fn counts(name: &str) -> [usize; 4] {
    let mut counts = [0; 4];
    for text in texts(name) {
        match assemble(&text) {
            Ok(_) => counts[0] += 1,
            Err(number) => counts[usize::from(number - 10)] += 1,
        }
    }
    counts
}

/// Each family comes to what it is for: enough is taken, and refused by each
/// number.
#[test]
fn what_the_families_come_to() {
    let due = [
        ("sample", [1, 0, 0, 0]),
        ("grammar", [1_825, 18_789, 88, 0]),
        ("labels", [3_091, 11_644, 1_938, 0]),
        ("faults", [247, 3_099, 771, 1_417]),
        ("counts", [380, 0, 0, 366]),
        ("listings", [5_288, 0, 0, 0]),
        ("rewritten", [6_000, 0, 0, 0]),
        ("edits", [14_058, 8_112, 1_458, 372]),
        ("bounds", [84, 24, 12, 12]),
    ];
    assert_eq!(due.map(|row| counts(row.0)), due.map(|row| row.1));
    assert_eq!(due.map(|row| row.0), FAMILIES.map(|family| family.name));
}

/// No two texts of a family are the same, where they are not by chance.
#[test]
fn each_text_once() {
    let mut all = 0;
    for family in &FAMILIES {
        let count = (family.count)();
        let different: HashSet<Vec<u8>> = texts(family.name).collect();
        let by_chance = ["listings", "rewritten", "edits"].contains(&family.name);
        assert!(by_chance || different.len() == count, "{}", family.name);
        assert!(different.len() * 20 > count * 19, "{}", family.name);
        all += count;
    }
    assert!(all > 50_000, "{all}");
}

// -- the program, the sample and the records --------------------------------

#[test]
fn the_program() {
    assert_eq!(answer(b""), b"");
    assert_eq!(answer(b"HALT\n.word 1234\n"), [0xE0, 0x00, 0x12, 0x34]);
    assert_eq!(answer(b"x"), b"refused 11\n");
    assert_eq!(answer(b"LOAD R1, [LA]"), b"refused 12\n");
    assert_eq!(answer(halts(257).as_bytes()), b"refused 13\n");
    assert_eq!((LONGEST, DECIDING), (262_144, 262_145));
    assert_eq!(answer(&vec![b' '; LONGEST]), b"");
    assert_eq!(answer(&vec![b'x'; LONGEST]), b"refused 11\n");
    // Longer texts are refused before anything is looked at; the call has no bound.
    for byte in [b' ', b'x', b'\n'] {
        assert_eq!(answer(&vec![byte; DECIDING]), b"refused 6\n");
    }
    assert_eq!(assemble(&vec![b' '; DECIDING]), Ok(Vec::new()));
}

#[test]
fn the_sample() {
    let due = [
        0x3511, 0x3612, 0x6056, 0x4013, 0xD006, 0x7051, 0x40F0, 0x801F, 0x7050, 0x2012, 0x1A0C,
        0xA789, 0xB77A, 0xC777, 0x9F01, 0xDF00, 0xE000, 0x0003, 0x2F12, 0x0000,
    ];
    let words = assemble(sample::TEXT.as_bytes()).expect("it is taken");
    assert_eq!(words[..due.len()], due);
    assert_eq!(words[due.len()..], images::saying_invented());
    assert!(sample::TEXT.starts_with("; INVENTED"));
    assert!(!sample::TEXT.ends_with('\n'));
}

#[test]
fn records() {
    let record = lists::record(b"HALT\n");
    assert_eq!(
        record.bytes(),
        b"\x00\x0D\x53\x00\x05HALT\n\x00\x00\x01\xE0\x00"
    );
    let record = lists::record(b"x");
    assert_eq!(record.bytes(), b"\x00\x07\x53\x00\x01x\x0B\x00\x00");
}

/// The fixed list is short, and has every refusal and a text of 256 words.
#[test]
fn the_fixed_list() {
    let records = lists::fixed();
    let bytes: usize = records.iter().map(|record| record.bytes().len()).sum();
    let with = |refusal: u8| records.iter().filter(|it| it.answer[0] == refusal).count();
    assert!((150..=250).contains(&records.len()), "{}", records.len());
    assert!(bytes < 60_000, "{bytes}");
    assert!([0, 11, 12, 13].iter().all(|refusal| with(*refusal) >= 8));
    assert!(records.iter().any(|it| it.answer.len() == 3 + 2 * 256));
    assert!(records.iter().any(|it| it.question == [0, 0]));
    let kept = (REPLAYS[0].fixed)();
    assert_eq!(
        kept.iter().filter(|it| it.kind == b'S').count(),
        records.len()
    );
}
