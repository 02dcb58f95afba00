//! Labels: their length and their characters, on their line and where they are
//! used; doubled, missing, unused; before and behind their use.

use crate::random::Random;
use crate::sizes::LISTING_WORDS;

/// Programs by chance.
const RANDOM_TEXTS: usize = 2_000;

/// All texts of the family, some of which are the same.
pub fn all() -> Vec<Vec<u8>> {
    let mut texts = lengths();
    texts.extend(characters());
    texts.extend(alike());
    texts.extend(addresses());
    texts.extend(full());
    texts.extend((0..RANDOM_TEXTS).map(any));
    texts
}

/// A text with a label on its line, one with a use of it, and those with both, of
/// which either comes first.
fn on_and_in(name: &[u8]) -> [Vec<u8>; 4] {
    let on = [name, b": HALT\n"].concat();
    let used = [b"LOAD R1, [", name, b"]\n"].concat();
    let first = [&on[..], &used].concat();
    let last = [&used[..], &on].concat();
    [on, used, first, last]
}

/// None to eight characters behind L, of each kind.
fn lengths() -> Vec<Vec<u8>> {
    let mut texts = Vec::new();
    for character in *b"0A9ZLF" {
        for length in 0..=8 {
            let name = [&b"L"[..], &vec![character; length]].concat();
            texts.extend(on_and_in(&name));
        }
    }
    texts
}

/// Every byte at each place of a label with one, two or six characters behind L,
/// and right behind one with six.
fn characters() -> Vec<Vec<u8>> {
    let mut texts = Vec::new();
    for (name, places) in [
        ("LX", 0..2),
        ("LX7", 1..3),
        ("LOOP1Z", 1..6),
        ("LONGEST", 0..8),
    ] {
        for place in places {
            for byte in 0..=255 {
                let mut name = name.as_bytes().to_vec();
                name.resize(name.len().max(place + 1), 0);
                name[place] = byte;
                let [on, used, _, last] = on_and_in(&name);
                texts.extend([on, used, last]);
            }
        }
    }
    texts
}

/// Labels that begin alike, or differ in one character, or look like digits: each
/// two of them, the one on a line and the other used; and both on lines, with the
/// same one among them.
fn alike() -> Vec<Vec<u8>> {
    let names = [
        "L0", "L00", "L000", "L000000", "L1", "L01", "L10", "LA", "LL", "LLL", "LOAD", "LOADA",
        "LEFT", "L100000", "L000001", "L00000A", "LFF", "LF", "LZZZZZZ", "LZZZZZY",
    ];
    let mut texts = Vec::new();
    for one in names {
        for other in names {
            texts.push(format!("HALT\n{one}: LOAD R1, [{other}]\n"));
            texts.push(format!("{one}: HALT\n{other}: HALT\n"));
            texts.push(format!(
                "JUMP [{other}] IF R1=R0\n{one}: HALT\n{other}: STORE R2, [{one}]\n"
            ));
        }
    }
    texts.into_iter().map(String::into_bytes).collect()
}

/// A label at every address, which the first and the last line refer to.
fn addresses() -> Vec<Vec<u8>> {
    let at = |address: usize| {
        let line = |index: usize| {
            let label = if index == address { "LHERE: " } else { "" };
            let instruction = match index {
                0 => "JUMP [LHERE] IF R1=R0",
                index if index == LISTING_WORDS - 1 => "STORE R2, [LHERE]",
                _ => "HALT",
            };
            format!("{label}{instruction}\n").into_bytes()
        };
        (0..LISTING_WORDS).flat_map(line).collect()
    };
    (0..LISTING_WORDS).map(at).collect()
}

/// A label on each of 256 lines, all of them used: each by its own line, by the
/// one that stands opposite, and by the one before. Then one is missing, and one
/// stands twice, on the last lines and on the first.
pub fn full() -> Vec<Vec<u8>> {
    let most = LISTING_WORDS;
    let text = |name: &dyn Fn(usize) -> String, target: &dyn Fn(usize) -> usize| {
        let line = |at: usize| format!("{}: JUMP [{}] IF R0=R0\n", name(at), name(target(at)));
        (0..most).map(line).collect::<String>().into_bytes()
    };
    let mut texts = Vec::new();
    for name in [
        (|at| format!("L{at:02X}")) as fn(usize) -> String,
        |at| format!("L{at}"),
        |at| format!("L{at:06}"),
        |at| format!("L{:06X}", at * 0xF0F1),
        |at| format!("LZZZ{:03X}", 0x200 - at),
    ] {
        texts.push(text(&name, &|at| at));
        texts.push(text(&name, &|at| most - 1 - at));
        texts.push(text(&name, &|at| (at + 1) % most));
        texts.push(text(&name, &|at| at + 1));
        texts.push(text(&|at| name(at.min(most - 2)), &|at| at));
        texts.push(text(&|at| name(at.max(1)), &|at| at));
    }
    texts
}

/// A few lines by chance, whose labels are of a small choice, so that they are
/// doubled and missing now and then.
pub fn any(number: usize) -> Vec<u8> {
    let mut random = Random::new(0x1A_BE15_0000 + number as u64);
    let names: Vec<String> = (0..2 + random.below(20))
        .map(|_| name(&mut random))
        .collect();
    let mut free = names.clone();
    let mut text = String::new();
    for _ in 0..1 + random.below(14) {
        // Mostly each label once; else any, which may stand on a line already.
        let label = match random.below(40) {
            0 => Some(names[random.below(names.len())].clone()),
            1..=30 => free.pop(),
            _ => None,
        };
        text += &label.map_or_else(String::new, |label| format!("{label}: "));
        let target = &names[match random.below(8) {
            0 => random.below(names.len()),
            _ => names.len() - 1 - random.below(names.len().min(4)),
        }];
        text += &match random.below(4) {
            0 => format!("LOAD R1, [{target}]\n"),
            1 => format!("STORE RA, [{target}]\n"),
            2 => format!("JUMP [{target}] IF R2=R0\n"),
            _ => "HALT\n".to_string(),
        };
    }
    text.into_bytes()
}

/// One to six characters behind L, rarely seven, of few kinds, so that labels
/// begin alike.
pub fn name(random: &mut Random) -> String {
    let length = match random.below(200) {
        0 => 7,
        _ => 1 + random.below(6),
    };
    let characters = (0..length).map(|_| char::from(random.pick(b"001LAZ9")));
    format!("L{}", characters.collect::<String>())
}
