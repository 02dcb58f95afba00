//! Scripts that are malformed, and such as are just not: unknown commands,
//! operands that are not wholly there, inputs and stores around the longest.

use crate::calls::commands::{self, Command};
use crate::calls::program::{LARGEST_STORE, LONGEST};
use crate::calls::snapshots::RECORD;
use crate::programs::HALT;
use crate::random::Random;
use std::sync::LazyLock;

/// The end of a script that makes it malformed: a byte that names no command
/// and what may stand behind it, or a command without its last bytes.
pub fn tail(random: &mut Random) -> Vec<u8> {
    if random.below(2) == 0 {
        let behind = random.below(4);
        let mut tail = vec![no_command(random)];
        tail.extend((0..behind).map(|_| random.byte()));
        return tail;
    }
    let kinds = with_operands();
    let whole = kinds[random.below(kinds.len())].bytes();
    whole[..1 + random.below(whole.len() - 1)].to_vec()
}

/// A byte that names no command.
fn no_command(random: &mut Random) -> u8 {
    commands::END + random.below(256 - usize::from(commands::END)) as u8
}

/// One command of each kind that has operands.
fn with_operands() -> [Command; 7] {
    [
        Command::Load(vec![0x1105, HALT, 0x0A0A]),
        Command::Run(7, Vec::new()),
        Command::Run(7, vec![1, 2, 3]),
        Command::Set(0, 1, 2),
        Command::Byte(3, 4),
        Command::DirectRun(7, Vec::new()),
        Command::DirectRun(7, vec![1, 2, 3]),
    ]
}

/// All of them.
pub fn all() -> &'static [Vec<u8>] {
    static ALL: LazyLock<Vec<Vec<u8>>> =
        LazyLock::new(|| [starts(), unknown(), cut(), counts(), stores(), lengths()].concat());
    &ALL
}

pub fn one(number: usize) -> Vec<u8> {
    all()[number].clone()
}

/// Inputs that are no store's length, and such as are nothing else.
fn starts() -> Vec<Vec<u8>> {
    [0x00, 0x0A, 0xFF]
        .iter()
        .flat_map(|byte| (0..4).map(|length| vec![*byte; length]))
        .chain([vec![0; 4], before()[..4].to_vec()])
        .collect()
}

/// A short script with a store of a record.
fn before() -> Vec<u8> {
    let load = Command::Load(vec![0x1105, HALT]);
    commands::script(RECORD as u32, &[load, Command::Step])
}

fn behind_before(bytes: &[u8]) -> Vec<u8> {
    [&before()[..], bytes].concat()
}

/// Each byte that names no command, at the start, in the middle and at the end.
fn unknown() -> Vec<Vec<u8>> {
    (commands::END..=255)
        .flat_map(|byte| {
            let start = [&before()[..4], &[byte], &before()[4..]].concat();
            [start, behind_before(&[byte]), behind_before(&[byte, 5, 10])]
        })
        .collect()
}

/// Operands that end at each of their bytes.
fn cut() -> Vec<Vec<u8>> {
    let mut scripts = Vec::new();
    for command in with_operands() {
        let whole = command.bytes();
        scripts.extend((1..=whole.len()).map(|cut| behind_before(&whole[..cut])));
    }
    scripts
}

/// Counts that promise more than there is, or all that a count can say.
fn counts() -> Vec<Vec<u8>> {
    let load = Command::Load(vec![0xE000; 65_535]).bytes();
    let run = Command::Run(3, vec![1; 65_535]);
    let direct_run = run.direct().bytes();
    let mut scripts = Vec::new();
    for whole in [load, run.bytes(), direct_run] {
        for cut in [whole.len(), whole.len() - 1, whole.len() / 2, 20] {
            scripts.push(behind_before(&whole[..cut]));
        }
        scripts.push([&behind_before(&whole)[..], &[0x05, 0x0A]].concat());
    }
    scripts
}

/// Stores around the largest, with commands behind their length or without.
fn stores() -> Vec<Vec<u8>> {
    let largest = LARGEST_STORE as u32;
    [
        largest - 1,
        largest,
        largest + 1,
        largest + RECORD as u32,
        1 << 24,
        1 << 31,
        u32::MAX,
    ]
    .iter()
    .flat_map(|length| {
        let length = length.to_be_bytes();
        [length.to_vec(), [&length[..], &[0x07, 0x0A]].concat()]
    })
    .collect()
}

/// Inputs around the longest. They end with a dump, or inside a command; over
/// the longest neither matters.
fn lengths() -> Vec<Vec<u8>> {
    let mut scripts = Vec::new();
    for length in [LONGEST - 1, LONGEST, LONGEST + 1, LONGEST + 2, 4 * LONGEST] {
        scripts.push(filled(length));
        let mut cut = filled(length + 3);
        cut.truncate(length);
        scripts.push(cut);
    }
    scripts
}

/// So many bytes: a dump, bytes of the store over and over, and a dump. Single
/// commands in front make the length what it must be.
fn filled(length: usize) -> Vec<u8> {
    let dump = Command::Dump.bytes();
    let byte = Command::Byte(0x0203, 0x77).bytes();
    let mut script = [&600u32.to_be_bytes()[..], &dump].concat();
    let room = length - script.len() - dump.len();
    script.extend(Command::ClearHistory.bytes().repeat(room % byte.len()));
    script.extend(byte.repeat(room / byte.len()));
    script.extend(dump);
    script
}
