//! The driver in C, which makes the calls as a C program makes them: with the
//! header, and with buffers that Rust could not lend.

use oracle::places;
use std::env;
use std::io::{Read, Write};
use std::ops::Range;
use std::path::{Path, PathBuf};
use std::process::{Command, Stdio};
use std::sync::OnceLock;
use std::thread;

/// A call, by the driver's letter.
#[derive(Clone, Copy, PartialEq, Eq)]
pub enum Call {
    Disassemble = b'D' as isize,
    Listing = b'L' as isize,
    Assemble = b'A' as isize,
    Report = b'R' as isize,
}

/// A call on one region, in which input and output lie.
pub struct Question {
    pub call: Call,
    pub region: Vec<u8>,
    pub input: Range<usize>,
    pub out: Range<usize>,
}

/// What the call answered, and the region that it left.
pub struct Answer {
    pub number: i64,
    pub region: Vec<u8>,
}

pub fn ask(questions: &[Question]) -> Vec<Answer> {
    let mut driver = Command::new(built())
        .stdin(Stdio::piped())
        .stdout(Stdio::piped())
        .spawn()
        .expect("the driver can be started");
    let mut input = driver.stdin.take().expect("standard input is piped");
    let mut output = driver.stdout.take().expect("standard output is piped");
    // Written beside the reading, lest both sides wait.
    let answers = thread::scope(|scope| {
        scope.spawn(move || {
            for question in questions {
                input.write_all(&bytes(question)).expect("the driver reads");
            }
        });
        let answer = |question| read(&mut output, question);
        questions.iter().map(answer).collect()
    });
    let status = driver.wait().expect("the driver ends");
    assert!(status.success(), "the driver: {status}");
    answers
}

fn bytes(question: &Question) -> Vec<u8> {
    let numbers = [
        question.region.len(),
        question.input.start,
        question.input.len(),
        question.out.start,
        question.out.len(),
    ];
    let mut bytes = vec![question.call as u8];
    bytes.extend(numbers.iter().flat_map(|n| (*n as u32).to_be_bytes()));
    bytes.extend(&question.region);
    bytes
}

fn read(output: &mut impl Read, question: &Question) -> Answer {
    let mut number = [0; 8];
    let mut region = vec![0; question.region.len()];
    output.read_exact(&mut number).expect("the driver answers");
    output
        .read_exact(&mut region)
        .expect("the region comes whole");
    Answer {
        number: i64::from_be_bytes(number),
        region,
    }
}

/// The driver, which the first to ask builds.
fn built() -> &'static Path {
    static DRIVER: OnceLock<PathBuf> = OnceLock::new();
    DRIVER.get_or_init(build)
}

fn build() -> PathBuf {
    let driver = Path::new(env!("CARGO_TARGET_TMPDIR")).join("overlap");
    let source = Path::new(env!("CARGO_MANIFEST_DIR")).join("tests/overlap/driver.c");
    let folder = places::from_root("MASSEY_ARCHIVE_DIR", "target/staticlib");
    let compiler = env::var_os("CC").unwrap_or_else(|| "cc".into());
    let status = Command::new(&compiler)
        .args(["-std=c11", "-O2", "-Wall", "-Wextra", "-Werror", "-I"])
        .arg(places::root().join("include"))
        .arg(source)
        .arg(folder.join("libmassey.a"))
        .arg("-o")
        .arg(&driver)
        .status()
        .unwrap_or_else(|error| panic!("{} cannot be started: {error}", compiler.display()));
    assert!(status.success(), "the driver cannot be built: {status}");
    driver
}
