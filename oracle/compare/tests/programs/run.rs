//! Runs a program to its end.

use oracle::places;
use std::io::{self, ErrorKind, PipeReader, Read, Write};
use std::path::PathBuf;
use std::process::{Child, Command, ExitStatus, Stdio};
use std::thread;
use std::time::{Duration, Instant};

/// How long a program may take. All are much quicker; one that asks again and
/// again where a read or a write fails must not hold up the tests.
const LONGEST: Duration = Duration::from_secs(60);

/// What a pipe holds, however small the system makes it: enough for an input
/// that is written before the program starts.
const PIPE: usize = 4_096;

/// Where a program lies.
pub fn path(name: &str) -> PathBuf {
    places::from_root("MASSEY_BIN_DIR", "target/bin").join(name)
}

/// A program, or a shell's command for it, whose environment is empty: it would
/// lie on the stack too.
pub fn command(program: impl Into<PathBuf>) -> Command {
    let mut command = Command::new(program.into());
    command.env_clear();
    command
}

/// A shell that does `what` and becomes the program: `$0` there.
pub fn shell(what: &str, name: &str) -> Command {
    let mut command = command("/bin/sh");
    command.args(["-c", what]).arg(path(name));
    command
}

/// Standard input with these few bytes and an end.
pub fn input(bytes: &[u8]) -> PipeReader {
    assert!(bytes.len() <= PIPE, "nobody reads yet");
    let (reader, mut writer) = io::pipe().expect("there are pipes");
    writer.write_all(bytes).expect("the pipe takes them");
    reader
}

/// Standard input with any number of bytes and an end. They are written while the
/// program reads; it may stop reading once its answer is decided.
pub fn long_input(bytes: &[u8]) -> PipeReader {
    let (reader, mut writer) = io::pipe().expect("there are pipes");
    let bytes = bytes.to_vec();
    thread::spawn(move || match writer.write_all(&bytes) {
        Err(error) if error.kind() != ErrorKind::BrokenPipe => panic!("{error}"),
        _ => {}
    });
    reader
}

/// What a program wrote, where it ended well and complained of nothing.
pub fn output(mut command: Command) -> Vec<u8> {
    let command = command.stdout(Stdio::piped()).stderr(Stdio::piped());
    let mut child = command.spawn().expect("the program can be started");
    let output = child.stdout.take().expect("standard output is piped");
    let complaint = child.stderr.take().expect("standard error is piped");
    let output = thread::spawn(|| read(output));
    let complaint = thread::spawn(|| read(complaint));
    let status = end(child);
    let output = output.join().expect("it is read");
    let complaint = complaint.join().expect("it is read");
    assert!(
        status.success() && complaint.is_empty(),
        "{command:?}: {status}, standard error \"{}\"",
        complaint.escape_ascii()
    );
    output
}

/// How it ended.
pub fn end(mut child: Child) -> ExitStatus {
    let last = Instant::now() + LONGEST;
    loop {
        if let Some(status) = child.try_wait().expect("it is ours to wait for") {
            return status;
        }
        if Instant::now() > last {
            child.kill().expect("it is ours to end");
            panic!("not at its end after {LONGEST:?}");
        }
        thread::sleep(Duration::from_millis(1));
    }
}

/// All bytes to the end.
pub fn read(mut from: impl Read) -> Vec<u8> {
    let mut bytes = Vec::new();
    from.read_to_end(&mut bytes).expect("they can be read");
    bytes
}

/// Fails with a few bytes alone, where two outputs are not the same.
pub fn same(found: &[u8], due: &[u8], what: &str) {
    let at = found.iter().zip(due).take_while(|(a, b)| a == b).count();
    let shown = |bytes: &[u8]| bytes[at..].iter().take(40).copied().collect::<Vec<u8>>();
    assert!(
        found == due,
        "{what}: {} bytes, due {}; from byte {at} \"{}\", due \"{}\"",
        found.len(),
        due.len(),
        shown(found).escape_ascii(),
        shown(due).escape_ascii()
    );
}
