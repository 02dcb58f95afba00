//! Runs one of the port's programs over a pipe.

use crate::tally::Tally;
use oracle::places;
use std::io::{self, ErrorKind, Read, Write};
use std::path::PathBuf;
use std::process::{Child, ChildStdin, Command, Stdio};
use std::sync::mpsc::{self, RecvTimeoutError};
use std::thread;
use std::time::Duration;

/// How long a program may take. All are much quicker, and one that does not end
/// must not hold up the comparison.
const LONGEST: Duration = Duration::from_secs(120);

/// A run of a program, its input at once or in pieces, and what it must write.
pub struct Run<'a> {
    pub program: &'a str,
    pub input: &'a [u8],
    /// The bytes of a piece.
    pub piece: Option<usize>,
    pub wanted: &'a [u8],
}

impl Run<'_> {
    /// Makes the run and compares its whole output; `describe` says how another
    /// output differs. Gives what was written, which is nothing where the run failed.
    pub fn compare(
        &self,
        tally: &mut Tally,
        name: impl FnOnce() -> String,
        describe: impl FnOnce(&[u8]) -> String,
    ) -> Vec<u8> {
        let written = run(self.program, |input| match self.piece {
            Some(piece) => feed(input, self.input, piece),
            None => input.write_all(self.input),
        });
        let same = written.as_ref().is_ok_and(|output| output == self.wanted);
        tally.check(same, || {
            let what = match &written {
                Ok(output) => describe(output),
                Err(error) => error.clone(),
            };
            format!("{}, {}: {what}", self.program, name())
        });
        written.unwrap_or_default()
    }
}

/// Writes in pieces, and rests now and then so that the program's reads come
/// back short.
fn feed(input: &mut ChildStdin, bytes: &[u8], piece: usize) -> io::Result<()> {
    for (index, part) in bytes.chunks(piece).enumerate() {
        input.write_all(part)?;
        input.flush()?;
        if index < 3 || index % 64 == 0 {
            thread::sleep(Duration::from_micros(200));
        }
    }
    Ok(())
}

/// Starts the program, lets `feed` write its input, and gives what it wrote to
/// standard output. A message to standard error or a bad end is an error.
pub fn run(
    name: &str,
    feed: impl FnOnce(&mut ChildStdin) -> io::Result<()> + Send,
) -> Result<Vec<u8>, String> {
    let mut child = start(name)?;
    let piped = pipe(&mut child, feed);
    let status = child.wait().map_err(|error| format!("{name}: {error}"))?;
    if !piped.in_time {
        return Err(format!("{name}: not at its end after {LONGEST:?}"));
    }
    // A program may stop reading once its answer is decided.
    if let Err(error) = piped.fed.or_else(ignore_closed) {
        return Err(format!("{name}: writing its input: {error}"));
    }
    let read = piped
        .output
        .and_then(|output| Ok((output, piped.complaint?)));
    let (output, complaint) = read.map_err(|error| format!("{name}: {error}"))?;
    if !status.success() || !complaint.is_empty() {
        let complaint = String::from_utf8_lossy(&complaint);
        return Err(format!("{name}: {status}, standard error {complaint:?}"));
    }
    Ok(output)
}

/// What came of a program's three pipes.
struct Piped {
    fed: io::Result<()>,
    output: io::Result<Vec<u8>>,
    complaint: io::Result<Vec<u8>>,
    in_time: bool,
}

/// The input is written beside the reading, lest both sides wait.
fn pipe(child: &mut Child, feed: impl FnOnce(&mut ChildStdin) -> io::Result<()> + Send) -> Piped {
    let mut input = child.stdin.take().expect("standard input is piped");
    let output = child.stdout.take().expect("standard output is piped");
    let complaint = child.stderr.take().expect("standard error is piped");
    let (open, ended) = mpsc::channel::<()>();
    thread::scope(|scope| {
        let feeding = scope.spawn(move || feed(&mut input));
        let complaining = scope.spawn(move || read(complaint));
        let reading = scope.spawn(move || {
            let _open = open;
            read(output)
        });
        // Nothing is ever sent: the sender goes where the output ends.
        let in_time = ended.recv_timeout(LONGEST) != Err(RecvTimeoutError::Timeout);
        if !in_time {
            // It fails only where the program has just ended by itself.
            let _ = child.kill();
        }
        Piped {
            fed: joined(feeding),
            output: joined(reading),
            complaint: joined(complaining),
            in_time,
        }
    })
}

/// Where a program lies.
pub fn path(name: &str) -> PathBuf {
    places::from_root("MASSEY_BIN_DIR", "target/bin").join(name)
}

fn start(name: &str) -> Result<Child, String> {
    let path = path(name);
    Command::new(&path)
        .stdin(Stdio::piped())
        .stdout(Stdio::piped())
        .stderr(Stdio::piped())
        .spawn()
        .map_err(|error| format!("{} cannot be started: {error}", path.display()))
}

fn read(mut from: impl Read) -> io::Result<Vec<u8>> {
    let mut bytes = Vec::new();
    from.read_to_end(&mut bytes)?;
    Ok(bytes)
}

fn joined<T>(thread: thread::ScopedJoinHandle<T>) -> T {
    thread.join().expect("the pipes' threads do not panic")
}

fn ignore_closed(error: io::Error) -> io::Result<()> {
    match error.kind() {
        ErrorKind::BrokenPipe => Ok(()),
        _ => Err(error),
    }
}
