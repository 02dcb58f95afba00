//! A write that fails: standard output does not wait, and nobody reads, or not
//! as fast as the program writes. A program stops at its first failed write, so
//! what comes out is the beginning of what it has to say.

use crate::pipes::{self, PAGE};
use crate::run::{command, end, input, path, read, shell};
use oracle::assembly;
use oracle::assembly::texts::{counts, sample};
use oracle::calls::commands::{script, Command as Call};
use oracle::calls::program;
use oracle::images;
use oracle::report::inputs::examples::longest_report;
use oracle::report::program::{answer, bytes};
use oracle::sizes::{LISTING_WORDS, MEMORY_WORDS};
use oracle::words::disassembly;
use std::io::{PipeReader, PipeWriter, Read, Write};
use std::process::Child;
use std::thread;
use std::time::Duration;

/// How long a slow reader rests behind each page.
const REST: Duration = Duration::from_millis(1);

/// A pipe of one page that does not wait.
fn small_pipe() -> (PipeReader, PipeWriter) {
    let (reader, writer) = pipes::of_pages(1);
    pipes::do_not_wait(&writer);
    (reader, writer)
}

/// Starts a program that writes to such a pipe.
fn started(name: &str, bytes: &[u8]) -> (Child, PipeReader) {
    started_behind(b"", name, bytes)
}

/// The same, where so many bytes are in the pipe already.
fn started_behind(first: &[u8], name: &str, bytes: &[u8]) -> (Child, PipeReader) {
    let (reader, mut writer) = small_pipe();
    writer.write_all(first).expect("the pipe takes them");
    let mut command = command(path(name));
    command.stdin(input(bytes)).stdout(writer);
    let child = command.spawn().expect("the program can be started");
    (child, reader)
}

/// What comes out where nobody reads before the program has ended.
fn unread(name: &str, bytes: &[u8]) -> Vec<u8> {
    let (child, reader) = started(name, bytes);
    let status = end(child);
    assert!(status.code().is_some(), "{name} ends by itself: {status}");
    read(reader)
}

/// Some of it came, not all, and nothing is missing in between.
fn is_beginning(found: &[u8], whole: &[u8], what: &str) {
    let same = found.iter().zip(whole).take_while(|(a, b)| a == b).count();
    let (came, due) = (found.len(), whole.len());
    assert!(came > 0, "{what}: nothing came");
    assert!(came < due, "{what}: no write failed");
    assert_eq!(
        same, came,
        "{what}: of {came} bytes so many are the beginning"
    );
}

#[test]
fn the_beginning_of_a_report_and_of_a_listing() {
    let report = bytes(&longest_report());
    let written = unread("massey_report", &report);
    is_beginning(&written, &answer(&report), "massey_report");
    let words = [0xE000; LISTING_WORDS];
    let listing = disassembly::disassemble_image(&words).into_bytes();
    let written = unread("massey_listing", &images::bytes(&words));
    is_beginning(&written, &listing, "massey_listing");
}

/// The words of a text have 512 bytes at most, so the pipe has no room for them
/// from the start, or only for some.
#[test]
fn words_that_find_no_room() {
    let text = counts::text(LISTING_WORDS, "", "");
    let due = assembly::program::answer(&text);
    for room in [0, 1, 2, due.len() - 2, due.len() - 1] {
        let first = vec![b'-'; PAGE - room];
        let (child, reader) = started_behind(&first, "massey_assemble", &text);
        let status = end(child);
        assert!(status.code().is_some(), "it ends by itself: {status}");
        let written = read(reader);
        let behind = written.strip_prefix(&first[..]).expect("they stay");
        assert!(behind.len() <= room, "{} bytes came", behind.len());
        assert!(due.starts_with(behind), "{room}: it is no beginning");
    }
}

/// There is nobody to write to, or no room at all.
#[test]
fn standard_output_is_closed_or_full() {
    for (what, name) in [(">&-", "closed"), (">/dev/full", "full")] {
        let mut command = shell(&format!("exec \"$0\" {what}"), "massey_assemble");
        command.stdin(input(sample::TEXT.as_bytes()));
        let child = command.spawn().expect("the program can be started");
        let status = end(child);
        assert!(status.code().is_some(), "{name}: {status}");
    }
}

/// The answer to a step has up to 263 bytes, and where it does not fit into the
/// pipe none of it is taken; there is still room for the single bytes behind it.
#[test]
fn no_short_answer_stands_behind_a_failed_long_one() {
    let mut calls = vec![Call::Load(vec![0x3110; MEMORY_WORDS])];
    calls.extend(vec![Call::Step; 64]);
    calls.extend(vec![Call::Reset; 100]);
    let script = script(0, &calls);
    let written = unread("massey_calls", &script);
    is_beginning(&written, &program::output(&script), "massey_calls");
}

/// Dumps, read slower than they are made: there is room again and again.
#[test]
fn nothing_is_missing_between_dumps() {
    let mut calls = vec![
        Call::Load(vec![0x3110; MEMORY_WORDS]),
        Call::Run(600, Vec::new()),
    ];
    calls.extend(vec![Call::Dump; 1_000]);
    let script = script(0, &calls);
    let (child, reader) = started("massey_calls", &script);
    let written = slowly(reader);
    let status = end(child);
    assert!(status.code().is_some(), "it ends by itself: {status}");
    is_beginning(&written, &program::output(&script), "massey_calls");
}

/// All bytes to the end, a page at a time.
fn slowly(mut from: PipeReader) -> Vec<u8> {
    let (mut bytes, mut page) = (Vec::new(), [0; PAGE]);
    loop {
        match from.read(&mut page).expect("it can be read") {
            0 => return bytes,
            count => bytes.extend(&page[..count]),
        }
        thread::sleep(REST);
    }
}
