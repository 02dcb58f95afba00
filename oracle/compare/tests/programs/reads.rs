//! A read that fails. The programs do not know what they were not given: the
//! report, the listing and the assembling program answer `refused 6`, the call
//! program the byte FF, and plays nothing, even where what came would be a whole
//! input. Where so many bytes came that they decide the answer, no more is read.

use crate::pipes::{self, PAGE};
use crate::run::{command, output, path, same, shell};
use oracle::assembly;
use oracle::assembly::texts::{counts, sample as text_sample};
use oracle::calls::commands::{script, Command as Call};
use oracle::calls::{program, scripts};
use oracle::images;
use oracle::report::inputs::examples::longest_report;
use oracle::report::inputs::sample::invented;
use oracle::report::program::{answer, bytes, refused, DECIDING};
use oracle::sizes::{LISTING_TOO_LONG, LISTING_WORDS};
use oracle::words::{disassembly, sample};
use std::fs::File;
use std::io::Write;
use std::os::fd::OwnedFd;
use std::os::unix::net::UnixStream;

/// Each program, and what it answers where a read fails.
const PROGRAMS: [(&str, &[u8]); 4] = [
    ("massey_report", b"refused 6\n"),
    ("massey_listing", b"refused 6\n"),
    ("massey_assemble", b"refused 6\n"),
    ("massey_calls", b"\xFF"),
];

/// What a program writes that is given these bytes, and whose next read fails:
/// nothing more is there, and its end of the line does not wait.
fn failing_after(name: &str, bytes: &[u8]) -> Vec<u8> {
    let (mut ours, theirs) = UnixStream::pair().expect("there are sockets");
    ours.write_all(bytes).expect("a socket takes them");
    theirs.set_nonblocking(true).expect("it need not wait");
    let mut command = command(path(name));
    command.stdin(OwnedFd::from(theirs));
    let written = output(command);
    // Closed any earlier, the bytes would have an end.
    drop(ours);
    written
}

/// The same for more bytes than a socket holds: a pipe takes them all before the
/// program starts.
fn failing_after_many(name: &str, bytes: &[u8]) -> Vec<u8> {
    // A pipe's pages are a power of two.
    let pages = bytes.len().div_ceil(PAGE).next_power_of_two();
    let (reader, mut writer) = pipes::of_pages(pages);
    writer.write_all(bytes).expect("the pipe takes them");
    pipes::do_not_wait(&reader);
    let mut command = command(path(name));
    command.stdin(reader);
    let written = output(command);
    drop(writer);
    written
}

#[test]
fn standard_input_is_closed() {
    for (name, due) in PROGRAMS {
        let written = output(shell("exec \"$0\" <&-", name));
        same(&written, due, &format!("{name}, closed"));
    }
}

#[test]
fn standard_input_is_a_folder() {
    for (name, due) in PROGRAMS {
        let mut command = command(path(name));
        command.stdin(File::open("/").expect("there is a root"));
        same(&output(command), due, &format!("{name}, a folder"));
    }
}

#[test]
fn nothing_comes() {
    for (name, due) in PROGRAMS {
        same(&failing_after(name, b""), due, &format!("{name}, no bytes"));
    }
}

#[test]
fn a_whole_report_input_comes() {
    for input in [bytes(&invented()), bytes(&longest_report())] {
        assert_ne!(answer(&input), refused(6), "it is one by itself");
        let written = failing_after("massey_report", &input);
        let what = format!("massey_report, {} bytes", input.len());
        same(&written, b"refused 6\n", &what);
    }
}

/// What came would be refused by another number, had the input ended there; and
/// with one byte more that number is due.
#[test]
fn as_many_bytes_come_as_decide_a_report() {
    let mut input = vec![0xFF; DECIDING];
    assert_eq!(answer(&input), refused(1));
    let decided = failing_after("massey_report", &input);
    same(&decided, b"refused 1\n", "massey_report, as many as decide");
    input.pop();
    let cut = failing_after("massey_report", &input);
    same(&cut, b"refused 6\n", "massey_report, one byte less");
}

#[test]
fn a_whole_image_comes() {
    let longest = images::bytes(&[0xE000; LISTING_WORDS]);
    for image in [sample::image(), longest] {
        let listing = disassembly::disassemble_image(&images::whole_words(&image));
        assert!(!listing.is_empty(), "it is one by itself");
        let written = failing_after("massey_listing", &image);
        let what = format!("massey_listing, {} bytes", image.len());
        same(&written, b"refused 6\n", &what);
    }
}

#[test]
fn as_many_bytes_come_as_decide_a_listing() {
    for (length, due) in [
        (LISTING_TOO_LONG, "refused 1\n"),
        (LISTING_TOO_LONG - 1, "refused 6\n"),
    ] {
        let written = failing_after("massey_listing", &vec![0x41; length]);
        let what = format!("massey_listing, {length} bytes");
        same(&written, due.as_bytes(), &what);
    }
}

#[test]
fn a_whole_text_comes() {
    let longest = counts::text(LISTING_WORDS, "", "");
    for text in [b"HALT\n", text_sample::TEXT.as_bytes(), &longest, b"x\n"] {
        assert_ne!(assembly::program::answer(text), refused(6));
        let written = failing_after("massey_assemble", text);
        let what = format!("massey_assemble, {} bytes", text.len());
        same(&written, b"refused 6\n", &what);
    }
}

/// A text that is too long is refused 6 as well, so only a program that hangs, or
/// looks at the text, can be told here.
#[test]
fn as_many_bytes_come_as_decide_a_text() {
    for length in [assembly::program::LONGEST, assembly::program::DECIDING] {
        for byte in [b' ', b'x', b'\n'] {
            let written = failing_after_many("massey_assemble", &vec![byte; length]);
            let what = format!("massey_assemble, {length} bytes");
            same(&written, b"refused 6\n", &what);
        }
    }
}

#[test]
fn a_whole_script_comes() {
    let new = script(0, &[Call::New]);
    for script in [new, scripts::sample::script()] {
        assert_ne!(program::output(&script), b"\xFF", "it is one by itself");
        let written = failing_after("massey_calls", &script);
        let what = format!("massey_calls, {} bytes", script.len());
        same(&written, b"\xFF", &what);
    }
}
