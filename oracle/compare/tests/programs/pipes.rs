//! Pipes that do not wait, or that hold less or more than others.

use std::ffi::c_int;
use std::io::{self, PipeReader, PipeWriter};
use std::os::fd::AsRawFd;

/// A page: the least that a pipe holds.
pub const PAGE: usize = 4_096;

mod c {
    use std::ffi::c_int;

    pub const SET_FLAGS: c_int = 4;
    pub const NONBLOCK: c_int = 0o4000;
    pub const SET_PIPE_SIZE: c_int = 1_031;

    extern "C" {
        /// The C library's, with Linux's numbers: Rust's own pipes always wait.
        pub fn fcntl(file: c_int, command: c_int, ...) -> c_int;
    }
}

fn control(pipe: &impl AsRawFd, command: c_int, value: c_int) -> c_int {
    // SAFETY: the file is open as long as it is lent, and both commands take a
    // number.
    unsafe { c::fcntl(pipe.as_raw_fd(), command, value) }
}

/// Reads or writes at this end fail where they would have to wait.
pub fn do_not_wait(end: &impl AsRawFd) {
    assert_eq!(control(end, c::SET_FLAGS, c::NONBLOCK), 0);
}

/// A pipe that holds so many pages.
pub fn of_pages(pages: usize) -> (PipeReader, PipeWriter) {
    let (reader, writer) = io::pipe().expect("there are pipes");
    let size = (pages * PAGE) as c_int;
    assert_eq!(control(&writer, c::SET_PIPE_SIZE, size), size);
    (reader, writer)
}
