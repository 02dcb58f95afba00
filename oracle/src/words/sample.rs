//! The sample image that the listing program is run on. It is invented, and
//! its last words say so in ASCII.

use crate::images;
use crate::words::disassembly::disassemble_image;

/// Adds two numbers, stores the sum inside and outside the image, and halts. Two
/// words have a digit that they do not use, so that they are listed as `.word`:
/// 7051, and 2F12, which has a label.
const PROGRAM: [u16; 11] = [
    0x3508, 0x3609, 0x6056, 0x400A, 0xD006, 0x7051, 0x4020, 0xE000, 0x0003, 0x2F12, 0x0000,
];

fn words() -> Vec<u16> {
    [&PROGRAM[..], &images::saying_invented()].concat()
}

/// The image, high byte first.
pub fn image() -> Vec<u8> {
    images::bytes(&words())
}

/// The listing of it.
pub fn listing() -> String {
    disassemble_image(&words())
}
