//! What the program `massey_assemble` writes for any bytes that it reads.

use crate::assembly::model;
use crate::images;
use crate::report::program::refused;

/// The longest text that the program takes. The bound is its own: the call has
/// none.
pub const LONGEST: usize = 262_144;
/// So many bytes decide every answer: they are too many.
pub const DECIDING: usize = LONGEST + 1;

/// The image's words, or the line that names the refusal.
pub fn answer(text: &[u8]) -> Vec<u8> {
    if text.len() > LONGEST {
        return refused(6);
    }
    match model::assemble(text) {
        Ok(words) => images::bytes(&words),
        Err(number) => refused(number),
    }
}
