//! One call on a lent buffer, compared as a whole: the result and every byte.

use crate::difference;
use crate::tally::Tally;
use oracle::lent::pattern;

/// Bytes around the lent ones, to see a call that writes outside of them.
const GUARD: usize = 64;

/// What a call must do: return `result` and write `written` to the buffer's
/// start, keeping all that follows.
pub struct Outcome {
    pub result: i64,
    pub written: Vec<u8>,
}

impl Outcome {
    pub fn refused(number: i64) -> Self {
        Outcome {
            result: -number,
            written: Vec::new(),
        }
    }
}

/// Makes one call on `out_len` lent bytes and compares its outcome.
pub fn compare(
    tally: &mut Tally,
    out_len: usize,
    expected: &Outcome,
    question: impl FnOnce() -> String,
    call: impl FnOnce(&mut [u8]) -> i64,
) {
    let mut buffer = pattern(GUARD + out_len + GUARD);
    let mut wanted = buffer.clone();
    wanted[GUARD..GUARD + expected.written.len()].copy_from_slice(&expected.written);
    let result = call(&mut buffer[GUARD..GUARD + out_len]);
    tally.check(result == expected.result && buffer == wanted, || {
        let (question, due) = (question(), expected.result);
        let bytes = difference::describe(&buffer, &wanted, GUARD);
        format!("{question}, {out_len} bytes lent: returned {result}, due {due}; {bytes}")
    });
}
