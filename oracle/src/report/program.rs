//! What the program `massey_report` writes for any bytes that it reads:
//! document 01, sections 1 and 6, and document 02, Change 7.

use crate::encoding::{number, put_number, put_word, put_words, take};
use crate::images;
use crate::report::bytes;
use crate::report::guarded::{self, Input};
use crate::sizes::{BREAKPOINTS, MEMORY_WORDS};

/// So many bytes decide every answer: the longest input that is served, and one
/// more, which shows that an input is longer than its counts say.
pub const DECIDING: usize = 2 + 2 * MEMORY_WORDS + MEMORY_WORDS + 8 + 2 + BREAKPOINTS + 1 + 1;

/// The report, or the line that names the refusal.
pub fn answer(bytes: &[u8]) -> Vec<u8> {
    match served(bytes) {
        Err(number) => refused(number),
        Ok(input) => bytes::report(&input).expect("all refusals were tested"),
    }
}

/// What these bytes ask for, or the number of the refusal.
pub fn served(bytes: &[u8]) -> Result<Input, u8> {
    let parts = Parts::of(bytes);
    match parts.refusal() {
        Some(number) => Err(number),
        None => Ok(parts.input()),
    }
}

/// The line for a refusal.
pub fn refused(number: u8) -> Vec<u8> {
    format!("refused {number}\n").into_bytes()
}

/// The program's input for a guarded run. A count keeps its two low bytes, so
/// that lists past every limit can be written too.
pub fn bytes(input: &Input) -> Vec<u8> {
    let mut out = Vec::new();
    put_word(&mut out, input.image.len() as u16);
    put_words(&mut out, &input.image);
    out.extend(&input.owners);
    put_number(&mut out, input.budget);
    put_word(&mut out, input.breakpoints.len() as u16);
    out.extend(&input.breakpoints);
    out.push(input.clearance);
    out
}

/// The parts that the documents list, in their order. One that is not wholly
/// there is none, and neither are those behind it.
struct Parts<'a> {
    length: Option<u64>,
    words: Option<&'a [u8]>,
    owners: Option<&'a [u8]>,
    budget: Option<u64>,
    count: Option<u64>,
    breakpoints: Option<&'a [u8]>,
    clearance: Option<u64>,
    /// The bytes behind the last part.
    rest: &'a [u8],
}

impl<'a> Parts<'a> {
    fn of(bytes: &'a [u8]) -> Self {
        let mut rest = bytes;
        let length = number(&mut rest, 2);
        let words = length.and_then(|length| take(&mut rest, 2 * length as usize));
        let owners = words.and_then(|_| take(&mut rest, MEMORY_WORDS));
        let budget = owners.and_then(|_| number(&mut rest, 8));
        let count = budget.and_then(|_| number(&mut rest, 2));
        let breakpoints = count.and_then(|count| take(&mut rest, count as usize));
        let clearance = breakpoints.and_then(|_| number(&mut rest, 1));
        Parts {
            length,
            words,
            owners,
            budget,
            count,
            breakpoints,
            clearance,
            rest,
        }
    }

    /// The first refusal that holds. The order is that of the numbers, whatever
    /// the order of the parts; a test on a part that is not there is left to 6. Owners
    /// that are all there are as many as there must be, so that 2 is never met.
    fn refusal(&self) -> Option<u8> {
        let long = |length| guarded::is_long_image(length as usize);
        let many = |count| guarded::are_many_breakpoints(count as usize);
        let tests = [
            (1, self.length.is_some_and(long)),
            (3, self.count.is_some_and(many)),
            (4, self.budget.is_some_and(guarded::is_large_budget)),
            (6, self.clearance.is_none() || !self.rest.is_empty()),
        ];
        tests.iter().find(|test| test.1).map(|test| test.0)
    }

    /// The guarded run's input, of an input that is not refused.
    fn input(&self) -> Input {
        let there = "nothing is missing where nothing is refused";
        Input {
            image: images::whole_words(self.words.expect(there)),
            owners: self.owners.expect(there).to_vec(),
            budget: self.budget.expect(there),
            breakpoints: self.breakpoints.expect(there).to_vec(),
            clearance: self.clearance.expect(there) as u8,
        }
    }
}
