//! `massey_report`: every input through the program, byte by byte.

use crate::program::Run;
use crate::scripts::every;
use crate::tally::Tally;
use crate::{difference, hidden_words};
use oracle::report::inputs::{Family, FAMILIES};
use oracle::report::{self, bytes};

/// How the input comes in pieces, and of how many cases in each family.
const PIECES: [usize; 5] = [1, 3, 7, 100, 511];
const IN_PIECES: usize = 12;

/// The records of a report: kind, name, and length with the kind's byte.
const RECORDS: [(u8, &str, usize); 9] = [
    (9, "the head", bytes::HEAD),
    (2, "a starting word", bytes::STARTING_WORD),
    (3, "a breakpoint", bytes::BREAKPOINT),
    (4, "the trace", bytes::TRACE),
    (5, "a register", bytes::REGISTER),
    (6, "a final word", bytes::FINAL_WORD),
    (7, "a touched address", bytes::TOUCHED),
    (8, "the end", bytes::END),
    (0x0A, "the hidden words", bytes::HIDDEN_WORDS),
];

pub fn compare(tally: &mut Tally, family: &Family) {
    for number in (0..(family.count)()).step_by(every()) {
        let case = Case::of(family, number);
        case.compare(tally);
    }
}

/// All that the program writes, and how many words are hidden after so many
/// instructions, by one run of each input. The inputs of a case make the same ones.
pub fn compare_counted([bytes, totals]: &mut [Tally; 2], family: &Family) {
    for number in (0..(family.count)()).step_by(every()) {
        let case = Case::of(family, number);
        let written = case.compare(bytes);
        hidden_words::compare(totals, &case.inputs, &written, |index| case.name(index));
    }
}

/// Inputs that belong together.
struct Case<'a> {
    family: &'a Family,
    number: usize,
    inputs: Vec<Vec<u8>>,
}

impl<'a> Case<'a> {
    fn of(family: &'a Family, number: usize) -> Self {
        Case {
            family,
            number,
            inputs: (family.inputs)(number),
        }
    }

    /// One run of the program for each input; gives what was written.
    fn compare(&self, tally: &mut Tally) -> Vec<Vec<u8>> {
        let inputs = self.inputs.iter().enumerate();
        inputs
            .map(|(index, input)| compare_one(tally, input, None, || self.name(index)))
            .collect()
    }

    fn name(&self, index: usize) -> String {
        format!("{} {}, its input {index}", self.family.name, self.number)
    }
}

/// A few cases of each family, spread over it: the first input of each comes in
/// pieces, so that the program's reads come back short.
pub fn compare_pieces(tally: &mut Tally) {
    for family in &FAMILIES {
        let step = ((family.count)() / IN_PIECES).max(1);
        for (index, number) in (0..(family.count)()).step_by(step).enumerate() {
            let piece = PIECES[index % PIECES.len()];
            let name = || format!("{} {number}, by {piece}", family.name);
            let inputs = (family.inputs)(number);
            compare_one(tally, &inputs[0], Some(piece), name);
        }
    }
}

/// One run of the program, its input at once or in pieces; gives what was written.
fn compare_one(
    tally: &mut Tally,
    input: &[u8],
    piece: Option<usize>,
    name: impl FnOnce() -> String,
) -> Vec<u8> {
    let run = Run {
        program: "massey_report",
        input,
        piece,
        wanted: &report::program::answer(input),
    };
    run.compare(tally, name, |output| describe(output, run.wanted))
}

/// Where the answer first differs, and in which record.
fn describe(found: &[u8], wanted: &[u8]) -> String {
    let same = difference::same(found, wanted);
    let bytes = difference::describe(found, wanted, 0);
    format!("{}: {bytes}", place(wanted, same))
}

/// What stands at a place of a right answer.
fn place(answer: &[u8], at: usize) -> String {
    let mut start = 0;
    while let Some(kind) = answer.get(start) {
        let Some((_, name, length)) = RECORDS.iter().find(|record| record.0 == *kind) else {
            return "a refusal".to_string();
        };
        if at < start + length {
            return format!("{name} (byte {start}), its byte {}", at - start);
        }
        start += length;
    }
    "past the end".to_string()
}

#[cfg(test)]
mod tests {
    use super::place;
    use oracle::report::bytes::report;
    use oracle::report::inputs::examples::example_14;
    use oracle::report::program::refused;

    #[test]
    fn the_records_stand_where_the_report_has_them() {
        let report = report(&example_14()).expect("it is served");
        assert_eq!(place(&report, 0), "the head (byte 0), its byte 0");
        assert_eq!(place(&report, 13), "the head (byte 0), its byte 13");
        assert_eq!(place(&report, 14), "a starting word (byte 14), its byte 0");
        assert_eq!(place(&report, 9_486), "the trace (byte 9486), its byte 0");
        assert_eq!(place(&report, 11_062), "the end (byte 11018), its byte 44");
        let hidden_words = "the hidden words (byte 11063), its byte 0";
        assert_eq!(place(&report, 11_063), hidden_words);
        assert_eq!(place(&report, 11_066), "past the end");
        assert_eq!(place(&refused(6), 8), "a refusal");
    }
}
