//! Document 02, Changes 6 and 7: how many words are hidden from the reader, in the reports
//! that the port wrote, held to the model's full count after as many instructions as the
//! report says.

use crate::tally::Tally;
use oracle::report::totals::{due, Said};

/// Each report of a case is one comparison. Both numbers are the port's own: where the
/// report begins another number of instructions than is due, the bytes differ too.
/// `name` says which input it is.
pub fn compare(
    tally: &mut Tally,
    inputs: &[Vec<u8>],
    written: &[Vec<u8>],
    name: impl Fn(usize) -> String,
) {
    let counts = due(inputs);
    for (index, report) in written.iter().enumerate() {
        let said = Said::by(report);
        tally.check(said.is_some_and(|said| said.is_due(&counts)), || {
            let told = describe(said, &counts);
            format!("massey_report, totals, {}: {told}", name(index))
        });
    }
}

fn describe(said: Option<Said>, counts: &[usize]) -> String {
    let Some(said) = said else {
        return "it does not end in the records of kinds 08 and 0A".to_string();
    };
    let (found, begun) = (said.hidden_words, said.begun);
    match counts.get(begun as usize) {
        Some(due) => format!("{found} hidden words after {begun} instructions, not {due}"),
        None => format!("{begun} instructions, where {} are made", counts.len() - 1),
    }
}

#[cfg(test)]
mod tests {
    use super::{compare, describe};
    use crate::tally::Tally;
    use oracle::report::inputs::examples::{example_11, example_12};
    use oracle::report::inputs::random::with_budgets;
    use oracle::report::program::{answer, bytes};
    use oracle::report::totals::Said;

    /// Example 11 with some budgets, and its reports as they are due.
    fn case() -> (Vec<Vec<u8>>, Vec<Vec<u8>>) {
        let inputs = with_budgets(&example_11(), [0, 2, 9]);
        let inputs: Vec<Vec<u8>> = inputs.iter().map(bytes).collect();
        let reports = inputs.iter().map(|input| answer(input)).collect();
        (inputs, reports)
    }

    /// How many pass and fail.
    fn tallied(inputs: &[Vec<u8>], written: &[Vec<u8>]) -> [u64; 2] {
        let mut tally = Tally::silent();
        compare(&mut tally, inputs, written, |index| index.to_string());
        [tally.passed(), tally.failed()]
    }

    /// One comparison for each report; one that was not written, that lacks the record,
    /// or that has another number, fails.
    #[test]
    fn each_report_is_one_comparison() {
        let (inputs, reports) = case();
        assert_eq!(tallied(&inputs, &reports), [3, 0]);
        let with = |report: Vec<u8>| {
            let mut written = reports.clone();
            written[1] = report;
            tallied(&inputs, &written)
        };
        let length = reports[1].len();
        let mut other = reports[1].clone();
        other[length - 1] += 1;
        for report in [Vec::new(), reports[1][..length - 3].to_vec(), other] {
            assert_eq!(with(report), [2, 1]);
        }
        let mut earlier = reports[1].clone();
        earlier[length - 1] = 1;
        assert_eq!(with(earlier), [2, 1]);
        // A report of another program, with the right count: only the bytes differ.
        assert_eq!(with(answer(&bytes(&example_12()))), [3, 0]);
    }

    #[test]
    fn what_is_told() {
        let said = |begun| {
            Some(Said {
                begun,
                hidden_words: 3,
            })
        };
        let counts = [1, 1, 2];
        let told = "3 hidden words after 2 instructions, not 2";
        assert_eq!(describe(said(2), &counts), told);
        let told = "3 instructions, where 2 are made";
        assert_eq!(describe(said(3), &counts), told);
        let told = "it does not end in the records of kinds 08 and 0A";
        assert_eq!(describe(None, &counts), told);
    }
}
