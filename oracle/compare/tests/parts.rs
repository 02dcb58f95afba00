//! `compare` itself: a name that picks no part must not pass.

use std::process::{Command, Output};

fn compare(picked: &str) -> Output {
    compare_each(1, picked)
}

/// Each so many-th script alone.
fn compare_each(every: usize, picked: &str) -> Output {
    Command::new(env!("CARGO_BIN_EXE_compare"))
        .env("MASSEY_EVERY", every.to_string())
        .arg(picked)
        .output()
        .expect("compare can be started")
}

#[test]
fn a_name_that_picks_no_part_fails_and_is_told_the_parts() {
    // A misspelt one, one that is only inside of names, and one that goes on.
    for picked in ["massey_reports", "words", "massey_calls, sample more"] {
        let ended = compare(picked);
        let complaint = String::from_utf8_lossy(&ended.stderr);
        assert!(!ended.status.success(), "{picked}: {}", ended.status);
        assert!(ended.stdout.is_empty(), "{picked}: something passed");
        assert!(complaint.contains(&format!("{picked:?}")), "{complaint}");
        for part in ["archive, words", "massey_calls, sample", "listing program"] {
            assert!(complaint.contains(part), "{picked}: no {part}, {complaint}");
        }
    }
}

#[test]
fn a_name_that_picks_a_part_runs_it_alone() {
    let ended = compare("massey_calls, sample");
    let said = String::from_utf8_lossy(&ended.stdout);
    assert!(ended.status.success(), "{}", ended.status);
    assert_eq!(
        said,
        "massey_calls, sample: 1 passed, 0 failed\n1 passed, 0 failed\n"
    );
}

/// The bus totals come from the same runs as the bytes, and can be picked alone.
#[test]
fn totals_are_parts_of_their_own() {
    let ended = compare("massey_calls, totals, sample");
    let said = String::from_utf8_lossy(&ended.stdout);
    assert!(ended.status.success(), "{}", ended.status);
    assert_eq!(
        said,
        "massey_calls, totals, sample: 68 passed, 0 failed\n68 passed, 0 failed\n"
    );
}

/// So can the numbers of hidden words: here of three cases, which have four inputs each.
#[test]
fn hidden_words_are_parts_of_their_own() {
    let ended = compare_each(100, "massey_report, totals, count_marks");
    let said = String::from_utf8_lossy(&ended.stdout);
    assert!(ended.status.success(), "{}", ended.status);
    assert_eq!(
        said,
        "massey_report, totals, count_marks: 12 passed, 0 failed\n12 passed, 0 failed\n"
    );
}

/// No dump of this family has bus totals.
#[test]
fn a_part_that_has_nothing_to_compare_fails() {
    let ended = compare_each(1_000, "massey_calls, totals, direct");
    let said = String::from_utf8_lossy(&ended.stdout);
    assert!(said.ends_with("\n0 passed, 0 failed\n"), "{said}");
    assert_eq!(ended.status.code(), Some(2));
}
