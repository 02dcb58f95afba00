//! A text as lines, and a line as the parts between its blanks.

/// The lines of a text. Each ends in a line feed, which the last may lack: behind
/// the last line feed stands a line only where there are bytes.
pub fn of(text: &[u8]) -> Vec<&[u8]> {
    let mut lines: Vec<&[u8]> = text.split(|byte| *byte == b'\n').collect();
    if lines.last().is_some_and(|last| last.is_empty()) {
        lines.pop();
    }
    lines
}

/// What stands before the first ";": the comment is cut off before the rest is
/// tested.
fn without_comment(line: &[u8]) -> &[u8] {
    let comment = line.iter().position(|byte| *byte == b';');
    &line[..comment.unwrap_or(line.len())]
}

/// What stands between a line's blanks. A blank is one space or more, and no
/// other byte; spaces at the line's two ends are nothing. A line that is empty,
/// spaces aside, or only a comment has no parts.
pub fn parts(line: &[u8]) -> Vec<&[u8]> {
    without_comment(line)
        .split(|byte| *byte == b' ')
        .filter(|part| !part.is_empty())
        .collect()
}
