//! Where two runs of bytes first differ, in words.

/// Bytes shown of a long run.
const EXCERPT: usize = 60;

/// Bytes are numbered from `origin`, which may be inside the run.
pub fn describe(found: &[u8], wanted: &[u8], origin: usize) -> String {
    if found == wanted {
        return "the bytes are right".to_string();
    }
    let same = same(found, wanted);
    format!(
        "from byte {}: {}, not {}",
        same as i64 - origin as i64,
        excerpt(&found[same..]),
        excerpt(&wanted[same..])
    )
}

/// How many bytes are the same before the first that differ.
pub fn same(found: &[u8], wanted: &[u8]) -> usize {
    found.iter().zip(wanted).take_while(|(a, b)| a == b).count()
}

/// The first bytes, those that are no printable ASCII as numbers.
pub fn excerpt(bytes: &[u8]) -> String {
    let more = if bytes.len() > EXCERPT { ".." } else { "" };
    format!(
        "\"{}\"{more}",
        bytes[..bytes.len().min(EXCERPT)].escape_ascii()
    )
}
