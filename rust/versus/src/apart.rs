//! Where two outputs differ first, line by line.

/// The lines of an output.
fn lines(bytes: &[u8]) -> impl Iterator<Item = &[u8]> {
    bytes.split(|&byte| byte == b'\n')
}

/// The first line that the two do not share, counted from 0.
pub fn first_difference(one: &[u8], other: &[u8]) -> usize {
    lines(one)
        .zip(lines(other))
        .take_while(|(one, other)| one == other)
        .count()
}

/// A line as text, counted from 0.
pub fn line_at(bytes: &[u8], line: usize) -> String {
    let part = lines(bytes).nth(line).unwrap_or(b"(nothing)");
    String::from_utf8_lossy(part).into_owned()
}
