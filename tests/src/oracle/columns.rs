//! Fields of columns and the lines of a log.

/// A field: decimal, right-justified, filled with blanks, without leading zeros; zero is one digit.
/// It is well formed with value v exactly when it is what v is written as, so it is read by writing.
pub fn field(bytes: &[u8]) -> Option<u32> {
    let digits: Vec<u8> = bytes.iter().copied().skip_while(|&c| c == b' ').collect();
    if digits.is_empty() || !digits.iter().all(|c| c.is_ascii_digit()) {
        return None;
    }
    let value = String::from_utf8(digits).unwrap().parse().unwrap();
    (justified(value, bytes.len()).as_bytes() == bytes).then_some(value)
}

/// A number in a field of this width.
pub fn justified(value: u32, width: usize) -> String {
    format!("{value:>width$}")
}

#[derive(Clone, Copy, PartialEq, Eq, Debug)]
pub struct Line {
    pub number: u32,
    pub activity: u32,
}

/// A line of a log, or nothing where it is malformed.
pub fn line(bytes: &[u8]) -> Option<Line> {
    if bytes.len() != 10 || bytes[9] != b'\n' {
        return None;
    }
    let number = field(&bytes[..6])?;
    let activity = field(&bytes[6..9])?;
    (number >= 1).then_some(Line { number, activity })
}

/// A line as it is written.
pub fn written(number: u32, activity: u32) -> Vec<u8> {
    format!("{}{}\n", justified(number, 6), justified(activity, 3)).into_bytes()
}
