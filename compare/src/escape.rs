//! Bytes as the lists of crates/replay have them: `\\` is a backslash, and `\x` with two base-16
//! digits a byte that is not printable ASCII.

const DIGITS: &[u8; 16] = b"0123456789abcdef";

pub fn escaped(text: &[u8]) -> String {
    let mut out = String::with_capacity(text.len() + text.len() / 8);
    for byte in text {
        match byte {
            b'\\' => out.push_str("\\\\"),
            b' '..=b'~' => out.push(char::from(*byte)),
            _ => {
                out.push_str("\\x");
                out.push(char::from(DIGITS[usize::from(byte >> 4)]));
                out.push(char::from(DIGITS[usize::from(byte & 15)]));
            }
        }
    }
    out
}
