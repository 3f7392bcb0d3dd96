//! Shorter texts of which the same holds.

/// The text with lines and then bytes taken out.
pub fn cut_down(text: &[u8], holds: impl Fn(&[u8]) -> bool) -> Vec<u8> {
    let mut lines: Vec<&[u8]> = text.split_inclusive(|byte| *byte == b'\n').collect();
    shorten(&mut lines, |lines| holds(&lines.concat()));
    let mut text = lines.concat();
    if text.len() <= 10_000 {
        shorten(&mut text, holds);
    }
    text
}

fn shorten<T: Clone>(items: &mut Vec<T>, holds: impl Fn(&[T]) -> bool) {
    let mut step = items.len() / 2;
    while step > 0 {
        let mut at = 0;
        while at < items.len() {
            let mut fewer = items.clone();
            fewer.drain(at..items.len().min(at + step));
            if holds(&fewer) {
                *items = fewer;
            } else {
                at += step;
            }
        }
        step /= 2;
    }
}
