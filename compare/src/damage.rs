//! Damaged copies of texts, and what other bad texts are made from.

use crate::dice::Dice;

/// `start` filled up to `length` bytes with a letter, and `end`.
pub fn line_of(length: usize, start: &str, end: &str) -> Vec<u8> {
    let mut line = start.as_bytes().to_vec();
    line.resize(length, b'a');
    line.extend_from_slice(end.as_bytes());
    line
}

/// Byte sequences that no UTF-8 has.
pub const NOT_UTF8: [&[u8]; 19] = [
    b"\xff",
    b"\x80",
    b"\xbf",
    b"\xc0\x80",
    b"\xc1\xbf",
    b"\xc3",
    b"\xc3\x28",
    b"\xe0\x9f\xbf",
    b"\xe2\x82",
    b"\xe2\x28\xa1",
    b"\xed\xa0\x80",
    b"\xed\xbf\xbf",
    b"\xef\xbf",
    b"\xf0\x8f\xbf\xbf",
    b"\xf0\x9f\x92",
    b"\xf4\x90\x80\x80",
    b"\xf5\x80\x80\x80",
    b"\xf8\x88\x80\x80\x80",
    b"\xe6\x97\xa5\xa5",
];
/// Some that it has, at the bounds of their lengths.
pub const UTF8: [&str; 8] = [
    "\u{e9}",
    "\u{7ff}",
    "\u{800}",
    "\u{d7ff}",
    "\u{e000}",
    "\u{ffff}",
    "\u{10000}",
    "\u{10ffff}",
];

/// A copy of the text with one to four faults.
pub fn damaged(dice: &mut Dice, text: &[u8]) -> Vec<u8> {
    let mut text = text.to_vec();
    for _ in 0..dice.pick(&[1, 1, 1, 2, 2, 3, 4]) {
        damage(dice, &mut text);
    }
    text
}

fn damage(dice: &mut Dice, text: &mut Vec<u8>) {
    let at = dice.below(text.len() + 1);
    let length = dice.pick(&[1, 1, 2, 5, 20, 100, 1000]);
    let to = text.len().min(at + dice.below(length) + 1);
    match dice.below(13) {
        // A bit turned.
        0 => {
            if let Some(byte) = text.get_mut(at) {
                *byte ^= 1 << dice.below(8);
            }
        }
        // A byte replaced, put in, taken out.
        1 => {
            if let Some(byte) = text.get_mut(at) {
                *byte = dice.next() as u8;
            }
        }
        2 => {
            if let Some(byte) = text.get_mut(at) {
                *byte = dice.pick(BYTES);
            }
        }
        3 => text.insert(at, dice.pick(BYTES)),
        4 => {
            text.drain(at..to.min(at + 1));
        }
        // Bytes taken out, doubled, or cut off.
        5 => {
            text.drain(at..to);
        }
        6 => {
            let copy = text[at..to].to_vec();
            text.splice(at..at, copy);
        }
        7 => text.truncate(at),
        // Lines exchanged, doubled, taken out.
        8 | 9 | 10 => {
            let mut lines: Vec<Vec<u8>> = text
                .split_inclusive(|byte| *byte == b'\n')
                .map(<[u8]>::to_vec)
                .collect();
            if lines.is_empty() {
                return;
            }
            let (one, other) = (dice.below(lines.len()), dice.below(lines.len()));
            match dice.below(3) {
                0 => lines.swap(one, other),
                1 => lines.insert(one, lines[other].clone()),
                _ => {
                    lines.remove(one);
                }
            }
            *text = lines.concat();
        }
        // Bytes that are not UTF-8, and some that are.
        11 => {
            let wrong = dice.pick(&NOT_UTF8);
            text.splice(at..at, wrong.iter().copied());
        }
        _ => {
            let right = dice.pick(&UTF8);
            text.splice(at..at, right.bytes());
        }
    }
}

const BYTES: &[u8] = b"\n\n\r\t\x0b\x0c  :::-+0019faFRPSVZ[]/\0.\x1f\x7f\xa0\xff";
