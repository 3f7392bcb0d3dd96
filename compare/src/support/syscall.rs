//! System calls. Due is what procfs-core answers, but for the differences that are intended:
//!
//! - More than 4096 bytes are refused 2.
//! - A text that is not UTF-8 is refused 1.

use super::{due as due_of, every, refused};
use crate::damage::{NOT_UTF8, UTF8};
use crate::dice::Dice;
use crate::record::{Answer, Due};
use crate::text::Text;
use procfs_core::process::Syscall;
use procfs_core::{FromRead, ProcError};

const LONG: &str = "long text";
const NOT_TEXT: &str = "not UTF-8";

pub const DIFFERENCES: [&str; 2] = [LONG, NOT_TEXT];

const NUMBERS: [&str; 20] = [
    "0",
    "7",
    "-1",
    "+7",
    "007",
    "9223372036854775807",
    "9223372036854775808",
    "-9223372036854775808",
    "-9223372036854775809",
    "+-1",
    "-",
    "+",
    "",
    "0x7",
    "7a",
    "1.0",
    "\u{663}",
    "running",
    "-0",
    "--1",
];
const REGISTERS: [&str; 28] = [
    "0",
    "0x0",
    "0X1",
    "x1",
    "0x",
    "0X",
    "0x0x1",
    "0X0x1",
    "+1",
    "0x+1",
    "+0x1",
    "-1",
    "0x-1",
    "ffffffffffffffff",
    "0xFFFFFFFFFFFFFFFF",
    "0x10000000000000000",
    "10000000000000000",
    "00000000000000000000000001",
    "aB",
    "g",
    "",
    "0x\u{ff11}",
    "7ffd5c8",
    "0x7f3505221000",
    "0x g",
    "\t1",
    "1\n",
    "0xx1",
];
const WHITE: [&str; 10] = [
    "",
    "\n",
    " ",
    "\t",
    "\r\n",
    "\u{b}",
    "\u{a0}",
    "\u{3000} ",
    "\u{85}",
    "\u{200b}",
];

const GOOD: [&str; 9] = [
    "7", "0x1", "0x2", "0x3", "0x4", "0x5", "0x6", "0x7ffe", "0x7f00",
];

/// The good pieces with others at a place.
fn with(place: usize, piece: &[u8]) -> Vec<u8> {
    let mut pieces: Vec<&[u8]> = GOOD.map(str::as_bytes).to_vec();
    pieces[place] = piece;
    pieces.join(&b' ')
}

pub fn listed() -> Vec<Vec<u8>> {
    let mut texts = every(b"01x+- ar", 5);
    for text in every(b"01xX+- f", 4) {
        for place in [0, 1, 5, 8] {
            texts.push(with(place, &text));
        }
    }
    for many in 0..=9 {
        for after in ["", " ", " x", " 1", "  ", "\n"] {
            texts.push(format!("{}{after}", GOOD[..many].join(" ")).into_bytes());
        }
    }
    for place in 0..GOOD.len() {
        for piece in NUMBERS.iter().chain(&REGISTERS) {
            texts.push(with(place, piece.as_bytes()));
            // A piece less at the end.
            let text = with(place, piece.as_bytes());
            let end = text.iter().rposition(|byte| *byte == b' ').unwrap_or(0);
            texts.push(text[..end].to_vec());
        }
        for bytes in NOT_UTF8 {
            texts.push(with(place, bytes));
        }
    }
    for front in WHITE {
        for back in WHITE {
            texts.push(format!("{front}running{back}").into_bytes());
            texts.push(format!("{front}{}{back}", GOOD.join(" ")).into_bytes());
        }
    }
    for text in UTF8 {
        texts.push(format!("{} {text}", GOOD.join(" ")).into_bytes());
        texts.push(format!("running{text}").into_bytes());
    }
    for bytes in NOT_UTF8 {
        texts.push([GOOD.join(" ").as_bytes(), b" ", bytes].concat());
        texts.push([b"running", bytes].concat());
    }
    for length in [4095, 4096, 4097, 8192] {
        for text in [
            "running".to_string(),
            GOOD.join(" "),
            "7 x".to_string(),
            format!("{} ", GOOD.join(" ")),
        ] {
            for fill in [b' ', b'1', 0xff] {
                let mut text = text.clone().into_bytes();
                text.resize(length, fill);
                texts.push(text);
            }
        }
    }
    texts
}

pub fn generated(dice: &mut Dice) -> Vec<u8> {
    let many = dice.pick(&[9, 9, 9, 9, 9, 9, 8, 10, 1, 3, 12]);
    let mut pieces = Vec::new();
    for index in 0..many {
        let number = dice.next() >> dice.below(64);
        pieces.push(match (index, dice.chance(3)) {
            (0, true) => dice.pick(&NUMBERS).to_string(),
            (0, false) => (number as i64 >> dice.below(40)).to_string(),
            (_, true) => dice.pick(&REGISTERS).to_string(),
            (_, false) => match dice.below(4) {
                0 => format!("{number:x}"),
                1 => format!("0X{number:X}"),
                _ => format!("{number:#x}"),
            },
        });
    }
    let text = if dice.chance(4) {
        "running".to_string()
    } else {
        pieces.join(" ")
    };
    let white = |dice: &mut Dice| {
        if dice.chance(20) {
            dice.pick(&WHITE)
        } else {
            "\n"
        }
    };
    let front = if dice.chance(5) { white(dice) } else { "" };
    format!("{front}{text}{}", white(dice)).into_bytes()
}

pub fn due(text: Text) -> Result<Due, String> {
    let text = text.bytes;
    let reference = reference(text)?;
    if text.len() > 4096 {
        return Ok(due_of(refused(2), Some(reference), LONG));
    }
    if std::str::from_utf8(text).is_err() {
        return Ok(due_of(refused(1), Some(reference), NOT_TEXT));
    }
    Ok(Due {
        ours: reference,
        difference: None,
    })
}

fn reference(text: &[u8]) -> Result<Answer, String> {
    match Syscall::from_read(text) {
        Ok(Syscall::Running) => Ok(Answer::Accepted("running".to_string())),
        Ok(Syscall::Blocked {
            syscall_number,
            argument_registers: [a, b, c, d, e, f],
            stack_pointer,
            program_counter,
        }) => Ok(Answer::Accepted(format!(
            "{syscall_number} {a} {b} {c} {d} {e} {f} {stack_pointer} {program_counter}"
        ))),
        Ok(_) => Err("another case".to_string()),
        Err(ProcError::InternalError(error)) if error.msg.ends_with("NoneError") => Ok(refused(5)),
        Err(ProcError::InternalError(error))
            if ["Failed to convert", "Failed to convert (radix)"]
                .iter()
                .any(|end| error.msg.ends_with(end)) =>
        {
            Ok(refused(6))
        }
        Err(error) => Err(error.to_string()),
    }
}
