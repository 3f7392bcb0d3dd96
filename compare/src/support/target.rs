//! Targets of descriptors. Due is what procfs-core answers, but for the differences that are intended:
//!
//! - A text that is not UTF-8 is refused 1; procfs-core is handed none.
//! - `socket`, `net` and `pipe` need `[` and `]`, else 20.
//! - Another type with `[]` is unknown.

use super::{due as due_of, every, name, refused};
use crate::damage::{NOT_UTF8, UTF8};
use crate::dice::Dice;
use crate::record::{Answer, Due};
use crate::text::Text;
use procfs_core::process::FDTarget;
use procfs_core::ProcError;
use std::str::FromStr;

const NOT_TEXT: &str = "not UTF-8";
const BRACKETS: &str = "brackets of an inode";
const EMPTY: &str = "empty brackets";

pub const DIFFERENCES: [&str; 3] = [NOT_TEXT, BRACKETS, EMPTY];

const TYPES: [&str; 16] = [
    "socket",
    "net",
    "pipe",
    "anon_inode",
    "",
    "x",
    "Socket",
    "socket ",
    " pipe",
    "nets",
    "mnt",
    "pidfd",
    "\u{e9}",
    "/memfd",
    "/dev",
    "anon_inode ",
];
const RESTS: [&str; 40] = [
    "",
    "[",
    "]",
    "[]",
    "[[",
    "]]",
    "][",
    "[ ]",
    "[0]",
    "[12]",
    "[+12]",
    "[-1]",
    "[+]",
    "[-]",
    "[++1]",
    "[012]",
    "[00000000000000000000000000000007]",
    "[18446744073709551615]",
    "[18446744073709551616]",
    "[99999999999999999999]",
    "[0x1]",
    "[a]",
    "[1a]",
    "[ 1]",
    "[1 ]",
    "[1][2]",
    "[[1]]",
    "[1]]",
    "[[1]",
    "a12b",
    "(12)",
    "12",
    "1",
    "123",
    "[12",
    "12]",
    "[1]:[2]",
    "[eventpoll]",
    "\u{e9}12\u{e9}",
    "[\u{663}]",
];
const NAMES: [&str; 14] = [
    "/",
    "/tmp/a",
    "/memfd:",
    "/memfd:a",
    "/memfd:a:b (deleted)",
    "/memfd",
    "/memfd/a",
    "memfd:a",
    "/memfd: [1]",
    " /memfd:a",
    "a",
    "a b",
    "\n",
    "/tmp/socket:[1]",
];

pub fn listed() -> Vec<Vec<u8>> {
    let mut texts: Vec<Vec<u8>> = NAMES.map(|text| text.as_bytes().to_vec()).to_vec();
    for kind in TYPES {
        for rest in RESTS {
            texts.push(format!("{kind}:{rest}").into_bytes());
        }
    }
    for kind in [
        "socket:",
        "net:",
        "pipe:",
        "anon_inode:",
        "x:",
        ":",
        "/memfd:",
        "/",
        "",
        "socket:[",
        "x:[",
    ] {
        for rest in every(b"[]01+:a", 5) {
            texts.push([kind.as_bytes(), &rest].concat());
        }
    }
    for bytes in NOT_UTF8 {
        texts.push(bytes.to_vec());
        texts.push([b"socket:[1]", bytes].concat());
        texts.push([b"x:[", bytes, b"]"].concat());
    }
    for text in UTF8 {
        texts.push(text.as_bytes().to_vec());
        texts.push(format!("pipe:{text}1{text}").into_bytes());
        texts.push(format!("pipe:[{text}]").into_bytes());
        texts.push(format!("{text}:[7]").into_bytes());
    }
    texts
}

pub fn generated(dice: &mut Dice) -> Vec<u8> {
    match dice.below(8) {
        0 => dice.pick(&NAMES).as_bytes().to_vec(),
        1 => {
            let length = dice.below(24);
            (0..length)
                .map(|_| dice.pick(b"/:[]0189+-socketnpimfd_ "))
                .collect()
        }
        2 | 3 => format!("{}:{}", dice.pick(&TYPES), dice.pick(&RESTS)).into_bytes(),
        _ => {
            let number = dice.next() >> dice.below(64);
            format!("{}:[{number}]", dice.pick(&TYPES)).into_bytes()
        }
    }
}

/// The type and what follows its colon, unless the text is a path.
fn parts(text: &str) -> Option<(&str, &str)> {
    if text.starts_with('/') {
        return None;
    }
    text.split_once(':')
}

pub fn due(text: Text) -> Result<Due, String> {
    let Ok(text) = std::str::from_utf8(text.bytes) else {
        return Ok(due_of(refused(1), None, NOT_TEXT));
    };
    let reference = reference(text)?;
    if let Some((kind, rest)) = parts(text) {
        let bare = rest.len() < 2 || !rest.starts_with('[') || !rest.ends_with(']');
        if ["socket", "net", "pipe"].contains(&kind) && bare {
            return Ok(due_of(refused(20), Some(reference), BRACKETS));
        }
        if !["socket", "net", "pipe", "anon_inode", ""].contains(&kind) && rest == "[]" {
            let ours = Answer::Accepted(format!("unknown {} {}", name(kind), name(rest)));
            return Ok(due_of(ours, Some(reference), EMPTY));
        }
    }
    Ok(Due {
        ours: reference,
        difference: None,
    })
}

fn reference(text: &str) -> Result<Answer, String> {
    let told = match FDTarget::from_str(text) {
        Ok(FDTarget::Path(path)) => format!("path {}", name(path.to_str().ok_or("no text")?)),
        Ok(FDTarget::Socket(inode)) => format!("socket {inode}"),
        Ok(FDTarget::Net(inode)) => format!("net {inode}"),
        Ok(FDTarget::Pipe(inode)) => format!("pipe {inode}"),
        Ok(FDTarget::AnonInode(rest)) => format!("anon_inode {}", name(&rest)),
        Ok(FDTarget::MemFD(rest)) => format!("memfd {}", name(&rest)),
        Ok(FDTarget::Other(kind, inode)) => format!("other {} {inode}", name(&kind)),
        Ok(FDTarget::Unknown(kind, rest)) => format!("unknown {} {}", name(&kind), name(&rest)),
        Err(ProcError::Incomplete(None)) => return Ok(refused(20)),
        Err(ProcError::InternalError(_)) => return Ok(refused(6)),
        Err(error) => return Err(error.to_string()),
    };
    Ok(Answer::Accepted(told))
}
