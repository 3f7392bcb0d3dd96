//! A mapping as procfs-core has it, and as lists have it: address, permissions, offset, device, inode,
//! the case of the path with its number, where its name stands, and its name; flags and attributes.

use procfs_core::process::{MMapPath, MemoryMap};
use std::os::unix::ffi::OsStrExt;

/// The case of a path, from 0 in the order of `MMapPath`, its number, and its name.
#[derive(Clone, PartialEq, Eq)]
pub struct Path {
    pub kind: u8,
    pub number: i64,
    pub name: Vec<u8>,
}

impl Path {
    pub fn of(path: &MMapPath) -> Path {
        let plain = |kind, number| Path {
            kind,
            number,
            name: Vec::new(),
        };
        match path {
            MMapPath::Path(name) => Path::file(name.as_os_str().as_bytes()),
            MMapPath::Heap => plain(1, 0),
            MMapPath::Stack => plain(2, 0),
            MMapPath::TStack(thread) => plain(3, i64::from(*thread)),
            MMapPath::Vdso => plain(4, 0),
            MMapPath::Vvar => plain(5, 0),
            MMapPath::Vsyscall => plain(6, 0),
            MMapPath::Rollup => plain(7, 0),
            MMapPath::Anonymous => plain(8, 0),
            MMapPath::Vsys(key) => plain(9, i64::from(*key)),
            MMapPath::Other(name) => Path {
                name: name.as_bytes().to_vec(),
                ..plain(10, 0)
            },
        }
    }

    pub fn file(name: &[u8]) -> Path {
        Path {
            kind: 0,
            number: 0,
            name: name.to_vec(),
        }
    }
}

/// The mapping with this path, which begins at `at`, and its attributes in the order of these keys.
pub fn shown(map: &MemoryMap, path: &Path, at: usize, keys: &[String]) -> String {
    let place = match path.kind {
        0 => at,
        10 => at + 1,
        _ => 0,
    };
    let attributes: Vec<String> = keys
        .iter()
        .map(|key| format!("{}={}", quoted(key.as_bytes()), map.extension.map[key]))
        .collect();
    format!(
        "{}-{} {} {} {}:{} {} {} {} {place} {} {} [{}]",
        map.address.0,
        map.address.1,
        map.perms.bits(),
        map.offset,
        map.dev.0,
        map.dev.1,
        map.inode,
        path.kind,
        path.number,
        quoted(&path.name),
        map.extension.vm_flags.bits(),
        attributes.join(",")
    )
}

/// Bytes between quotes: a backslash twice, and what is no printed ASCII character in base 16.
fn quoted(bytes: &[u8]) -> String {
    let mut out = "\"".to_string();
    for byte in bytes {
        match byte {
            b'\\' => out += "\\\\",
            b'!' | b'#'..=b'~' => out.push(char::from(*byte)),
            _ => out += &format!("\\x{byte:02x}"),
        }
    }
    out + "\""
}
