//! The names of a status text that fields are read from.

use Form::*;

/// What a value is read as.
#[derive(Clone, Copy, Debug, PartialEq, Eq)]
pub enum Form {
    Text,
    /// A `u32` at base 8.
    Octal,
    /// An `i32`.
    Signed,
    /// A `u32`.
    Small,
    /// A `u64`.
    Large,
    /// A `u64` at base 16.
    Mask,
    /// A `u64` with " kB".
    Kilo,
    /// Four words, each a `u32` and a field.
    Owners,
    /// Words, each a `u32`.
    Groups,
    /// Words, each an `i32`.
    Pids,
    /// Two parts with a slash between, each a `u64`.
    Queue,
    /// Pieces between commas, each a `u32` at base 16.
    Words,
    /// Pieces between commas, each one or two of `u32`.
    Ranges,
    /// Whether it is "1".
    Flag,
}

impl Form {
    /// The items that there is room for in our library.
    pub fn room(self) -> Option<usize> {
        match self {
            Groups | Ranges => Some(128),
            Pids => Some(32),
            Words => Some(256),
            _ => None,
        }
    }

    /// A value that is accepted.
    pub fn good(self) -> &'static str {
        match self {
            Text => "x",
            Octal => "0022",
            Signed | Small | Large => "7",
            Mask => "00000000000000ff",
            Kilo => "12 kB",
            Owners => "1 2 3 4",
            Groups | Pids => "5 6",
            Queue => "0/9",
            Words => "3,ffffffff",
            Ranges => "0-1,3",
            Flag => "1",
        }
    }
}

pub struct Name {
    pub name: &'static str,
    pub form: Form,
    /// The field, or the first of four.
    pub field: usize,
}

const fn name(name: &'static str, form: Form, field: usize) -> Name {
    Name { name, form, field }
}

/// In the order of the fields.
pub static NAMES: [Name; 55] = [
    name("Name", Text, 1),
    name("Umask", Octal, 2),
    name("State", Text, 3),
    name("Tgid", Signed, 4),
    name("Ngid", Signed, 5),
    name("Pid", Signed, 6),
    name("PPid", Signed, 7),
    name("TracerPid", Signed, 8),
    name("Uid", Owners, 9),
    name("Gid", Owners, 13),
    name("FDSize", Small, 17),
    name("Groups", Groups, 18),
    name("NStgid", Pids, 19),
    name("NSpid", Pids, 20),
    name("NSpgid", Pids, 21),
    name("NSsid", Pids, 22),
    name("VmPeak", Kilo, 23),
    name("VmSize", Kilo, 24),
    name("VmLck", Kilo, 25),
    name("VmPin", Kilo, 26),
    name("VmHWM", Kilo, 27),
    name("VmRSS", Kilo, 28),
    name("RssAnon", Kilo, 29),
    name("RssFile", Kilo, 30),
    name("RssShmem", Kilo, 31),
    name("VmData", Kilo, 32),
    name("VmStk", Kilo, 33),
    name("VmExe", Kilo, 34),
    name("VmLib", Kilo, 35),
    name("VmPTE", Kilo, 36),
    name("VmSwap", Kilo, 37),
    name("HugetlbPages", Kilo, 38),
    name("Threads", Large, 39),
    name("SigQ", Queue, 40),
    name("SigPnd", Mask, 41),
    name("ShdPnd", Mask, 42),
    name("SigBlk", Mask, 43),
    name("SigIgn", Mask, 44),
    name("SigCgt", Mask, 45),
    name("CapInh", Mask, 46),
    name("CapPrm", Mask, 47),
    name("CapEff", Mask, 48),
    name("CapBnd", Mask, 49),
    name("CapAmb", Mask, 50),
    name("NoNewPrivs", Large, 51),
    name("Seccomp", Small, 52),
    name("Speculation_Store_Bypass", Text, 53),
    name("Cpus_allowed", Words, 54),
    name("Cpus_allowed_list", Ranges, 55),
    name("Mems_allowed", Words, 56),
    name("Mems_allowed_list", Ranges, 57),
    name("voluntary_ctxt_switches", Large, 58),
    name("nonvoluntary_ctxt_switches", Large, 59),
    name("CoreDumping", Flag, 60),
    name("THP_enabled", Flag, 61),
];

/// The number of fields.
pub const FIELDS: usize = 61;

/// The name that a line gives a value to.
pub fn find(name: &str) -> Option<&'static Name> {
    NAMES.iter().find(|each| each.name == name)
}
