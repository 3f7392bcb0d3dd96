//! The smaps texts: a list of single cases, and generated ones.

use crate::damage::{line_of, NOT_UTF8, UTF8};
use crate::dice::Dice;

// What stands in a mapping line and in an attribute. GOOD forms are accepted, BAD ones refused, and
// ODD ones fall under an intended difference.

const ADDRESSES: [&str; 4] = [
    "00400000-00452000",
    "7f3505221000-7f35052e5000",
    "563a2453b000-563a2453d000",
    "0-1",
];
const ADDRESSES_GOOD: [&str; 9] = [
    "ffffffffff600000-ffffffffff601000",
    "ffffffffffffffff-ffffffffffffffff",
    "7fA0-7fbB",
    "+1000-+2000",
    "0000000000000000000000001000-2000",
    "1-2-3",
    "1-2-zz",
    "1-2-",
    "a-B",
];
const ADDRESSES_BAD: [&str; 19] = [
    "1000",
    "1000-",
    "-1000",
    "-",
    "",
    "--",
    "1000--2000",
    "-1000-2000",
    "10000000000000000-0",
    "0-10000000000000000",
    "g-1",
    "1-g",
    "1000-2000\t",
    "0x1000-0x2000",
    "++1-2",
    "1-+",
    "\u{a0}1-2",
    "1\u{ff11}-2",
    "A000-B000",
];
const PERMISSIONS: [&str; 4] = ["r--p", "r-xp", "rw-p", "rw-s"];
const PERMISSIONS_GOOD: [&str; 6] = ["----", "rwxsp", "", "zz", "\u{e9}", "RWXP"];
const OFFSETS: [&str; 3] = ["00000000", "00002000", "7ffff000"];
const OFFSETS_GOOD: [&str; 4] = [
    "0",
    "ffffffffffffffff",
    "+1f",
    "00000000000000000000000000000001",
];
const OFFSETS_BAD: [&str; 6] = ["", "-0", "10000000000000000", "x", "0x10", "+"];
const DEVICES: [&str; 3] = ["00:00", "fe:00", "08:02"];
const DEVICES_GOOD: [&str; 7] = [
    "7fffffff:7fffffff",
    "-80000000:-1",
    "+1:+2",
    "-0:-0",
    "1:2:3",
    "1:2:",
    "00000000000001:2",
];
const DEVICES_BAD: [&str; 13] = [
    "1",
    "1:",
    ":1",
    ":",
    "",
    "80000000:0",
    "0:80000000",
    "-80000001:0",
    "ffffffff:0",
    "g:0",
    "0:g",
    "1::2",
    "1;2",
];
const INODES: [&str; 3] = ["0", "247134", "8312"];
const INODES_GOOD: [&str; 3] = ["18446744073709551615", "+5", "0000000000000000000000007"];
const INODES_BAD: [&str; 7] = ["", "18446744073709551616", "-0", "a", "0x1", "+", "1.0"];
pub const PATHS: [&str; 12] = [
    "/usr/lib/x86_64-linux-gnu/libc.so.6",
    "/usr/bin/cat",
    "[heap]",
    "[stack]",
    "[vdso]",
    "[vvar]",
    "[vsyscall]",
    "",
    "",
    "/dev/zero (deleted)",
    "[anon:glibc: malloc]",
    "/SYSV00000000 (deleted)",
];
pub const PATHS_GOOD: [&str; 57] = [
    "[rollup]",
    "[stack:12]",
    "[stack:12:3]",
    "[stack:4294967295]",
    "[stack:+7]",
    "[stack:007]",
    "[stack:1:]",
    "[stack:1:x]",
    "[anon:x]",
    "[anon_shmem:a b]",
    "[vvar_vclock]",
    "[uprobes]",
    "[]",
    "[",
    "]",
    "[x",
    "x]",
    "[heap]x",
    "[heap] ",
    "[heap]\t\u{b}\u{c}",
    "heap",
    "[Stack:1",
    "[stack",
    "[stacks:1",
    " [stack]",
    "[\u{e9}]",
    "[stack:12]\u{a0}",
    "anon_inode:[perf_event]",
    "(unreachable)/a",
    "/memfd:doc (deleted)",
    "/tmp/x (deleted) (deleted)",
    "/tmp/a b c",
    "/tmp/a  b ",
    "/tmp/a\tb\t",
    "/tmp/a\\012b",
    "/tmp/gr\u{f6}\u{df}e/\u{65e5}\u{672c}\u{8a9e}",
    "/tmp/\u{1f4be}",
    "/tmp/a\u{a0}",
    "/tmp/a\u{3000}\u{2028}",
    "\u{a0}",
    "\u{3000}/x",
    "\u{85}",
    "\u{b}",
    "\u{200b}",
    "   ",
    "\t/x",
    "/SYSVfffffffe",
    "/SYSVFFFFFFFF (deleted)",
    "/SYSV00000001 ",
    "/SYSV00000001\u{a0}(deleted)",
    "/SYSV000000001",
    "/SYSV+1234567",
    "/SYSV00000000 (deleted) (deleted)",
    "/SYSV00000000x",
    "/SYS",
    "/sysv00000000",
    "/tmp/SYSV0",
];
pub const PATHS_ODD: [&str; 18] = [
    "/SYSV",
    "/SYSV/a",
    "/SYSVfffffff",
    "/SYSV1234567 (deleted)",
    "/SYSV-0000001",
    "/SYSV++234567",
    "/SYSVgggggggg",
    "/SYSV0000000\u{e9}",
    "/SYSV00000000\u{e9}",
    "/SYSV 0000000",
    "[stack:12",
    "[stack:",
    "[stack:12] x",
    "[stack:]x",
    "[stack:1\u{e9}",
    "[stack:x",
    "[stack:12 (deleted)",
    "[stack:12:3",
];
const PATHS_BAD: [&str; 9] = [
    "[stack:]",
    "[stack:x]",
    "[stack:-1]",
    "[stack:4294967296]",
    "[stack::3]",
    "[stack: 12]",
    "[stack:12 ]",
    "[stack:1\u{e9}]",
    "[stack:12]]",
];
/// Between inode and path.
const PADS: [&str; 5] = ["", "                     ", " ", "\t", "\u{a0}"];

const KEYS: [&str; 19] = [
    "Size:",
    "KernelPageSize:",
    "MMUPageSize:",
    "Pss_Dirty:",
    "Shared_Clean:",
    "Shared_Dirty:",
    "Private_Clean:",
    "Private_Dirty:",
    "Referenced:",
    "Anonymous:",
    "KSM:",
    "LazyFree:",
    "AnonHugePages:",
    "ShmemPmdMapped:",
    "FilePmdMapped:",
    "Shared_Hugetlb:",
    "Private_Hugetlb:",
    "Swap:",
    "Locked:",
];
const SUMMED: [&str; 3] = ["Rss:", "Pss:", "SwapPss:"];
const KEYS_GOOD: [&str; 16] = [
    "Rss",
    "Pss",
    "SwapPss",
    "Rss::",
    "Pss:::",
    "SwapPss::::",
    ":Rss:",
    "R:ss:",
    "RSS:",
    "Rss:x",
    "Pss;",
    "P",
    "Pss\u{b}:",
    "Pss\u{a0}:",
    "Rs\u{e9}:",
    "Z:",
];
const VALUES_GOOD: [&str; 12] = [
    "0",
    "+4",
    "+0",
    "004",
    "00000000000000000000000000000004",
    "+00000000000000000000000000000004",
    "70368744177663",
    "70368744177664",
    "72057594037927936",
    "18014398509481983",
    "1",
    "4096",
];
const VALUES_ODD: [&str; 8] = [
    "18014398509481984",
    "18014398509481985",
    "18446744073709551615",
    "72057594037927937",
    "70368744177665",
    "+18014398509481984",
    "0018014398509481984",
    "36028797018963968",
];
const VALUES_BAD: [&str; 19] = [
    "18446744073709551616",
    "99999999999999999999999",
    "-4",
    "-0",
    "++4",
    "+",
    "-",
    "4kB",
    "4.0",
    "0x4",
    "4,",
    "1_000",
    "\u{664}",
    "\u{ff14}",
    "4\u{a0}",
    "4\u{b}kB",
    "\u{b}4",
    "kB",
    "\u{200b}4",
];
pub const GAPS: [&str; 12] = [
    " ",
    "                  ",
    "\t",
    "\t \t",
    "\u{c}",
    "\r",
    " \u{c} ",
    "\r ",
    " ",
    " ",
    "     ",
    "\u{c}\r\t",
];
/// Not ASCII white: these make one word of two.
pub const NO_GAPS: [&str; 5] = ["\u{b}", "\u{a0}", "\u{3000}", "\u{85}", "\0"];
const SUFFIXES: [&str; 16] = [
    " kB",
    " kB",
    " kB",
    "",
    " MB",
    "\tkB",
    "\u{c}kB",
    " kB extra",
    " 7",
    " \u{a0}",
    " kB ",
    " ",
    "\t\r",
    "\rkB",
    " \u{b}",
    " -",
];
const FLAGS: [&str; 9] = [
    "VmFlags: rd mr mw me ",
    "VmFlags: rd wr mr mw me gd ac sd",
    "VmFlags:",
    "VmFlags",
    "VmFlagsX: 12 kB",
    "VmFlags: 18446744073709551615 kB",
    "VmFlagsRss: 4 kB",
    "VmFlags\u{b}rd",
    "VmFlags: \u{e9} RD rdd",
];
/// Lines that are refused wherever they stand.
const LINES_BAD: [&str; 14] = [
    "",
    "\r",
    " ",
    "\t",
    "     ",
    "rss: 4 kB",
    " Rss: 4 kB",
    "\u{c9}ss: 4 kB",
    "1000-2000 r--p 00000000 00:00 0",
    "1000-2000\tr--p\t00000000\t00:00\t0\t/x",
    "1000-2000  r--p 00000000 00:00 0 /x",
    "Vmflags: rd",
    "VMFLAGS: rd",
    "Rss:  \u{a0}",
];
pub const ENDS: [&str; 2] = ["\n", "\r\n"];

/// One text for each form of each part.
pub fn listed() -> Vec<Vec<u8>> {
    let mut texts: Vec<String> = Vec::new();
    let first = "1000-3000 r--p 00000000 08:01 77 /a\nRss: 8 kB\nPss: 4 kB\n";
    let line = |parts: [&str; 6]| parts.join(" ");
    let plain = ["1000-3000", "rw-p", "00001000", "08:01", "77", "/a"];
    let columns: [&[&[&str]]; 6] = [
        &[&ADDRESSES, &ADDRESSES_GOOD, &ADDRESSES_BAD],
        &[&PERMISSIONS, &PERMISSIONS_GOOD],
        &[&OFFSETS, &OFFSETS_GOOD, &OFFSETS_BAD],
        &[&DEVICES, &DEVICES_GOOD, &DEVICES_BAD],
        &[&INODES, &INODES_GOOD, &INODES_BAD],
        &[&PATHS, &PATHS_GOOD, &PATHS_ODD, &PATHS_BAD],
    ];
    for (place, lists) in columns.iter().enumerate() {
        for form in lists.iter().flat_map(|list| list.iter()) {
            let mut parts = plain;
            parts[place] = form;
            texts.push(format!("{}\nPss: 3 kB\n", line(parts)));
            texts.push(format!("{first}{}", line(parts)));
            texts.push(format!("{first}{}\r\nSwapPss: 2 kB\r\nRss: 1", line(parts)));
            // The rules in turn: a bad part before it, and one after it.
            if place > 0 {
                parts[place - 1] = "?";
                texts.push(format!("{}\n", line(parts)));
                parts[place - 1] = plain[place - 1];
            }
            if place < 5 {
                parts[place + 1] = if place == 4 { "[stack:12" } else { "?" };
                texts.push(format!("{}\n", line(parts)));
            }
        }
    }
    for pieces in 0..6 {
        texts.push(format!("{}\n", plain[..pieces].join(" ")));
        texts.push(format!("{} ", plain[..pieces].join(" ")));
        texts.push(format!("{first}{}\nRss: 1\n", plain[..pieces].join(" ")));
    }
    for pad in PADS {
        for path in PATHS.iter().chain(&PATHS_GOOD) {
            texts.push(format!(
                "1000-3000 r--p 00000000 08:01 77 {pad}{path}\nPss: 1 kB\n"
            ));
        }
    }
    for key in SUMMED.iter().chain(&KEYS_GOOD) {
        for value in VALUES_GOOD.iter().chain(&VALUES_ODD).chain(&VALUES_BAD) {
            for suffix in ["", " kB"] {
                texts.push(format!("{first}{key} {value}{suffix}\n"));
            }
        }
    }
    for key in SUMMED {
        for suffix in SUFFIXES {
            for gap in GAPS.iter().chain(&NO_GAPS) {
                texts.push(format!("{first}{key}{gap}5{suffix}\n"));
            }
            texts.push(format!("{first}{key} 5{suffix}"));
            texts.push(format!("{first}{key} 5{suffix}\r\nPss: 1\n"));
        }
        texts.push(format!("{first}{key}\n"));
        texts.push(format!("{first}{key} \n{key} 7 kB\n{key}\n"));
        texts.push(format!("{first}{key} 7 kB\n{key} 6 kB\n{key} 5\n"));
        texts.push(format!("{key} 7 kB\n"));
        texts.push(format!("{key} 7 kB\n{first}"));
    }
    for flags in FLAGS {
        texts.push(format!("{first}{flags}\n"));
        texts.push(format!("{first}{flags}"));
        texts.push(format!("{flags}\n{first}"));
    }
    for bad in LINES_BAD {
        texts.push(bad.to_string());
        texts.push(format!("{bad}\n"));
        texts.push(format!("{first}{bad}\n"));
        texts.push(format!("{first}{bad}\n{first}"));
        texts.push(format!("{first}Rss: 72057594037927937\n{bad}\n"));
    }
    texts.push(String::new());
    texts.push(first.repeat(2));
    texts.push(first.trim_end().to_string());

    let mut texts: Vec<Vec<u8>> = texts.into_iter().map(String::into_bytes).collect();
    for wrong in NOT_UTF8 {
        for (before, after) in [
            ("", ""),
            (first, "\n"),
            (first, ""),
            ("1-2 r--p 0 0:0 0 /", "\nRss: 1\n"),
            ("Rss: 1", "\n"),
        ] {
            texts.push([before.as_bytes(), wrong, after.as_bytes()].concat());
        }
        // A total past its cap stays open at such a line.
        texts.push([first.as_bytes(), b"Rss: 72057594037927937\n", wrong, b"\n"].concat());
    }
    for length in 4094..=4098 {
        for end in ["", "\n", "\nRss: 1\n", "\n\n"] {
            texts.push(line_of(length, "1-2 r--p 0 0:0 0 /", end));
            texts.push([first.as_bytes(), &line_of(length, "Rss: 1 kB ", end)].concat());
            texts.push([first.as_bytes(), &line_of(length, "VmFlags: ", end)].concat());
            texts.push(line_of(length, "Rss: 1 kB ", end));
            texts.push([first.as_bytes(), &line_of(length, "?", end)].concat());
            texts.push([first.as_bytes(), &line_of(length, "?", end), b"\xff"].concat());
            texts.push(
                [
                    first.as_bytes(),
                    b"Rss: 72057594037927937\n",
                    &line_of(length, "2-3 ", end),
                ]
                .concat(),
            );
            texts.push([&line_of(length, "1-2 r--p 0 0:0 0 /", ""), &b"\xff\n"[..]].concat());
        }
    }
    texts
}

/// Texts about as long as a text may be: 65536 lines of 4096 bytes, and more. One at a time.
pub fn huge(which: usize) -> Option<Vec<u8>> {
    let ends: [&[u8]; 4] = [b"", b"A", b"\xff\n", &[b'A'; 4096]];
    let end = ends.get(which)?;
    let attribute = line_of(4095, "A", "\n");
    let mut text = line_of(4095, "1-2 r--p 0 0:0 0 /", "\n");
    while text.len() < 268_435_456 {
        text.extend_from_slice(&attribute);
    }
    text.extend_from_slice(end);
    Some(text)
}

/// How a generated text departs from what a kernel writes.
pub struct Style {
    /// Percent of parts that take an uncommon form that is accepted.
    pub uncommon: usize,
    /// Percent of parts that take a form under an intended difference.
    pub odd: usize,
    /// Percent of parts that take a form that is refused.
    pub bad: usize,
    /// Attributes of a mapping, at most.
    pub most: usize,
}

/// A generated text.
pub fn generated(dice: &mut Dice) -> Vec<u8> {
    match dice.below(100) {
        0..=3 => near_cap(dice),
        4..=6 => long_line(dice),
        7..=9 => jumble(dice),
        kind => {
            let style = Style {
                uncommon: dice.pick(&[0, 2, 10, 30]),
                odd: if kind < 20 { 6 } else { 0 },
                bad: if kind >= 65 {
                    dice.pick(&[2, 4, 10])
                } else {
                    0
                },
                most: dice.pick(&[3, 6, 10, 22]),
            };
            ordinary(dice, &style).into_bytes()
        }
    }
}

/// Mappings with their attributes.
fn ordinary(dice: &mut Dice, style: &Style) -> String {
    let mut text = String::new();
    if dice.below(400) < style.bad {
        text.push_str(&attribute(dice, style));
        text.push('\n');
    }
    let end = if dice.chance(style.uncommon) {
        ENDS[1]
    } else {
        ENDS[0]
    };
    for _ in 0..dice.pick(&[0, 1, 1, 1, 2, 2, 2, 3, 3, 4, 7]) {
        text.push_str(&mapping(dice, style));
        text.push_str(end);
        for _ in 0..dice.below(style.most + 1) {
            text.push_str(&attribute(dice, style));
            text.push_str(end);
        }
        if dice.chance(40) {
            text.push_str(if dice.chance(style.uncommon) {
                dice.pick(&FLAGS)
            } else {
                FLAGS[0]
            });
            text.push_str(end);
        }
        if dice.below(400) < style.bad {
            text.push_str(dice.pick(&LINES_BAD));
            text.push_str(end);
        }
    }
    if dice.chance(10) && text.ends_with('\n') {
        text.pop();
    }
    text
}

/// One form of a part.
fn form<'a>(
    dice: &mut Dice,
    style: &Style,
    common: &[&'a str],
    good: &[&'a str],
    bad: &[&'a str],
) -> &'a str {
    if !bad.is_empty() && dice.chance(style.bad) {
        dice.pick(bad)
    } else if !good.is_empty() && dice.chance(style.uncommon) {
        dice.pick(good)
    } else {
        dice.pick(common)
    }
}

pub fn mapping(dice: &mut Dice, style: &Style) -> String {
    let address = if dice.chance(70) {
        let start = dice.next() >> 17 & !0xfff;
        let end = start + 4096 * (1 + dice.below(300) as u64);
        format!("{start:08x}-{end:08x}")
    } else {
        form(dice, style, &ADDRESSES, &ADDRESSES_GOOD, &ADDRESSES_BAD).to_string()
    };
    let permissions = form(dice, style, &PERMISSIONS, &PERMISSIONS_GOOD, &[]);
    let offset = form(dice, style, &OFFSETS, &OFFSETS_GOOD, &OFFSETS_BAD);
    let device = form(dice, style, &DEVICES, &DEVICES_GOOD, &DEVICES_BAD);
    let inode = form(dice, style, &INODES, &INODES_GOOD, &INODES_BAD);
    let path = if dice.chance(style.odd * 3) {
        dice.pick(&PATHS_ODD)
    } else {
        form(dice, style, &PATHS, &PATHS_GOOD, &PATHS_BAD)
    };
    let head = format!("{address} {permissions} {offset} {device} {inode} ");
    if dice.chance(style.uncommon) {
        format!("{head}{}{path}", dice.pick(&PADS))
    } else if path.is_empty() {
        head
    } else {
        // The kernel writes the path from column 73 on.
        format!("{head:<73}{path}")
    }
}

pub fn attribute(dice: &mut Dice, style: &Style) -> String {
    let key = if dice.chance(50) {
        dice.pick(&SUMMED)
    } else {
        form(dice, style, &KEYS, &KEYS_GOOD, &[])
    };
    let value = if dice.chance(style.odd) {
        dice.pick(&VALUES_ODD).to_string()
    } else if dice.chance(style.bad) {
        dice.pick(&VALUES_BAD).to_string()
    } else if dice.chance(style.uncommon) {
        dice.pick(&VALUES_GOOD).to_string()
    } else {
        (dice.next() >> dice.pick(&[44, 52, 60, 63])).to_string()
    };
    let gap = if dice.chance(style.bad) {
        dice.pick(&NO_GAPS)
    } else if dice.chance(style.uncommon) {
        dice.pick(&GAPS)
    } else {
        " "
    };
    let suffix = if dice.chance(style.uncommon) {
        dice.pick(&SUFFIXES)
    } else {
        " kB"
    };
    if dice.chance(style.uncommon / 4) {
        // One word sets nothing.
        return key.to_string();
    }
    if gap == " " && style.most == 22 {
        return format!("{key:<16}{value:>8}{suffix}");
    }
    format!("{key}{gap}{value}{suffix}")
}

/// Mappings whose values of one key come to about the most that a total may be.
fn near_cap(dice: &mut Dice) -> Vec<u8> {
    let key = dice.pick(&SUMMED);
    let count = 1 + dice.below(5);
    let mut left = (1u64 << 56).wrapping_add_signed(dice.pick(&[-1024, -1, 0, 0, 1, 1024]));
    let style = Style {
        uncommon: 0,
        odd: 0,
        bad: if dice.chance(30) { 10 } else { 0 },
        most: 2,
    };
    let mut text = String::new();
    for index in 0..count {
        let mut part = if index + 1 == count {
            left
        } else {
            dice.next() % (left + 1)
        };
        if dice.chance(50) && index + 1 < count {
            part -= part % 1024;
        }
        left -= part;
        text.push_str(&mapping(dice, &style));
        text.push('\n');
        if dice.chance(20) {
            // Replaced by the line below it.
            text.push_str(&format!("{key} 18014398509481983 kB\n"));
        }
        if part % 1024 == 0 && dice.chance(60) {
            text.push_str(&format!("{key} {} kB\n", part / 1024));
        } else {
            text.push_str(&format!("{key} {part}\n"));
        }
        if dice.chance(30) {
            text.push_str(&attribute(
                dice,
                &Style {
                    uncommon: 100,
                    ..style
                },
            ));
            text.push('\n');
        }
    }
    text.into_bytes()
}

/// A line of about 4096 bytes among others.
fn long_line(dice: &mut Dice) -> Vec<u8> {
    let style = Style {
        uncommon: 5,
        odd: 0,
        bad: if dice.chance(20) { 5 } else { 0 },
        most: 3,
    };
    let mut text = ordinary(dice, &style).into_bytes();
    if !text.is_empty() && !text.ends_with(b"\n") {
        text.push(b'\n');
    }
    let length = dice.pick(&[4000, 4094, 4095, 4095, 4096, 4096, 4097, 5000, 8192, 8193]);
    let start = dice.pick(&[
        "1-2 r--p 0 0:0 0 /",
        "Rss: 12 kB ",
        "VmFlags: rd ",
        "Xyz",
        "1-2 r--p 0 0:0 0 [anon:",
        "\u{e9}",
    ]);
    let end = dice.pick(&["\n", "\n", "\n", "", "\r\n"]);
    text.extend_from_slice(&line_of(length, start, end));
    if end != "" {
        text.extend_from_slice(ordinary(dice, &style).as_bytes());
    }
    text
}

/// Words and white in any order.
fn jumble(dice: &mut Dice) -> Vec<u8> {
    let style = Style {
        uncommon: 40,
        odd: 10,
        bad: 10,
        most: 3,
    };
    let mut text = String::new();
    for _ in 0..dice.below(12) {
        match dice.below(10) {
            0 => text.push_str(&mapping(dice, &style)),
            1 => text.push_str(&attribute(dice, &style)),
            2 => text.push_str(dice.pick(&FLAGS)),
            3 => text.push_str(dice.pick(&LINES_BAD)),
            4 => text.push_str(dice.pick(&NO_GAPS)),
            5 => text.push_str(dice.pick(&PATHS_GOOD)),
            6 => text.push_str(dice.pick(&UTF8)),
            7 => text.push_str(dice.pick(&GAPS)),
            _ => text.push('\n'),
        }
    }
    text.into_bytes()
}
