//! The values that status texts are made of.

use crate::dice::Dice;
use crate::status::names::{Form, Name};

/// Values of a form. Every one of `good` is accepted, one of `bad` is refused (of a range list: it is
/// absent), and one of `odd` falls under an intended difference.
pub struct Values {
    pub good: &'static [&'static str],
    pub bad: &'static [&'static str],
    pub odd: &'static [&'static str],
}

pub fn values(name: &Name) -> Values {
    let (good, bad): (&[&str], &[&str]) = match name.form {
        Form::Text => (&TEXTS, &[]),
        Form::Octal => (&OCTALS_GOOD, &OCTALS_BAD),
        Form::Signed => (&SIGNED_GOOD, &SIGNED_BAD),
        Form::Small => (&SMALL_GOOD, &SMALL_BAD),
        Form::Large => (&LARGE_GOOD, &LARGE_BAD),
        Form::Mask => (&MASKS_GOOD, &MASKS_BAD),
        Form::Kilo => (&KILOS_GOOD, &KILOS_BAD),
        Form::Owners => (&OWNERS_GOOD, &OWNERS_BAD),
        Form::Groups => (&GROUPS_GOOD, &GROUPS_BAD),
        Form::Pids => (&PIDS_GOOD, &PIDS_BAD),
        Form::Queue => (&QUEUES_GOOD, &QUEUES_BAD),
        Form::Words => (&WORDS_GOOD, &WORDS_BAD),
        Form::Ranges => (&RANGES_GOOD, &RANGES_BAD),
        Form::Flag => (&FLAGS, &[]),
    };
    let odd: &[&str] = match name.form {
        Form::Text if name.field == 1 => &NAMES_ODD,
        Form::Kilo => &KILOS_ODD,
        _ => &[],
    };
    Values { good, bad, odd }
}

const TEXTS: [&str; 24] = [
    "cat",
    "S (sleeping)",
    "thread vulnerable",
    "",
    "a  b",
    "(sd-pam)",
    "\"q\"",
    "\\n",
    "\\",
    "-",
    "[]",
    "\u{e9}t\u{e9}",
    "\u{65e5}\u{672c}",
    "\u{1f4be}",
    "\u{200b}",
    "\u{feff}x",
    "a\u{a0}b",
    "\u{1c}",
    "\u{7f}\u{0}",
    "a\tb",
    "a\rb",
    "a\u{b}b",
    "\u{e000}",
    "1 kB",
];
const NAMES_ODD: [&str; 9] = [
    "kworker/0:1-events",
    "a:b",
    "a : b",
    "a:",
    "a::",
    "::",
    "a:\u{a0}:\u{2003}",
    ":a",
    "Name:\tx",
];
const OCTALS_GOOD: [&str; 7] = [
    "0022",
    "0",
    "7",
    "+22",
    "37777777777",
    "0000000000000000000000000007",
    "0777",
];
const OCTALS_BAD: [&str; 12] = [
    "",
    "8",
    "0028",
    "40000000000",
    "-0",
    "-1",
    "0o22",
    "0 22",
    "+",
    "++1",
    "\u{ff11}",
    "0022 kB",
];
const SIGNED_GOOD: [&str; 9] = [
    "0",
    "1",
    "+1",
    "-1",
    "-0",
    "007",
    "2147483647",
    "-2147483648",
    "-00000000000000000000000000002147483648",
];
const SIGNED_BAD: [&str; 19] = [
    "",
    "2147483648",
    "-2147483649",
    "4294967295",
    "99999999999999999999",
    "+",
    "-",
    "--1",
    "+-1",
    "-+1",
    "1 2",
    "1\t2",
    "1\u{a0}2",
    "1.0",
    "0x1",
    "a",
    "1_0",
    "\u{664}",
    "1 kB",
];
const SMALL_GOOD: [&str; 6] = ["0", "1", "+7", "007", "4294967295", "+0000000000000000256"];
const SMALL_BAD: [&str; 14] = [
    "",
    "4294967296",
    "18446744073709551616",
    "-0",
    "-1",
    "+",
    "++1",
    "1 2",
    "1,2",
    "0x1",
    "f",
    "\u{ff11}",
    "1\u{85}2",
    "1 kB",
];
const LARGE_GOOD: [&str; 7] = [
    "0",
    "1",
    "+7",
    "007",
    "4294967296",
    "18446744073709551615",
    "+00000000000000000000018446744073709551615",
];
const LARGE_BAD: [&str; 14] = [
    "",
    "18446744073709551616",
    "99999999999999999999999999999999",
    "-0",
    "-1",
    "+",
    "++1",
    "1 2",
    "1.",
    "0x1",
    "f",
    "\u{ff11}",
    "1\u{b}2",
    "1 kB",
];
const MASKS_GOOD: [&str; 8] = [
    "0000000000000000",
    "0",
    "000001ffffffffff",
    "ffffffffffffffff",
    "FFFFFFFFFFFFFFFF",
    "+f",
    "aBcDeF",
    "000000000000000000000000000000001",
];
const MASKS_BAD: [&str; 12] = [
    "",
    "10000000000000000",
    "fffffffffffffffff",
    "g",
    "0x1",
    "-1",
    "-0",
    "+",
    "1 2",
    "1,2",
    "f\u{2003}f",
    "f kB",
];
const KILOS_GOOD: [&str; 10] = [
    "12 kB",
    "12",
    "0 kB",
    "+12 kB",
    "+12",
    "012 kB",
    "18446744073709551615 kB",
    "18446744073709551615",
    "0000000000000000000000000000000012 kB",
    "12 kB\u{b}\u{2003}",
];
const KILOS_BAD: [&str; 30] = [
    "",
    "kB",
    "  kB",
    "x kB",
    "12  kB",
    "12kB",
    "12 KB",
    "12 kb",
    "12 MB",
    "12 k",
    "12\tkB",
    "12\u{a0}kB",
    "12 kB x",
    "12 kBx",
    "1 2 kB",
    "-1 kB",
    "-0 kB",
    "+ kB",
    "18446744073709551616 kB",
    "99999999999999999999999",
    "0x1 kB",
    "f kB",
    "1.0 kB",
    "\u{ff11} kB",
    "1  kBkB",
    "12 \u{a0}kB",
    "  kB12",
    "9 kB 9",
    "12 kB\u{a0} kB2",
    "12 kB kBx kB",
];
const KILOS_ODD: [&str; 7] = [
    "12 kB kB",
    "12 kB kB kB",
    "1 kB2",
    "1 kB2 kB",
    "1 kB2 kB3 kB",
    "+ kB1",
    "0 kB0",
];
const OWNERS_GOOD: [&str; 9] = [
    "0\t0\t0\t0",
    "1000\t1000\t1000\t1000",
    "4294967295 4294967294 1 0",
    "+1 02 3 4",
    "1 2 3 4 5",
    "1 2 3 4 x",
    "1\u{2003}2\u{a0}3\u{85}4",
    "1\u{b}2\u{c}3\r4",
    "1   2 \t 3    4",
];
const OWNERS_BAD: [&str; 22] = [
    "",
    "1",
    "1 2",
    "1 2 3",
    "x",
    "1 x",
    "1 2 x",
    "1 2 3 x",
    "x 2 3 4",
    "1 x 3 4",
    "1 2 x 4",
    "4294967296 2 3 4",
    "1 4294967296 3 4",
    "1 2 4294967296 4",
    "1 2 3 4294967296",
    "-1 2 3 4",
    "1 -1 3 4",
    "1 2 -0 4",
    "1 2 3 +",
    "1,2,3,4",
    "1\u{200b}2 3 4 5",
    "x y",
];
const GROUPS_GOOD: [&str; 9] = [
    "",
    " ",
    "0",
    "0 ",
    "4 24 27 30 46 ",
    "4294967295 +1 007",
    "1\u{a0}2\u{85}3\u{2003}4",
    "1\u{b}2\u{c}3\r4",
    "1     2\t3",
];
const GROUPS_BAD: [&str; 11] = [
    "x",
    "1 x",
    "x 1",
    "1 2 4294967296",
    "-1",
    "1 -0",
    "1,2",
    "+",
    "1 \u{200b} 2",
    "0x1",
    "1 kB",
];
const PIDS_GOOD: [&str; 8] = [
    "",
    "1",
    "4242\t17\t1",
    "-1 0 1",
    "2147483647 -2147483648",
    "+1 007 -0",
    "1\u{a0}2\u{85}3\u{2003}4",
    "1\u{b}2\u{c}3\r4",
];
const PIDS_BAD: [&str; 9] = [
    "x",
    "1 x",
    "2147483648",
    "1 -2147483649",
    "1,2",
    "-",
    "1 + 2",
    "1 \u{200b}",
    "1 kB",
];
const QUEUES_GOOD: [&str; 9] = [
    "0/96349",
    "0/0",
    "+1/+2",
    "1/2/3",
    "1/2/",
    "1/2/x",
    "1/2//",
    "18446744073709551615/18446744073709551615",
    "007/0000000000000000000000008",
];
const QUEUES_BAD: [&str; 20] = [
    "",
    "1",
    "+007",
    "18446744073709551615",
    "18446744073709551616",
    "1 2",
    "x",
    "/",
    "1/",
    "/1",
    "x/1",
    "1/x",
    "1 /2",
    "1/ 2",
    "-1/1",
    "1/-1",
    "18446744073709551616/1",
    "1/18446744073709551616",
    "1\\2",
    "1//2",
];
const WORDS_GOOD: [&str; 7] = [
    "3",
    "ff",
    "00000000,00000003",
    "ffffffff,FFFFFFFF",
    "+f",
    "0,0,+1",
    "000000000000000000000001",
];
const WORDS_BAD: [&str; 14] = [
    "",
    ",",
    "f,",
    ",f",
    "f,,f",
    "g",
    "f,g",
    "100000000",
    "f,100000000",
    "-1",
    "f, f",
    "f ,f",
    "0x1",
    "+",
];
const RANGES_GOOD: [&str; 10] = [
    "0-1",
    "0",
    "0,2-4,7",
    "1-2-3",
    "1-2-",
    "1-2-x",
    "5-3",
    "+1-+2",
    "007-0000000000000000009",
    "4294967295,0-4294967295",
];
const RANGES_BAD: [&str; 20] = [
    "",
    "-",
    "1-",
    "-1",
    "--",
    "1--2",
    "-1-2",
    ",",
    "1,",
    ",1",
    "1,,2",
    "x",
    "1-x",
    "x-1",
    "1,x",
    "4294967296",
    "0-4294967296",
    "1 -2",
    "1, 2",
    "1\u{a0}-2",
];
const FLAGS: [&str; 11] = [
    "0", "1", "", "2", "01", "+1", "1 1", "true", "1.", "\u{ff11}", "1 kB",
];

/// White that is trimmed off a value, and some that is none.
pub const PADS: [&str; 16] = [
    "", " ", "\t ", "\u{b}", "\u{c}", "\r", "\u{85}", "\u{a0}", "\u{1680}", "\u{2003}", "\u{2028}",
    "\u{202f}", "\u{205f}", "\u{3000}", "\u{1c}", "\u{200b}",
];

/// A value as kernels write it.
pub fn common(dice: &mut Dice, name: &Name) -> String {
    let bits = dice.pick(&[63, 60, 56, 48]);
    let number = dice.next() >> bits;
    match name.form {
        Form::Text => dice
            .pick(match name.field {
                1 => &["cat", "systemd", "Web Content", "rcu_sched", "(sd-pam)"],
                3 => &[
                    "S (sleeping)",
                    "R (running)",
                    "I (idle)",
                    "D (disk sleep)",
                    "Z (zombie)",
                ],
                _ => &[
                    "thread vulnerable",
                    "not vulnerable",
                    "vulnerable",
                    "unknown",
                    "thread force mitigated",
                ],
            })
            .to_string(),
        Form::Octal => dice.pick(&["0022", "0002", "0077", "0000"]).to_string(),
        Form::Signed | Form::Small | Form::Large => number.to_string(),
        Form::Mask => format!("{:016x}", dice.next() >> dice.pick(&[0, 23, 32, 63])),
        Form::Kilo => format!("{number:>8} kB"),
        Form::Owners => format!("{number}\t{number}\t{number}\t{number}"),
        Form::Groups => {
            let count = dice.pick(&[0, 0, 1, 2, 7, 20]);
            format!("{} ", items(dice, name.form, count).join(" "))
        }
        Form::Pids => {
            let count = dice.pick(&[1, 1, 1, 2, 3]);
            items(dice, name.form, count).join("\t")
        }
        Form::Queue => format!("{}/{}", number % 100, dice.pick(&[1024, 15432, 96349])),
        Form::Words => match dice.pick(&[1, 1, 2, 4, 32]) {
            1 => format!("{:x}", dice.next() >> 60),
            count => {
                let mut words = vec!["00000000".to_string(); count];
                words[count - 1] = format!("{:08x}", dice.next() >> 50);
                words.join(",")
            }
        },
        Form::Ranges => {
            let count = dice.pick(&[1, 1, 1, 2, 5]);
            items(dice, name.form, count).join(",")
        }
        Form::Flag => dice.pick(&["0", "1"]).to_string(),
    }
}

/// Good items of a list.
pub fn items(dice: &mut Dice, form: Form, count: usize) -> Vec<String> {
    let mut items = Vec::new();
    for _ in 0..count {
        let number = dice.next() >> dice.pick(&[62, 60, 50, 40]);
        items.push(match form {
            Form::Words => format!("{number:x}"),
            Form::Ranges if dice.chance(50) => format!("{number}-{}", number + 3),
            _ => number.to_string(),
        });
    }
    items
}

/// The items of a list as one value.
pub fn joined(form: Form, items: &[String]) -> String {
    items.join(match form {
        Form::Words | Form::Ranges => ",",
        _ => " ",
    })
}
