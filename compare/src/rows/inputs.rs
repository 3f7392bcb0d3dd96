//! The smaps texts of the comparison of figures, and more: flags, keys, and the ends of paths.

use crate::dice::Dice;
use crate::inputs::{
    self, attribute, mapping, Style, ENDS, GAPS, NO_GAPS, PATHS, PATHS_GOOD, PATHS_ODD,
};

const FLAGS: [&str; 32] = [
    "rd", "wr", "ex", "sh", "mr", "mw", "me", "ms", "gd", "pf", "dw", "lo", "io", "sr", "rr", "dc",
    "de", "ac", "nr", "ht", "sf", "nl", "ar", "wf", "dd", "sd", "mm", "hg", "nh", "mg", "um", "uw",
];
/// No names of flags.
const STRANGERS: [&str; 16] = [
    "bt",
    "mt",
    "ss",
    "sl",
    "RD",
    "Rd",
    "rD",
    "r",
    "d",
    "rdd",
    "rdwr",
    "rd,",
    "\u{e9}",
    "rd\u{b}wr",
    "??",
    "dr",
];
/// How a line of flags begins.
const HEADS: [&str; 7] = [
    "VmFlags: ",
    "VmFlags:",
    "VmFlags ",
    "VmFlags",
    "VmFlagsRss: ",
    "VmFlags:\t",
    "VmFlags : ",
];
/// What may stand behind a path.
const WHITE: [&str; 11] = [
    "",
    " ",
    "  ",
    "\t",
    "\r",
    "\u{b}",
    "\u{c}",
    "\u{85}",
    "\u{a0}",
    "\u{3000}",
    " \u{2028}\t",
];
/// Keys that are alike.
const KEYS: [&str; 17] = [
    "A", "AA", "AAA", "Aa", "AB", "A:A", "B", "Ab", "Rss", "Rs", "Rsss", "Rst", "Pss", "Pss_Anon",
    "A\u{e9}", "A\u{e8}", "A\0",
];
const PLAIN: &str = "1000-3000 r--p 00000000 08:01 77 ";

pub fn listed() -> Vec<Vec<u8>> {
    let mut texts: Vec<String> = Vec::new();
    let mut flags = |words: String| {
        texts.push(format!("{PLAIN}/a\nVmFlags: {words}\n"));
        texts.push(format!(
            "{PLAIN}/a\nRss: 1 kB\nVmFlags: {words}\n{PLAIN}\nVmFlags: wr\n"
        ));
    };
    for one in FLAGS.iter().chain(&STRANGERS) {
        flags(one.to_string());
        for other in FLAGS.iter().chain(&STRANGERS) {
            flags(format!("{one} {other}"));
        }
    }
    flags(FLAGS.join(" "));
    for one in FLAGS {
        for other in [one, "ex", "zz", ""] {
            for between in ["", "Rss: 1\n", "VmFlags:\n"] {
                let first = format!("{PLAIN}/a\nVmFlags: {one}\n{between}");
                texts.push(format!("{first}VmFlags: {other} \n"));
                texts.push(format!("{first}{PLAIN}\nVmFlags: {other}"));
            }
        }
    }
    for head in HEADS {
        texts.push(format!("{head}rd\n{PLAIN}\n"));
        for gap in GAPS.iter().chain(&NO_GAPS) {
            for end in ["", "\n", "\r\n", " \n"] {
                texts.push(format!("{PLAIN}\n{head}rd{gap}wr{end}"));
                texts.push(format!("{PLAIN}\n{head}{gap}uw{gap}rd{gap}{end}"));
            }
        }
    }
    for length in 30..=35 {
        for last in ["a", "\u{e9}", "\u{65e5}", "\u{1f4be}", "\0"] {
            if length <= last.len() {
                continue;
            }
            let key = format!("{}{last}", "K".repeat(length - last.len()));
            for colons in ["", ":", ":::"] {
                for value in [
                    "4",
                    "4 kB",
                    "x",
                    "-1 kB",
                    "18014398509481984",
                    "18014398509481984 kB",
                    "18446744073709551615",
                    "",
                ] {
                    texts.push(format!("{PLAIN}/a\n{key}{colons} {value}\n"));
                    texts.push(format!(
                        "{PLAIN}/a\nRss: 1\n{key}{colons} {value}\nRss: 2 kB"
                    ));
                }
                texts.push(format!("{key}{colons} 4\n"));
            }
        }
    }
    for one in KEYS {
        for other in KEYS {
            texts.push(format!("{PLAIN}/a\n{one}: 1\n{other}: 2\n{one}: 3 kB\n"));
            texts.push(format!(
                "{PLAIN}/a\n{one}: 1\n{other} 2\n{PLAIN}/b\n{other}:: 3 kB\n{one} 4"
            ));
        }
    }
    for count in [1, 2, 31, 32, 33, 64, 100, 300] {
        let lines = |step: usize| -> String {
            (0..count)
                .map(|index| format!("Key{}: {index} kB\n", index * step % count))
                .collect()
        };
        texts.push(format!("{PLAIN}\n{}", lines(1)));
        texts.push(format!("{PLAIN}\n{}{}", lines(1), lines(7)));
        texts.push(format!(
            "{PLAIN}\n{}{PLAIN}/x\n{}VmFlags: rd\n",
            lines(7),
            lines(1)
        ));
        texts.push(format!("{PLAIN}/name\nRss: 1\n").repeat(count));
    }
    for path in PATHS.iter().chain(&PATHS_GOOD).chain(&PATHS_ODD) {
        for white in WHITE {
            texts.push(format!("{PLAIN}{path}{white}"));
            texts.push(format!(
                "{PLAIN}{white}{path}{white}\nRss: 1 kB\n{PLAIN}/b\n"
            ));
            texts.push(format!("\u{e9}-1 {path}{white}\n"));
            texts.push(format!(
                "{PLAIN}/\u{65e5} \nRss: 2\n{PLAIN}{path}{white}\r\n"
            ));
        }
    }
    let mut all = inputs::listed();
    all.extend(texts.into_iter().map(String::into_bytes));
    all
}

pub fn generated(dice: &mut Dice) -> Vec<u8> {
    if dice.chance(40) {
        return inputs::generated(dice);
    }
    let style = Style {
        uncommon: dice.pick(&[2, 10, 30]),
        odd: dice.pick(&[0, 0, 0, 3]),
        bad: dice.pick(&[0, 0, 0, 1]),
        most: dice.pick(&[3, 10, 22]),
    };
    let end = if dice.chance(10) { ENDS[1] } else { ENDS[0] };
    let mut text = String::new();
    for _ in 0..dice.pick(&[1, 1, 2, 2, 3, 5, 9]) {
        text += &mapping(dice, &style);
        if dice.chance(15) {
            text += dice.pick(&WHITE);
        }
        text += end;
        for _ in 0..dice.below(style.most + 1) {
            text += &match dice.below(20) {
                0..=2 => flags(dice),
                3..=9 => {
                    let (key, value) = (dice.pick(&KEYS), dice.below(1000));
                    format!(
                        "{key}{} {value}{}",
                        dice.pick(&[":", ":", "", "::"]),
                        dice.pick(&[" kB", ""])
                    )
                }
                10 => {
                    let most = if style.odd > 0 { 35 } else { 32 };
                    let key = "K".repeat(1 + dice.below(most));
                    format!("{key}: {} kB", dice.below(1000))
                }
                _ => attribute(dice, &style),
            };
            text += end;
        }
    }
    if dice.chance(10) && text.ends_with('\n') {
        text.pop();
    }
    text.into_bytes()
}

/// A line of flags.
fn flags(dice: &mut Dice) -> String {
    let mut line = if dice.chance(90) {
        HEADS[0].to_string()
    } else {
        dice.pick(&HEADS).to_string()
    };
    for _ in 0..dice.below(12) {
        line += if dice.chance(90) {
            dice.pick(&FLAGS)
        } else {
            dice.pick(&STRANGERS)
        };
        line += if dice.chance(90) {
            " "
        } else {
            dice.pick(&GAPS)
        };
    }
    line
}
