//! The limits texts: a list of single cases, and generated ones.

use crate::damage::{line_of, NOT_UTF8, UTF8};
use crate::dice::Dice;
use crate::limits::names::{Name, NAMES};

const HEADING: &str =
    "Limit                     Soft Limit           Hard Limit           Units     ";
const HEADINGS: [&str; 9] = [
    "Limit",
    " \tLimit Soft Hard",
    "Limitless",
    "Limit:",
    "Limits of a b c d",
    "\u{a0}Limit",
    "\u{b}\u{2003}Limit 1 2",
    "Limit\u{e9}",
    "LimitMax cpu time 1 2 seconds",
];
/// Three words and more of other names.
const FOREIGN: [&str; 12] = [
    "Max new limit            12                   unlimited            things    ",
    "limit a b",
    "a b c",
    "a b c d",
    "1 2 3",
    "\u{200b}Limit a b",
    "Max nice priority",
    "Max nice priority 0",
    "Max realtime priority",
    "max cpu time 1 2 seconds",
    "Max nice priorityx 1 2",
    "Max cpu time x y seconds more",
];
/// Under three words.
const LINES_BAD: [&str; 14] = [
    "",
    " ",
    "\t",
    "\r",
    "\r\r",
    "\u{a0}",
    "\u{2003}\u{b}",
    "x",
    "Max cpu",
    "a b",
    " a\u{85}b ",
    "Max\u{200b}nice\u{200b}priority 0",
    "limit",
    "unlimited unlimited",
];
const VALUES_GOOD: [&str; 8] = [
    "unlimited",
    "0",
    "8388608",
    "+7",
    "007",
    "18446744073709551615",
    "0000000000000000000000000000000000012",
    "+0",
];
const VALUES_BAD: [&str; 21] = [
    "18446744073709551616",
    "99999999999999999999999999",
    "-1",
    "-0",
    "+",
    "-",
    "++1",
    "x",
    "0x10",
    "1.5",
    "1_000",
    "1,000",
    "Unlimited",
    "UNLIMITED",
    "unlimited,",
    "unlimite",
    "unlimited\u{200b}",
    "infinity",
    "\u{ff11}",
    "\u{664}",
    "8k",
];
/// White that words stand between.
const GAPS: [&str; 12] = [
    " ",
    "  ",
    "\t",
    "                    ",
    "\u{b}",
    "\u{c}",
    "\r",
    "\u{85}",
    "\u{a0}",
    "\u{1680}",
    "\u{2003}",
    "\u{3000}\u{2028}",
];
/// No white: these make one word of two.
const NO_GAPS: [&str; 4] = ["", "\u{200b}", "\u{1c}", ":"];

fn line(name: &Name, soft: &str, hard: &str) -> String {
    format!("{} {soft} {hard} {}", name.name, name.unit)
}

/// A line as kernels write it.
fn wide(name: &Name, soft: &str, hard: &str) -> String {
    let start = format!("{:<25} {soft:<20} {hard:<20} ", name.name);
    match name.unit {
        "" => start,
        unit => format!("{start}{unit:<10}"),
    }
}

/// The heading and a line for each name.
fn lines(line: impl Fn(&Name, &str, &str) -> String) -> Vec<String> {
    let mut lines = vec![HEADING.to_string()];
    for (index, name) in NAMES.iter().enumerate() {
        let number = (index * 1000).to_string();
        lines.push(match index % 3 {
            0 => line(name, "unlimited", "unlimited"),
            1 => line(name, &number, "unlimited"),
            _ => line(name, "0", &number),
        });
    }
    lines
}

/// The lines with another one in place of the name's.
fn with(index: usize, line: &str) -> Vec<String> {
    let mut lines = lines(self::line);
    lines[index + 1] = line.to_string();
    lines
}

fn text(lines: &[String]) -> String {
    lines.iter().map(|line| format!("{line}\n")).collect()
}

/// The heading and the needed lines.
pub fn plain() -> String {
    text(&lines(line))
}

/// One text for each form of each part.
pub fn listed() -> Vec<Vec<u8>> {
    let mut texts = Vec::new();
    single_lines(&mut texts);
    orders(&mut texts);
    whole_texts(&mut texts);
    let mut texts: Vec<Vec<u8>> = texts.into_iter().map(String::into_bytes).collect();
    broken_texts(&mut texts);
    long_lines(&mut texts);
    texts
}

/// Every form of every line.
fn single_lines(texts: &mut Vec<String>) {
    for (index, name) in NAMES.iter().enumerate() {
        for value in VALUES_GOOD.iter().chain(&VALUES_BAD) {
            texts.push(text(&with(index, &line(name, value, "1"))));
            texts.push(text(&with(index, &line(name, "unlimited", value))));
        }
        let Name { name, unit } = name;
        for gap in GAPS.iter().chain(&NO_GAPS) {
            for line in [
                format!("{}{gap}1{gap}2{gap}{unit}", name.replace(' ', gap)),
                format!("{name}{gap}1{gap}2{gap}{unit}{gap}"),
                format!("{gap}{name} 1 2 {unit}"),
                format!("{} 1 2 {unit}", name.replacen(' ', gap, 1)),
                format!("{name} 1{gap}2 {unit}"),
            ] {
                texts.push(text(&with(index, &line)));
            }
        }
        for line in [
            format!("{name} 1 2 things"),
            format!("{name} 1 2 more things"),
            format!("{name} 1 2"),
            format!("{name} 1"),
            format!("{name} 1 {unit}"),
            name.to_string(),
            format!("{name} 0 1 2 {unit}"),
            format!("{name} {unit} 1 2"),
            format!("{name}s 1 2 {unit}"),
            format!("{} 1 2 {unit}", name.to_lowercase()),
            format!("{} 1 2 {unit}", &name[1..]),
            format!("x{name} 1 2 {unit}"),
            format!("x {name} 1 2 {unit}"),
            format!("{name}: 1 2 {unit}"),
            format!("{name} unlimited unlimited unlimited"),
            format!("{name} 1 2 3"),
            format!("{name} 1 2 {unit}\r"),
        ] {
            texts.push(text(&with(index, &line)));
        }
        let mut lines = lines(line);
        lines.remove(index + 1);
        texts.push(text(&lines));
        for bad in LINES_BAD.iter().chain(&FOREIGN).chain(&HEADINGS) {
            texts.push(text(&with(index, bad)));
        }
    }
}

/// Several lines that are judged in turn: of one name, and of two.
fn orders(texts: &mut Vec<String>) {
    for (index, name) in NAMES.iter().enumerate() {
        let (good, bad) = (line(name, "3", "4"), line(name, "x", "4"));
        for two in [
            [&good, &bad],
            [&bad, &good],
            [&line(name, "5", "unlimited"), &good],
        ] {
            texts.push(text(&with(index, &two.map(|line| &**line).join("\n"))));
        }
        texts.push(text(&[lines(line), vec![bad.clone()]].concat()));
        texts.push(text(&[lines(line), vec![good.clone()]].concat()));
        for step in [1, 2, 5] {
            let Some(next) = NAMES.get(index + step) else {
                continue;
            };
            let mut both = with(index, &bad);
            both[index + step + 1] = line(next, "4", "-1");
            texts.push(text(&both));
            both.reverse();
            texts.push(text(&both));
            let mut lacks = with(index, &bad);
            lacks.remove(index + step + 1);
            texts.push(text(&lacks));
            let mut lacks = with(index + step, &line(next, "4", "-1"));
            lacks.remove(index + 1);
            texts.push(text(&lacks));
        }
    }
}

/// Texts that differ by their lines.
fn whole_texts(texts: &mut Vec<String>) {
    for whole in [text(&lines(wide)), text(&lines(line))] {
        texts.push(whole.trim_end().to_string());
        texts.push(whole.replace('\n', "\r\n"));
        texts.push(whole.replace('\n', "\n\n"));
        texts.push(whole.replace('\n', "\r"));
        texts.push(whole.replace(' ', ""));
        texts.push(whole.replace(' ', "\t"));
        texts.push(whole.replace(" \n", "\n"));
        texts.push(whole.repeat(2));
        texts.push(format!("{whole}\r"));
        texts.push(format!("\u{feff}{whole}"));
        texts.push(whole);
    }
    let all = lines(line);
    let whole = text(&all);
    for count in 0..all.len() {
        texts.push(text(&all[..count]));
        texts.push(text(&all[count..]));
        texts.push(text(&[&all[count..], &all[..count]].concat()));
        for extra in LINES_BAD.iter().chain(&FOREIGN).chain(&HEADINGS) {
            let extra = [extra.to_string()];
            texts.push(text(&[&all[..count], &extra, &all[count..]].concat()));
        }
    }
    for extra in LINES_BAD.iter().chain(&FOREIGN).chain(&HEADINGS) {
        texts.push(extra.to_string());
        texts.push(format!("{extra}\n"));
        texts.push(format!("{whole}{extra}"));
        texts.push(format!("{whole}{extra}\r\n"));
    }
}

/// Bytes that are not UTF-8: the text ends before their line.
fn broken_texts(texts: &mut Vec<Vec<u8>>) {
    let all = lines(line);
    let whole = text(&all);
    for wrong in NOT_UTF8 {
        for (before, after) in [
            ("", ""),
            ("", &*whole),
            (&*whole, ""),
            (&*whole, "\nx\n"),
            (&format!("{whole}x\n"), "\n"),
            (&format!("{whole}Max cpu time 5 6 "), "\n"),
            (&*whole, "\nMax cpu time x 6 seconds\n"),
        ] {
            texts.push([before.as_bytes(), wrong, after.as_bytes()].concat());
        }
    }
    for count in 0..all.len() {
        for wrong in [&b"\xff\n"[..], b"Max cpu time 1 2 \xc3\n", b"\xff"] {
            let (before, after) = (text(&all[..count]), text(&all[count..]));
            texts.push([before.as_bytes(), wrong, after.as_bytes()].concat());
            texts.push([before.as_bytes(), wrong, b"\n", &line_of(4096, "x", "\n")].concat());
            texts.push([before.as_bytes(), &line_of(4096, "x", ""), wrong].concat());
        }
    }
}

/// Lines of about 4096 bytes.
fn long_lines(texts: &mut Vec<Vec<u8>>) {
    let whole = text(&lines(line));
    for length in 4094..=4098 {
        for end in ["", "\n", "\r\n", "\nx\n"] {
            for start in [
                "Limit",
                "x",
                "a b c",
                "Max cpu time 7 8 ",
                "Max nice priority 7 ",
            ] {
                let line = line_of(length, start, end);
                texts.push([whole.as_bytes(), &line].concat());
                texts.push([&line, whole.as_bytes()].concat());
                texts.push([whole.as_bytes(), b"x\n", &line].concat());
                texts.push([whole.as_bytes(), b"\xff\n", &line].concat());
                texts.push([whole.as_bytes(), b"Max cpu time x 1 s\n", &line].concat());
                texts.push(line);
            }
            let blank = [&vec![b' '; length - 18], end.as_bytes()].concat();
            texts.push([whole.as_bytes(), b"Max file size 1 2s", &blank].concat());
        }
    }
}

/// How a generated text departs from what a kernel writes.
struct Style {
    /// Percent of parts that take an uncommon form that is accepted.
    uncommon: usize,
    /// Percent of parts that take a form that is refused.
    bad: usize,
    /// Percent of lines that are missing.
    lacks: usize,
    /// Whether lines have a kernel's columns.
    wide: bool,
}

/// A generated text.
pub fn generated(dice: &mut Dice) -> Vec<u8> {
    match dice.below(100) {
        0..=4 => long_line(dice),
        5..=8 => jumble(dice).into_bytes(),
        kind => {
            let style = Style {
                uncommon: dice.pick(&[0, 2, 10, 40]),
                bad: if kind >= 55 { dice.pick(&[1, 3, 8]) } else { 0 },
                lacks: if kind >= 85 {
                    dice.pick(&[2, 5, 30])
                } else {
                    0
                },
                wide: dice.chance(30),
            };
            let mut text = ordinary(dice, &style).into_bytes();
            if kind % 20 == 0 {
                // Broken between two lines, before or behind the needed ones.
                let mut lines: Vec<&[u8]> = text.split_inclusive(|byte| *byte == b'\n').collect();
                let at = lines.len() - dice.below(lines.len() + 1);
                lines.insert(at, dice.pick(&NOT_UTF8));
                lines.insert(at + 1, b"\n");
                text = lines.concat();
            }
            text
        }
    }
}

fn ordinary(dice: &mut Dice, style: &Style) -> String {
    let mut lines = Vec::new();
    if dice.chance(style.uncommon) {
        lines.push(dice.pick(&HEADINGS).to_string());
    } else if dice.chance(95) {
        lines.push(HEADING.to_string());
    }
    for name in &NAMES {
        if dice.chance(style.lacks) {
            continue;
        }
        lines.push(made(dice, style, name));
        if dice.below(500) < style.uncommon {
            let again = made(dice, style, name);
            lines.insert(dice.below(lines.len() + 1), again);
        }
        if dice.below(500) < style.uncommon {
            lines.push(dice.pick(&FOREIGN).to_string());
        }
        if dice.below(800) < style.bad {
            lines.push(dice.pick(&LINES_BAD).to_string());
        }
    }
    if dice.chance(8) {
        for place in (1..lines.len()).rev() {
            lines.swap(place, dice.below(place + 1));
        }
    }
    let mut text = text(&lines);
    if dice.chance(style.uncommon) {
        text = text.replace('\n', "\r\n");
    }
    if dice.chance(10) {
        text.pop();
    }
    text
}

/// A line of a name.
fn made(dice: &mut Dice, style: &Style, name: &Name) -> String {
    let (soft, hard) = (value(dice, style), value(dice, style));
    if !dice.chance(style.uncommon) {
        return if style.wide {
            wide(name, &soft, &hard)
        } else {
            line(name, &soft, &hard)
        };
    }
    let mut text = name.name.to_string();
    let with_unit = !name.unit.is_empty();
    if with_unit || dice.chance(style.bad) {
        // White inside the two names that have no unit would have them read otherwise.
        text = text.replacen(' ', dice.pick(&GAPS), 1);
    }
    for word in [&soft, &hard, name.unit] {
        let gap = if dice.chance(style.bad) {
            dice.pick(&NO_GAPS)
        } else {
            dice.pick(&GAPS)
        };
        text = format!("{text}{gap}{word}");
    }
    if dice.chance(30) {
        text = format!("{}{text}{}", dice.pick(&GAPS), dice.pick(&GAPS));
    }
    text
}

fn value(dice: &mut Dice, style: &Style) -> String {
    if dice.chance(style.bad) {
        dice.pick(&VALUES_BAD).to_string()
    } else if dice.chance(style.uncommon) {
        dice.pick(&VALUES_GOOD).to_string()
    } else if dice.chance(40) {
        "unlimited".to_string()
    } else {
        (dice.next() >> dice.pick(&[63, 54, 40, 1])).to_string()
    }
}

/// A line of about 4096 bytes among others.
fn long_line(dice: &mut Dice) -> Vec<u8> {
    let style = Style {
        uncommon: 5,
        bad: if dice.chance(20) { 2 } else { 0 },
        lacks: 0,
        wide: false,
    };
    let text = ordinary(dice, &style);
    let mut lines: Vec<Vec<u8>> = text
        .lines()
        .map(|line| format!("{line}\n").into_bytes())
        .collect();
    let length = dice.pick(&[4000, 4094, 4095, 4095, 4096, 4096, 4097, 5000, 8192]);
    let start = dice.pick(&["Limit", "x", "a b c", "Max file size 7 8 ", "x \u{e9} y "]);
    let end = dice.pick(&["\n", "\n", "\n", "\r\n"]);
    let at = dice.below(lines.len() + 1);
    lines.insert(at, line_of(length, start, end));
    if dice.chance(15) {
        let at = dice.below(lines.len() + 1);
        lines.insert(at, b"\xff\n".to_vec());
    }
    lines.concat()
}

/// Pieces of lines in any order, with the needed lines behind them or not.
fn jumble(dice: &mut Dice) -> String {
    let style = Style {
        uncommon: 40,
        bad: 10,
        lacks: 0,
        wide: false,
    };
    let mut text = String::new();
    for _ in 0..dice.below(6) {
        for _ in 0..dice.pick(&[1, 1, 2, 3]) {
            match dice.below(8) {
                0..=2 => {
                    let name = dice.pick(&NAMES.each_ref());
                    text.push_str(&made(dice, &style, name));
                }
                3 => text.push_str(dice.pick(&FOREIGN)),
                4 => text.push_str(dice.pick(&VALUES_BAD)),
                5 => text.push_str(dice.pick(&GAPS)),
                6 => text.push_str(dice.pick(&UTF8)),
                _ => text.push_str(dice.pick(&HEADINGS)),
            }
        }
        text.push('\n');
    }
    if dice.chance(60) {
        text.push_str(&ordinary(dice, &Style { bad: 0, ..style }));
    }
    text
}
