//! The status texts: a list of single cases, and generated ones.

use crate::damage::{line_of, NOT_UTF8, UTF8};
use crate::dice::Dice;
use crate::status::forms::{common, items, joined, values, PADS};
use crate::status::names::{find, Form, Name, NAMES};

/// The names of the lines, in order, that kernels of several ages write for a process; for a kernel
/// thread; and those that are needed.
const SHAPES: [&str; 7] = [
    "Name Umask State Tgid Ngid Pid PPid TracerPid Uid Gid FDSize Groups NStgid NSpid NSpgid NSsid \
     Kthread VmPeak VmSize VmLck VmPin VmHWM VmRSS RssAnon RssFile RssShmem VmData VmStk VmExe VmLib \
     VmPTE VmSwap HugetlbPages CoreDumping THP_enabled untag_mask Threads SigQ SigPnd ShdPnd SigBlk \
     SigIgn SigCgt CapInh CapPrm CapEff CapBnd CapAmb NoNewPrivs Seccomp Seccomp_filters \
     Speculation_Store_Bypass SpeculationIndirectBranch Cpus_allowed Cpus_allowed_list Mems_allowed \
     Mems_allowed_list voluntary_ctxt_switches nonvoluntary_ctxt_switches x86_Thread_features \
     x86_Thread_features_locked",
    "Name Umask State Tgid Ngid Pid PPid TracerPid Uid Gid FDSize Groups NStgid NSpid NSpgid NSsid \
     VmPeak VmSize VmLck VmPin VmHWM VmRSS RssAnon RssFile RssShmem VmData VmStk VmExe VmLib VmPTE \
     VmSwap HugetlbPages CoreDumping Threads SigQ SigPnd ShdPnd SigBlk SigIgn SigCgt CapInh CapPrm \
     CapEff CapBnd CapAmb NoNewPrivs Seccomp Speculation_Store_Bypass Cpus_allowed Cpus_allowed_list \
     Mems_allowed Mems_allowed_list voluntary_ctxt_switches nonvoluntary_ctxt_switches",
    "Name State Tgid Ngid Pid PPid TracerPid Uid Gid FDSize Groups NStgid NSpid NSpgid NSsid VmPeak \
     VmSize VmLck VmPin VmHWM VmRSS VmData VmStk VmExe VmLib VmPTE VmPMD VmSwap HugetlbPages Threads \
     SigQ SigPnd ShdPnd SigBlk SigIgn SigCgt CapInh CapPrm CapEff CapBnd CapAmb Seccomp Cpus_allowed \
     Cpus_allowed_list Mems_allowed Mems_allowed_list voluntary_ctxt_switches \
     nonvoluntary_ctxt_switches",
    "Name State Tgid Pid PPid TracerPid Uid Gid Utrace FDSize Groups VmPeak VmSize VmLck VmHWM VmRSS \
     VmData VmStk VmExe VmLib VmPTE VmSwap Threads SigQ SigPnd ShdPnd SigBlk SigIgn SigCgt CapInh \
     CapPrm CapEff CapBnd Cpus_allowed Cpus_allowed_list Mems_allowed Mems_allowed_list \
     voluntary_ctxt_switches nonvoluntary_ctxt_switches",
    "Name State SleepAVG Tgid Pid PPid TracerPid Uid Gid FDSize Groups VmPeak VmSize VmLck VmHWM \
     VmRSS VmData VmStk VmExe VmLib VmPTE Threads SigQ SigPnd ShdPnd SigBlk SigIgn SigCgt CapInh \
     CapPrm CapEff Cpus_allowed Mems_allowed",
    "Name Umask State Tgid Ngid Pid PPid TracerPid Uid Gid FDSize Groups NStgid NSpid NSpgid NSsid \
     Kthread Threads SigQ SigPnd ShdPnd SigBlk SigIgn SigCgt CapInh CapPrm CapEff CapBnd CapAmb \
     NoNewPrivs Seccomp Seccomp_filters Speculation_Store_Bypass SpeculationIndirectBranch \
     Cpus_allowed Cpus_allowed_list Mems_allowed Mems_allowed_list voluntary_ctxt_switches \
     nonvoluntary_ctxt_switches",
    "Name State Tgid Pid PPid TracerPid Uid Gid FDSize Groups Threads SigQ SigPnd ShdPnd SigBlk \
     SigIgn SigCgt CapInh CapPrm CapEff",
];
const FULL: &str = SHAPES[0];
const SPARE: &str = SHAPES[6];

/// Lines of other names.
const FOREIGN: [(&str, &str); 13] = [
    ("Kthread", "0"),
    ("untag_mask", "0xffffffffffffffff"),
    ("Seccomp_filters", "0"),
    ("SpeculationIndirectBranch", "conditional enabled"),
    ("x86_Thread_features", ""),
    ("x86_Thread_features_locked", "shstk wrss"),
    ("VmPMD", "      12 kB"),
    ("Utrace", "0"),
    ("SleepAVG", "98%"),
    ("name", "x"),
    ("Pid ", "x"),
    ("\u{a0}Uid", ""),
    ("", "x:y"),
];
/// Lines that are refused, and then lines that are skipped.
const LINES_BAD: [&str; 8] = [
    " ",
    "\t",
    "Name",
    "Tgid\t7",
    "\r\r",
    "\u{b}",
    "\u{a0}",
    "Pid\u{ff1a} 7",
];
const LINES_EMPTY: [&str; 2] = ["", "\r"];

/// Good lines of the names.
fn lines(names: &str) -> Vec<String> {
    let line = |name: &str| match find(name) {
        Some(name) => line(name, name.form.good()),
        None => foreign(name),
    };
    names.split(' ').map(line).collect()
}

fn foreign(name: &str) -> String {
    let line = FOREIGN.iter().find(|each| each.0 == name);
    format!("{name}:\t{}", line.map_or("", |each| each.1))
}

fn line(name: &Name, value: &str) -> String {
    format!("{}:\t{value}", name.name)
}

/// The lines with another line in place of that of a name, or behind them all.
fn with(lines: &[String], name: &Name, line: &str) -> Vec<String> {
    let mut lines = lines.to_vec();
    match place(&lines, name) {
        Some(place) => lines[place] = line.to_string(),
        None => lines.push(line.to_string()),
    }
    lines
}

fn without(lines: &[String], name: &Name) -> Vec<String> {
    let mut lines = lines.to_vec();
    if let Some(place) = place(&lines, name) {
        lines.remove(place);
    }
    lines
}

fn place(lines: &[String], name: &Name) -> Option<usize> {
    let starts = |line: &String| line.split(':').next() == Some(name.name);
    lines.iter().position(starts)
}

fn text(lines: &[String]) -> String {
    lines.iter().map(|line| format!("{line}\n")).collect()
}

/// The needed lines.
pub fn least() -> String {
    text(&lines(SPARE))
}

/// One text for each form of each part.
pub fn listed() -> Vec<Vec<u8>> {
    let mut texts = Vec::new();
    single_values(&mut texts);
    orders(&mut texts);
    long_lists(&mut texts);
    whole_texts(&mut texts);
    let mut texts: Vec<Vec<u8>> = texts.into_iter().map(String::into_bytes).collect();
    broken_texts(&mut texts);
    long_lines(&mut texts);
    texts
}

/// Every value of every name; names that are missing or nearly there.
fn single_values(texts: &mut Vec<String>) {
    let full = lines(FULL);
    let spare = lines(SPARE);
    for name in &NAMES {
        let forms = values(name);
        for value in [forms.good, forms.bad, forms.odd].concat() {
            texts.push(text(&with(&spare, name, &line(name, value))));
        }
        let good = name.form.good();
        for pad in PADS {
            let padded = format!("{}:{pad}{good}{pad}", name.name);
            texts.push(text(&with(&spare, name, &padded)));
        }
        for tail in [":", ":x", " :x:y", "::"] {
            let tailed = format!("{}:\t{good}{tail}", name.name);
            texts.push(text(&with(&spare, name, &tailed)));
        }
        texts.push(text(&with(&spare, name, &format!("{}:", name.name))));
        texts.push(text(&with(&spare, name, &format!("{}::{good}", name.name))));
        texts.push(text(&without(&full, name)));
        texts.push(text(&without(&spare, name)));
        for nearly in [
            format!(" {}", name.name),
            format!("{} ", name.name),
            name.name.to_lowercase(),
            name.name.to_uppercase(),
            format!("{}\u{a0}", name.name),
            format!("\u{feff}{}", name.name),
            name.name[1..].to_string(),
            format!("{}s", name.name),
        ] {
            texts.push(text(&with(&spare, name, &format!("{nearly}:\t{good}"))));
        }
    }
}

/// Several lines that are judged in turn: of one name, and of two.
fn orders(texts: &mut Vec<String>) {
    let full = lines(FULL);
    let spare = lines(SPARE);
    for (index, name) in NAMES.iter().enumerate() {
        let forms = values(name);
        let other = forms.bad.last().or(forms.good.last()).unwrap_or(&"");
        let two = [line(name, other), line(name, name.form.good())];
        texts.push(text(&with(&spare, name, &two.join("\n"))));
        texts.push(text(&with(&spare, name, &[&*two[1], &two[0]].join("\n"))));
        let later = [&full[..], &[two[0].clone()]].concat();
        texts.push(text(&later));
        // The name and a later one, both bad or missing, in either order of lines.
        for step in [1, 2, 7, 20] {
            let Some(next) = NAMES.get(index + step) else {
                continue;
            };
            let worse = values(next).bad.last().copied().unwrap_or("");
            let both = with(&with(&full, name, &two[0]), next, &line(next, worse));
            texts.push(text(&both));
            let mut turned = both;
            turned.reverse();
            texts.push(text(&turned));
            texts.push(text(&without(&with(&spare, name, &two[0]), next)));
            let later = with(&spare, next, &line(next, worse));
            texts.push(text(&without(&later, name)));
        }
    }
}

/// Lists of about as many items as there is room for.
fn long_lists(texts: &mut Vec<String>) {
    let spare = lines(SPARE);
    for (index, name) in NAMES.iter().enumerate() {
        let Some(room) = name.form.room() else {
            continue;
        };
        let bad: &[&str] = match name.form {
            Form::Words | Form::Ranges => &["", "x", "1 ", " 1", "-"],
            _ => &["x", "-", "1,1"],
        };
        for count in [room - 1, room, room + 1, room + 2, room + 40] {
            let items = vec!["1".to_string(); count];
            let list = |items: &[String]| line(name, &joined(name.form, items));
            texts.push(text(&with(&spare, name, &list(&items))));
            for at in [0, room - 2, room - 1, room, room + 1, room + 2, count - 1] {
                for item in bad {
                    let mut items = items.clone();
                    if let Some(place) = items.get_mut(at) {
                        *place = item.to_string();
                        texts.push(text(&with(&spare, name, &list(&items))));
                    }
                }
            }
            // A list before it or behind it that is bad or full too.
            let full = with(&spare, name, &list(&items));
            for other in NAMES.iter().filter(|other| other.form.room().is_some()) {
                for value in ["x".to_string(), joined(other.form, &items)] {
                    texts.push(text(&with(&full, other, &line(other, &value))));
                }
            }
            for other in [NAMES.get(index + 1), NAMES.get(index.wrapping_sub(1))] {
                let Some(other) = other else {
                    continue;
                };
                let worse = values(other).bad.last().copied().unwrap_or("");
                texts.push(text(&with(&full, other, &line(other, worse))));
            }
            for (other, value) in [("Name", "a:b"), ("CapEff", ""), ("VmSize", "1 kB kB")] {
                let Some(other) = find(other) else {
                    continue;
                };
                texts.push(text(&without(&full, other)));
                texts.push(text(&with(&full, other, &line(other, value))));
            }
        }
    }
}

/// Texts that differ by their lines.
fn whole_texts(texts: &mut Vec<String>) {
    for shape in SHAPES {
        let all = lines(shape);
        let whole = text(&all);
        texts.push(whole.trim_end().to_string());
        texts.push(whole.replace('\n', "\r\n"));
        texts.push(whole.replace('\n', "\r\n").trim_end().to_string());
        texts.push(whole.replace('\n', "\n\n"));
        texts.push(whole.replace('\n', "\n\r\n\n"));
        texts.push(whole.replace('\n', "\r\r\n"));
        texts.push(whole.replace('\n', "\r"));
        texts.push(whole.replace('\t', ""));
        texts.push(whole.replace('\t', " "));
        texts.push(whole.replace(':', ""));
        texts.push(whole.replace(':', "::"));
        texts.push(format!("{whole}\r"));
        texts.push(format!("{whole}\n"));
        texts.push(format!("\u{feff}{whole}"));
        texts.push(whole.repeat(2));
        for count in 0..all.len() {
            texts.push(text(&all[..count]));
            texts.push(text(&all[count..]));
            texts.push(text(&[&all[count..], &all[..count]].concat()));
        }
        for (name, value) in FOREIGN {
            texts.push(format!("{whole}{name}:\t{value}\n"));
            texts.push(format!("{name}:{value}\n{whole}"));
        }
    }
    let spare = lines(SPARE);
    for extra in LINES_BAD.iter().chain(&LINES_EMPTY) {
        texts.push(extra.to_string());
        texts.push(format!("{extra}\n"));
        for at in [0, 1, 7, spare.len()] {
            let mut lines = spare.clone();
            lines.insert(at, extra.to_string());
            texts.push(text(&lines));
            texts.push(format!("Pid:\tx\n{}", text(&lines[..lines.len() - 2])));
            texts.push(text(&[&lines[..], &["x".to_string()]].concat()));
        }
        texts.push(format!("{}{extra}", text(&spare)));
    }
}

/// Bytes that are not UTF-8.
fn broken_texts(texts: &mut Vec<Vec<u8>>) {
    let spare = text(&lines(SPARE));
    for wrong in NOT_UTF8 {
        for (before, after) in [
            ("", ""),
            ("", &*spare),
            ("\n", "\n"),
            ("Name:\t", "\n"),
            (&*spare, ""),
            (&*spare, "\n"),
            (&format!("{spare}Name:\t"), "\n"),
            (&format!("{spare}Junk: "), ""),
            (&format!("{spare}x\n"), "\n"),
            (&format!("{spare}Pid:\tx\n"), "\nx\n"),
            ("Name:\tx\nx\n", "\n"),
        ] {
            texts.push([before.as_bytes(), wrong, after.as_bytes()].concat());
        }
    }
}

/// Lines of about 4096 bytes.
fn long_lines(texts: &mut Vec<Vec<u8>>) {
    let spare = text(&lines(SPARE));
    for length in 4094..=4098 {
        for end in ["", "\n", "\r\n", "\nx\n"] {
            for start in [
                "Name:\t",
                "Name:\ta:b",
                "State:\t",
                "Junk:",
                "Junk",
                "Cpus_allowed:\t",
                "Umask:\t",
                "\u{e9}:",
            ] {
                let line = line_of(length, start, end);
                texts.push([spare.as_bytes(), &line].concat());
                texts.push(line);
            }
            let blank = [&vec![b' '; length - 5], end.as_bytes()].concat();
            texts.push([spare.as_bytes(), b"Pid:7", &blank].concat());
            let line = line_of(length, "Junk:", end);
            texts.push([spare.as_bytes(), b"x\n", &line].concat());
            texts.push([spare.as_bytes(), b"\xff\n", &line].concat());
            texts.push([spare.as_bytes(), b"Pid:\tx\n", &line].concat());
            texts.push([&line_of(length, "Junk:", ""), &b"\xff\n"[..]].concat());
            texts.push([&line, spare.as_bytes()].concat());
        }
    }
}

/// How a generated text departs from what a kernel writes.
struct Style {
    /// Percent of values that take an uncommon form that is accepted.
    uncommon: usize,
    /// Percent of values that take a form under an intended difference.
    odd: usize,
    /// Percent of values that take a form that is refused.
    bad: usize,
    /// Percent of lines that are missing.
    lacks: usize,
}

/// A generated text.
pub fn generated(dice: &mut Dice) -> Vec<u8> {
    match dice.below(100) {
        0..=6 => near_room(dice).into_bytes(),
        7..=10 => long_line(dice),
        11..=13 => jumble(dice).into_bytes(),
        kind => {
            let style = Style {
                uncommon: dice.pick(&[0, 2, 10, 40]),
                odd: if kind < 24 { 4 } else { 0 },
                bad: if kind >= 55 { dice.pick(&[1, 2, 6]) } else { 0 },
                lacks: if kind >= 85 {
                    dice.pick(&[1, 3, 20])
                } else {
                    0
                },
            };
            let shape = dice.pick(&SHAPES);
            ordinary(dice, &style, shape)
        }
        .into_bytes(),
    }
}

/// Lines of the names, each with a value.
fn ordinary(dice: &mut Dice, style: &Style, shape: &str) -> String {
    let mut lines = Vec::new();
    for name in shape.split(' ') {
        if dice.chance(style.lacks) {
            continue;
        }
        lines.push(made(dice, style, name));
        if dice.below(1000) < style.uncommon {
            let again = made(dice, style, name);
            lines.insert(dice.below(lines.len() + 1), again);
        }
        if dice.below(500) < style.uncommon {
            let (name, value) = dice.pick(&FOREIGN);
            lines.push(format!("{name}:\t{value}"));
        }
        if dice.below(1000) < style.uncommon {
            lines.push(dice.pick(&LINES_EMPTY).to_string());
        }
        if dice.below(2000) < style.bad {
            lines.push(dice.pick(&LINES_BAD).to_string());
        }
    }
    if dice.chance(8) {
        for place in (1..lines.len()).rev() {
            lines.swap(place, dice.below(place + 1));
        }
    }
    let mut text = text(&lines);
    if dice.chance(style.uncommon) {
        text = text.replace('\n', "\r\n");
    }
    if dice.chance(10) {
        text.pop();
    }
    text
}

/// A line of a name.
fn made(dice: &mut Dice, style: &Style, name: &str) -> String {
    let Some(name) = find(name) else {
        return foreign(name);
    };
    let value = value(dice, style, name);
    if dice.chance(style.uncommon / 2) {
        let (one, other) = (dice.pick(&PADS[..14]), dice.pick(&PADS[..14]));
        return format!("{}:{one}{value}{other}", name.name);
    }
    if dice.chance(style.uncommon / 4) && name.field != 1 {
        return format!("{}:\t{value}:{}", name.name, dice.pick(&["", "x", "\t:"]));
    }
    line(name, &value)
}

fn value(dice: &mut Dice, style: &Style, name: &Name) -> String {
    let forms = values(name);
    if !forms.bad.is_empty() && dice.chance(style.bad) {
        dice.pick(forms.bad).to_string()
    } else if !forms.odd.is_empty() && dice.chance(style.odd) {
        dice.pick(forms.odd).to_string()
    } else if dice.chance(style.uncommon) {
        dice.pick(forms.good).to_string()
    } else {
        common(dice, name)
    }
}

/// Lists of about as many items as there is room for.
fn near_room(dice: &mut Dice) -> String {
    let style = Style {
        uncommon: dice.pick(&[0, 10]),
        odd: dice.pick(&[0, 0, 5]),
        bad: dice.pick(&[0, 0, 0, 2]),
        lacks: 0,
    };
    let shape = dice.pick(&[FULL, SPARE]);
    let mut text = ordinary(dice, &style, shape);
    if !text.ends_with('\n') {
        text.push('\n');
    }
    let lists: Vec<(&Name, usize)> = NAMES
        .iter()
        .filter_map(|name| Some((name, name.form.room()?)))
        .collect();
    for _ in 0..dice.pick(&[1, 1, 1, 2, 3]) {
        let (name, room) = dice.pick(&lists);
        let count = (room + dice.pick(&[0, 1, 2, 3, 4, 9])).saturating_sub(2);
        let mut items = items(dice, name.form, count);
        if dice.chance(40) {
            let at = count - 1 - dice.below(6).min(count - 1);
            items[at] = dice
                .pick(&["x", "", " ", "-1", "4294967296", "1-2", "7\u{a0}", "+7"])
                .to_string();
        }
        text.push_str(&line(name, &joined(name.form, &items)));
        text.push('\n');
    }
    text
}

/// A line of about 4096 bytes among others.
fn long_line(dice: &mut Dice) -> Vec<u8> {
    let style = Style {
        uncommon: 5,
        odd: 0,
        bad: if dice.chance(20) { 1 } else { 0 },
        lacks: 0,
    };
    let text = ordinary(dice, &style, SPARE);
    let mut lines: Vec<Vec<u8>> = text
        .lines()
        .map(|line| format!("{line}\n").into_bytes())
        .collect();
    let length = dice.pick(&[4000, 4094, 4095, 4095, 4096, 4096, 4097, 5000, 8192]);
    let start = dice.pick(&[
        "Name:\t",
        "Name:\t:",
        "Junk:",
        "x",
        "Groups:\t",
        "State:\t\u{e9}",
    ]);
    let end = dice.pick(&["\n", "\n", "\n", "\r\n"]);
    let at = dice.below(lines.len() + 1);
    lines.insert(at, line_of(length, start, end));
    lines.concat()
}

/// Pieces of lines and white in any order, with the needed lines behind them or not.
fn jumble(dice: &mut Dice) -> String {
    let style = Style {
        uncommon: 40,
        odd: 10,
        bad: 10,
        lacks: 0,
    };
    let mut text = String::new();
    for _ in 0..dice.below(30) {
        match dice.below(9) {
            0..=3 => {
                let name = dice.pick(&NAMES.each_ref()).name;
                text.push_str(&made(dice, &style, name));
                text.push('\n');
            }
            4 => text.push_str(dice.pick(&LINES_BAD)),
            5 => text.push_str(dice.pick(&PADS)),
            6 => text.push_str(dice.pick(&UTF8)),
            7 => text.push(':'),
            _ => text.push('\n'),
        }
    }
    if dice.chance(50) {
        text.push('\n');
        text.push_str(&ordinary(dice, &Style { bad: 0, ..style }, SPARE));
    }
    text
}
