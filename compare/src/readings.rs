//! The readings by their names.

use crate::record::Reading;
use crate::{limits, measure, rows, status, support};

pub const NAMES: [&str; 8] = [
    "measure", "rows", "narrow", "status", "limits", "target", "syscall", "page",
];

pub fn reading(name: &str) -> Option<Reading> {
    Some(match name {
        "measure" => measure::reading(),
        "rows" => rows::reading(),
        "narrow" => rows::narrow(),
        "status" => status::reading(),
        "limits" => limits::reading(),
        "target" => support::target(),
        "syscall" => support::syscall(),
        "page" => support::page(),
        _ => return None,
    })
}
