//! How procfs-core reads a limits text, and how its answer is written.

use crate::limits::names::NAMES;
use crate::record::reference::{GoodLine, Record};
use crate::record::source::Source;
use procfs_core::process::{Limit, LimitValue, Limits};
use std::sync::LazyLock;

static SOURCE: LazyLock<Source> = LazyLock::new(|| {
    Source::of(
        include_str!(concat!(env!("PROCFS_CORE"), "/process/limit.rs")),
        "Limits",
    )
});

static GOOD: LazyLock<Vec<GoodLine>> = LazyLock::new(|| {
    NAMES
        .iter()
        .enumerate()
        .map(|(index, name)| GoodLine {
            field: index + 1,
            line: format!("{} 1 2 {}\n", name.name, name.unit),
        })
        .collect()
});

impl Record for Limits {
    fn source() -> &'static Source {
        &SOURCE
    }

    fn good_lines() -> &'static [GoodLine] {
        &GOOD
    }
}

/// Panics where our table of names is not that of the source.
pub fn check() {
    assert_eq!(SOURCE.names(), NAMES.map(|name| name.name));
}

/// The fields in their order, each as the soft limit, a colon and the hard one.
pub fn fields(limits: &Limits) -> String {
    let l = limits;
    let fields: [&Limit; NAMES.len()] = [
        &l.max_cpu_time,
        &l.max_file_size,
        &l.max_data_size,
        &l.max_stack_size,
        &l.max_core_file_size,
        &l.max_resident_set,
        &l.max_processes,
        &l.max_open_files,
        &l.max_locked_memory,
        &l.max_address_space,
        &l.max_file_locks,
        &l.max_pending_signals,
        &l.max_msgqueue_size,
        &l.max_nice_priority,
        &l.max_realtime_priority,
        &l.max_realtime_timeout,
    ];
    fields
        .map(|limit| format!("{}:{}", value(limit.soft_limit), value(limit.hard_limit)))
        .join(" ")
}

fn value(value: LimitValue) -> String {
    match value {
        LimitValue::Unlimited => "unlimited".to_string(),
        LimitValue::Value(value) => value.to_string(),
    }
}
