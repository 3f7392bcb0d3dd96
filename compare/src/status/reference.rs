//! How procfs-core reads a status text, and how its answer is written.

use crate::escape::escaped;
use crate::record::reference::{GoodLine, Record};
use crate::record::source::Source;
use crate::status::names::{FIELDS, NAMES};
use procfs_core::process::Status;
use std::fmt::Display;
use std::sync::LazyLock;

static SOURCE: LazyLock<Source> = LazyLock::new(|| {
    Source::of(
        include_str!(concat!(env!("PROCFS_CORE"), "/process/status.rs")),
        "Status",
    )
});

static GOOD: LazyLock<Vec<GoodLine>> = LazyLock::new(|| {
    NAMES
        .iter()
        .map(|name| GoodLine {
            field: name.field,
            line: format!("{}:\t{}\n", name.name, name.form.good()),
        })
        .collect()
});

impl Record for Status {
    fn source() -> &'static Source {
        &SOURCE
    }

    fn good_lines() -> &'static [GoodLine] {
        &GOOD
    }
}

/// Panics where our table of names is not that of the source.
pub fn check() {
    let fields = (1..=FIELDS).map(|field| {
        let next = NAMES.partition_point(|name| name.field <= field);
        NAMES[next - 1].name
    });
    assert_eq!(SOURCE.names(), fields.collect::<Vec<&str>>());
}

/// The fields in their order, each without a space: an absent one is `-`.
pub fn fields(status: &Status) -> String {
    let s = status;
    let fields: [String; FIELDS] = [
        text(&s.name),
        optional(&s.umask),
        text(&s.state),
        s.tgid.to_string(),
        optional(&s.ngid),
        s.pid.to_string(),
        s.ppid.to_string(),
        s.tracerpid.to_string(),
        s.ruid.to_string(),
        s.euid.to_string(),
        s.suid.to_string(),
        s.fuid.to_string(),
        s.rgid.to_string(),
        s.egid.to_string(),
        s.sgid.to_string(),
        s.fgid.to_string(),
        s.fdsize.to_string(),
        list(&s.groups),
        optional(&s.nstgid.as_deref().map(list)),
        optional(&s.nspid.as_deref().map(list)),
        optional(&s.nspgid.as_deref().map(list)),
        optional(&s.nssid.as_deref().map(list)),
        optional(&s.vmpeak),
        optional(&s.vmsize),
        optional(&s.vmlck),
        optional(&s.vmpin),
        optional(&s.vmhwm),
        optional(&s.vmrss),
        optional(&s.rssanon),
        optional(&s.rssfile),
        optional(&s.rssshmem),
        optional(&s.vmdata),
        optional(&s.vmstk),
        optional(&s.vmexe),
        optional(&s.vmlib),
        optional(&s.vmpte),
        optional(&s.vmswap),
        optional(&s.hugetlbpages),
        s.threads.to_string(),
        format!("{}/{}", s.sigq.0, s.sigq.1),
        s.sigpnd.to_string(),
        s.shdpnd.to_string(),
        s.sigblk.to_string(),
        s.sigign.to_string(),
        s.sigcgt.to_string(),
        s.capinh.to_string(),
        s.capprm.to_string(),
        s.capeff.to_string(),
        optional(&s.capbnd),
        optional(&s.capamb),
        optional(&s.nonewprivs),
        optional(&s.seccomp),
        optional(&s.speculation_store_bypass.as_deref().map(text)),
        optional(&s.cpus_allowed.as_deref().map(list)),
        optional(&s.cpus_allowed_list.as_deref().map(ranges)),
        optional(&s.mems_allowed.as_deref().map(list)),
        optional(&s.mems_allowed_list.as_deref().map(ranges)),
        optional(&s.voluntary_ctxt_switches),
        optional(&s.nonvoluntary_ctxt_switches),
        optional(&s.core_dumping),
        optional(&s.thp_enabled),
    ];
    fields.join(" ")
}

fn text(text: &str) -> String {
    let escaped = escaped(text.as_bytes());
    format!(
        "\"{}\"",
        escaped.replace(' ', "\\x20").replace('"', "\\x22")
    )
}

fn optional(value: &Option<impl Display>) -> String {
    match value {
        Some(value) => value.to_string(),
        None => "-".to_string(),
    }
}

fn list(items: &[impl Display]) -> String {
    let items: Vec<String> = items.iter().map(|item| item.to_string()).collect();
    format!("[{}]", items.join(","))
}

fn ranges(items: &[(u32, u32)]) -> String {
    let items: Vec<String> = items
        .iter()
        .map(|(first, last)| format!("{first}-{last}"))
        .collect();
    list(&items)
}
