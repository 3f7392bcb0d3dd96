//! The texts of the machine.

use std::fs;
use std::os::unix::ffi::OsStringExt;

/// Every text of this name, under /proc/PID, that can be read; of a folder, where its links lead.
pub fn texts(name: &str) -> Vec<Vec<u8>> {
    let mut pids: Vec<u32> = fs::read_dir("/proc")
        .into_iter()
        .flatten()
        .flatten()
        .filter_map(|entry| {
            entry
                .file_name()
                .to_str()
                .and_then(|name| name.parse().ok())
        })
        .collect();
    pids.sort();
    pids.iter()
        .flat_map(|pid| {
            let path = format!("/proc/{pid}/{name}");
            match fs::read_dir(&path) {
                Ok(entries) => links(entries),
                Err(_) => fs::read(&path).into_iter().collect(),
            }
        })
        .collect()
}

fn links(entries: fs::ReadDir) -> Vec<Vec<u8>> {
    entries
        .flatten()
        .filter_map(|entry| fs::read_link(entry.path()).ok())
        .map(|target| target.into_os_string().into_vec())
        .collect()
}
