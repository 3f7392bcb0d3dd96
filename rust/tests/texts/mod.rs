//! The texts of docs/ that the tests read, and recordings of texts.

/// The text of README.md: 2 mappings, Rss 8192, Pss 7168, SwapPss 2048.
pub const SMAPS: &[u8] = b"1000-3000 r--p 00000000 08:01 77 /a
Rss: 8 kB
Pss: 4 kB
3000-4000 rw-p 00000000 00:00 0 \n\
Pss: 3 kB
SwapPss: 2 kB
";

/// The least text of docs/STATUS.md, 20 lines; of pid 1, state R and one thread.
pub const STATUS: &[u8] = b"Name: a
State: R
Tgid: 1
Pid: 1
PPid: 0
TracerPid: 0
Uid: 0 0 0 0
Gid: 0 0 0 0
FDSize: 0
Groups:
Threads: 1
SigQ: 0/0
SigPnd: 0
ShdPnd: 0
SigBlk: 0
SigIgn: 0
SigCgt: 0
CapInh: 0
CapPrm: 0
CapEff: 0
";

/// The text of docs/LIMITS.md, 17 lines; its soft limits are unlimited address space and 1024 open files.
pub const LIMITS: &[u8] =
    b"Limit                     Soft Limit           Hard Limit           Units
Max cpu time              unlimited            unlimited            seconds
Max file size             unlimited            unlimited            bytes
Max data size             unlimited            unlimited            bytes
Max stack size            8388608              unlimited            bytes
Max core file size        0                    unlimited            bytes
Max resident set          unlimited            unlimited            bytes
Max processes             96349                96349                processes
Max open files            1024                 524288               files
Max locked memory         8388608              8388608              bytes
Max address space         unlimited            unlimited            bytes
Max file locks            unlimited            unlimited            locks
Max pending signals       96349                96349                signals
Max msgqueue size         819200               819200               bytes
Max nice priority         0                    0
Max realtime priority     0                    0
Max realtime timeout      unlimited            unlimited            us
";

/// The endings of a recording, as byte 1 of its last record has them.
pub const CLEAN: u8 = 1;
pub const BROKEN: u8 = 2;

/// The recording of a text: records of 62 bytes of it, and a last one of what is left.
pub fn recorded(text: &[u8], ending: u8) -> Vec<u8> {
    let full = text.chunks_exact(62);
    let last = full.remainder();
    let mut recording = Vec::new();
    for (bytes, more) in full.map(|b| (b, 0)).chain([(last, ending)]) {
        let mut record = [0; 64];
        record[0] = bytes.len() as u8;
        record[1] = more;
        record[2..2 + bytes.len()].copy_from_slice(bytes);
        recording.extend(record);
    }
    recording
}
