//! Processor time, and rounds of it.

unsafe extern "C" {
    fn clock_gettime(clock: i32, time: *mut Time) -> i32;
    fn getrusage(who: i32, usage: *mut Usage) -> i32;
}

#[repr(C)]
#[derive(Default)]
struct Time {
    seconds: i64,
    nanoseconds: i64,
}

/// The times of the user and of the system, in seconds and microseconds, and fourteen more figures.
#[repr(C)]
#[derive(Default)]
struct Usage {
    times: [i64; 4],
    others: [i64; 14],
}

const OF_THREAD: i32 = 3;
const OF_CHILDREN: i32 = -1;

/// Seconds of processor time that ended children have had.
pub fn children_seconds() -> f64 {
    let mut usage = Usage::default();
    // SAFETY: the pointer is to figures that are ours alone.
    let told = unsafe { getrusage(OF_CHILDREN, &mut usage) };
    assert_eq!(told, 0);
    let [user, user_micro, system, system_micro] = usage.times;
    (user + system) as f64 + (user_micro + system_micro) as f64 / 1e6
}

/// Seconds of processor time that this thread has had.
fn thread_seconds() -> f64 {
    let mut time = Time::default();
    // SAFETY: the pointer is to a time that is ours alone.
    let told = unsafe { clock_gettime(OF_THREAD, &mut time) };
    assert_eq!(told, 0);
    time.seconds as f64 + time.nanoseconds as f64 / 1e9
}

pub fn median(mut times: Vec<f64>) -> f64 {
    times.sort_by(f64::total_cmp);
    times[times.len() / 2]
}

/// Processor seconds of a call, and what it answers.
pub fn timed<T>(call: impl Fn() -> T) -> (f64, T) {
    let start = thread_seconds();
    let told = call();
    (thread_seconds() - start, told)
}

/// The files of a name of the machine's processes that can be read and aren't empty.
pub fn real_texts(name: &str) -> Vec<Vec<u8>> {
    let Ok(folder) = std::fs::read_dir("/proc") else {
        return Vec::new();
    };
    folder
        .flatten()
        .filter_map(|entry| std::fs::read(entry.path().join(name)).ok())
        .filter(|text| !text.is_empty())
        .collect()
}
