//! What a run takes, as Linux tells it.

/// A time as the C library has it.
#[repr(C)]
struct Timespec {
    seconds: i64,
    nanoseconds: i64,
}

/// The clock of the processor's time that this thread has taken.
const CLOCK_THREAD_CPUTIME_ID: i32 = 3;

extern "C" {
    /// The time of a clock; the status is 0 where there is that clock.
    fn clock_gettime(clock: i32, time: *mut Timespec) -> i32;
}

/// The stack of the thread that measures, in bytes.
const STACK: usize = 1 << 30;

/// Processor milliseconds of this thread.
pub fn processor_time() -> f64 {
    let mut time = Timespec {
        seconds: 0,
        nanoseconds: 0,
    };
    let status = unsafe { clock_gettime(CLOCK_THREAD_CPUTIME_ID, &mut time) };
    assert_eq!(status, 0, "there is no clock of the thread's time");
    time.seconds as f64 * 1e3 + time.nanoseconds as f64 / 1e6
}

/// The most memory of the process since the last `forget_peak`, in MB. Where the peak can't be forgotten it is that of the process so far.
pub fn peak() -> f64 {
    let status = std::fs::read_to_string("/proc/self/status").unwrap_or_default();
    let line = status
        .lines()
        .find_map(|line| line.strip_prefix("VmHWM:"))
        .unwrap_or("");
    let kilobytes: f64 = line.trim().trim_end_matches(" kB").parse().unwrap_or(0.0);
    kilobytes / 1024.0
}

/// Lets the peak begin anew at what is in use.
pub fn forget_peak() {
    let _ = std::fs::write("/proc/self/clear_refs", "5");
}

/// Runs on a stack on which rules may stand in one another as deep as their limit.
pub fn on_deep_stack(run: impl FnOnce() + Send + 'static) {
    let thread = std::thread::Builder::new().stack_size(STACK).spawn(run);
    thread
        .expect("there is no memory for the stack")
        .join()
        .expect("the run ended early");
}
