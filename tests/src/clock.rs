//! Processor time, which tells more than time gone by where other work goes on beside: what waits for its turn is not charged.

use std::os::raw::{c_int, c_long};
use std::process::{Child, Command};
use std::time::Instant;

extern "C" {
    fn wait4(process: c_int, status: *mut c_int, options: c_int, usage: *mut [c_long; 18]) -> c_int;
    fn clock_gettime(clock: c_int, time: *mut [c_long; 2]) -> c_int;
}

const THREAD: c_int = 3;

/// Waits for the end of a process, and gives the processor time that it took, its own and the system's for it, in microseconds.
pub fn of_process(child: &Child) -> std::io::Result<f64> {
    let mut usage = [0; 18];
    // SAFETY: the C library's struct rusage has 18 longs on 64-bit Linux, and a null status is allowed
    if unsafe { wait4(child.id() as c_int, std::ptr::null_mut(), 0, &mut usage) } < 0 {
        return Err(std::io::Error::last_os_error());
    }
    let [seconds, micros, system_seconds, system_micros, ..] = usage;
    Ok((seconds + system_seconds) as f64 * 1e6 + (micros + system_micros) as f64)
}

/// Runs a command to its end: the time from start to end, and the processor time, in microseconds.
pub fn of_run(command: &mut Command) -> std::io::Result<[f64; 2]> {
    let start = Instant::now();
    let processor = of_process(&command.spawn()?)?;
    Ok([start.elapsed().as_secs_f64() * 1e6, processor])
}

/// The processor time of this thread so far, in microseconds.
fn thread_now() -> f64 {
    let mut time = [0; 2];
    // SAFETY: the C library's struct timespec is two longs on 64-bit Linux
    unsafe { clock_gettime(THREAD, &mut time) };
    time[0] as f64 * 1e6 + time[1] as f64 / 1e3
}

/// What some work gives, and the processor time that this thread took for it, in microseconds.
pub fn of<T>(work: impl FnOnce() -> T) -> (T, f64) {
    let start = thread_now();
    let result = work();
    (result, thread_now() - start)
}

/// The middle value, or the mean of the two in the middle.
pub fn median(mut values: Vec<f64>) -> f64 {
    values.sort_by(f64::total_cmp);
    (values[(values.len() - 1) / 2] + values[values.len() / 2]) / 2.0
}
