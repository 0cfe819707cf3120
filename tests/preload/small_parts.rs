//! Preloaded into a program under test. `read` and `write` move one byte at a time, and where the file that BREAKS names would be at its
//! end, `read` fails instead: a program that takes a failed read for the end sees a whole text. Of the file that FALTERS names the second
//! read fails and no other: a program that then reads on sees a text with a hole.

use std::ffi::c_void;
use std::os::raw::{c_int, c_long};
use std::sync::atomic::{AtomicUsize, Ordering};

const SYS_READ: c_long = 0;
const SYS_WRITE: c_long = 1;
const EIO: c_int = 5;

extern "C" {
    fn syscall(number: c_long, ...) -> c_long;
    fn __errno_location() -> *mut c_int;
}

/// How often the file that FALTERS names was read.
static READS: AtomicUsize = AtomicUsize::new(0);

/// Whether this environment variable names the file.
fn named(variable: &str, fd: c_int) -> bool {
    let open = std::fs::read_link(format!("/proc/self/fd/{fd}"));
    match (open, std::env::var_os(variable)) {
        (Ok(path), Some(name)) => path.file_name() == Some(&name),
        _ => false,
    }
}

/// # Safety
/// As read of the C library.
#[no_mangle]
pub unsafe extern "C" fn read(fd: c_int, bytes: *mut c_void, length: usize) -> isize {
    if named("FALTERS", fd) && READS.fetch_add(1, Ordering::Relaxed) == 1 {
        *__errno_location() = EIO;
        return -1;
    }
    let got = syscall(SYS_READ, fd, bytes, length.min(1));
    if got == 0 && length > 0 && named("BREAKS", fd) {
        *__errno_location() = EIO;
        return -1;
    }
    got as isize
}

/// # Safety
/// As write of the C library.
#[no_mangle]
pub unsafe extern "C" fn write(fd: c_int, bytes: *const c_void, length: usize) -> isize {
    syscall(SYS_WRITE, fd, bytes, length.min(1)) as isize
}
