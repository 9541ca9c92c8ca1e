//! Loaded before the C library, it stands in for its `read` and `write`. The first read brings 9 bytes, the second is interrupted, the third brings 18, the
//! fourth fails; those behind are as ever. A write to standard output takes 3 bytes at most, and every fourth is interrupted.
use std::ffi::{c_int, c_void};
use std::sync::atomic::{AtomicUsize, Ordering};

const EINTR: c_int = 4;
const EIO: c_int = 5;

#[repr(C)]
struct Piece {
    base: *const c_void,
    size: usize,
}

extern "C" {
    fn readv(descriptor: c_int, pieces: *const Piece, count: c_int) -> isize;
    fn writev(descriptor: c_int, pieces: *const Piece, count: c_int) -> isize;
    fn __errno_location() -> *mut c_int;
}

static READS: AtomicUsize = AtomicUsize::new(0);
static WRITES: AtomicUsize = AtomicUsize::new(0);

unsafe fn fail(error: c_int) -> isize {
    *__errno_location() = error;
    -1
}

#[no_mangle]
pub unsafe extern "C" fn read(descriptor: c_int, base: *mut c_void, size: usize) -> isize {
    let most = match READS.fetch_add(1, Ordering::Relaxed) {
        0 => 9,
        1 => return fail(EINTR),
        2 => 18,
        3 => return fail(EIO),
        _ => size,
    };
    readv(descriptor, &Piece { base, size: most.min(size) }, 1)
}

#[no_mangle]
pub unsafe extern "C" fn write(descriptor: c_int, base: *const c_void, size: usize) -> isize {
    let most = match descriptor {
        1 if WRITES.fetch_add(1, Ordering::Relaxed) % 4 == 3 => return fail(EINTR),
        1 => 3,
        _ => size,
    };
    writev(descriptor, &Piece { base, size: most.min(size) }, 1)
}
