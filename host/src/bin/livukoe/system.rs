//! What the standard library does not do: interrupts that remove a temporary file, memory that is refused, descriptors
//! that were closed at the start, and the copy of a descriptor. All unsafe code of the tool is here.

use std::alloc::{GlobalAlloc, Layout, System};
use std::ffi::{c_char, c_int, c_void, CString};
use std::fs::File;
use std::io;
use std::os::fd::FromRawFd;
use std::os::unix::ffi::OsStrExt;
use std::path::Path;
use std::ptr;
use std::sync::atomic::{AtomicBool, AtomicI32, AtomicPtr, Ordering::SeqCst};

extern "C" {
    fn signal(number: c_int, action: usize) -> usize;
    fn raise(number: c_int) -> c_int;
    fn unlink(path: *const c_char) -> c_int;
    fn write(descriptor: c_int, bytes: *const c_void, length: usize) -> isize;
    fn dup(descriptor: c_int) -> c_int;
    fn fcntl(descriptor: c_int, command: c_int, ...) -> c_int;
    fn _exit(status: c_int) -> !;
}

const DEFAULT: usize = 0;
const IGNORED: usize = 1;
/// HUP, INT and TERM.
const INTERRUPTS: [c_int; 3] = [1, 2, 15];
/// XFSZ, a file that grows beyond the allowed size.
const FILE_SIZE: c_int = 25;
const GET_FLAGS: c_int = 1;

/// The temporary file that an interrupt removes, where there is one.
static TEMPORARY: AtomicPtr<c_char> = AtomicPtr::new(ptr::null_mut());
/// Whether an interrupt waits for the end of a step, and the one that waits.
static HELD: AtomicBool = AtomicBool::new(false);
static WAITING: AtomicI32 = AtomicI32::new(0);

/// Makes a file that grows beyond the allowed size an error of writing it.
pub fn ignore_file_size() {
    // SAFETY: no memory is passed.
    unsafe { signal(FILE_SIZE, IGNORED) };
}

/// Has interrupts remove the temporary file that is remembered and then end the tool as they would have. One that was
/// ignored from the start stays so.
pub fn catch_interrupts() {
    // SAFETY: the handler loads and stores atomics and calls `unlink`, `signal` and `raise`, which a handler may call.
    unsafe {
        for number in INTERRUPTS {
            if signal(number, IGNORED) != IGNORED {
                signal(number, interrupted as *const () as usize);
            }
        }
    }
}

extern "C" fn interrupted(number: c_int) {
    if HELD.load(SeqCst) {
        WAITING.store(number, SeqCst);
    } else {
        end_by(number);
    }
}

/// Removes the temporary file and ends by a signal: at once, or when its handler returns.
fn end_by(number: c_int) {
    remove_remembered();
    // SAFETY: no memory is passed.
    unsafe {
        signal(number, DEFAULT);
        raise(number);
    }
}

fn remove_remembered() {
    let path = TEMPORARY.load(SeqCst);
    if !path.is_null() {
        // SAFETY: a string that `remember` made; it is given back only in a step, in which no handler comes here.
        unsafe { unlink(path) };
    }
}

/// A step that an interrupt waits for. Only the main thread takes steps, and no other runs beside them.
pub fn uninterrupted<T>(step: impl FnOnce() -> T) -> T {
    HELD.store(true, SeqCst);
    let answer = step();
    HELD.store(false, SeqCst);
    let waiting = WAITING.swap(0, SeqCst);
    if waiting != 0 {
        end_by(waiting);
    }
    answer
}

/// Remembers the temporary file, or that there is none any more. To be called inside of a step.
pub fn remember(temporary: Option<&Path>) {
    let path = temporary.and_then(|path| CString::new(path.as_os_str().as_bytes()).ok());
    let old = TEMPORARY.swap(path.map_or(ptr::null_mut(), CString::into_raw), SeqCst);
    if !old.is_null() {
        // SAFETY: it came from `into_raw` above, and nobody else has it any more.
        drop(unsafe { CString::from_raw(old) });
    }
}

/// A file over a copy of one of the tool's own descriptors, which shares its position.
pub fn descriptor(number: c_int) -> io::Result<File> {
    if was_closed(number) {
        return Err(io::Error::other("it is closed"));
    }
    // SAFETY: no memory is passed; the copy, where there is one, belongs to the file alone.
    unsafe {
        match dup(number) {
            -1 => Err(io::Error::last_os_error()),
            copy => Ok(File::from_raw_fd(copy)),
        }
    }
}

/// Which of the three standard descriptors were closed when the tool was started. Rust opens /dev/null in their places
/// ahead of `main`, after which writing to them loses what is written.
static CLOSED: [AtomicBool; 3] = [const { AtomicBool::new(false) }; 3];

fn was_closed(number: c_int) -> bool {
    let known = usize::try_from(number).ok().and_then(|at| CLOSED.get(at));
    known.is_some_and(|closed| closed.load(SeqCst))
}

#[cfg(target_os = "linux")]
#[used]
#[link_section = ".init_array"]
static AT_THE_START: extern "C" fn() = look_at_descriptors;

/// Runs ahead of Rust's own start.
#[cfg_attr(not(target_os = "linux"), allow(dead_code))]
extern "C" fn look_at_descriptors() {
    for (number, closed) in (0..).zip(&CLOSED) {
        // SAFETY: no memory is passed, and nothing of Rust's start is needed.
        let flags = unsafe { fcntl(number, GET_FLAGS) };
        closed.store(flags == -1, SeqCst);
    }
}

/// The system's memory. Where it gives none, the tool says so and ends with status 3.
pub struct MemoryOrEnd;

// SAFETY: everything is passed on to the system's allocator and its answers are handed out as they are, except null,
// after which nothing runs.
unsafe impl GlobalAlloc for MemoryOrEnd {
    unsafe fn alloc(&self, layout: Layout) -> *mut u8 {
        given(System.alloc(layout))
    }

    unsafe fn alloc_zeroed(&self, layout: Layout) -> *mut u8 {
        given(System.alloc_zeroed(layout))
    }

    unsafe fn realloc(&self, old: *mut u8, layout: Layout, size: usize) -> *mut u8 {
        given(System.realloc(old, layout, size))
    }

    unsafe fn dealloc(&self, old: *mut u8, layout: Layout) {
        System.dealloc(old, layout);
    }
}

fn given(memory: *mut u8) -> *mut u8 {
    if !memory.is_null() {
        return memory;
    }
    const WORDS: &[u8] = b"livukoe: there is not enough memory\n";
    remove_remembered();
    // SAFETY: the words and their length; then nothing runs.
    unsafe {
        write(2, WORDS.as_ptr().cast(), WORDS.len());
        _exit(3)
    }
}
