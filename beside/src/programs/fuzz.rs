//! libFuzzer, which makes the bytes that choose a call, and the box, both in this process: so libFuzzer sees the crate's branches.

use beside::fuzz::{difference, quiet_crate, write_seeds};
use std::cell::RefCell;
use std::ffi::CString;
use std::os::raw::{c_char, c_int, c_long, c_void};

extern "C" {
    /// libFuzzer's driver.
    fn LLVMFuzzerRunDriver(
        count: *mut c_int,
        words: *mut *mut *mut c_char,
        one: extern "C" fn(*const u8, usize) -> c_int,
    ) -> c_int;
    /// The box's `main`, which reads calls and writes replies by the two functions below.
    fn beside_box() -> c_int;
}

thread_local! {
    static CALLS: RefCell<Vec<u8>> = RefCell::new(Vec::new());
    static REPLIES: RefCell<Vec<u8>> = RefCell::new(Vec::new());
}

/// What the box has for `read`: the calls that are left.
#[no_mangle]
pub extern "C" fn beside_read(_file: c_int, to: *mut c_void, most: usize) -> c_long {
    CALLS.with(|calls| {
        let mut calls = calls.borrow_mut();
        let count = most.min(calls.len());
        unsafe { std::ptr::copy_nonoverlapping(calls.as_ptr(), to.cast(), count) };
        calls.drain(..count);
        count as c_long
    })
}

/// What the box has for `write`.
#[no_mangle]
pub extern "C" fn beside_write(_file: c_int, from: *const c_void, count: usize) -> c_long {
    let written = unsafe { std::slice::from_raw_parts(from.cast::<u8>(), count) };
    REPLIES.with(|replies| replies.borrow_mut().extend(written));
    count as c_long
}

/// What the proved entries reply to a call.
fn reply_of_box(call: Vec<u8>) -> Vec<u8> {
    CALLS.with(|calls| *calls.borrow_mut() = call);
    unsafe { beside_box() };
    REPLIES.with(RefCell::take)
}

/// One call to both sides; ends the process where they differ.
extern "C" fn ask_both(bytes: *const u8, count: usize) -> c_int {
    let bytes = if count == 0 { &[] } else { unsafe { std::slice::from_raw_parts(bytes, count) } };
    match difference(bytes, reply_of_box) {
        None => 0,
        Some(difference) => {
            eprintln!("{}", difference);
            std::process::abort()
        }
    }
}

fn main() {
    quiet_crate();
    let words: Vec<String> = std::env::args().collect();
    if let [_, mode, directory] = &words[..] {
        if mode == "seeds" {
            write_seeds(directory).expect("seeds are written");
            return;
        }
    }
    let kept: Vec<CString> = words.into_iter().map(|word| CString::new(word).expect("a word")).collect();
    let mut pointers: Vec<*mut c_char> = kept.iter().map(|word| word.as_ptr() as *mut c_char).collect();
    let mut count = pointers.len() as c_int;
    pointers.push(std::ptr::null_mut());
    let mut words = pointers.as_mut_ptr();
    std::process::exit(unsafe { LLVMFuzzerRunDriver(&mut count, &mut words, ask_both) })
}
