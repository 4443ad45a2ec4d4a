//! What libFuzzer calls: one case of the linked library, compared with the second implementation.

use crate::comparison::{any_bytes, Tally};
use crate::link::Library;
use std::slice;
use std::sync::Mutex;

static TALLY: Mutex<Option<Tally>> = Mutex::new(None);

extern "C" {
    fn atexit(function: extern "C" fn()) -> i32;
}

/// Prints how often each kind of answer came.
extern "C" fn report() {
    if let Some(tally) = TALLY.lock().ok().and_then(|mut tally| tally.take()) {
        println!("answers: {tally}");
    }
}

/// # Safety
/// `data` points to `size` bytes.
#[no_mangle]
pub unsafe extern "C" fn LLVMFuzzerTestOneInput(data: *const u8, size: usize) -> i32 {
    let bytes = match size {
        0 => &[],
        _ => unsafe { slice::from_raw_parts(data, size) },
    };
    let mut guard = TALLY.lock().expect("one thread");
    let tally = guard.get_or_insert_with(|| {
        unsafe { atexit(report) };
        Tally::default()
    });
    if let Err(difference) = any_bytes::compare(&Library, bytes, tally) {
        eprintln!("DIFFERENT\n{difference}");
        std::process::abort();
    }
    0
}
