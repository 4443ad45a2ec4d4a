//! An office and a machine in one program: a file goes through the order line's library over a noisy line, and what
//! arrived is compared with what was sent.
//!
//!     send_file [--noise FIRST SECOND] [FILE [K [SIZE]]]
//!
//! FIRST and SECOND are the words that the noise starts from; it is the same from the same words. FILE has at least one
//! byte and at most `LONGEST_ORDER` bits; K is 240 (as without it), 480, 960 or 3840 data bits a block. With SIZE, a code
//! size of 5 to 8, both ends use start-of-message marks. Numbers are decimal digits alone. Exit status 0 means that the file
//! arrived whole, 1 that it did not, 2 that the arguments or the file could not be read, or the order, the line or the words
//! were refused. The office and the machine are in `session/mod.rs`.

mod session;

use order_line::LONGEST_ORDER;
use session::{arguments, exit_status, numbers, run_session, same_version};
use std::ffi::OsString;
use std::fs::File;
use std::io::{self, Read};
use std::path::{Path, PathBuf};
use std::process::ExitCode;

const USAGE: &str = "send_file [--noise FIRST SECOND] [FILE [K [SIZE]]]";

struct Request {
    path: PathBuf,
    k: usize,
    size: Option<usize>,
}

/// Reads FILE, K and SIZE, as far as they are there. What begins with - is no FILE.
fn read_arguments(arguments: &[OsString]) -> Option<Request> {
    let path = arguments.first().map_or("README.md".into(), PathBuf::from);
    if path.as_os_str().as_encoded_bytes().starts_with(b"-") {
        return None;
    }
    let numbers = numbers(arguments.get(1..).unwrap_or_default())?;
    let (k, size) = match numbers[..] {
        [] => (240, None),
        [k] => (k, None),
        [k, size] => (k, Some(size as usize)),
        _ => return None,
    };
    let k = k as usize;
    Some(Request { path, k, size })
}

/// Reads the file, up to one byte more than the longest order has: a file too long is seen and refused.
fn read_order(path: &Path) -> io::Result<Vec<u8>> {
    let mut order = Vec::new();
    let most = LONGEST_ORDER as u64 / 8 + 1;
    File::open(path)?.take(most).read_to_end(&mut order)?;
    Ok(order)
}

fn main() -> ExitCode {
    let (words, request) = match arguments(USAGE, read_arguments) {
        Ok(read) => read,
        Err(status) => return status,
    };
    if !same_version() {
        return ExitCode::from(2);
    }
    let Ok(order) = read_order(&request.path) else {
        eprintln!("cannot read {}", request.path.display());
        return ExitCode::from(2);
    };
    let arrived = run_session(request.k, request.size, order, words);
    exit_status(arrived.map(|order| order.is_some()))
}
