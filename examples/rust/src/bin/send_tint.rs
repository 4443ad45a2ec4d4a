//! An office and a machine in one program: a tint order goes through the order line's library over a noisy line, and the
//! doses that the machine reads are compared with those that the office wrote.
//!
//!     send_tint [--noise FIRST SECOND] [K [CANISTER STEPS]...]
//!
//! FIRST and SECOND are the words that the noise starts from; it is the same from the same words. K is 240 (as without
//! it), 480, 960 or 3840 data bits a block. A dose is a CANISTER, 1 to 12, and its pump STEPS, 1 to 4,800; canisters rise,
//! and all steps together are 20,000 or fewer. Where none is given, four are sent. Numbers are decimal digits alone. Exit
//! status 0 means that the same doses were read, 1 that they were not, 2 that the arguments could not be read, or the
//! doses, the line or the words were refused. The office and the machine are in `session/mod.rs`.

mod session;

use order_line::{Dose, Generator, MOST_DOSES, Refusal, read_tint, tint_bytes, write_tint};
use session::{arguments, exit_status, numbers, run_session, same_version};
use std::ffi::OsString;
use std::process::ExitCode;

const USAGE: &str = "send_tint [--noise FIRST SECOND] [K [CANISTER STEPS]...]";

/// Canisters and steps in turn, where the arguments give no others.
const DOSES: [u32; 8] = [1, 120, 4, 1500, 7, 36, 11, 4800];

struct Request {
    k: usize,
    doses: Vec<Dose>,
}

/// Reads K and the doses, as far as they are there. What the library refuses is left to it: 65535 stands for a greater
/// number.
fn read_arguments(arguments: &[OsString]) -> Option<Request> {
    let numbers = numbers(arguments)?;
    let (k, numbers) = match &numbers[..] {
        [] => (240, &DOSES[..]),
        [k] => (*k, &DOSES[..]),
        [k, numbers @ ..] => (*k, numbers),
    };
    let (pairs, []) = numbers.as_chunks() else {
        return None;
    };
    let word = |number| u16::try_from(number).unwrap_or(u16::MAX);
    let dose = |&[canister, steps]: &[u32; 2]| Dose {
        canister: word(canister),
        steps: word(steps),
    };
    Some(Request {
        k: k as usize,
        doses: pairs.iter().map(dose).collect(),
    })
}

/// Whether the machine read the same doses.
fn send_tint(request: &Request, words: Generator) -> Result<bool, Refusal> {
    let mut order = [0; tint_bytes(MOST_DOSES)];
    let order = write_tint(&request.doses, &mut order)?;
    let Some(arrived) = run_session(request.k, None, order.to_vec(), words)? else {
        return Ok(false);
    };
    let mut room = [Dose::default(); MOST_DOSES];
    match read_tint(&arrived, &mut room) {
        Ok(read) => {
            for Dose { canister, steps } in read {
                println!("canister {canister}: {steps} steps");
            }
            Ok(read == request.doses)
        }
        Err(refusal) => {
            println!("the machine {refusal}");
            Ok(false)
        }
    }
}

fn main() -> ExitCode {
    let (words, request) = match arguments(USAGE, read_arguments) {
        Ok(read) => read,
        Err(status) => return status,
    };
    if !same_version() {
        return ExitCode::from(2);
    }
    exit_status(send_tint(&request, words))
}
