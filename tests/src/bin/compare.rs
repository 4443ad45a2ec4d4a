//! Compares the linked library with the second implementation.
//!
//! `compare` runs every group of calls, `compare block` one of them. `compare program PATH` runs
//! scripts through the run program at PATH, and `compare blocks FILE` writes blocks that the
//! library built, for `crc_hqx.py`. The last line is the verdict in words; a failure is one line
//! that says what is wrong, and the case where there is one.

use order_line_tests::comparison::{block, both_ends, busy, different_k, idle, loop_time, marks};
use order_line_tests::comparison::{noise, receiver, restart, same, sampling, sender, session};
use order_line_tests::comparison::{tint, two_orders};
use order_line_tests::comparison::{GroupFailure, Tally};
use order_line_tests::interface::VERSION;
use order_line_tests::link::{self, Library};
use order_line_tests::program::Program;
use std::process::ExitCode;
use std::{env, fs};

const SEED: u64 = 41;
const BLOCK_CASES: usize = 120_000;
const SENDER_SESSIONS: usize = 25_000;
const RECEIVER_CALLS: usize = 300_000;
const SESSIONS: usize = 25_000;
/// At each pair of k where the office's is the smaller.
const DIFFERENT_K_ORDERS: usize = 400;
const TINT_CASES: usize = 400;
const TINT_SESSIONS: usize = 4_000;
/// At each k.
const NOISE_BLOCKS: usize = 100_000;
const NOISE_SESSIONS: usize = 4_000;
const SCRIPTS: usize = 6_000;
const BLOCKS_WRITTEN: usize = 800;

/// A group's name and the run of all its cases.
type Group = (&'static str, fn() -> Result<Tally, GroupFailure>);

const GROUPS: [Group; 14] = [
    ("loop_time", || loop_time::compare(&Library)),
    ("block", || block::compare(&Library, SEED, BLOCK_CASES)),
    ("sender", || {
        sender::compare(&Library, SEED, SENDER_SESSIONS)
    }),
    ("receiver", || {
        receiver::compare(&Library, SEED, RECEIVER_CALLS)
    }),
    ("both_ends", || {
        both_ends::compare(&Library, &Library, SEED, SESSIONS)
    }),
    ("busy", || busy::compare(&Library, &Library)),
    ("sampling", || sampling::compare(&Library, &Library)),
    ("two_orders", || two_orders::compare(&Library, &Library)),
    ("restart", || restart::compare(&Library, &Library)),
    ("idle", || idle::compare(&Library, &Library)),
    ("marks", || marks::compare(&Library, &Library)),
    ("different_k", || {
        different_k::compare(&Library, &Library, DIFFERENT_K_ORDERS)
    }),
    ("tint", || {
        tint::compare(&Library, SEED, TINT_CASES, TINT_SESSIONS)
    }),
    ("noise", || {
        noise::compare(&Library, SEED, NOISE_BLOCKS, NOISE_SESSIONS)
    }),
];

const USAGE: &str = "usage: compare [GROUP | program PATH | blocks FILE]";

fn main() -> ExitCode {
    let arguments: Vec<String> = env::args().skip(1).collect();
    let arguments: Vec<&str> = arguments.iter().map(String::as_str).collect();
    let verdict = match arguments[..] {
        [] => run_groups(&GROUPS),
        ["program", path] => run_program(path),
        ["blocks", file] => write_blocks(file),
        [name] => run_group(name),
        _ => Err(String::from(USAGE)),
    };
    match verdict {
        Ok(words) => {
            println!("{words}");
            ExitCode::SUCCESS
        }
        Err(message) => {
            eprintln!("compare: {message}");
            ExitCode::FAILURE
        }
    }
}

/// The verdict in words, or what is wrong.
type Verdict = Result<String, String>;

fn run_group(name: &str) -> Verdict {
    match GROUPS.iter().position(|group| group.0 == name) {
        Some(place) => run_groups(&GROUPS[place..=place]),
        None => {
            let names = GROUPS.map(|group| group.0).join(", ");
            Err(format!("no group {name}; the groups are {names}"))
        }
    }
}

fn run_groups(groups: &[Group]) -> Verdict {
    same(&|| String::from("version"), &VERSION, &link::version())?;
    println!("version {VERSION:#08x}, seed {SEED}");
    for (name, run) in groups {
        report(name, run())?;
    }
    let names: Vec<&str> = groups.iter().map(|group| group.0).collect();
    let names = names.join(", ");
    Ok(format!(
        "The library agrees with the second implementation in every case of {names}."
    ))
}

fn run_program(path: &str) -> Verdict {
    let program = Program::at(path)?;
    println!("seed {SEED}");
    report("program", session::compare(&program, SEED, SCRIPTS))?;
    Ok(format!(
        "{path} writes what the second implementation writes, on every script."
    ))
}

/// Prints what a group counted.
fn report(name: &str, result: Result<Tally, GroupFailure>) -> Result<(), String> {
    let tally = result.map_err(|failure| format!("{name}: {failure}"))?;
    println!("{name}: {tally}");
    Ok(())
}

fn write_blocks(file: &str) -> Verdict {
    let lines = block::built_blocks(&Library, SEED, BLOCKS_WRITTEN);
    fs::write(file, lines).map_err(|error| format!("cannot write {file}: {error}"))?;
    Ok(format!(
        "{BLOCKS_WRITTEN} blocks that the library built are in {file}, for crc_hqx.py."
    ))
}
