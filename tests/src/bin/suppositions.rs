//! Prints how likely it is that a block breaks what demand 3 supposes, on a line that inverts each
//! bit with chance p, one independently of the other.

use order_line_tests::reference::block::{block_bits, CHECK_BITS};
use order_line_tests::reference::order::{items, LONGEST};
use order_line_tests::suppositions::{
    cancelled_whole, chances, damaged, found_in_search, not_admitted, passing_fours,
};

/// k and p of each column.
const COLUMNS: [(usize, f64); 4] = [(240, 1e-5), (240, 1e-4), (3840, 1e-5), (3840, 1e-4)];

fn main() {
    heading("Chance");
    row("a block arrives damaged", damaged);
    row("a cancelled block arrives whole", cancelled_whole);
    row("a block's damage is not admitted", uncancelled_not_admitted);
    row(
        "a cancelled block's damage is not admitted",
        cancelled_not_admitted,
    );
    row("four bits are damaged and the check passes", four_pass);
    row("the same, the last of the four by cancelling", three_pass);
    row("the sequence arrives damaged", |_, p| {
        damaged(CHECK_BITS, p)
    });
    row("two random blocks hold the sequence, at most", |n, _| {
        found_in_search(2 * n)
    });
    row("both, at most, once in an order", false_start);
    println!("\nIn the longest order, each block sent once and one cancelled for each damaged:\n");
    heading("Number to expect");
    row("damaged blocks", |n, p| in_order(n, p, damaged, |_, _| 0.0));
    row("cancelled blocks that arrive whole", |n, p| {
        in_order(n, p, |_, _| 0.0, cancelled_whole)
    });
    row("blocks whose damage is not admitted", |n, p| {
        in_order(n, p, uncancelled_not_admitted, cancelled_not_admitted)
    });
    row(
        "blocks with four damaged bits that pass the check",
        |n, p| in_order(n, p, four_pass, three_pass),
    );
    row("of them blocks that were not cancelled", |n, p| {
        in_order(n, p, four_pass, |_, _| 0.0)
    });
    row("of them cancelled blocks", |n, p| {
        in_order(n, p, |_, _| 0.0, three_pass)
    });
    print_counts();
}

fn uncancelled_not_admitted(n: usize, p: f64) -> f64 {
    not_admitted(&chances(n, p, false))
}

fn cancelled_not_admitted(n: usize, p: f64) -> f64 {
    not_admitted(&chances(n, p, true))
}

fn print_counts() {
    println!("\nNo two bits pass the check in a block of either length. Fours that pass:");
    for k in [240, 3840] {
        let (all, with_last) = fours(block_bits(k));
        println!("k {k}: {all}, of them {with_last} with the last bit");
    }
    let sequences = found_in_search(LONGEST);
    println!(
        "A random order of {LONGEST} bits holds the sequence {sequences:.1} times on average."
    );
}

/// The first synchronising block's sequence is damaged, and the search finds it in the two blocks
/// behind.
fn false_start(n: usize, p: f64) -> f64 {
    damaged(CHECK_BITS, p) * found_in_search(2 * n)
}

/// Exactly four bits are inverted, and the check passes.
fn four_pass(n: usize, p: f64) -> f64 {
    fours(n).0 as f64 * p.powi(4) * (1.0 - p).powi(n as i32 - 4)
}

/// The same of a cancelled block, its last bit being one of the four.
fn three_pass(n: usize, p: f64) -> f64 {
    fours(n).1 as f64 * p.powi(3) * (1.0 - p).powi(n as i32 - 3)
}

/// The number to expect in the longest order, by a block's chance and a cancelled block's.
fn in_order(
    n: usize,
    p: f64,
    block: fn(usize, f64) -> f64,
    cancelled: fn(usize, f64) -> f64,
) -> f64 {
    blocks(n) * (block(n, p) + damaged(n, p) * cancelled(n, p))
}

fn fours(n: usize) -> (usize, usize) {
    passing_fours(n).expect("no two bits pass")
}

/// The blocks of the longest order, both end blocks included.
fn blocks(n: usize) -> f64 {
    (items(n - block_bits(0), LONGEST) + 2) as f64
}

fn heading(words: &str) {
    let columns = COLUMNS.map(|(k, p)| format!("k {k}, p {p:e}"));
    println!("| {words} | {} |", columns.join(" | "));
    println!("|---|{}", "---|".repeat(COLUMNS.len()));
}

/// A row of the table, from n and p of each column.
fn row(words: &str, chance: impl Fn(usize, f64) -> f64) {
    let cells = COLUMNS.map(|(k, p)| format!("{:.2e}", chance(block_bits(k), p)));
    println!("| {words} | {} |", cells.join(" | "));
}
