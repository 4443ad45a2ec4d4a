//! The run program of the second implementation: a session on standard input, its course on
//! standard output.

use order_line_tests::reference::session;
use std::io::{self, Read, Write};

fn main() -> io::Result<()> {
    let mut input = Vec::new();
    io::stdin().read_to_end(&mut input)?;
    io::stdout().write_all(&session::run(&input))
}
