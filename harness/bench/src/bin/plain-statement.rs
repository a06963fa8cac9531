//! The program `statement` in plain Rust.

use std::io::{self, ErrorKind};

fn main() -> io::Result<()> {
    match bench::statement::statement(io::stdin().lock(), io::stdout().lock()) {
        // Nobody reads on.
        Err(error) if error.kind() == ErrorKind::BrokenPipe => Ok(()),
        ended => ended,
    }
}
