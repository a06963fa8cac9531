//! Times the proved library and the program `statement` against plain Rust at -O3, built
//! in the same run. Times are processor times, rounds are interleaved, and each figure is
//! the median of its rounds; a ratio is proved / plain.
//!
//! - [`programs`]: `statement` as a process, with its peak memory.
//! - [`bills`]: bills through the interface for C.
//! - [`usage`]: what the system says of time and memory.

#![deny(unsafe_code)]

mod bills;
mod programs;
mod usage;

// The layout of the interface and its functions are those of the comparison, which uses
// more of them.
#[allow(dead_code)]
#[path = "../../compare/src/encode.rs"]
mod encode;
#[allow(dead_code)]
#[path = "../../compare/src/interface.rs"]
mod interface;

use std::io;
use std::path::{Path, PathBuf};
use std::process::ExitCode;

struct Options {
    /// The program `statement`.
    statement: PathBuf,
    megabytes: usize,
    rounds: usize,
}

impl Options {
    fn read() -> Option<Options> {
        let package = Path::new(env!("CARGO_MANIFEST_DIR"));
        let mut options = Options {
            statement: package.join("../../target/bin/statement"),
            megabytes: 100,
            rounds: 5,
        };
        let mut arguments = std::env::args().skip(1);
        while let Some(flag) = arguments.next() {
            let value = arguments.next()?;
            match flag.as_str() {
                "--statement" => options.statement = value.into(),
                "--megabytes" => options.megabytes = value.parse().ok()?,
                "--rounds" => options.rounds = value.parse().ok()?,
                _ => return None,
            }
        }
        Some(options)
    }
}

fn main() -> ExitCode {
    let Some(options) = Options::read() else {
        eprintln!("usage: bench [--statement PATH] [--megabytes N] [--rounds N]");
        return ExitCode::from(2);
    };
    match run(&options) {
        Ok(()) => ExitCode::SUCCESS,
        Err(error) => {
            eprintln!("bench: {error}");
            ExitCode::FAILURE
        }
    }
}

fn run(options: &Options) -> io::Result<()> {
    // The programs first: a process that starts is charged with the memory of the one
    // that starts it, and the bills need much.
    programs::run(&options.statement, options.megabytes, options.rounds)?;
    bills::run();
    Ok(())
}

/// The middle one.
fn median<Item: Ord + Copy>(mut items: Vec<Item>) -> Item {
    items.sort();
    items[items.len() / 2]
}
