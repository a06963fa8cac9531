//! The program `statement`, proved and plain, as processes that read a file and write to
//! /dev/null.

use crate::median;
use crate::usage::{self, Usage};
use bench::statement::BUFFER;
use harness::random::Random;
use harness::reference::calendar::{month_of_year, year, LAST_MONTH};
use harness::reference::hours::register_length;
use harness::reference::refusal::LARGEST_READING;
use std::fs::{self, File};
use std::io::{self, BufWriter, Write};
use std::path::{Path, PathBuf};
use std::process::{Command, Stdio};

const OPENING: &str = "opens=2000-01\nrider=banked\nclass=home\nnameplate=8000\nlimit=9000\n\
    assisted=no\nprices=30000,20000,10000,5000\ndemand=500000\nstandby=0\nbypass=0\ncredit=0\n\
    distribution=0\nbasic=1400\nminimum=0\n";

/// How many readings a run has.
#[derive(Clone, Copy)]
enum Runs {
    Single,
    /// 1 to 96.
    Mixed,
    WholeMonth,
}

/// Months to write: so many, or until the file has so many bytes.
#[derive(Clone, Copy)]
enum Size {
    Months(u32),
    Bytes(u64),
}

pub fn run(statement: &Path, megabytes: usize, rounds: usize) -> io::Result<()> {
    let plain = std::env::current_exe()?.with_file_name("plain-statement");
    let programs = [statement, &plain];
    println!("statement: processor time, median of {rounds} interleaved rounds, file to /dev/null");
    println!(
        "  plain Rust reads and writes through buffers of {} KiB",
        BUFFER / 1024
    );
    let bytes = Size::Bytes(1_000_000 * megabytes as u64);
    for (name, runs) in [
        ("a run for each reading", Runs::Single),
        ("runs of 1 to 96 readings", Runs::Mixed),
        ("a run for each month", Runs::WholeMonth),
    ] {
        let input = Input::new(|file| write_months(file, runs, bytes))?;
        input.report(name, programs, rounds)?;
    }
    let line = vec![b'7'; 1_000_000];
    let input = Input::new(|file| (0..megabytes).try_for_each(|_| file.write_all(&line)))?;
    input.report("one long line", programs, 1)?;
    for months in [1, 12, 120, LAST_MONTH + 1] {
        let size = Size::Months(months);
        let input = Input::new(|file| write_months(file, Runs::Single, size))?;
        input.report(
            &format!("{months} months, a run for each reading"),
            programs,
            rounds,
        )?;
    }
    Ok(())
}

/// The number of months that can be written.
const WRITTEN: u32 = 12 * 8_000;

/// Months in order from January 2000. All up to December 2099 are billed; those after it
/// are read and refused, since no account has more.
fn write_months(file: &mut impl Write, runs: Runs, size: Size) -> io::Result<()> {
    let mut random = Random::new(1);
    let mut written = OPENING.len() as u64;
    file.write_all(OPENING.as_bytes())?;
    for index in 0.. {
        let month = index % WRITTEN;
        match size {
            Size::Months(months) if index == months => break,
            Size::Bytes(bytes) if written >= bytes => break,
            _ => {}
        }
        let mut text = format!(
            "bill={}-{:02}\ncritical=5\n",
            year(month),
            month_of_year(month)
        );
        let mut left = register_length(month);
        while left > 0 {
            let count = match runs {
                Runs::Single => 1,
                Runs::Mixed => left.min(1 + random.up_to(95) as usize),
                Runs::WholeMonth => left,
            };
            let [delivered, received] = [0, 1].map(|_| random.up_to(LARGEST_READING));
            text.push_str(&format!("run={count},{delivered},{received}\n"));
            left -= count;
        }
        file.write_all(text.as_bytes())?;
        written += text.len() as u64;
    }
    Ok(())
}

struct Input {
    path: PathBuf,
}

impl Input {
    fn new(write: impl FnOnce(&mut BufWriter<File>) -> io::Result<()>) -> io::Result<Input> {
        let name = format!("kozempil-bench-{}", std::process::id());
        let input = Input {
            path: std::env::temp_dir().join(name),
        };
        let mut file = BufWriter::new(File::create(&input.path)?);
        write(&mut file)?;
        file.flush()?;
        Ok(input)
    }

    fn report(&self, name: &str, programs: [&Path; 2], rounds: usize) -> io::Result<()> {
        let mut times = [Vec::new(), Vec::new()];
        let mut memory = [0; 2];
        for _ in 0..rounds {
            for (place, program) in programs.iter().enumerate() {
                let used = self.measure(program)?;
                times[place].push(used.time);
                memory[place] = used.kibibytes.max(memory[place]);
            }
        }
        let megabytes = fs::metadata(&self.path)?.len() as f64 / 1e6;
        let [proved, plain] = times.map(|times| median(times).as_secs_f64());
        println!(
            "  {name}: {megabytes:.1} MB, proved {:.1} ms ({:.0} MB/s, peak {} KiB), \
             plain {:.1} ms ({:.0} MB/s, peak {} KiB), ratio {:.2}",
            1e3 * proved,
            megabytes / proved,
            memory[0],
            1e3 * plain,
            megabytes / plain,
            memory[1],
            proved / plain
        );
        Ok(())
    }

    fn measure(&self, program: &Path) -> io::Result<Usage> {
        let child = Command::new(program)
            .stdin(File::open(&self.path)?)
            .stdout(Stdio::null())
            .spawn()
            .map_err(|error| io::Error::other(format!("{}: {error}", program.display())))?;
        usage::of(child)?.ok_or_else(|| io::Error::other(format!("{} fails", program.display())))
    }
}

impl Drop for Input {
    fn drop(&mut self) {
        // What can't be removed is left to the system.
        let _ = fs::remove_file(&self.path);
    }
}
