//! The program, run on an input: from a file, through a pipe in pieces, or typed.

use harness::random::Random;
use harness::reference::statement::statement;
use std::fs::{self, File};
use std::io::{self, Read, Write};
use std::path::{Path, PathBuf};
use std::process::{Child, ChildStdout, Command, Stdio};
use std::sync::mpsc::{self, Receiver, RecvTimeoutError};
use std::thread;
use std::time::{Duration, Instant};

/// The program must have ended by then, on a machine that does other work too.
const TIME_LIMIT: Duration = Duration::from_secs(5);
/// Between two pieces, so that the program reads each by itself.
const PAUSE: Duration = Duration::from_micros(40);
/// Most pieces of an input; the last one takes the rest.
const MOST_PIECES: usize = 60;

pub struct Program {
    path: PathBuf,
    /// A folder for the input and for what comes on standard error.
    scratch: PathBuf,
}

#[derive(Clone, Copy, Debug)]
pub enum Feeding {
    File,
    /// Through a pipe, cut by the numbers of this seed.
    Pieces(u64),
    /// Line by line, each only when all has come that the lines before it complete.
    Typed,
    /// From a file, and nobody reads what is printed.
    Unread,
}

impl Program {
    pub fn new(path: &Path) -> io::Result<Program> {
        let path = path.canonicalize()?;
        let scratch = std::env::temp_dir().join(format!("kozempil-compare-{}", std::process::id()));
        fs::create_dir_all(&scratch)?;
        Ok(Program { path, scratch })
    }

    /// What the program prints; an error where it doesn't end by itself, or with another status than what it prints has.
    pub fn run(&self, input: &[u8], feeding: Feeding) -> Result<Vec<u8>, String> {
        self.try_run(input, feeding)
            .map_err(|error| error.to_string())
    }

    fn try_run(&self, input: &[u8], feeding: Feeding) -> io::Result<Vec<u8>> {
        let errors = self.scratch.join("errors");
        let stdin = match feeding {
            Feeding::File | Feeding::Unread => {
                let path = self.scratch.join("input");
                fs::write(&path, input)?;
                Stdio::from(File::open(path)?)
            }
            Feeding::Pieces(_) | Feeding::Typed => Stdio::piped(),
        };
        let mut child = Command::new(&self.path)
            .stdin(stdin)
            .stdout(Stdio::piped())
            .stderr(File::create(&errors)?)
            .spawn()?;
        let printed = feed(&mut child, input, feeding);
        if printed.is_err() {
            child.kill()?;
        }
        let status = child.wait()?;
        let printed = printed?;
        if status.code() != Some(expected_status(&printed)) && !matches!(feeding, Feeding::Unread) {
            return Err(io::Error::other(format!("it ends with {status}")));
        }
        match fs::metadata(errors)?.len() {
            0 => Ok(printed),
            _ => Err(io::Error::other("it writes to standard error")),
        }
    }
}

/// The exit status of a statement: 2 where it stopped at a line, else 1 where the opening or a month was refused.
fn expected_status(printed: &[u8]) -> i32 {
    let printed = String::from_utf8_lossy(printed);
    let accepted = |line: &str| line == "open=0" || line.contains(" answer=0 ");
    if printed.lines().any(|line| line.starts_with("line=")) {
        2
    } else if printed.lines().all(accepted) {
        0
    } else {
        1
    }
}

impl Drop for Program {
    fn drop(&mut self) {
        // What can't be removed is left to the system.
        let _ = fs::remove_dir_all(&self.scratch);
    }
}

fn feed(child: &mut Child, input: &[u8], feeding: Feeding) -> io::Result<Vec<u8>> {
    let is_read = !matches!(feeding, Feeding::Unread);
    let stdin = child.stdin.take();
    let mut printed = Printed::new(child.stdout.take().filter(|_| is_read));
    if let Some(mut stdin) = stdin {
        match feeding {
            Feeding::Pieces(seed) => write_pieces(&mut stdin, input, seed),
            _ => type_lines(&mut stdin, input, &mut printed)?,
        }
    }
    printed.wait_for(usize::MAX)?;
    while child.try_wait()?.is_none() {
        if Instant::now() > printed.deadline {
            return Err(io::Error::other("it doesn't end by itself"));
        }
        thread::sleep(PAUSE);
    }
    Ok(printed.bytes)
}

/// A program that stops at a faulty line reads no further, so errors don't count.
fn write_pieces(stdin: &mut impl Write, input: &[u8], seed: u64) {
    let mut random = Random::new(seed);
    let largest = random.pick([1, 3, 20, 200, 9_000]);
    let mut rest = input;
    for piece in 1..=MOST_PIECES {
        let length = match piece {
            MOST_PIECES => rest.len(),
            _ => rest.len().min(1 + random.up_to(largest) as usize),
        };
        let (now, later) = rest.split_at(length);
        if now.is_empty() || stdin.write_all(now).is_err() {
            return;
        }
        rest = later;
        thread::sleep(PAUSE);
    }
}

fn type_lines(stdin: &mut impl Write, input: &[u8], printed: &mut Printed) -> io::Result<()> {
    let mut typed = 0;
    for line in input.split_inclusive(|&byte| byte == b'\n') {
        if stdin.write_all(line).is_err() {
            return Ok(());
        }
        typed += line.len();
        if line.ends_with(b"\n") {
            printed.wait_for(complete(&input[..typed]))?;
        }
    }
    Ok(())
}

/// The number of bytes that whole lines have completed, whatever may follow them.
fn complete(lines: &[u8]) -> usize {
    let count = lines.split_inclusive(|&byte| byte == b'\n').count();
    // Another line that is unreadable completes nothing but its own number.
    let printed = statement(&[lines, b"?\n"].concat());
    let fault = format!("line={}\n", count + 1);
    match printed.ends_with(fault.as_bytes()) {
        true => printed.len() - fault.len(),
        false => printed.len(),
    }
}

/// What has come so far.
struct Printed {
    bytes: Vec<u8>,
    parts: Receiver<Vec<u8>>,
    deadline: Instant,
}

impl Printed {
    fn new(stdout: Option<ChildStdout>) -> Printed {
        let (sender, parts) = mpsc::channel();
        if let Some(mut stdout) = stdout {
            thread::spawn(move || {
                let mut buffer = vec![0; 1 << 16];
                while let Ok(length @ 1..) = stdout.read(&mut buffer) {
                    if sender.send(buffer[..length].to_vec()).is_err() {
                        return;
                    }
                }
            });
        }
        Printed {
            bytes: Vec::new(),
            parts,
            deadline: Instant::now() + TIME_LIMIT,
        }
    }

    /// Waits until so many bytes have come, or the program has closed its output.
    fn wait_for(&mut self, length: usize) -> io::Result<()> {
        while self.bytes.len() < length {
            let left = self.deadline.saturating_duration_since(Instant::now());
            match self.parts.recv_timeout(left) {
                Ok(part) => self.bytes.extend(part),
                Err(RecvTimeoutError::Disconnected) => break,
                Err(RecvTimeoutError::Timeout) => {
                    let so_far = self.bytes.escape_ascii();
                    return Err(io::Error::other(format!(
                        "it waits; so far it has printed {so_far}"
                    )));
                }
            }
        }
        Ok(())
    }
}
