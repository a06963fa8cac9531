//! The program `statement`: it reads line by line through a buffer, keeps a month's
//! readings in two `Vec`s, prints a month as soon as it is complete and hands over what it
//! has printed before it waits for more input. Only the words and months of lines that are
//! few are read by the reference.

use crate::bill::{billing, by_table};
use harness::reference::account::{Account, Bill, ByPeriod, Nameplates, PriceList, Terms};
use harness::reference::calls::opening;
use harness::reference::statement::{
    assisted, class, entered_month, rider, EnteredMonth, MOST_READINGS,
};
use std::io::{self, BufRead, BufReader, BufWriter, Read, Write};

/// Bytes of the buffer for reading, and of that for writing.
pub const BUFFER: usize = 64 * 1024;

/// Why the program stops before the end of the input.
enum Stop {
    /// At a line that is out of order, unreadable or absent.
    Line(u64),
    Io(io::Error),
}

impl From<io::Error> for Stop {
    fn from(error: io::Error) -> Stop {
        Stop::Io(error)
    }
}

pub fn statement(input: impl Read, output: impl Write) -> io::Result<()> {
    let mut program = Program {
        input: BufReader::with_capacity(BUFFER, input),
        output: BufWriter::with_capacity(BUFFER, output),
        line: Vec::new(),
        number: 0,
    };
    match program.run() {
        Ok(()) => {}
        Err(Stop::Line(number)) => writeln!(program.output, "line={number}")?,
        Err(Stop::Io(error)) => return Err(error),
    }
    program.output.flush()
}

struct Program<In: Read, Out: Write> {
    input: BufReader<In>,
    output: BufWriter<Out>,
    /// The line read last, without its newline, and its number.
    line: Vec<u8>,
    number: u64,
}

impl<In: Read, Out: Write> Program<In, Out> {
    /// Reads the next line; false at the end of the input.
    fn next_line(&mut self) -> io::Result<bool> {
        if !self.input.buffer().contains(&b'\n') {
            self.output.flush()?;
        }
        self.line.clear();
        self.number += 1;
        let length = self.input.read_until(b'\n', &mut self.line)?;
        self.line.pop_if(|byte| *byte == b'\n');
        Ok(length > 0)
    }

    fn value<Value>(&self, key: &str, read: fn(&[u8]) -> Option<Value>) -> Option<Value> {
        read(self.line.strip_prefix(key.as_bytes())?)
    }

    /// The value of the line read last.
    fn due<Value>(&self, key: &str, read: fn(&[u8]) -> Option<Value>) -> Result<Value, Stop> {
        self.value(key, read).ok_or(Stop::Line(self.number))
    }

    /// The value of the next line.
    fn take<Value>(&mut self, key: &str, read: fn(&[u8]) -> Option<Value>) -> Result<Value, Stop> {
        match self.next_line()? {
            true => self.due(key, read),
            false => Err(Stop::Line(self.number)),
        }
    }

    fn run(&mut self) -> Result<(), Stop> {
        let (terms, price_list, first_month) = self.opening()?;
        let (answer, mut account) = opening(Account::default(), terms, price_list, first_month);
        writeln!(self.output, "open={}", answer.number)?;
        let mut delivered = Vec::with_capacity(MOST_READINGS);
        let mut received = Vec::with_capacity(MOST_READINGS);
        let mut more = self.next_line()?;
        while more {
            let month = self.due("bill=", entered_month)?;
            let critical_days = self.take("critical=", number)?;
            delivered.clear();
            received.clear();
            loop {
                more = self.next_line()?;
                if !more || self.value("bill=", entered_month).is_some() {
                    break;
                }
                let [count, used, made] = self.due("run=", numbers)?;
                let length = delivered.len() + count as usize;
                if length > MOST_READINGS {
                    return Err(Stop::Line(self.number));
                }
                delivered.resize(length, used);
                received.resize(length, made);
            }
            let bill = billing(
                &mut account,
                month.number,
                &delivered,
                &received,
                critical_days,
                by_table,
            );
            let (answer, bill) = match bill {
                Ok(bill) => (0, bill),
                Err(refusal) => (refusal.number(), Bill::default()),
            };
            self.print(&month, answer, &bill)?;
        }
        Ok(())
    }

    fn opening(&mut self) -> Result<(Terms, PriceList, u32), Stop> {
        let first_month = self.take("opens=", entered_month)?.number;
        let terms = Terms {
            rider: self.take("rider=", rider)?,
            class: self.take("class=", class)?,
            nameplates: self.take("nameplate=", nameplates)?,
            demand_limit: self.take("limit=", number)?,
            assisted: self.take("assisted=", assisted)?,
        };
        let price_list = PriceList {
            energy: self.take("prices=", numbers)?,
            demand: self.take("demand=", number)?,
            standby: self.take("standby=", number)?,
            bypass: self.take("bypass=", number)?,
            credit: self.take("credit=", number)?,
            distribution: self.take("distribution=", number)?,
            basic: self.take("basic=", number)?,
            minimum: self.take("minimum=", number)?,
        };
        Ok((terms, price_list, first_month))
    }

    fn print(&mut self, month: &EnteredMonth, answer: u32, bill: &Bill) -> io::Result<()> {
        let rows: [(&str, &ByPeriod); 7] = [
            ("own", &bill.own),
            ("out", &bill.moved_out),
            ("in", &bill.moved_in),
            ("paid", &bill.paid),
            ("forfeited", &bill.forfeited),
            ("billed", &bill.billed),
            ("left", &bill.left),
        ];
        let EnteredMonth {
            year,
            month_of_year,
            ..
        } = month;
        write!(
            self.output,
            "bill={year}-{month_of_year:02} answer={answer}"
        )?;
        for (name, [critical, on_peak, off_peak, discount]) in rows {
            write!(
                self.output,
                " {name}={critical},{on_peak},{off_peak},{discount}"
            )?;
        }
        writeln!(self.output, " energy={} due={}", bill.energy, bill.due)
    }
}

fn number(text: &[u8]) -> Option<u32> {
    if text.is_empty() || text.len() > 10 {
        return None;
    }
    let mut number: u64 = 0;
    for byte in text {
        if !byte.is_ascii_digit() {
            return None;
        }
        number = 10 * number + u64::from(byte - b'0');
    }
    u32::try_from(number).ok()
}

fn nameplates(text: &[u8]) -> Option<Nameplates> {
    let mut nameplates = Nameplates::default();
    for part in text.split(|&byte| byte == b',') {
        *nameplates.places.get_mut(nameplates.count as usize)? = number(part)?.into();
        nameplates.count += 1;
    }
    Some(nameplates)
}

fn numbers<const COUNT: usize>(text: &[u8]) -> Option<[u32; COUNT]> {
    let mut parts = text.split(|&byte| byte == b',');
    let mut numbers = [0; COUNT];
    for place in &mut numbers {
        *place = number(parts.next()?)?;
    }
    parts.next().is_none().then_some(numbers)
}
