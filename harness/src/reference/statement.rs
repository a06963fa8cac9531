//! 01, "Day view and statement": the whole text that the program prints.

use super::account::{
    Account, Answer, Assisted, Bill, ByPeriod, Class, Nameplates, PriceList, Rider, Terms,
};
use super::calendar::month_number;
use super::calls::{billing, opening};

/// Most readings of one month's runs: 31 days.
pub const MOST_READINGS: usize = 2_976;

/// A faulty or absent line, counted from 1.
struct Fault {
    line: usize,
}

/// What the program prints for an input.
pub fn statement(input: &[u8]) -> Vec<u8> {
    let mut printed = String::new();
    if let Err(fault) = read_and_print(input, &mut printed) {
        printed.push_str(&format!("line={}\n", fault.line));
    }
    printed.into_bytes()
}

fn read_and_print(input: &[u8], printed: &mut String) -> Result<(), Fault> {
    let mut reader = Reader::new(input);

    let (terms, price_list, first_month) = read_opening(&mut reader)?;
    let (answer, mut account) = opening(Account::default(), terms, price_list, first_month);
    printed.push_str(&format!("open={}\n", answer.number));

    while !reader.at_end() {
        let month = read_month(&mut reader)?;
        let (answer, after) = billing(
            account,
            month.entered.number,
            &month.delivered,
            &month.received,
            month.critical_days,
        );
        printed.push_str(&month_line(&month.entered, &answer));
        account = after;
    }
    Ok(())
}

/// The first fourteen lines.
fn read_opening(reader: &mut Reader) -> Result<(Terms, PriceList, u32), Fault> {
    let opens = reader.take("opens", entered_month)?;
    // Fields are read in the order written, which is the paper's.
    let terms = Terms {
        rider: reader.take("rider", rider)?,
        class: reader.take("class", class)?,
        nameplates: reader.take("nameplate", nameplates)?,
        demand_limit: reader.take("limit", number)?,
        assisted: reader.take("assisted", assisted)?,
    };
    let price_list = PriceList {
        energy: reader.take("prices", numbers)?,
        demand: reader.take("demand", number)?,
        standby: reader.take("standby", number)?,
        bypass: reader.take("bypass", number)?,
        credit: reader.take("credit", number)?,
        distribution: reader.take("distribution", number)?,
        basic: reader.take("basic", number)?,
        minimum: reader.take("minimum", number)?,
    };
    Ok((terms, price_list, opens.number))
}

/// A month's lines.
struct Month {
    entered: EnteredMonth,
    critical_days: u32,
    delivered: Vec<u32>,
    received: Vec<u32>,
}

/// Bill, critical and any number of runs; a readable bill line or the end of the
/// input completes the month.
fn read_month(reader: &mut Reader) -> Result<Month, Fault> {
    let mut month = Month {
        entered: reader.take("bill", entered_month)?,
        critical_days: reader.take("critical", number)?,
        delivered: Vec::new(),
        received: Vec::new(),
    };
    while !reader.at_end() && reader.peek("bill", entered_month).is_none() {
        let line = reader.line_number();
        let [count, delivered, received] = reader.take("run", numbers)?;
        // A run past 2,976 readings of the month is a fault of its line.
        let count = usize::try_from(count).unwrap_or(usize::MAX);
        if count > MOST_READINGS - month.delivered.len() {
            return Err(Fault { line });
        }
        month
            .delivered
            .extend(std::iter::repeat_n(delivered, count));
        month.received.extend(std::iter::repeat_n(received, count));
    }
    Ok(month)
}

/// The line printed for a complete month.
fn month_line(entered: &EnteredMonth, answer: &Answer<Bill>) -> String {
    let bill = &answer.amounts;
    format!(
        "bill={:04}-{:02} answer={} own={} out={} in={} paid={} forfeited={} billed={} left={} energy={} due={}\n",
        entered.year,
        entered.month_of_year,
        answer.number,
        row(&bill.own),
        row(&bill.moved_out),
        row(&bill.moved_in),
        row(&bill.paid),
        row(&bill.forfeited),
        row(&bill.billed),
        row(&bill.left),
        bill.energy,
        bill.due,
    )
}

fn row(amounts: &ByPeriod) -> String {
    amounts.map(|amount| amount.to_string()).join(",")
}

/// The lines of the input and how many have been taken.
struct Reader<'a> {
    lines: Vec<&'a [u8]>,
    taken: usize,
}

impl<'a> Reader<'a> {
    /// Lines are the bytes between newline bytes; the last may lack its newline.
    fn new(input: &'a [u8]) -> Reader<'a> {
        let mut lines: Vec<&[u8]> = input.split(|&byte| byte == b'\n').collect();
        // No bytes after the last newline, or no bytes at all, are no line.
        if lines.last().is_some_and(|line| line.is_empty()) {
            lines.pop();
        }
        Reader { lines, taken: 0 }
    }

    fn at_end(&self) -> bool {
        self.taken >= self.lines.len()
    }

    /// Number of the next line, also where it is absent.
    fn line_number(&self) -> usize {
        self.taken + 1
    }

    /// The next line's value, if the line is there, has this key and is readable.
    fn peek<Value>(&self, key: &str, value: fn(&[u8]) -> Option<Value>) -> Option<Value> {
        let line = self.lines.get(self.taken)?;
        let text = line.strip_prefix(key.as_bytes())?.strip_prefix(b"=")?;
        value(text)
    }

    /// Takes the next line, or finds it out of order, unreadable or absent.
    fn take<Value>(
        &mut self,
        key: &str,
        value: fn(&[u8]) -> Option<Value>,
    ) -> Result<Value, Fault> {
        let line = self.line_number();
        let value = self.peek(key, value).ok_or(Fault { line })?;
        self.taken += 1;
        Ok(value)
    }
}

/// A month as entered, and its number.
pub struct EnteredMonth {
    pub year: u32,
    pub month_of_year: u32,
    pub number: u32,
}

/// A year from 2000 to 9999, a dash and 01 to 12.
pub fn entered_month(text: &[u8]) -> Option<EnteredMonth> {
    let [y0, y1, y2, y3, b'-', m0, m1] = *text else {
        return None;
    };
    let year = number(&[y0, y1, y2, y3])?;
    let month_of_year = number(&[m0, m1])?;
    Some(EnteredMonth {
        year,
        month_of_year,
        number: month_number(year, month_of_year)?,
    })
}

/// 1 to 10 digits that fit 32 bits.
fn number(text: &[u8]) -> Option<u32> {
    let digits_only = text.iter().all(u8::is_ascii_digit);
    if !digits_only || !(1..=10).contains(&text.len()) {
        return None;
    }
    let value = text
        .iter()
        .fold(0u64, |value, digit| 10 * value + u64::from(digit - b'0'));
    u32::try_from(value).ok()
}

/// Any count of numbers with commas between.
fn list(text: &[u8]) -> Option<Vec<u32>> {
    text.split(|&byte| byte == b',').map(number).collect()
}

/// Exactly so many numbers with commas between.
fn numbers<const COUNT: usize>(text: &[u8]) -> Option<[u32; COUNT]> {
    list(text)?.try_into().ok()
}

/// 02, No. 3: one to eight numbers with commas between.
fn nameplates(text: &[u8]) -> Option<Nameplates> {
    let watts: Vec<u64> = list(text)?.into_iter().map(u64::from).collect();
    Nameplates::of(&watts)
}

pub fn rider(text: &[u8]) -> Option<Rider> {
    match text {
        b"banked" => Some(Rider::Banked),
        b"bridge" => Some(Rider::Bridge),
        _ => None,
    }
}

pub fn class(text: &[u8]) -> Option<Class> {
    match text {
        b"home" => Some(Class::Home),
        b"business" => Some(Class::Business),
        _ => None,
    }
}

pub fn assisted(text: &[u8]) -> Option<Assisted> {
    match text {
        b"yes" => Some(Assisted::Yes),
        b"no" => Some(Assisted::No),
        _ => None,
    }
}
