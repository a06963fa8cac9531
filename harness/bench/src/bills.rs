//! Bills of full months through the interface for C: one bill, and lists of 1 to 1,200.

use crate::encode::{account_row, record_of, row_of, Record, ACCOUNT, ROW};
use crate::usage::so_far;
use crate::{interface, median};
use bench::bill::{billing, by_stretch, by_table, Tallying};
use harness::random::Random;
use harness::reference::account::{
    Account, Answer, Assisted, Class, Nameplates, PriceList, Rider, Terms,
};
use harness::reference::calendar::LAST_MONTH;
use harness::reference::calls::opening;
use harness::reference::gaps::LOST;
use harness::reference::hours::register_length;
use harness::reference::ledger::{Amounts, Call};
use std::hint::black_box;
use std::time::Duration;

const ROUNDS: usize = 201;
/// Bills of one round.
const BILLS: u32 = 50;
/// Rounds for lists of months.
const LIST_ROUNDS: usize = 7;

const TERMS: Terms = Terms {
    rider: Rider::Banked,
    class: Class::Home,
    nameplates: Nameplates::one(8_000),
    demand_limit: 9_000,
    assisted: Assisted::No,
};
const PRICES: PriceList = PriceList {
    energy: [30_000, 20_000, 10_000, 5_000],
    demand: 500_000,
    standby: 0,
    bypass: 0,
    credit: 0,
    distribution: 0,
    basic: 1_400,
    minimum: 0,
};
const CRITICAL_DAYS: u32 = 5;

struct Month {
    number: u32,
    delivered: Vec<u32>,
    received: Vec<u32>,
}

impl Month {
    fn new(random: &mut Random, number: u32) -> Month {
        let mut register = || {
            let readings = (0..register_length(number)).map(|_| random.up_to(2_000));
            readings.collect()
        };
        Month {
            number,
            delivered: register(),
            received: register(),
        }
    }

    /// Gaps of 1 to 96 readings in both registers, the last one up to the end.
    fn with_gaps(mut self) -> Month {
        for register in [&mut self.delivered, &mut self.received] {
            let all = register.len();
            for start in (1..all).step_by(131) {
                register[start..all.min(start + 1 + start % 96)].fill(LOST);
            }
            register[all - 20..].fill(LOST);
        }
        self
    }

    /// Both ways must give the same bill.
    fn check(&self) {
        let account = opened(self.number);
        let proved = self.proved(&account_row(&account), &self.record());
        for tally in [by_table as Tallying, by_stretch] {
            let mut account = account;
            assert!(self.plain(&mut account, tally) == proved);
        }
    }

    /// The call without its registers, which are lent by themselves.
    fn record(&self) -> Record {
        record_of(&Call::Billing {
            month: self.number,
            delivered: vec![0; self.delivered.len()],
            received: vec![0; self.received.len()],
            critical_days: CRITICAL_DAYS,
        })
    }

    /// By plain Rust, written as the library writes it.
    fn plain(&self, account: &mut Account, tally: Tallying) -> [u64; ROW] {
        let Month {
            number,
            delivered,
            received,
        } = self;
        match billing(account, *number, delivered, received, CRITICAL_DAYS, tally) {
            Ok(bill) => row_of(&Answer {
                number: 0,
                amounts: Amounts::Bill(bill),
            }),
            Err(refusal) => panic!("the month is refused by {}", refusal.number()),
        }
    }

    /// By the library, on the account before.
    fn proved(&self, before: &[u64; ACCOUNT], record: &Record) -> [u64; ROW] {
        let mut row = [0; ROW];
        let mut after = [0; ACCOUNT];
        interface::call(
            before,
            record,
            &self.delivered,
            &self.received,
            &mut row,
            &mut after,
        );
        row
    }
}

fn opened(first_month: u32) -> Account {
    opening(Account::default(), TERMS, PRICES, first_month).1
}

pub fn run() {
    println!("bills of 31 days: median of {ROUNDS} interleaved rounds of {BILLS} bills");
    for (name, number) in [("winter", 0), ("summer", 6)] {
        let month = || Month::new(&mut Random::new(1), number);
        month().check();
        month().with_gaps().check();
        one_month(name, &month());
    }
    println!("lists of months: median of {LIST_ROUNDS} interleaved rounds, time of one month");
    let mut random = Random::new(2);
    let months: Vec<Month> = (0..=LAST_MONTH)
        .map(|number| Month::new(&mut random, number))
        .collect();
    for count in [1, 12, 120, 1_200] {
        list(&months[..count]);
    }
}

fn one_month(name: &str, month: &Month) {
    let account = opened(month.number);
    let before = account_row(&account);
    let record = month.record();
    let plain = |tally: Tallying| month.plain(&mut black_box(account), tally);
    let proved = || month.proved(black_box(&before), &record);
    let mut times = [Vec::new(), Vec::new(), Vec::new()];
    for _ in 0..ROUNDS {
        times[0].push(time(BILLS, proved));
        times[1].push(time(BILLS, || plain(by_table)));
        times[2].push(time(BILLS, || plain(by_stretch)));
    }
    let [proved, table, stretch] = times.map(|times| median(times).as_secs_f64() * 1e6);
    println!(
        "  {name}: proved {proved:.2} µs, plain {table:.2} µs, ratio {:.2}; \
         plain and tuned by hand {stretch:.2} µs, ratio {:.2}",
        proved / table,
        proved / stretch
    );
}

fn list(months: &[Month]) {
    let open = record_of(&Call::Opening {
        terms: TERMS,
        price_list: PRICES,
        first_month: 0,
    });
    let mut calls = open.to_vec();
    calls.extend(months.iter().flat_map(Month::record));
    let registers =
        |register: fn(&Month) -> &Vec<u32>| months.iter().flat_map(register).copied().collect();
    let delivered: Vec<u32> = registers(|month| &month.delivered);
    let received: Vec<u32> = registers(|month| &month.received);
    let mut answers = vec![0; calls.len() / open.len() * ROW];
    let mut plain_answers = answers.clone();
    let mut last = [0; ACCOUNT];
    let mut times = [Vec::new(), Vec::new()];
    for _ in 0..LIST_ROUNDS {
        times[0].push(time(1, || {
            let counts = interface::run(&calls, &delivered, &received, &mut answers, &mut last);
            assert!(
                counts.answered == counts.written && counts.written as usize * ROW == answers.len()
            );
        }));
        times[1].push(time(1, || {
            let mut account = opened(0);
            let rows = plain_answers.chunks_exact_mut(ROW).skip(1);
            for (row, month) in rows.zip(months) {
                row.copy_from_slice(&month.plain(&mut account, by_table));
            }
        }));
    }
    assert!(answers == plain_answers);
    let each = |times: Vec<Duration>| median(times).as_secs_f64() * 1e6 / months.len() as f64;
    let [proved, plain] = times.map(each);
    println!(
        "  {} months: proved {proved:.2} µs, plain {plain:.2} µs, ratio {:.2}",
        months.len(),
        proved / plain
    );
}

/// The time of one of so many calls.
fn time<Made>(calls: u32, mut call: impl FnMut() -> Made) -> Duration {
    let start = so_far();
    for _ in 0..calls {
        black_box(call());
    }
    (so_far() - start) / calls
}
