//! One list of calls both ways, and the first number in which they differ.

use crate::encode::{
    account_name, account_of, account_row, answer_of, row_name, row_of, Buffers, ACCOUNT, ROW,
};
use crate::interface::{self, Counts};
use harness::reference::account::{Account, Answer};
use harness::reference::ledger::{check_balances, Amounts, Call, Imbalance, Ledger};
use std::fmt;

/// What the written buffers hold before: no amount is as large.
const UNTOUCHED: u64 = 0xd1d1_d1d1_d1d1_d1d1;

/// Lengths of the two written buffers.
#[derive(Clone, Copy, Debug, PartialEq, Eq)]
pub struct Room {
    pub answers: usize,
    pub account: usize,
}

impl Room {
    /// For so many calls, and some more that must stay untouched.
    pub fn for_calls(calls: usize) -> Room {
        Room {
            answers: ROW * calls + 7,
            account: ACCOUNT + 2,
        }
    }
}

/// The two buffers after a list of calls, or after one call.
#[derive(Clone, Debug, PartialEq, Eq)]
pub struct Written {
    pub answers: Vec<u64>,
    pub account: Vec<u64>,
}

impl Written {
    pub fn untouched(room: Room) -> Written {
        Written {
            answers: vec![UNTOUCHED; room.answers],
            account: vec![UNTOUCHED; room.account],
        }
    }

    /// As these answers and this account must be written.
    pub fn expected(ledger: &Ledger, room: Room) -> Written {
        let mut written = Written::untouched(room);
        let rows = ledger.answers.iter().flat_map(row_of);
        for (place, number) in written.answers.iter_mut().zip(rows) {
            *place = number;
        }
        let row = account_row(&ledger.account);
        for (place, number) in written.account.iter_mut().zip(row) {
            *place = number;
        }
        written
    }

    /// The answers to these calls and the account. Nothing where they have no such
    /// numbers.
    pub fn read(&self, calls: &[Call]) -> Option<(Vec<Answer<Amounts>>, Account)> {
        let (rows, _) = self.answers.as_chunks::<ROW>();
        let answers: Option<Vec<_>> = calls
            .iter()
            .enumerate()
            .map(|(index, call)| answer_of(call, rows.get(index)?))
            .collect();
        let account = account_of(self.account.first_chunk::<ACCOUNT>()?)?;
        Some((answers?, account))
    }
}

/// What a list of calls leaves: the two buffers, and the counts that are handed back.
#[derive(Clone, Debug, PartialEq, Eq)]
pub struct Run {
    pub written: Written,
    pub counts: Counts,
}

impl Run {
    /// By the proved library.
    pub fn by_library(buffers: &Buffers, room: Room) -> Run {
        let mut written = Written::untouched(room);
        let counts = interface::run(
            &buffers.calls,
            &buffers.delivered,
            &buffers.received,
            &mut written.answers,
            &mut written.account,
        );
        Run { written, counts }
    }

    /// As these answers and this account must be written and counted: a row counts as
    /// written where its last number is in the buffer.
    pub fn expected(ledger: &Ledger, room: Room) -> Run {
        let answered = ledger.answers.len();
        let whole = (0..answered).filter(|row| ROW * row + ROW - 1 < room.answers);
        Run {
            written: Written::expected(ledger, room),
            counts: Counts {
                answered: answered as u64,
                written: whole.count() as u64,
            },
        }
    }
}

#[derive(Clone, Debug, PartialEq, Eq)]
pub enum Difference {
    /// A number of the answers, by its place in the whole buffer.
    Answer {
        place: usize,
        library: u64,
        expected: u64,
    },
    /// A number of the account.
    Account {
        place: usize,
        library: u64,
        expected: u64,
    },
    /// The counts of calls and of rows.
    Counts { library: Counts, expected: Counts },
    /// The library's numbers are no answers to these calls, or no account.
    Unreadable,
    /// The library's own answers don't balance.
    Imbalance(Imbalance),
}

impl Difference {
    /// The first number in which two runs of a list differ.
    pub fn between_runs(library: &Run, expected: &Run) -> Option<Difference> {
        let counts = (library.counts != expected.counts).then_some(Difference::Counts {
            library: library.counts,
            expected: expected.counts,
        });
        Difference::between(&library.written, &expected.written).or(counts)
    }

    /// The first number in which the buffers differ.
    pub fn between(library: &Written, expected: &Written) -> Option<Difference> {
        let first = |library: &[u64], expected: &[u64]| {
            let place = (0..library.len()).find(|&place| library[place] != expected[place])?;
            Some((place, library[place], expected[place]))
        };
        let answer =
            first(&library.answers, &expected.answers).map(|(place, library, expected)| {
                Difference::Answer {
                    place,
                    library,
                    expected,
                }
            });
        answer.or_else(|| {
            first(&library.account, &expected.account).map(|(place, library, expected)| {
                Difference::Account {
                    place,
                    library,
                    expected,
                }
            })
        })
    }
}

fn number(number: u64) -> String {
    match number {
        UNTOUCHED => "untouched".to_string(),
        number => number.to_string(),
    }
}

impl fmt::Display for Difference {
    fn fmt(&self, formatter: &mut fmt::Formatter) -> fmt::Result {
        match *self {
            Difference::Answer {
                place,
                library,
                expected,
            } => write!(
                formatter,
                "answer {}, {}: library {}, expected {}",
                place / ROW,
                row_name(place % ROW),
                number(library),
                number(expected)
            ),
            Difference::Account {
                place,
                library,
                expected,
            } => write!(
                formatter,
                "account, {}: library {}, expected {}",
                account_name(place),
                number(library),
                number(expected)
            ),
            Difference::Counts { library, expected } => write!(
                formatter,
                "counts: library {library:?}, expected {expected:?}"
            ),
            Difference::Unreadable => write!(formatter, "the library's numbers can't be read"),
            Difference::Imbalance(imbalance) => {
                write!(
                    formatter,
                    "the library's answers don't balance: {imbalance:?}"
                )
            }
        }
    }
}

/// Runs the calls by the library and compares with what is expected, number by
/// number; then checks demand 3 on the library's own answers.
pub fn compare(calls: &[Call], expected: &Ledger) -> Result<Written, Difference> {
    let room = Room::for_calls(calls.len());
    let library = Run::by_library(&Buffers::of(calls), room);
    if let Some(difference) = Difference::between_runs(&library, &Run::expected(expected, room)) {
        return Err(difference);
    }
    let (answers, account) = library.written.read(calls).ok_or(Difference::Unreadable)?;
    check_balances(calls, &answers, &account).map_err(Difference::Imbalance)?;
    Ok(library.written)
}
