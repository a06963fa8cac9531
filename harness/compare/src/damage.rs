//! Buffers that no list of calls is lent in, compared with what the header says of them.

use crate::compare::{Difference, Room, Run};
use crate::encode::{
    Buffers, ACCOUNT, BILLING, CLOSING, COUNT, CRITICAL_DAYS, DELIVERED, KIND, LIMIT, MONTH,
    NAMEPLATES, OPENING, RECEIVED, RECORD, ROW,
};
use crate::interface::Counts;
use crate::meaning::{calls_in, limit_shown};
use harness::generate;
use harness::random::Random;
use harness::reference::ledger::{run, Call};

/// Numbers to put in any place: codes, and both sides of 32 and 64 bits.
const NUMBERS: [u64; 11] = [
    0,
    1,
    2,
    3,
    4,
    1_000_001,
    (1 << 32) - 1,
    1 << 32,
    (1 << 32) + 13,
    1 << 63,
    u64::MAX,
];
const RANDOM: u64 = 600;

pub struct Damaged {
    pub name: String,
    pub buffers: Buffers,
    pub room: Room,
}

impl Damaged {
    pub fn by_library(&self) -> Run {
        Run::by_library(&self.buffers, self.room)
    }

    /// How the header says that they are answered.
    pub fn expected(&self) -> Run {
        meant(&self.buffers, self.room)
    }
}

/// What the header says that these buffers mean.
fn meant(buffers: &Buffers, room: Room) -> Run {
    let calls = calls_in(buffers);
    let ledger = run(&calls);
    let mut run = Run::expected(&ledger, room);
    let limit = limit_shown(buffers, &calls, &ledger.answers);
    if let (Some(limit), Some(place)) = (limit, run.written.account.get_mut(LIMIT)) {
        *place = limit;
    }
    run
}

/// Each change of one list, and random ones.
pub fn all() -> impl Iterator<Item = Damaged> {
    let base = base();
    changes(&base)
        .into_iter()
        .map(move |change| change.of(&base))
        .chain((0..RANDOM).map(random))
}

#[derive(Clone, Copy, Debug)]
enum Change {
    Number { place: usize, number: u64 },
    Calls { length: usize },
    Registers { delivered: usize, received: usize },
    AnswersRoom { length: usize },
    AccountRoom { length: usize },
}

impl Change {
    fn of(self, base: &Buffers) -> Damaged {
        let mut buffers = base.clone();
        let mut room = Room::for_calls(base.calls.len() / RECORD);
        match self {
            Change::Number { place, number } => buffers.calls[place] = number,
            Change::Calls { length } => buffers.calls.truncate(length),
            Change::Registers {
                delivered,
                received,
            } => {
                buffers.delivered.resize(delivered, 9);
                buffers.received.resize(received, 9);
            }
            Change::AnswersRoom { length } => room.answers = length,
            Change::AccountRoom { length } => room.account = length,
        }
        Damaged {
            name: format!("{self:?}"),
            buffers,
            room,
        }
    }
}

fn changes(base: &Buffers) -> Vec<Change> {
    let numbers = base.calls.len();
    let rows = ROW * (numbers / RECORD + 1);
    let mut changes = Vec::new();
    for place in 0..numbers {
        changes.extend(NUMBERS.map(|number| Change::Number { place, number }));
    }
    // The first record is an opening; other counts of its nameplates.
    changes.extend((5..=10).map(|number| Change::Number {
        place: COUNT,
        number,
    }));
    changes.extend((0..numbers).map(|length| Change::Calls { length }));
    for delivered in cuts(base.delivered.len()) {
        changes.extend(cuts(base.received.len()).map(|received| Change::Registers {
            delivered,
            received,
        }));
    }
    changes.extend((0..=rows).map(|length| Change::AnswersRoom { length }));
    changes.extend((0..=ACCOUNT + 1).map(|length| Change::AccountRoom { length }));
    changes
}

/// Accepted calls of each kind, and an opening that isn't. It has some nameplates, and numbers
/// in the places past them.
fn base() -> Buffers {
    let is_usual = |calls: &Vec<Call>| {
        let accepted = run(calls).answers.iter().all(|answer| answer.number == 0);
        let kinds = matches!(
            calls[..],
            [
                Call::Opening { .. },
                Call::Billing { .. },
                Call::Repricing { .. },
                Call::Billing { .. },
                Call::Billing { .. },
            ]
        );
        accepted && kinds && has_some_nameplates(&calls[0])
    };
    let mut calls = (0..)
        .map(|seed| generate::list(&mut Random::new(seed), 5))
        .find(is_usual)
        .expect("some seed has such a list");
    calls.extend([Call::Closing, calls[0].clone()]);
    Buffers::of(&calls)
}

fn has_some_nameplates(call: &Call) -> bool {
    matches!(call, Call::Opening { terms, .. }
        if (2..=6).contains(&terms.nameplates.count) && terms.nameplates.places[7] > 0)
}

/// Lengths for a register that has this one.
fn cuts(length: usize) -> [usize; 10] {
    [
        0,
        1,
        96,
        length / 3,
        length / 2,
        length - 97,
        length - 1,
        length,
        length + 1,
        length + 96,
    ]
}

/// A random list with some of its numbers, lengths and room changed.
fn random(seed: u64) -> Damaged {
    let mut random = Random::new(seed);
    let length = 1 + random.up_to(6) as usize;
    let mut buffers = Buffers::of(&generate::list(&mut random, length));
    let mut room = Room::for_calls(length);
    for _ in 0..=random.up_to(2) {
        match random.below(6) {
            0 => {
                let place = random.below(buffers.calls.len() as u64) as usize;
                if let Some(number) = buffers.calls.get_mut(place) {
                    *number = random.pick(NUMBERS);
                }
            }
            1 => {
                let length = random.below(buffers.calls.len() as u64 + 1) as usize;
                buffers.calls.truncate(length);
            }
            2 => {
                let length = random.below(buffers.delivered.len() as u64 + 1) as usize;
                buffers.delivered.truncate(length);
            }
            3 => {
                let length = random.below(buffers.received.len() as u64 + 1) as usize;
                buffers.received.truncate(length);
            }
            4 => change_billing(&mut random, &mut buffers),
            _ => {
                room = Room {
                    answers: random.below(room.answers as u64 + 1) as usize,
                    account: random.below(room.account as u64 + 1) as usize,
                }
            }
        }
    }
    Damaged {
        name: format!("random damage of seed {seed}"),
        buffers,
        room,
    }
}

/// One number that a billing reads becomes a little more or less, or has a high bit.
fn change_billing(random: &mut Random, buffers: &mut Buffers) {
    let billings = buffers.calls.chunks_exact_mut(RECORD);
    for record in billings.filter(|record| record[KIND] == BILLING) {
        let place = random.pick([MONTH, DELIVERED, RECEIVED, CRITICAL_DAYS]);
        record[place] = match random.below(4) {
            0 => record[place].wrapping_add(1),
            1 => record[place].wrapping_sub(1),
            2 => record[place] | 1 << random.pick([31, 32, 40, 63]),
            _ => record[place],
        };
    }
}

/// A wrong reading of damaged buffers.
#[derive(Clone, Copy)]
pub enum Misread {
    /// It takes them for others, which mean what it takes them to mean.
    Buffers(fn(Buffers) -> Buffers),
    /// It counts otherwise, from the right counts.
    Counts(fn(&Damaged, Counts) -> Counts),
}

impl Misread {
    fn of(self, damaged: &Damaged) -> Run {
        match self {
            Misread::Buffers(misread) => meant(&misread(damaged.buffers.clone()), damaged.room),
            Misread::Counts(miscount) => {
                let right = damaged.expected();
                Run {
                    counts: miscount(damaged, right.counts),
                    ..right
                }
            }
        }
    }
}

type Misreading = (&'static str, Misread);

/// As a number of calls or rows.
fn count(number: usize) -> u64 {
    number as u64
}

/// The openings that `is_none` holds of are no calls.
fn without_openings(mut buffers: Buffers, is_none: fn(&[u64]) -> bool) -> Buffers {
    for record in buffers.calls.chunks_exact_mut(RECORD) {
        if record[KIND] == OPENING && is_none(record) {
            record[KIND] = CLOSING + 1;
        }
    }
    buffers
}

const MISREADINGS: [Misreading; 12] = [
    (
        "the list goes on after a record that is no call",
        Misread::Buffers(|buffers| {
            let is_call = |record: &&[u64]| {
                let alone = Buffers {
                    calls: record.to_vec(),
                    ..Buffers::default()
                };
                !calls_in(&alone).is_empty()
            };
            Buffers {
                calls: buffers
                    .calls
                    .chunks_exact(RECORD)
                    .filter(is_call)
                    .flatten()
                    .copied()
                    .collect(),
                ..buffers
            }
        }),
    ),
    (
        "a billing's month has its low 32 bits",
        Misread::Buffers(|mut buffers| {
            for record in buffers.calls.chunks_exact_mut(RECORD) {
                if record[KIND] == BILLING {
                    record[MONTH] &= u64::from(u32::MAX);
                }
            }
            buffers
        }),
    ),
    (
        "a record cut short is a call",
        Misread::Buffers(|mut buffers| {
            let length = buffers.calls.len().next_multiple_of(RECORD);
            buffers.calls.resize(length, 0);
            buffers
        }),
    ),
    (
        "readings that aren't lent are 0",
        Misread::Buffers(|mut buffers| {
            let length = 3_000 * (buffers.calls.len() / RECORD);
            buffers.delivered.resize(length, 0);
            buffers.received.resize(length, 0);
            buffers
        }),
    ),
    (
        "unused numbers of a closing must be 0",
        Misread::Buffers(|mut buffers| {
            for record in buffers.calls.chunks_exact_mut(RECORD) {
                if record[KIND] == 3 && record[1..].iter().any(|&number| number > 0) {
                    record[KIND] = 4;
                }
            }
            buffers
        }),
    ),
    (
        "an opening with another count of nameplates than 1 to 8 is no call",
        Misread::Buffers(|buffers| {
            without_openings(buffers, |record| !(1..=8).contains(&record[COUNT]))
        }),
    ),
    (
        "an opening with a nameplate of more than 32 bits is no call",
        Misread::Buffers(|buffers| {
            without_openings(buffers, |record| {
                let mut places = record[NAMEPLATES..LIMIT].iter();
                places.any(|&watts| watts > u64::from(u32::MAX))
            })
        }),
    ),
    (
        "each record that is lent counts as answered",
        Misread::Counts(|damaged, right| Counts {
            answered: count(damaged.buffers.calls.len() / RECORD),
            ..right
        }),
    ),
    (
        "a record that is no call counts as answered",
        Misread::Counts(|damaged, right| Counts {
            answered: count(damaged.buffers.calls.len() / RECORD).min(right.answered + 1),
            ..right
        }),
    ),
    (
        "calls whose rows don't fit aren't counted",
        Misread::Counts(|_, right| Counts {
            answered: right.written,
            ..right
        }),
    ),
    (
        "rows that don't fit count as written",
        Misread::Counts(|_, right| Counts {
            written: right.answered,
            ..right
        }),
    ),
    (
        "a row that is cut short counts as written",
        Misread::Counts(|damaged, right| Counts {
            written: count(damaged.room.answers.div_ceil(ROW)).min(right.answered),
            ..right
        }),
    ),
];

/// The wrong readings that no damaged buffers have shown to be wrong yet.
pub struct Watch {
    pub unnoticed: Vec<Misreading>,
}

impl Watch {
    pub fn new() -> Watch {
        Watch {
            unnoticed: MISREADINGS.to_vec(),
        }
    }

    pub fn noticed(&self) -> usize {
        MISREADINGS.len() - self.unnoticed.len()
    }

    /// Strikes out each reading by which the library would have written or counted otherwise.
    pub fn look(&mut self, damaged: &Damaged, library: &Run) {
        self.unnoticed.retain(|(_, misread)| {
            Difference::between_runs(library, &misread.of(damaged)).is_none()
        });
    }
}
