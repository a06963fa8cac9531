//! Random calls and accounts. Most are accepted; each limit of 01 is met at,
//! below and above now and then, some terms have several nameplates, and some registers
//! have gaps.

use crate::random::Random;
use crate::reference::account::{
    Account, Assisted, Class, Nameplates, PriceList, Rider, State, Terms, MOST_NAMEPLATES,
};
use crate::reference::calendar::{days_in_month, LAST_MONTH};
use crate::reference::gaps::LOST;
use crate::reference::hours::register_length;
use crate::reference::ledger::{answer, Call};
use crate::reference::refusal::{
    LARGEST_BUSINESS, LARGEST_HOME, LARGEST_PRICE, LARGEST_READING, MOST_CARRIED, MOST_STANDING,
};
use crate::reference::steps::{ASSISTED_FREE, STANDBY_FREE};

/// A list of calls that mostly fit the account they meet.
pub fn list(random: &mut Random, length: usize) -> Vec<Call> {
    let mut account = Account::default();
    let mut calls = Vec::with_capacity(length);
    for _ in 0..length {
        let call = call(random, &account);
        account = answer(account, &call).1;
        calls.push(call);
    }
    calls
}

/// A call for an account, mostly one that the account accepts.
pub fn call(random: &mut Random, account: &Account) -> Call {
    let usual = match account.state {
        State::Fresh => 0,
        State::Open => random.pick([1, 2, 2, 2, 2, 2, 2, 2, 2, 2]),
        State::Closed => random.below(4),
    };
    let chosen = if random.once_in(25) {
        random.below(4)
    } else {
        usual
    };
    match chosen {
        0 => Call::Opening {
            terms: terms(random),
            price_list: price_list(random),
            first_month: first_month(random),
        },
        1 => Call::Repricing {
            price_list: price_list(random),
        },
        2 => billing(random, account.next_month),
        _ => Call::Closing,
    }
}

/// A limit, one below, one above, or the least and largest numbers.
pub fn near(random: &mut Random, limit: u32) -> u32 {
    let below = limit.saturating_sub(1);
    let above = limit.saturating_add(1);
    random.pick([below, limit, limit, above, 0, u32::MAX])
}

pub fn terms(random: &mut Random) -> Terms {
    let class = random.pick([Class::Home, Class::Home, Class::Business]);
    let rider = match class {
        Class::Business if !random.once_in(20) => Rider::Banked,
        _ => random.pick([Rider::Banked, Rider::Bridge]),
    };
    let (class_limit, turning_point) = match class {
        Class::Home => (LARGEST_HOME, ASSISTED_FREE),
        Class::Business => (LARGEST_BUSINESS, STANDBY_FREE),
    };
    let total = match random.below(8) {
        0 => near(random, class_limit),
        1..=3 => turning_point + random.up_to(2) - 1,
        _ => 1 + random.up_to(class_limit - 1),
    };
    let demand_limit = match random.below(8) {
        0 => near(random, total),
        _ => total.saturating_add(random.up_to(1000)),
    };
    Terms {
        rider,
        class,
        // Aside: the rest of a seed's numbers doesn't depend on how many nameplates there are.
        nameplates: nameplates(&mut random.aside(), total),
        demand_limit,
        assisted: random.pick([Assisted::No, Assisted::Yes]),
    }
}

/// The total in one nameplate, or in several; now and then with a 0 among them, a total past
/// 32 or 64 bits, or a count that is refused.
fn nameplates(random: &mut Random, total: u32) -> Nameplates {
    let total = u64::from(total);
    if random.once_in(2) {
        return Nameplates::one(total);
    }
    let count = random.up_to(MOST_NAMEPLATES as u32) as usize;
    let mut nameplates = Nameplates {
        count: count as u64,
        places: split(random, total, count),
    };
    match random.below(10) {
        0 => nameplates.places[random.below(nameplates.count) as usize] = 0,
        1 => {
            // In 32 bits, or in 64, the total would be the one given.
            let half = random.pick([1 << 31, 1 << 32, 1 << 63]);
            nameplates.count = MOST_NAMEPLATES as u64;
            nameplates.places = split(random, total, MOST_NAMEPLATES);
            nameplates.places[0] += half;
            nameplates.places[random.pick([1, 4, 7])] += half;
        }
        2 => nameplates.count = random.pick([0, 9, 10, 1 << 32, (1 << 32) + 1, u64::MAX]),
        _ => {}
    }
    for place in nameplates.each().len()..MOST_NAMEPLATES {
        nameplates.places[place] = random.pick([0, 1, total, 1 << 32, u64::MAX]);
    }
    nameplates
}

/// A total cut into so many parts, none of them 0 where it suffices.
fn split(random: &mut Random, total: u64, count: usize) -> [u64; MOST_NAMEPLATES] {
    let mut places = [0; MOST_NAMEPLATES];
    let mut left = total;
    for (place, part) in places[..count].iter_mut().enumerate() {
        let others = (count - 1 - place) as u64;
        *part = match others {
            0 => left,
            _ => left.min(1 + random.below(left.saturating_sub(others))),
        };
        left -= *part;
    }
    places
}

pub fn price_list(random: &mut Random) -> PriceList {
    let largest = random.pick([10, 40_000, LARGEST_PRICE]);
    let mut energy = [0; 4];
    let mut before = largest;
    for price in &mut energy {
        let lower = random.up_to(before);
        before = random.pick([before, lower]);
        *price = before;
    }
    let mut list = PriceList {
        energy,
        demand: random.up_to(largest),
        standby: random.up_to(largest),
        bypass: random.up_to(largest),
        credit: random.up_to(largest),
        distribution: random.up_to(largest),
        basic: random.pick([0, 1400, LARGEST_PRICE]),
        minimum: random.pick([0, 2200, LARGEST_PRICE]),
    };
    if random.once_in(10) {
        let amount = near(random, LARGEST_PRICE);
        let place = random.below(11);
        set_amount(&mut list, place, amount);
    }
    list
}

/// Sets one of the eleven amounts.
fn set_amount(list: &mut PriceList, place: u64, amount: u32) {
    let field = match place {
        0 => &mut list.energy[0],
        1 => &mut list.energy[1],
        2 => &mut list.energy[2],
        3 => &mut list.energy[3],
        4 => &mut list.demand,
        5 => &mut list.standby,
        6 => &mut list.bypass,
        7 => &mut list.credit,
        8 => &mut list.distribution,
        9 => &mut list.basic,
        _ => &mut list.minimum,
    };
    *field = amount;
}

pub fn first_month(random: &mut Random) -> u32 {
    match random.below(8) {
        0 => near(random, LAST_MONTH),
        1 | 2 => LAST_MONTH - random.up_to(12),
        _ => random.up_to(LAST_MONTH),
    }
}

fn billing(random: &mut Random, next_month: u32) -> Call {
    let month = match random.below(25) {
        0 => near(random, next_month),
        _ => next_month,
    };
    Call::Billing {
        month,
        delivered: register(random, month),
        received: register(random, month),
        critical_days: critical_days(random, month),
    }
}

/// Mostly up to ten days of the month.
pub fn critical_days(random: &mut Random, month: u32) -> u32 {
    let days = days_in_month(month);
    let mut number = 0;
    for _ in 0..random.pick([0, 1, 4, 10, 10, 11, 12]) {
        number |= 1 << (random.up_to(days - 1));
    }
    match random.below(25) {
        0 => number | 1 << random.up_to(31),
        1 => random.next_u64() as u32,
        _ => number,
    }
}

/// Mostly of the month's length, with no reading above the limit; one in three has gaps.
pub fn register(random: &mut Random, month: u32) -> Vec<u32> {
    let right = register_length(month);
    let length = match random.below(40) {
        0 => random.pick([
            right - 1,
            right + 1,
            right - 4,
            right + 4,
            right - 96,
            right + 96,
            0,
        ]),
        _ => right,
    };
    let largest = random.pick([1, 20, 1_000, LARGEST_READING]);
    let shape = random.below(5);
    let day: Vec<u32> = (0..96).map(|_| random.up_to(largest)).collect();
    let from = random.up_to(95) as usize;
    let to = from + random.up_to(40) as usize;
    let mut register: Vec<u32> = (0..length)
        .map(|index| match shape {
            // Nothing; the same each quarter; the same every 96 readings; part of
            // those; anything.
            0 => 0,
            1 => largest,
            2 => day[index % 96],
            3 if (from..to).contains(&(index % 96)) => day[index % 96],
            3 => 0,
            _ => random.up_to(largest),
        })
        .collect();
    if random.once_in(20) {
        let place = random.below(length as u64) as usize;
        if let Some(reading) = register.get_mut(place) {
            *reading = match random.below(4) {
                0 => LOST - 1,
                _ => near(random, LARGEST_READING),
            };
        }
    }
    if random.once_in(3) {
        lose_readings(random, &mut register);
    }
    register
}

/// One to four gaps, each of one reading up to all that follow. Few are at the start, where
/// the month is refused.
fn lose_readings(random: &mut Random, register: &mut [u32]) {
    for _ in 0..=random.up_to(3) {
        let start = match random.once_in(40) {
            true => 0,
            false => random.below(register.len() as u64) as usize,
        };
        let hours = random.up_to(96);
        let days = random.up_to(960);
        let all = register.len() as u32;
        let length = random.pick([1, 1, 2, hours, hours, days, all]) as usize;
        let end = register.len().min(start + length);
        register[start..end].fill(LOST);
    }
}

/// An account made by hand: any state, and bounds at, below and above.
pub fn account(random: &mut Random) -> Account {
    let mut carried = [0; 4];
    for wh in &mut carried {
        *wh = match random.below(12) {
            0 => near_wide(random, MOST_CARRIED),
            1..=3 => 0,
            4..=6 => random.below(1_000),
            7 => random.below(MOST_CARRIED),
            _ => random.below(100_000_000),
        };
    }
    Account {
        state: random.pick([State::Fresh, State::Open, State::Open, State::Closed]),
        terms: terms(random),
        price_list: price_list(random),
        next_month: match random.below(6) {
            0 => near(random, LAST_MONTH + 1),
            _ => random.up_to(LAST_MONTH),
        },
        carried,
        standing: match random.below(4) {
            0 => near_wide(random, MOST_STANDING),
            1 => 0,
            2 => random.below(MOST_STANDING),
            _ => random.below(1_000_000),
        },
    }
}

fn near_wide(random: &mut Random, limit: u64) -> u64 {
    random.pick([limit - 1, limit, limit, limit + 1, u64::MAX])
}
