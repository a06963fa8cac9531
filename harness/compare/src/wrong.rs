//! Deliberately wrong variants of the second implementation, each with one mistake.
//! A comparison that doesn't notice one of them is worth nothing.

use crate::compare::{Difference, Room, Written};
use crate::rules::{settle, sum_of, Metered, Pair, Rules, Settled};
use harness::reference::account::{
    Account, Assisted, ByPeriod, Class, Nameplates, PriceList, Rider, State, Terms, MOST_NAMEPLATES,
};
use harness::reference::calendar::{
    days_in_month, month_of_year, weekday, year, Clocks, DayKind, Season, Weekday, JUNE,
};
use harness::reference::gaps::{filled, LOST};
use harness::reference::hours::{
    clock_quarters, count_critical_days, register_length, Day, Period,
};
use harness::reference::ledger::{check_balances, Call};
use harness::reference::refusal::{
    self, Refusal, LARGEST_HOME, LARGEST_PRICE, LARGEST_READING, MOST_CARRIED, MOST_STANDING,
};
use harness::reference::steps::{self, cents, Netted, Shared, ASSISTED_FREE, STANDBY_FREE};
use std::borrow::Cow;
use std::ops::RangeInclusive;

#[derive(Clone, Copy)]
pub struct Wrong {
    pub name: &'static str,
    pub rules: Rules,
}

const RIGHT: Rules = Rules::RIGHT;

impl Wrong {
    /// Whether the library's run of a list isn't the variant's, or doesn't balance by it.
    pub fn is_shown(&self, calls: &[Call], library: &Written) -> bool {
        let expected = Written::expected(&self.rules.run(calls), Room::for_calls(calls.len()));
        Difference::between(library, &expected).is_some() || self.is_unbalanced(calls, library)
    }

    /// By totals of its own; that the library balances by the right ones is known.
    fn is_unbalanced(&self, calls: &[Call], library: &Written) -> bool {
        let Cow::Owned(totalled) = (self.rules.totalled)(calls) else {
            return false;
        };
        library
            .read(&totalled)
            .is_none_or(|(answers, account)| check_balances(&totalled, &answers, &account).is_err())
    }
}

/// All variants, in the order of the papers.
pub fn all() -> Vec<Wrong> {
    let sets = [
        clocks(),
        hours(),
        energy(),
        money(),
        demands(),
        refusals(),
        accounts(),
        nameplates(),
        gaps(),
    ];
    sets.concat()
        .into_iter()
        .map(|(name, rules)| Wrong { name, rules })
        .collect()
}

type Named = (&'static str, Rules);

/// The rules with another refusal of closings.
fn closing(of_closing: fn(&Account) -> Option<Refusal>) -> Rules {
    Rules {
        of_closing,
        ..RIGHT
    }
}

fn closed_as(account: Account) -> Option<Refusal> {
    refusal::of_closing(&account)
}

/// A number, with one value read as another.
fn read_as<T: PartialEq>(number: T, from: T, to: T) -> T {
    match number == from {
        true => to,
        false => number,
    }
}

fn with_carried(account: &Account, from: u64, to: u64) -> Account {
    let carried = account.carried.map(|wh| read_as(wh, from, to));
    Account {
        carried,
        ..*account
    }
}

fn with_standing(account: &Account, from: u64, to: u64) -> Account {
    let standing = read_as(account.standing, from, to);
    Account {
        standing,
        ..*account
    }
}

fn with_next_month(account: &Account, from: u32, to: u32) -> Account {
    let next_month = read_as(account.next_month, from, to);
    Account {
        next_month,
        ..*account
    }
}

/// Variants that no list from a fresh account shows: the account is read with one of
/// its numbers changed, or a rule goes wrong only where no such list gets.
pub fn given() -> Vec<Wrong> {
    let named: Vec<Named> = vec![
        (
            "refusal 3 allows a Wh too many",
            closing(|account| closed_as(with_carried(account, MOST_CARRIED + 1, MOST_CARRIED))),
        ),
        (
            "refusal 3 allows a Wh too few",
            closing(|account| closed_as(with_carried(account, MOST_CARRIED, MOST_CARRIED + 1))),
        ),
        (
            "refusal 3 allows a cent too many",
            closing(|account| closed_as(with_standing(account, MOST_STANDING + 1, MOST_STANDING))),
        ),
        (
            "refusal 3 allows a cent too few",
            closing(|account| closed_as(with_standing(account, MOST_STANDING, MOST_STANDING + 1))),
        ),
        (
            "refusal 3 allows a month too many",
            closing(|account| closed_as(with_next_month(account, 1_201, 1_200))),
        ),
        (
            "refusal 3 allows a month too few",
            closing(|account| closed_as(with_next_month(account, 1_200, 1_201))),
        ),
        (
            "refusal 3 doesn't ask for the account's price list",
            Rules {
                of_repricing: |account, price_list| {
                    let changed = Account {
                        price_list: PriceList::default(),
                        ..*account
                    };
                    refusal::of_repricing(&changed, price_list)
                },
                ..RIGHT
            },
        ),
        (
            "refusal 3 doesn't ask for the account's rider",
            Rules {
                of_repricing: |account, price_list| {
                    let terms = Terms {
                        rider: Rider::Banked,
                        ..account.terms
                    };
                    refusal::of_repricing(&Account { terms, ..*account }, price_list)
                },
                ..RIGHT
            },
        ),
        (
            "refusal 3 doesn't ask for the account's nameplate",
            Rules {
                of_billing: |account, month, delivered, received, critical_days| {
                    let terms = smallest(&account.terms);
                    let changed = Account { terms, ..*account };
                    refusal::of_billing(&changed, month, delivered, received, critical_days)
                },
                ..RIGHT
            },
        ),
        (
            "refusal 3 doesn't ask for the count of nameplates",
            closing(|account| match is_known(&account.terms.nameplates) {
                true => closed_as(*account),
                false => closed_as(Account {
                    terms: smallest(&account.terms),
                    ..*account
                }),
            }),
        ),
        (
            "refusal 3 doesn't ask for a 0 among several nameplates",
            closing(|account| closed_as(with_nameplates_of(account, without_zeros))),
        ),
        (
            "refusal 3 adds nameplates up in 64 bits",
            closing(|account| closed_as(with_nameplates_of(account, wrapped_at_64))),
        ),
        (
            "refusal 3 adds up what stands past the count",
            closing(|account| closed_as(with_nameplates_of(account, all_added))),
        ),
        (
            "refusal 3 asks for the first nameplate alone",
            closing(|account| closed_as(with_nameplates_of(account, first_alone))),
        ),
        (
            "a refusal clears what stands past the count",
            Rules {
                after: |before, _, after| match after == *before {
                    true => cleared(after),
                    false => after,
                },
                ..RIGHT
            },
        ),
        (
            "an opening keeps what stood past the count",
            Rules {
                after: |before, call, after| match call {
                    Call::Opening { .. } if before.state == State::Fresh => {
                        let mut kept = after;
                        let count = after.terms.nameplates.each().len();
                        let stood = before.terms.nameplates.places;
                        kept.terms.nameplates.places[count..].copy_from_slice(&stood[count..]);
                        kept
                    }
                    _ => after,
                },
                ..RIGHT
            },
        ),
        (
            "refusal 3 asks for what a fresh account holds",
            Rules {
                of_opening: |account, terms, price_list, first_month| {
                    let opened = Account {
                        state: State::Open,
                        ..*account
                    };
                    match account.state == State::Fresh && refusal::is_impossible(&opened) {
                        true => Some(Refusal::Closed),
                        false => refusal::of_opening(account, terms, price_list, first_month),
                    }
                },
                ..RIGHT
            },
        ),
        (
            "June resets the bridge rider",
            Rules {
                forfeited: |_, month, carried| steps::forfeited(Rider::Banked, month, carried),
                ..RIGHT
            },
        ),
        (
            "opening keeps what the account carried",
            Rules {
                after: |before, call, after| match call {
                    Call::Opening { .. } => Account {
                        carried: before.carried,
                        ..after
                    },
                    _ => after,
                },
                ..RIGHT
            },
        ),
        (
            "opening keeps the standing money",
            Rules {
                after: |before, call, after| match call {
                    Call::Opening { .. } => Account {
                        standing: before.standing,
                        ..after
                    },
                    _ => after,
                },
                ..RIGHT
            },
        ),
    ];
    named
        .into_iter()
        .map(|(name, rules)| Wrong { name, rules })
        .collect()
}

/// A day on which the clocks change: a Sunday among some days of a month of the year.
type Change = (u32, RangeInclusive<u32>);

const FORWARD: Change = (3, 8..=14);
const BACK: Change = (11, 1..=7);

/// The rules with other clocks.
fn with_clocks(clocks: fn(u32, u32) -> Clocks) -> Rules {
    Rules { clocks, ..RIGHT }
}

/// The clocks from a year on, by the days on which they go forward and back.
fn clocks_by(month: u32, day: u32, from: u32, forward: Change, back: Change) -> Clocks {
    let is = |(of_year, days): Change| month_of_year(month) == of_year && days.contains(&day);
    match weekday(month, day) == Weekday::Sunday && year(month) >= from {
        true if is(forward) => Clocks::Forward,
        true if is(back) => Clocks::Back,
        _ => Clocks::Unchanged,
    }
}

/// That the hour from 01:00 is lost instead of that from 02:00, and that from 02:00
/// doubled, no bill shows: both hours are discount. The proofs exclude it.
fn clocks() -> Vec<Named> {
    vec![
        (
            "the clocks never change",
            with_clocks(|_, _| Clocks::Unchanged),
        ),
        (
            "the clocks change from 2006 on",
            with_clocks(|month, day| clocks_by(month, day, 2006, FORWARD, BACK)),
        ),
        (
            "the clocks change from 2008 on",
            with_clocks(|month, day| clocks_by(month, day, 2008, FORWARD, BACK)),
        ),
        (
            "the clocks go forward on the first Sunday of March",
            with_clocks(|month, day| clocks_by(month, day, 2007, (3, 1..=7), BACK)),
        ),
        (
            "the clocks go back on the last Sunday of October",
            with_clocks(|month, day| clocks_by(month, day, 2007, FORWARD, (10, 25..=31))),
        ),
        (
            "the clocks go back on the second Sunday of November",
            with_clocks(|month, day| clocks_by(month, day, 2007, FORWARD, (11, 8..=14))),
        ),
        (
            "March and November may have their days times 96 too",
            Rules {
                of_billing: |account, month, delivered, received, critical_days| {
                    let even = 96 * days_in_month(month) as usize;
                    let fits = delivered.len() == even && received.len() == even;
                    let right = vec![0; register_length(month)];
                    match fits {
                        true => refusal_of(account, month, &right, &right, critical_days),
                        false => refusal_of(account, month, delivered, received, critical_days),
                    }
                },
                ..RIGHT
            },
        ),
        (
            "the short day lacks its last hour",
            Rules {
                quarters: |clocks| match clocks {
                    Clocks::Forward => (0..92).chain(0..0),
                    _ => clock_quarters(clocks),
                },
                ..RIGHT
            },
        ),
        (
            "the long day has its last hour twice",
            Rules {
                quarters: |clocks| match clocks {
                    Clocks::Back => (0..96).chain(92..96),
                    _ => clock_quarters(clocks),
                },
                ..RIGHT
            },
        ),
    ]
}

fn hours() -> Vec<Named> {
    vec![
        (
            "a critical summer weekend has critical quarters",
            Rules {
                period: |day, quarter| match weekend_peak(day, quarter) && day.is_critical {
                    true => Period::Critical,
                    false => day.period(quarter),
                },
                ..RIGHT
            },
        ),
        (
            "a summer weekend has on-peak quarters",
            Rules {
                period: |day, quarter| match weekend_peak(day, quarter) && !day.is_critical {
                    true => Period::OnPeak,
                    false => day.period(quarter),
                },
                ..RIGHT
            },
        ),
        (
            "a winter weekend has no on-peak quarters",
            Rules {
                period: |day, quarter| match (day.kind, day.period(quarter)) {
                    (DayKind::Weekend, Period::OnPeak) => Period::OffPeak,
                    (_, period) => period,
                },
                ..RIGHT
            },
        ),
        (
            "June is summer",
            Rules {
                day: |month, day, critical_days| Day {
                    season: season_with(month, 6..=9),
                    ..Day::of(month, day, critical_days)
                },
                ..RIGHT
            },
        ),
        (
            "September is winter",
            Rules {
                day: |month, day, critical_days| Day {
                    season: season_with(month, 7..=8),
                    ..Day::of(month, day, critical_days)
                },
                ..RIGHT
            },
        ),
        (
            "winter on-peak ends a quarter late",
            Rules {
                period: |day, quarter| match (day.season, quarter) {
                    (Season::Winter, 84) => day.period(83),
                    _ => day.period(quarter),
                },
                ..RIGHT
            },
        ),
        (
            "summer on-peak starts a quarter early",
            Rules {
                period: |day, quarter| match (day.season, quarter) {
                    (Season::Summer, 51) => day.period(52),
                    _ => day.period(quarter),
                },
                ..RIGHT
            },
        ),
        (
            "discount starts a quarter late",
            Rules {
                period: |day, quarter| match quarter {
                    4 => Period::OffPeak,
                    _ => day.period(quarter),
                },
                ..RIGHT
            },
        ),
        (
            "bit d is day d",
            Rules {
                day: |month, day, critical_days| Day::of(month, day, critical_days >> 1),
                ..RIGHT
            },
        ),
        (
            "1 January 2000 is a Sunday",
            Rules {
                day: |month, day, critical_days| Day {
                    kind: Day::of(month, day + 1, 0).kind,
                    ..Day::of(month, day, critical_days)
                },
                ..RIGHT
            },
        ),
    ]
}

fn weekend_peak(day: Day, quarter: u32) -> bool {
    day.season == Season::Summer && day.kind == DayKind::Weekend && (52..=71).contains(&quarter)
}

fn season_with(month: u32, summer: RangeInclusive<u32>) -> Season {
    match summer.contains(&month_of_year(month)) {
        true => Season::Summer,
        false => Season::Winter,
    }
}

fn energy() -> Vec<Named> {
    vec![
        (
            "June forfeits nothing",
            Rules {
                forfeited: |_, _, _| [0; 4],
                ..RIGHT
            },
        ),
        (
            "July forfeits instead of June",
            Rules {
                forfeited: |rider, month, carried| {
                    steps::forfeited(rider, (month + 11) % 12, carried)
                },
                ..RIGHT
            },
        ),
        (
            "June keeps nothing of its own export",
            Rules {
                after: |_, call, after| match call {
                    Call::Billing { month, .. } if month_of_year(*month) == JUNE => Account {
                        carried: [0; 4],
                        ..after
                    },
                    _ => after,
                },
                ..RIGHT
            },
        ),
        (
            "carried Wh aren't netted",
            Rules {
                net: |_, exported, delivered| steps::net(&[0; 4], exported, delivered),
                ..RIGHT
            },
        ),
        (
            "delivered Wh are netted in all periods together",
            Rules {
                net: netted_together,
                ..RIGHT
            },
        ),
        (
            "cheap credit covers dear hours",
            Rules {
                share: |credit, need| {
                    shared(
                        credit,
                        need,
                        [(0, 1), (0, 2), (0, 3), (1, 2), (1, 3), (2, 3), (3, 2)],
                    )
                },
                ..RIGHT
            },
        ),
        (
            "the cheapest need is met first",
            Rules {
                share: |credit, need| {
                    shared(
                        credit,
                        need,
                        [(0, 3), (0, 2), (0, 1), (1, 3), (1, 2), (2, 3)],
                    )
                },
                ..RIGHT
            },
        ),
        (
            "the cheapest credit is spent first",
            Rules {
                share: |credit, need| {
                    shared(
                        credit,
                        need,
                        [(2, 3), (1, 2), (1, 3), (0, 1), (0, 2), (0, 3)],
                    )
                },
                ..RIGHT
            },
        ),
        (
            "credit moves to the next period only",
            Rules {
                share: |credit, need| shared(credit, need, [(0, 1), (1, 2), (2, 3)]),
                ..RIGHT
            },
        ),
        (
            "the bridge rider carries credit",
            Rules {
                left: |_, unspent| *unspent,
                paid: |_, _| [0; 4],
                ..RIGHT
            },
        ),
        (
            "the banked rider pays credit",
            Rules {
                left: |_, _| [0; 4],
                paid: |_, unspent| *unspent,
                ..RIGHT
            },
        ),
    ]
}

fn netted_together(carried: &ByPeriod, exported: &ByPeriod, delivered: &ByPeriod) -> Netted {
    let mut netted = steps::net(carried, exported, delivered);
    for from in 0..4 {
        for to in 0..4 {
            let met = netted.credit[from].min(netted.need[to]);
            netted.credit[from] -= met;
            netted.need[to] -= met;
            netted.own[to] += met;
        }
    }
    netted
}

/// Step 4 with other pairs of periods, or in another order.
fn shared<const PAIRS: usize>(
    credit: &ByPeriod,
    need: &ByPeriod,
    pairs: [(usize, usize); PAIRS],
) -> Shared {
    let mut shared = Shared {
        unspent: *credit,
        billed: *need,
        ..Shared::default()
    };
    for (from, to) in pairs {
        let moved = shared.unspent[from].min(shared.billed[to]);
        shared.unspent[from] -= moved;
        shared.billed[to] -= moved;
        shared.moved_out[from] += moved;
        shared.moved_in[to] += moved;
    }
    shared
}

fn product(quantity: u64, price: u32) -> u128 {
    u128::from(quantity) * u128::from(price)
}

fn money() -> Vec<Named> {
    vec![
        (
            "energy is rounded by period",
            Rules {
                energy: |prices, billed| {
                    (0..4)
                        .map(|period| cents(product(billed[period], prices.energy[period])))
                        .sum()
                },
                ..RIGHT
            },
        ),
        (
            "energy is rounded down",
            Rules {
                energy: |prices, billed| {
                    let sum: u128 = (0..4)
                        .map(|period| product(billed[period], prices.energy[period]))
                        .sum();
                    (sum / 1_000_000) as u64
                },
                ..RIGHT
            },
        ),
        (
            "a half cent is rounded down",
            Rules {
                granted: |prices, paid| {
                    let sum = product(paid.iter().sum(), prices.credit);
                    cents(sum.saturating_sub(1))
                },
                ..RIGHT
            },
        ),
        (
            "standby from 100,000 W on",
            Rules {
                standby: |terms, prices| {
                    let is_at_limit = terms.nameplates.total() == u128::from(STANDBY_FREE);
                    match terms.class == Class::Business && is_at_limit {
                        true => cents(product(u64::from(STANDBY_FREE), prices.standby)),
                        false => steps::standby(terms, prices),
                    }
                },
                ..RIGHT
            },
        ),
        (
            "bypass under the banked rider",
            Rules {
                bypass: |terms, prices| {
                    let bridge = Terms {
                        rider: Rider::Bridge,
                        ..*terms
                    };
                    steps::bypass(&bridge, prices)
                },
                ..RIGHT
            },
        ),
        (
            "an assisted home of 8,000 W isn't spared",
            Rules {
                shortfall: |terms, prices, billed| {
                    let spared = terms.nameplates.total() < u128::from(ASSISTED_FREE);
                    steps::shortfall(&assisted_if(terms, spared), prices, billed)
                },
                ..RIGHT
            },
        ),
        (
            "an assisted home of 8,001 W is spared",
            Rules {
                shortfall: |terms, prices, billed| match terms.nameplates.total() {
                    8_001 if terms.assisted == Assisted::Yes => 0,
                    _ => steps::shortfall(terms, prices, billed),
                },
                ..RIGHT
            },
        ),
        (
            "shortfall without basic",
            Rules {
                shortfall: |terms, prices, billed| {
                    let without = PriceList {
                        basic: 0,
                        ..*prices
                    };
                    steps::shortfall(terms, &without, billed)
                },
                ..RIGHT
            },
        ),
        (
            "shortfall under the banked rider",
            Rules {
                shortfall: |terms, prices, billed| {
                    let bridge = Terms {
                        rider: Rider::Bridge,
                        ..*terms
                    };
                    steps::shortfall(&bridge, prices, billed)
                },
                ..RIGHT
            },
        ),
        (
            "granted is rounded by period",
            Rules {
                granted: |prices, paid| {
                    paid.iter()
                        .map(|&wh| cents(product(wh, prices.credit)))
                        .sum()
                },
                ..RIGHT
            },
        ),
        (
            "June drops the standing money under the bridge rider",
            Rules {
                brought: |account, month| match account.terms.rider {
                    Rider::Bridge if month_of_year(month) == JUNE => 0,
                    _ => account.standing,
                },
                ..RIGHT
            },
        ),
        (
            "due is a cent more where money was used",
            Rules {
                settle: |gross, money| {
                    let right = settle(gross, money);
                    let more = u64::from(right.used > 0 && right.due > 0);
                    Settled {
                        due: right.due + more,
                        ..right
                    }
                },
                ..RIGHT
            },
        ),
        (
            "money over is lost",
            Rules {
                settle: |gross, money| Settled {
                    standing: 0,
                    ..settle(gross, money)
                },
                ..RIGHT
            },
        ),
    ]
}

fn assisted_if(terms: &Terms, spared: bool) -> Terms {
    let assisted = match spared {
        true => terms.assisted,
        false => Assisted::No,
    };
    Terms { assisted, ..*terms }
}

fn demands() -> Vec<Named> {
    [pairs(), powers()].concat()
}

/// That both quarters of a pair must be critical or on-peak, or that the off-peak one adds
/// nothing, no bill shows: the windows begin and end with whole pairs. Nor does one show a pair
/// that goes across midnight, nor the doubled hour's pairs added up. The proofs exclude it.
fn pairs() -> Vec<Named> {
    vec![
        (
            "quarters 1 and 2, 3 and 4 are the pairs",
            Rules {
                pairs: |readings| (1..readings.saturating_sub(1)).step_by(2),
                ..RIGHT
            },
        ),
        (
            "any two quarters in a row are a pair",
            Rules {
                pairs: |readings| (0..readings.saturating_sub(1)).step_by(1),
                ..RIGHT
            },
        ),
        (
            "demand counts off-peak pairs",
            with_counting(|day, place| day.readings[place].period != Period::Discount),
        ),
        (
            "demand counts discount pairs",
            with_counting(|day, place| day.readings[place].period != Period::OffPeak),
        ),
        (
            "demand leaves out critical pairs",
            with_counting(|day, place| day.readings[place].period == Period::OnPeak),
        ),
        (
            "demand counts from a half-hour before its window",
            with_counting(|day, place| counts(day, place) || counts(day, place + 2)),
        ),
        (
            "demand leaves out the last half-hour of its window",
            with_counting(|day, place| counts(day, place) && counts(day, place + 2)),
        ),
        (
            "a pair takes its periods from its place in the day",
            with_counting(|day, place| {
                let quarters = [place, place + 1].map(|place| place as u32);
                steps::pair_counts(quarters.map(|quarter| day.day.period(quarter)))
            }),
        ),
    ]
}

/// The rules with other pairs that count.
fn with_counting(pair_counts: fn(&Metered, usize) -> bool) -> Rules {
    Rules {
        pair_counts,
        ..RIGHT
    }
}

/// Whether there is a pair at the place, and it counts.
fn counts(day: &Metered, place: usize) -> bool {
    place + 1 < day.readings.len() && (RIGHT.pair_counts)(day, place)
}

/// The rules with another demand of a pair.
fn with_power(power: fn(Pair, Pair) -> u64) -> Rules {
    Rules { power, ..RIGHT }
}

fn powers() -> Vec<Named> {
    vec![
        (
            "demand is four times the larger reading of a pair",
            with_power(|[first, second], _| 4 * u64::from(first.filled.max(second.filled))),
        ),
        (
            "demand is the sum of a pair",
            with_power(|used, _| sum_of(used)),
        ),
        (
            "demand is four times the sum of a pair",
            with_power(|used, _| 4 * sum_of(used)),
        ),
        (
            "demand is four times the mean of a pair, rounded down",
            with_power(|used, _| 4 * (sum_of(used) / 2)),
        ),
        (
            "demand is what a pair received",
            with_power(|_, made| 2 * sum_of(made)),
        ),
        (
            "demand is what a pair took more than it received",
            with_power(|used, made| 2 * sum_of(used).saturating_sub(sum_of(made))),
        ),
        (
            "demand is rounded before it is doubled",
            Rules {
                demand: |prices, power| 2 * cents(product(power / 2, prices.demand)),
                ..RIGHT
            },
        ),
    ]
}

fn refusals() -> Vec<Named> {
    [refusals_of_openings(), refusals_of_billings()].concat()
}

fn refusals_of_openings() -> Vec<Named> {
    vec![
        (
            "5 comes before 4",
            Rules {
                of_opening: |account, terms, list, month| {
                    let capacity =
                        refusal::of_opening(account, terms, &PriceList::default(), month);
                    capacity
                        .filter(|&refusal| refusal == Refusal::Capacity)
                        .or_else(|| refusal::of_opening(account, terms, list, month))
                },
                ..RIGHT
            },
        ),
        (
            "6 comes before 5",
            Rules {
                of_opening: |account, terms, list, month| {
                    refusal::of_opening(account, &smallest(terms), list, month)
                        .filter(|&refusal| refusal == Refusal::NoBridge)
                        .or_else(|| refusal::of_opening(account, terms, list, month))
                },
                ..RIGHT
            },
        ),
        (
            "a home of 20,001 W is accepted",
            Rules {
                of_opening: |account, terms, list, month| {
                    let mut terms = *terms;
                    let above = Nameplates::one(u64::from(LARGEST_HOME) + 1);
                    if terms.class == Class::Home && terms.nameplates == above {
                        terms.nameplates = Nameplates::one(u64::from(LARGEST_HOME));
                        terms.demand_limit = terms.demand_limit.saturating_sub(1);
                    }
                    refusal::of_opening(account, &terms, list, month)
                },
                ..RIGHT
            },
        ),
        (
            "a nameplate of the demand limit is refused",
            Rules {
                of_opening: |account, terms, list, month| {
                    let terms = Terms {
                        demand_limit: terms.demand_limit.saturating_sub(1),
                        ..*terms
                    };
                    refusal::of_opening(account, &terms, list, month)
                },
                ..RIGHT
            },
        ),
        (
            "a minimum of 1,000,001 is accepted",
            Rules {
                of_opening: |account, terms, list, month| {
                    let mut list = *list;
                    if list.minimum == LARGEST_PRICE + 1 {
                        list.minimum = LARGEST_PRICE;
                    }
                    refusal::of_opening(account, terms, &list, month)
                },
                ..RIGHT
            },
        ),
        (
            "equal prices count as rising",
            Rules {
                of_repricing: |account, list| {
                    let equal = list.energy.windows(2).any(|pair| pair[0] == pair[1]);
                    refusal::of_repricing(account, list)
                        .or_else(|| equal.then_some(Refusal::PriceList))
                },
                ..RIGHT
            },
        ),
        (
            "an opening in month 1200 is accepted",
            Rules {
                of_opening: |account, terms, list, month| {
                    let month = if month == 1200 { 1199 } else { month };
                    refusal::of_opening(account, terms, list, month)
                },
                ..RIGHT
            },
        ),
        (
            "a closed account is opened again",
            Rules {
                of_opening: |account, terms, list, month| {
                    let account = match account.state {
                        State::Closed => Account::default(),
                        _ => *account,
                    };
                    refusal::of_opening(&account, terms, list, month)
                },
                ..RIGHT
            },
        ),
        (
            "a closed account answers 1 to a closing",
            Rules {
                of_closing: |account| match account.state {
                    State::Closed => Some(Refusal::NotOpen),
                    _ => refusal::of_closing(account),
                },
                ..RIGHT
            },
        ),
    ]
}

fn refusals_of_billings() -> Vec<Named> {
    vec![
        (
            "7 comes before 11",
            Rules {
                of_billing: |account, month, delivered, received, critical_days| match refusal_of(
                    account,
                    month,
                    delivered,
                    received,
                    critical_days,
                ) {
                    Some(Refusal::BookFull) if month != account.next_month => Some(Refusal::Month),
                    right => right,
                },
                ..RIGHT
            },
        ),
        (
            "10 comes before 9",
            Rules {
                of_billing: |account, month, delivered, received, critical_days| {
                    refusal_of(account, month, delivered, received, 0)
                        .filter(|&refusal| refusal == Refusal::Reading)
                        .or_else(|| refusal_of(account, month, delivered, received, critical_days))
                },
                ..RIGHT
            },
        ),
        (
            "February 2000 has 28 days",
            Rules {
                of_billing: |account, month, delivered, received, critical_days| {
                    let february_2001 = Account {
                        next_month: 13,
                        ..*account
                    };
                    match account.next_month == 1 && month == 1 {
                        true => refusal_of(&february_2001, 13, delivered, received, critical_days),
                        false => refusal_of(account, month, delivered, received, critical_days),
                    }
                },
                ..RIGHT
            },
        ),
        (
            "a received register one reading too long is accepted",
            Rules {
                of_billing: |account, month, delivered, received, critical_days| {
                    let fits = received.len() == register_length(month) + 1;
                    let received = &received[..received.len() - usize::from(fits)];
                    refusal_of(account, month, delivered, received, critical_days)
                },
                ..RIGHT
            },
        ),
        (
            "eleven critical days are accepted",
            Rules {
                of_billing: |account, month, delivered, received, critical_days| {
                    let fewer = match count_critical_days(critical_days) {
                        11 => critical_days & (critical_days - 1),
                        _ => critical_days,
                    };
                    refusal_of(account, month, delivered, received, fewer)
                },
                ..RIGHT
            },
        ),
        (
            "ten critical days are refused",
            Rules {
                of_billing: |account, month, delivered, received, critical_days| {
                    let more = match count_critical_days(critical_days) {
                        10 => critical_days | (critical_days + 1),
                        _ => critical_days,
                    };
                    refusal_of(account, month, delivered, received, more)
                },
                ..RIGHT
            },
        ),
        (
            "a critical day past the month is accepted",
            Rules {
                of_billing: |account, month, delivered, received, critical_days| {
                    let in_month = critical_days & !(u32::MAX << days_in_month(month));
                    refusal_of(account, month, delivered, received, in_month)
                },
                ..RIGHT
            },
        ),
        (
            "a reading of 1,000,000 is refused",
            Rules {
                of_billing: refusal_reading::<LARGEST_READING, { LARGEST_READING + 1 }>,
                ..RIGHT
            },
        ),
        (
            "a reading of 1,000,001 is accepted",
            Rules {
                of_billing: refusal_reading::<{ LARGEST_READING + 1 }, LARGEST_READING>,
                ..RIGHT
            },
        ),
        (
            "large received readings are accepted",
            Rules {
                of_billing: |account, month, delivered, received, critical_days| {
                    refusal_of(account, month, delivered, &limited(received), critical_days)
                },
                ..RIGHT
            },
        ),
    ]
}

/// A register with one reading read as another.
fn with_reading(register: &[u32], from: u32, to: u32) -> Vec<u32> {
    let readings = register.iter().copied();
    readings.map(|reading| read_as(reading, from, to)).collect()
}

/// A register with no reading above the limit.
fn limited(register: &[u32]) -> Vec<u32> {
    let limited = |&reading: &u32| match reading {
        LOST => LOST,
        _ => reading.min(LARGEST_READING),
    };
    register.iter().map(limited).collect()
}

/// The refusal of a billing with one reading read as another.
fn refusal_reading<const FROM: u32, const TO: u32>(
    account: &Account,
    month: u32,
    delivered: &[u32],
    received: &[u32],
    critical_days: u32,
) -> Option<Refusal> {
    let delivered = with_reading(delivered, FROM, TO);
    let received = with_reading(received, FROM, TO);
    refusal_of(account, month, &delivered, &received, critical_days)
}

fn refusal_of(
    account: &Account,
    month: u32,
    delivered: &[u32],
    received: &[u32],
    critical_days: u32,
) -> Option<Refusal> {
    refusal::of_billing(account, month, delivered, received, critical_days)
}

fn accounts() -> Vec<Named> {
    vec![
        (
            "a refused bill takes the month",
            Rules {
                after: |before, call, after| match call {
                    Call::Billing { .. } if after == *before && before.state == State::Open => {
                        Account {
                            next_month: before.next_month + 1,
                            ..after
                        }
                    }
                    _ => after,
                },
                ..RIGHT
            },
        ),
        (
            "a refused repricing is kept",
            Rules {
                after: |before, call, after| match call {
                    Call::Repricing { price_list } if before.state == State::Open => Account {
                        price_list: *price_list,
                        ..after
                    },
                    _ => after,
                },
                ..RIGHT
            },
        ),
        (
            "a closing clears the terms",
            Rules {
                after: |_, call, after| match call {
                    Call::Closing => Account {
                        terms: Terms::default(),
                        ..after
                    },
                    _ => after,
                },
                ..RIGHT
            },
        ),
        (
            "a closing keeps the carried Wh",
            Rules {
                after: |before, call, after| match call {
                    Call::Closing => Account {
                        carried: before.carried,
                        ..after
                    },
                    _ => after,
                },
                ..RIGHT
            },
        ),
        (
            "a closing keeps the standing money",
            Rules {
                after: |before, call, after| match call {
                    Call::Closing => Account {
                        standing: before.standing,
                        ..after
                    },
                    _ => after,
                },
                ..RIGHT
            },
        ),
    ]
}

fn nameplates() -> Vec<Named> {
    [
        totals_of_nameplates(),
        counts_of_nameplates(),
        refusals_of_nameplates(),
        charges_of_nameplates(),
        accounts_with_nameplates(),
    ]
    .concat()
}

/// The rules with other nameplates in the place of those that terms hold.
fn with_nameplates(nameplates: fn(&Nameplates) -> Nameplates) -> Rules {
    Rules {
        nameplates,
        ..RIGHT
    }
}

fn with_nameplates_of(account: &Account, read: fn(&Nameplates) -> Nameplates) -> Account {
    let terms = Terms {
        nameplates: read(&account.terms.nameplates),
        ..account.terms
    };
    Account { terms, ..*account }
}

/// Terms that no nameplate is refused in.
fn smallest(terms: &Terms) -> Terms {
    Terms {
        nameplates: Nameplates::one(1),
        demand_limit: 1,
        ..*terms
    }
}

/// Whether the count isn't refused.
fn is_known(nameplates: &Nameplates) -> bool {
    (1..=MOST_NAMEPLATES as u64).contains(&nameplates.count)
}

/// One nameplate of another total. Sets that are refused for their count, or for a 0, stay so.
fn as_one(nameplates: &Nameplates, total: u64) -> Nameplates {
    match is_known(nameplates) && !nameplates.each().contains(&0) {
        true => Nameplates::one(total),
        false => *nameplates,
    }
}

fn largest_of(nameplates: &Nameplates) -> u64 {
    nameplates.each().iter().copied().max().unwrap_or(0)
}

fn first_alone(nameplates: &Nameplates) -> Nameplates {
    as_one(nameplates, nameplates.places[0])
}

fn largest_alone(nameplates: &Nameplates) -> Nameplates {
    as_one(nameplates, largest_of(nameplates))
}

fn wrapped_at_64(nameplates: &Nameplates) -> Nameplates {
    as_one(nameplates, nameplates.total() as u64)
}

/// The places past the count too.
fn all_added(nameplates: &Nameplates) -> Nameplates {
    let all = nameplates.places.iter().copied();
    as_one(nameplates, all.fold(0, u64::saturating_add))
}

fn without_zeros(nameplates: &Nameplates) -> Nameplates {
    let each = nameplates.each().iter().copied();
    let others: Vec<u64> = each.filter(|&watts| watts > 0).collect();
    Nameplates::of(&others)
        .filter(|_| is_known(nameplates))
        .unwrap_or(*nameplates)
}

fn totals_of_nameplates() -> Vec<Named> {
    vec![
        (
            "only the first nameplate counts",
            with_nameplates(first_alone),
        ),
        (
            "only the last nameplate counts",
            with_nameplates(|nameplates| {
                let last = nameplates.each().last();
                as_one(nameplates, last.copied().unwrap_or(0))
            }),
        ),
        (
            "only the largest nameplate counts",
            with_nameplates(largest_alone),
        ),
        (
            "the total wraps at 32 bits",
            with_nameplates(|nameplates| {
                let wrapped = nameplates.total() as u32;
                as_one(nameplates, u64::from(wrapped))
            }),
        ),
        ("the total wraps at 64 bits", with_nameplates(wrapped_at_64)),
        (
            "what stands past the count is added up",
            with_nameplates(all_added),
        ),
        (
            "a 0 among several nameplates is accepted",
            with_nameplates(without_zeros),
        ),
        (
            "a 0 past the count is refused",
            with_nameplates(|nameplates| Nameplates {
                count: match is_known(nameplates) {
                    true => MOST_NAMEPLATES as u64,
                    false => nameplates.count,
                },
                ..*nameplates
            }),
        ),
    ]
}

/// The nameplates with another count.
fn with_count(count: u64, nameplates: &Nameplates) -> Nameplates {
    Nameplates {
        count,
        ..*nameplates
    }
}

fn counts_of_nameplates() -> Vec<Named> {
    vec![
        (
            "nine nameplates are taken as eight",
            with_nameplates(|nameplates| with_count(read_as(nameplates.count, 9, 8), nameplates)),
        ),
        (
            "any count above eight is taken as eight",
            with_nameplates(|nameplates| with_count(nameplates.count.min(8), nameplates)),
        ),
        (
            "eight nameplates are too many",
            with_nameplates(|nameplates| with_count(read_as(nameplates.count, 8, 9), nameplates)),
        ),
        (
            "the count has 32 bits",
            with_nameplates(|nameplates| {
                with_count(u64::from(nameplates.count as u32), nameplates)
            }),
        ),
        (
            "none is taken as one nameplate",
            with_nameplates(|nameplates| with_count(nameplates.count.max(1), nameplates)),
        ),
        (
            "none is refused by 5",
            with_nameplates(|nameplates| match nameplates.count {
                0 => Nameplates::one(0),
                _ => *nameplates,
            }),
        ),
        (
            "more than eight are refused by 5",
            with_nameplates(|nameplates| match nameplates.count > 8 {
                true => Nameplates::one(0),
                false => *nameplates,
            }),
        ),
    ]
}

/// The refusal of an opening with the limits asked otherwise, where its nameplates have no
/// other fault: for the class the first of two numbers, for the demand limit the second.
fn limits_asked(
    account: &Account,
    terms: &Terms,
    list: &PriceList,
    month: u32,
    [by_class, by_limit]: [u128; 2],
) -> Option<Refusal> {
    let nameplates = &terms.nameplates;
    let by_class = u64::try_from(by_class).unwrap_or(u64::MAX);
    let other = Terms {
        nameplates: as_one(nameplates, by_class),
        demand_limit: match by_limit <= u128::from(terms.demand_limit) {
            true => u32::MAX,
            false => 0,
        },
        ..*terms
    };
    refusal::of_opening(account, &other, list, month)
}

fn refusals_of_nameplates() -> Vec<Named> {
    vec![
        (
            "5 comes before 12",
            Rules {
                of_opening: |account, terms, list, month| {
                    let counted = Terms {
                        nameplates: with_count(
                            terms.nameplates.count.clamp(1, 8),
                            &terms.nameplates,
                        ),
                        ..*terms
                    };
                    refusal::of_opening(account, &counted, list, month)
                        .filter(|&refusal| refusal == Refusal::Capacity)
                        .or_else(|| refusal::of_opening(account, terms, list, month))
                },
                ..RIGHT
            },
        ),
        (
            "6 comes before 12",
            Rules {
                of_opening: |account, terms, list, month| {
                    let right = refusal::of_opening(account, terms, list, month);
                    right
                        .filter(|&refusal| refusal == Refusal::Nameplates)
                        .and_then(|_| refusal::of_opening(account, &smallest(terms), list, month))
                        .filter(|&refusal| refusal == Refusal::NoBridge)
                        .or(right)
                },
                ..RIGHT
            },
        ),
        (
            "12 comes before 4",
            Rules {
                of_opening: |account, terms, list, month| {
                    refusal::of_opening(account, terms, &PriceList::default(), month)
                        .filter(|&refusal| refusal == Refusal::Nameplates)
                        .or_else(|| refusal::of_opening(account, terms, list, month))
                },
                ..RIGHT
            },
        ),
        (
            "the limit of a class is one for each nameplate",
            Rules {
                of_opening: |account, terms, list, month| {
                    let asked = [
                        u128::from(largest_of(&terms.nameplates)),
                        terms.nameplates.total(),
                    ];
                    limits_asked(account, terms, list, month, asked)
                },
                ..RIGHT
            },
        ),
        (
            "the demand limit is one for each nameplate",
            Rules {
                of_opening: |account, terms, list, month| {
                    let asked = [
                        terms.nameplates.total(),
                        u128::from(largest_of(&terms.nameplates)),
                    ];
                    limits_asked(account, terms, list, month, asked)
                },
                ..RIGHT
            },
        ),
    ]
}

/// The cents of each nameplate, rounded by itself, added up.
fn rounded_each(terms: &Terms, price: u32) -> u64 {
    let each = terms.nameplates.each().iter();
    each.map(|&watts| cents(product(watts, price))).sum()
}

fn charges_of_nameplates() -> Vec<Named> {
    vec![
        (
            "the exemption goes by the largest nameplate",
            Rules {
                shortfall: |terms, prices, billed| {
                    let spared = largest_of(&terms.nameplates) <= u64::from(ASSISTED_FREE);
                    match spared && terms.assisted == Assisted::Yes {
                        true => 0,
                        false => steps::shortfall(terms, prices, billed),
                    }
                },
                ..RIGHT
            },
        ),
        (
            "standby is for a nameplate above 100,000 W",
            Rules {
                standby: |terms, prices| match largest_of(&terms.nameplates)
                    > u64::from(STANDBY_FREE)
                {
                    true => steps::standby(terms, prices),
                    false => 0,
                },
                ..RIGHT
            },
        ),
        (
            "standby prices the largest nameplate",
            Rules {
                standby: |terms, prices| {
                    let largest = cents(product(largest_of(&terms.nameplates), prices.standby));
                    steps::standby(terms, prices).min(largest)
                },
                ..RIGHT
            },
        ),
        (
            "standby is rounded by nameplate",
            Rules {
                standby: |terms, prices| match steps::standby(terms, prices) {
                    0 => 0,
                    _ => rounded_each(terms, prices.standby),
                },
                ..RIGHT
            },
        ),
        (
            "bypass prices the largest nameplate",
            Rules {
                bypass: |terms, prices| {
                    let largest = cents(product(largest_of(&terms.nameplates), prices.bypass));
                    steps::bypass(terms, prices).min(largest)
                },
                ..RIGHT
            },
        ),
        (
            "bypass is rounded by nameplate",
            Rules {
                bypass: |terms, prices| match terms.rider {
                    Rider::Banked => 0,
                    Rider::Bridge => rounded_each(terms, prices.bypass),
                },
                ..RIGHT
            },
        ),
    ]
}

/// With 0 in the places past the count.
fn cleared(mut account: Account) -> Account {
    let nameplates = &mut account.terms.nameplates;
    let count = nameplates.each().len();
    nameplates.places[count..].fill(0);
    account
}

fn accounts_with_nameplates() -> Vec<Named> {
    vec![
        (
            "an opening clears what stands past the count",
            Rules {
                after: |_, call, after| match call {
                    Call::Opening { .. } => cleared(after),
                    _ => after,
                },
                ..RIGHT
            },
        ),
        (
            "an opening keeps the total alone",
            Rules {
                after: |before, call, mut after| {
                    if matches!(call, Call::Opening { .. }) && before.state == State::Fresh {
                        after.terms.nameplates = wrapped_at_64(&after.terms.nameplates);
                    }
                    after
                },
                ..RIGHT
            },
        ),
        (
            "a refused opening leaves its nameplates behind",
            Rules {
                after: |before, call, mut after| {
                    if let (Call::Opening { terms, .. }, true) = (call, after == *before) {
                        after.terms.nameplates = terms.nameplates;
                    }
                    after
                },
                ..RIGHT
            },
        ),
        (
            "a bill clears what stands past the count",
            Rules {
                after: |_, call, after| match call {
                    Call::Billing { .. } => cleared(after),
                    _ => after,
                },
                ..RIGHT
            },
        ),
        (
            "a closing clears what stands past the count",
            Rules {
                after: |_, call, after| match call {
                    Call::Closing => cleared(after),
                    _ => after,
                },
                ..RIGHT
            },
        ),
    ]
}

fn gaps() -> Vec<Named> {
    [fillings(), refusals_of_gaps()].concat()
}

/// The rules with another filling.
fn with_filling(filled: fn(&[u32], &[u32]) -> Vec<u32>) -> Rules {
    Rules { filled, ..RIGHT }
}

fn fillings() -> Vec<Named> {
    vec![
        (
            "a gap counts as 0",
            with_filling(|register, _| with_reading(register, LOST, 0)),
        ),
        (
            "a gap counts as the next reading",
            with_filling(|register, _| {
                let backwards: Vec<u32> = register.iter().rev().copied().collect();
                filled(&backwards).into_iter().rev().collect()
            }),
        ),
        (
            "a gap counts as the other register's readings",
            with_filling(|register, other| filled_from(register, &filled(other))),
        ),
        (
            "a lost reading counts as the one before it, though that is lost too",
            with_filling(|register, _| filled_from(register, &[&[0], register].concat())),
        ),
        (
            "a gap counts as 0 from midnight on",
            with_filling(|register, _| register.chunks(96).flat_map(filled).collect()),
        ),
        (
            "a lost reading counts in the period of the one it is filled with",
            Rules {
                counted: |_, last| last,
                ..RIGHT
            },
        ),
        (
            "a gap isn't filled for demand",
            with_power(|used, _| 2 * sum_filled(used, |_| 0)),
        ),
        (
            "the mark itself counts for demand",
            with_power(|used, _| 2 * sum_filled(used, |_| LOST)),
        ),
        (
            "a lost reading counts as the other one of its pair for demand",
            with_power(|used, _| 2 * sum_filled(used, |other| other)),
        ),
        (
            "a pair with a lost reading doesn't count",
            with_power(|used, _| {
                let came = used.iter().all(|reading| reading.stands != LOST);
                2 * u64::from(came) * sum_of(used)
            }),
        ),
        (
            "a gap isn't filled in the totals",
            Rules {
                totalled: |calls| Cow::Owned(unfilled(calls)),
                ..RIGHT
            },
        ),
    ]
}

/// The sum of a pair with each lost reading filled by what the other one counts as.
fn sum_filled([first, second]: Pair, fill: fn(u32) -> u32) -> u64 {
    let first_wh = read_as(first.stands, LOST, fill(second.filled));
    let second_wh = read_as(second.stands, LOST, fill(first.filled));
    u64::from(first_wh) + u64::from(second_wh)
}

/// A register with each lost reading taken from the same place of other readings.
fn filled_from(register: &[u32], others: &[u32]) -> Vec<u32> {
    let readings = register.iter().zip(others);
    readings
        .map(|(&reading, &other)| read_as(reading, LOST, other))
        .collect()
}

/// The calls with 0 for each lost reading.
fn unfilled(calls: &[Call]) -> Vec<Call> {
    with_registers(calls, |_, registers| {
        for register in registers {
            *register = with_reading(register, LOST, 0);
        }
    })
}

/// The calls with the two registers of each month changed.
fn with_registers(calls: &[Call], mut change: impl FnMut(u32, [&mut Vec<u32>; 2])) -> Vec<Call> {
    let mut calls = calls.to_vec();
    for call in &mut calls {
        if let Call::Billing {
            month,
            delivered,
            received,
            ..
        } = call
        {
            change(*month, [delivered, received]);
        }
    }
    calls
}

fn refusals_of_gaps() -> Vec<Named> {
    vec![
        (
            "the mark is refused by 10",
            Rules {
                of_billing: refusal_reading::<LOST, { LOST - 1 }>,
                ..RIGHT
            },
        ),
        (
            "4,294,967,294 is a mark too",
            Rules {
                of_billing: refusal_reading::<{ LOST - 1 }, LOST>,
                filled: |register, _| filled(&with_reading(register, LOST - 1, LOST)),
                ..RIGHT
            },
        ),
        (
            "13 comes before 10",
            Rules {
                of_billing: |account, month, delivered, received, critical_days| {
                    let [used, made] = [delivered, received].map(limited);
                    refusal_of(account, month, &used, &made, critical_days)
                        .filter(|&refusal| refusal == Refusal::FirstReadingLost)
                        .or_else(|| refusal_of(account, month, delivered, received, critical_days))
                },
                ..RIGHT
            },
        ),
        (
            "13 asks for the delivered register alone",
            Rules {
                of_billing: |account, month, delivered, received, critical_days| {
                    let received = with_reading(received, LOST, 0);
                    refusal_of(account, month, delivered, &received, critical_days)
                },
                ..RIGHT
            },
        ),
        (
            "13 asks for the received register alone",
            Rules {
                of_billing: |account, month, delivered, received, critical_days| {
                    let delivered = with_reading(delivered, LOST, 0);
                    refusal_of(account, month, &delivered, received, critical_days)
                },
                ..RIGHT
            },
        ),
        (
            "any lost reading is refused by 13",
            Rules {
                of_billing: |account, month, delivered, received, critical_days| {
                    let any_lost = delivered.contains(&LOST) || received.contains(&LOST);
                    refusal_of(account, month, delivered, received, critical_days)
                        .or_else(|| any_lost.then_some(Refusal::FirstReadingLost))
                },
                ..RIGHT
            },
        ),
        (
            "a gap at the start counts as 0",
            Rules {
                of_billing: refusal_reading::<LOST, 0>,
                ..RIGHT
            },
        ),
        (
            "a gap at the start counts as the next reading",
            Rules {
                of_billing: refusal_reading::<LOST, 0>,
                filled: |register, _| {
                    let first = register.iter().copied().find(|&reading| reading != LOST);
                    let register = [&[first.unwrap_or(0)], register].concat();
                    filled(&register)[1..].to_vec()
                },
                ..RIGHT
            },
        ),
        (
            "a gap at the start counts as the last reading of the month before",
            Rules {
                answered: |calls| Cow::Owned(carried_over(calls)),
                ..RIGHT
            },
        ),
    ]
}

/// Where the billing before is that of the month before, a lost first reading is the last
/// one of its register.
fn carried_over(calls: &[Call]) -> Vec<Call> {
    let mut before = None;
    let mut ends = [LOST; 2];
    with_registers(calls, |month, registers| {
        let follows = before == month.checked_sub(1);
        for (register, end) in registers.into_iter().zip(&mut ends) {
            if let Some(first) = register.first_mut().filter(|_| follows) {
                *first = read_as(*first, LOST, *end);
            }
            *end = filled(register).last().copied().unwrap_or(LOST);
        }
        before = Some(month);
    })
}

/// The variants that no list has shown to be wrong yet.
pub struct Watch {
    pub unnoticed: Vec<Wrong>,
}

impl Watch {
    pub fn new() -> Watch {
        Watch { unnoticed: all() }
    }

    /// Strikes out and returns each variant whose run of the list isn't the library's.
    pub fn look(&mut self, calls: &[Call], library: &Written) -> Vec<Wrong> {
        let is_shown = |wrong: &mut Wrong| wrong.is_shown(calls, library);
        self.unnoticed.extract_if(.., is_shown).collect()
    }
}
