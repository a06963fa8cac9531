//! Lists at, below and above each limit of 01, each edge of a window, each half cent,
//! each order of refusals, each place of a gap, each place in a pair of quarters, and each count
//! and place of nameplates; and calls on accounts that hold these, or are at a bound.

use crate::lists::List;
use harness::reference::account::{
    Account, Assisted, Class, Nameplates, PriceList, Rider, State, Terms, MOST_NAMEPLATES,
};
use harness::reference::calendar::{days_in_month, month_of_year, LAST_MONTH};
use harness::reference::gaps::LOST;
use harness::reference::hours::{first_reading, register_length};
use harness::reference::ledger::Call;
use harness::reference::refusal::{LARGEST_PRICE, LARGEST_READING, MOST_CARRIED, MOST_STANDING};
use std::ops::Range;

// Months of 28, 29, 30 and 31 days.
const FEBRUARY_2001: u32 = 13;
const FEBRUARY_2004: u32 = 49;
const JUNE_2001: u32 = 17;
const JULY_2001: u32 = 18;

// Months in which the clocks change, on day 11 and on day 4.
const MARCH_2007: u32 = 86;
const NOVEMBER_2007: u32 = 94;

// A quarter of each period in winter, on a critical day and on another.
const CRITICAL_DAY: u32 = 1;
const USUAL_DAY: u32 = 2;
const PLACES: [(u32, usize); 4] = [
    (CRITICAL_DAY, 70),
    (USUAL_DAY, 70),
    (USUAL_DAY, 30),
    (USUAL_DAY, 10),
];
const CRITICAL_DAYS: u32 = 1;

pub fn lists() -> Vec<List> {
    // The large ones come when few wrong variants are left to be tried on them.
    let sets: [(&str, Vec<Vec<Call>>); 18] = [
        ("price lists", price_lists()),
        ("months", months()),
        ("a full book", full_book()),
        ("register lengths", lengths()),
        ("readings", readings()),
        ("critical days", critical_days()),
        ("half cents", half_cents()),
        ("credit and need", sharing()),
        ("faults together", faults()),
        ("nameplates", nameplates()),
        ("totals of nameplates", totals()),
        ("gaps at the end of a month", gaps_at_the_end()),
        ("gaps beside large readings", gaps_beside_large()),
        ("edges of windows", windows()),
        ("pairs", pairs()),
        ("gaps", gaps()),
        ("terms", terms()),
        ("clock changes", clock_changes()),
    ];
    let mut lists = Vec::new();
    for (name, set) in sets {
        for (index, calls) in set.into_iter().enumerate() {
            lists.push(List {
                name: format!("{name} {index}"),
                calls,
            });
        }
    }
    lists
}

const HOME: Terms = Terms {
    rider: Rider::Banked,
    class: Class::Home,
    nameplates: Nameplates::one(8_000),
    demand_limit: 9_000,
    assisted: Assisted::No,
};

const BRIDGE: Terms = Terms {
    rider: Rider::Bridge,
    ..HOME
};

// Demand costs a cent for each Wh of a pair, so that none is lost in rounding.
const PRICES: PriceList = PriceList {
    energy: [30_000, 20_000, 10_000, 5_000],
    demand: 500_000,
    standby: 300,
    bypass: 120,
    credit: 6_000,
    distribution: 4_493,
    basic: 1_400,
    minimum: 2_200,
};

fn opening(terms: Terms, price_list: PriceList, first_month: u32) -> Call {
    Call::Opening {
        terms,
        price_list,
        first_month,
    }
}

/// The two registers of a month, at first all 0.
#[derive(Clone)]
struct Month {
    number: u32,
    delivered: Vec<u32>,
    received: Vec<u32>,
    critical_days: u32,
}

/// Whether the delivered register has a gap, and the received one.
type Lost = [bool; 2];

const EACH_LOST: [Lost; 3] = [[true, false], [false, true], [true, true]];

impl Month {
    fn new(number: u32) -> Month {
        Month {
            number,
            delivered: vec![0; register_length(number)],
            received: vec![0; register_length(number)],
            critical_days: 0,
        }
    }

    /// Some of everything: need in period 1 and credit in period 2.
    fn usual(number: u32) -> Month {
        Month::new(number)
            .deliver(PLACES[1], 5_000)
            .deliver(PLACES[3], 3_000)
            .receive(PLACES[2], 4_000)
    }

    fn deliver(mut self, (day, place): (u32, usize), wh: u32) -> Month {
        self.delivered[first_reading(self.number, day) + place] = wh;
        self
    }

    fn receive(mut self, (day, place): (u32, usize), wh: u32) -> Month {
        self.received[first_reading(self.number, day) + place] = wh;
        self
    }

    /// No two readings of a register are equal.
    fn rising(number: u32) -> Month {
        (0..register_length(number)).fold(Month::new(number), |month, place| {
            let wh = 200 * place as u32;
            month.set(place, 300_000 + wh, 600_000 - wh)
        })
    }

    /// The two readings of a place in the registers.
    fn set(mut self, place: usize, delivered: u32, received: u32) -> Month {
        self.delivered[place] = delivered;
        self.received[place] = received;
        self
    }

    /// Loses a part of some registers.
    fn lose(mut self, [in_delivered, in_received]: Lost, gap: Range<usize>) -> Month {
        if in_delivered {
            self.delivered[gap.clone()].fill(LOST);
        }
        if in_received {
            self.received[gap].fill(LOST);
        }
        self
    }

    fn critical(self, critical_days: u32) -> Month {
        Month {
            critical_days,
            ..self
        }
    }

    fn bill(self) -> Call {
        Call::Billing {
            month: self.number,
            delivered: self.delivered,
            received: self.received,
            critical_days: self.critical_days,
        }
    }
}

/// Each price at its limit; neighbours equal and rising.
fn price_lists() -> Vec<Vec<Call>> {
    let mut price_lists = Vec::new();
    for amount in [
        LARGEST_PRICE - 1,
        LARGEST_PRICE,
        LARGEST_PRICE + 1,
        u32::MAX,
    ] {
        for period in 0..4 {
            let mut list = PRICES;
            list.energy[..=period].fill(amount);
            price_lists.push(list);
        }
        let others: [fn(&mut PriceList) -> &mut u32; 7] = [
            |list| &mut list.demand,
            |list| &mut list.standby,
            |list| &mut list.bypass,
            |list| &mut list.credit,
            |list| &mut list.distribution,
            |list| &mut list.basic,
            |list| &mut list.minimum,
        ];
        for place in others {
            let mut list = PRICES;
            *place(&mut list) = amount;
            price_lists.push(list);
        }
    }
    for dearer in 0..3 {
        for more in [0, 1] {
            let mut list = PRICES;
            list.energy[dearer + 1] = list.energy[dearer] + more;
            price_lists.push(list);
        }
    }
    price_lists
        .into_iter()
        .map(|list| {
            vec![
                opening(HOME, list, JUNE_2001),
                opening(BRIDGE, PRICES, JUNE_2001),
                Call::Repricing { price_list: list },
                Month::usual(JUNE_2001).bill(),
                Call::Closing,
                Call::Repricing { price_list: list },
            ]
        })
        .collect()
}

/// Nameplates and demand limits for each class and rider.
fn terms() -> Vec<Vec<Call>> {
    let mut lists = Vec::new();
    for (class, rider) in [
        (Class::Home, Rider::Banked),
        (Class::Home, Rider::Bridge),
        (Class::Business, Rider::Banked),
        (Class::Business, Rider::Bridge),
    ] {
        for nameplate in [
            0,
            1,
            7_999,
            8_000,
            8_001,
            19_999,
            20_000,
            20_001,
            99_999,
            100_000,
            100_001,
            999_999,
            1_000_000,
            1_000_001,
            u32::MAX,
        ] {
            for demand_limit in [
                nameplate.saturating_sub(1),
                nameplate,
                nameplate.saturating_add(1),
                u32::MAX,
            ] {
                for assisted in [Assisted::No, Assisted::Yes] {
                    let terms = Terms {
                        rider,
                        class,
                        nameplates: Nameplates::one(u64::from(nameplate)),
                        demand_limit,
                        assisted,
                    };
                    lists.push(vec![
                        opening(terms, PRICES, FEBRUARY_2001),
                        Month::usual(FEBRUARY_2001).bill(),
                        Call::Closing,
                    ]);
                }
            }
        }
    }
    lists
}

/// So many nameplates of 1,000 W, and others in the places past them.
fn thousands(count: usize, others: u64) -> Nameplates {
    let mut places = [others; MOST_NAMEPLATES];
    places[..count].fill(1_000);
    Nameplates {
        count: count as u64,
        places,
    }
}

/// One to eight, with anything in the places past them; a 0 in each place.
fn countable() -> Vec<Nameplates> {
    let mut sets = Vec::new();
    for count in 1..=MOST_NAMEPLATES {
        for others in [0, 1, 20_000, u64::MAX] {
            sets.push(thousands(count, others));
        }
        for place in 0..count {
            let mut nameplates = thousands(count, 1_000);
            nameplates.places[place] = 0;
            sets.push(nameplates);
        }
    }
    sets
}

/// Totals past 32 bits and past 64. In so many bits most are 0, 1, 5,000 or all ones.
fn wide() -> Vec<Nameplates> {
    let two_to_the_32 = 1 << 32;
    let sets: [&[u64]; 14] = [
        &[two_to_the_32 - 1, 1],
        &[two_to_the_32 - 1, 2],
        &[two_to_the_32 / 2 + 2_500; 2],
        &[two_to_the_32, 5_000],
        &[5_000, two_to_the_32],
        &[two_to_the_32 + 5_000],
        &[u64::MAX],
        &[u64::MAX, 1],
        &[2, u64::MAX],
        &[1 << 63, (1 << 63) + 5_000],
        &[1, 1, u64::MAX, 4_999],
        &[1 << 61; 8],
        &[(1 << 61) + 625; 8],
        &[u64::MAX; 8],
    ];
    sets.into_iter().filter_map(Nameplates::of).collect()
}

/// Counts that are refused, some of them 0, 1 or 8 in fewer bits, with places that would be
/// accepted and such as wouldn't.
fn uncountable() -> Vec<Nameplates> {
    let two_to_the_32 = 1 << 32;
    let mut sets = Vec::new();
    for count in [
        0,
        9,
        10,
        256,
        257,
        two_to_the_32,
        two_to_the_32 + 1,
        two_to_the_32 + 8,
        1 << 63,
        u64::MAX,
    ] {
        for places in [
            [0; MOST_NAMEPLATES],
            Nameplates::one(5_000).places,
            [1_000; MOST_NAMEPLATES],
            [u64::MAX; MOST_NAMEPLATES],
        ] {
            sets.push(Nameplates { count, places });
        }
    }
    sets
}

/// A home, a home under the bridge rider, and a business, with nameplates that their demand
/// limit is no hindrance to.
fn each_with(nameplates: Nameplates) -> [Terms; 3] {
    let home = Terms {
        nameplates,
        demand_limit: u32::MAX,
        ..HOME
    };
    let bridge = Terms {
        rider: Rider::Bridge,
        ..home
    };
    let business = Terms {
        class: Class::Business,
        ..home
    };
    [home, bridge, business]
}

/// Each set of nameplates, opened, billed and closed. A second opening is refused, or takes
/// the place of a first one that was.
fn nameplates() -> Vec<Vec<Call>> {
    let other = Terms {
        nameplates: thousands(2, 77),
        ..HOME
    };
    let mut lists = Vec::new();
    for nameplates in [countable(), wide(), uncountable()].concat() {
        for terms in each_with(nameplates) {
            let calls = [
                opening(terms, PRICES, FEBRUARY_2001),
                Month::usual(FEBRUARY_2001).bill(),
                opening(other, PRICES, FEBRUARY_2001),
                Call::Repricing { price_list: PRICES },
                Call::Closing,
            ];
            // What the account holds after an opening, a bill and the rest.
            lists.extend([1, 2, 5].map(|length| calls[..length].to_vec()));
        }
    }
    lists
}

/// Totals at, below and above each limit in two to eight nameplates: all but one of 1 W, so
/// that none passes the limit by itself, and as even as they can be.
fn totals() -> Vec<Vec<Call>> {
    let mut lists = Vec::new();
    let [home, bridge, business] = each_with(Nameplates::default());
    let assisted = Terms {
        assisted: Assisted::Yes,
        ..bridge
    };
    let limited = Terms {
        demand_limit: 9_000,
        ..home
    };
    for (terms, limit) in [
        (bridge, 8_000),
        (assisted, 8_000),
        (limited, 9_000),
        (home, 20_000),
        (bridge, 20_000),
        (business, 100_000),
        (business, 1_000_000),
    ] {
        for total in [limit - 1, limit, limit + 1] {
            for count in 2..=MOST_NAMEPLATES {
                let others = count as u64 - 1;
                let mut lopsided = vec![1; count];
                lopsided[total as usize % count] = total - others;
                let mut even = vec![total / count as u64; count];
                even[0] += total % count as u64;
                for watts in [lopsided, even] {
                    let nameplates = Nameplates::of(&watts).expect("two to eight");
                    lists.push(vec![
                        opening(
                            Terms {
                                nameplates,
                                ..terms
                            },
                            PRICES,
                            FEBRUARY_2001,
                        ),
                        Month::usual(FEBRUARY_2001).bill(),
                    ]);
                }
            }
        }
    }
    lists
}

/// An account that can be billed and closed.
const OPEN: Account = Account {
    state: State::Open,
    terms: HOME,
    price_list: PRICES,
    next_month: FEBRUARY_2001,
    carried: [1, 2, 3, 4],
    standing: 5,
};

/// Accounts made by hand, each with the call that it meets.
pub fn accounts() -> Vec<(Account, Call)> {
    [at_bounds(), with_nameplates()].concat()
}

/// Closings of open accounts at, below and above each bound of refusal 3.
fn at_bounds() -> Vec<(Account, Call)> {
    let mut accounts = Vec::new();
    for more in [0, 1, 2] {
        for period in 0..4 {
            let mut account = OPEN;
            account.carried[period] = MOST_CARRIED - 1 + more;
            accounts.push(account);
        }
        accounts.push(Account {
            standing: MOST_STANDING - 1 + more,
            ..OPEN
        });
        accounts.push(Account {
            next_month: LAST_MONTH + more as u32,
            ..OPEN
        });
    }
    let closed = accounts.into_iter().map(|account| (account, Call::Closing));
    closed.collect()
}

/// Each set of nameplates: where the account is open, all calls.
fn with_nameplates() -> Vec<(Account, Call)> {
    let calls = |nameplates: Nameplates| {
        let other = Terms {
            nameplates: thousands(3, 77),
            ..HOME
        };
        let same = Terms { nameplates, ..HOME };
        [
            Call::Closing,
            opening(other, PRICES, FEBRUARY_2001),
            opening(same, PRICES, FEBRUARY_2001),
            Call::Repricing { price_list: PRICES },
            Month::usual(FEBRUARY_2001).bill(),
        ]
    };
    let mut accounts = Vec::new();
    for nameplates in [countable(), wide(), uncountable()].concat() {
        for terms in each_with(nameplates) {
            for (state, count) in [(State::Fresh, 3), (State::Open, 5), (State::Closed, 3)] {
                let account = Account {
                    state,
                    terms,
                    ..OPEN
                };
                let calls = calls(nameplates).into_iter().take(count);
                accounts.extend(calls.map(|call| (account, call)));
            }
        }
    }
    accounts
}

/// First months, and the months beside the next one.
fn months() -> Vec<Vec<Call>> {
    [0, 1, LAST_MONTH - 1, LAST_MONTH, LAST_MONTH + 1, u32::MAX]
        .into_iter()
        .map(|first: u32| {
            let near = first.min(LAST_MONTH);
            vec![
                Month::usual(near).bill(),
                Call::Closing,
                opening(BRIDGE, PRICES, first),
                opening(BRIDGE, PRICES, first),
                Month::usual(near.saturating_sub(1)).bill(),
                Month::usual(near + 1).bill(),
                Month::usual(near).bill(),
                Month::usual(near).bill(),
                Month::usual(near + 1).bill(),
                Call::Closing,
                Call::Closing,
                opening(BRIDGE, PRICES, first),
            ]
        })
        .collect()
}

/// After December 2099.
fn full_book() -> Vec<Vec<Call>> {
    [HOME, BRIDGE]
        .into_iter()
        .map(|terms| {
            let mut calls = vec![
                opening(terms, PRICES, LAST_MONTH),
                Month::usual(LAST_MONTH).bill(),
            ];
            for month in [0, LAST_MONTH, LAST_MONTH + 1, LAST_MONTH + 2, u32::MAX] {
                let right = Month::usual(month);
                let mut short = right.clone();
                short.received.pop();
                calls.extend([
                    right.clone().bill(),
                    short.bill(),
                    right.clone().critical(u32::MAX).bill(),
                    right.clone().deliver((1, 0), LOST).bill(),
                    right.deliver(PLACES[0], LARGEST_READING + 1).bill(),
                ]);
            }
            calls.extend([
                Call::Repricing { price_list: PRICES },
                opening(terms, PRICES, 0),
                Call::Closing,
                Month::usual(LAST_MONTH + 1).bill(),
                Month::usual(0).bill(),
                Call::Repricing { price_list: PRICES },
            ]);
            calls
        })
        .collect()
}

const EACH_LENGTH: [u32; 5] = [FEBRUARY_2001, FEBRUARY_2004, JUNE_2001, JULY_2001, 1];

fn lengths() -> Vec<Vec<Call>> {
    EACH_LENGTH
        .into_iter()
        .map(|month| {
            let right = register_length(month);
            let mut calls = vec![opening(HOME, PRICES, month)];
            for length in [
                0,
                1,
                right - 96,
                right - 1,
                right + 1,
                right + 96,
                2 * right,
            ] {
                let bill = |delivered: usize, received: usize| Call::Billing {
                    month,
                    delivered: vec![1; delivered],
                    received: vec![2; received],
                    critical_days: 0,
                };
                calls.extend([
                    bill(length, right),
                    bill(right, length),
                    bill(length, length),
                    bill(length, 2 * right - length.min(2 * right)),
                ]);
            }
            calls.push(Month::usual(month).bill());
            calls
        })
        .collect()
}

/// Each gap in the delivered register, in the received one and in both: among readings
/// that all differ, and after the only one that isn't 0.
fn gaps() -> Vec<Vec<Call>> {
    let mut lists = Vec::new();
    for month in [FEBRUARY_2001, JULY_2001, MARCH_2007, NOVEMBER_2007] {
        for gap in gaps_of(month) {
            for lost in EACH_LOST {
                let single = Month::new(month).set(gap.start.saturating_sub(1), 5_000, 700);
                for (terms, full) in [(HOME, Month::rising(month)), (BRIDGE, single)] {
                    let full = full.critical(CRITICAL_GAPS).lose(lost, gap.clone());
                    lists.push(vec![
                        opening(terms, PRICES, month),
                        full.bill(),
                        Month::usual(month).bill(),
                        Month::usual(month + 1).bill(),
                    ]);
                }
            }
        }
    }
    lists
}

// Days 4 and 12: in July a Wednesday and a Thursday, in November the day of 25 hours.
const CRITICAL_GAPS: u32 = 0b1000_0000_1000;

/// At the start, at the end and across midnight; the whole month, and all of it but the
/// first reading; and over the edges of windows, on days that are critical, on a Saturday of
/// summer, and where the clocks change.
fn gaps_of(month: u32) -> Vec<Range<usize>> {
    let all = register_length(month);
    let second_day = first_reading(month, 2);
    let mut gaps = vec![
        0..1,
        0..30,
        0..all,
        1..2,
        1..all,
        all - 1..all,
        all - 30..all,
        second_day - 3..second_day + 6,
        second_day..second_day + 2 * 96,
    ];
    for day in [4, 7, 11, 12] {
        let first = first_reading(month, day);
        for edge in [2..10, 18..30, 48..60, 62..74, 66..78, 78..90] {
            gaps.push(first + edge.start..first + edge.end);
        }
    }
    gaps
}

/// A reading at or above the limit right before a gap, right after it and far from it, in
/// its register and in the other.
fn gaps_beside_large() -> Vec<Vec<Call>> {
    let mut lists = Vec::new();
    for (gap, places) in [
        (0..3, [3, 4, 2_000]),
        (1..4, [0, 4, 2_000]),
        (300..303, [299, 303, 2_000]),
    ] {
        for place in places {
            for wh in [LARGEST_READING, LARGEST_READING + 1, LOST - 1] {
                for lost in EACH_LOST {
                    let month = Month::new(FEBRUARY_2001).lose(lost, gap.clone());
                    let [mut used, mut made] = [month.clone(), month];
                    used.delivered[place] = wh;
                    made.received[place] = wh;
                    lists.push(vec![
                        opening(HOME, PRICES, FEBRUARY_2001),
                        used.bill(),
                        made.bill(),
                        Month::usual(FEBRUARY_2001).bill(),
                    ]);
                }
            }
        }
    }
    lists
}

/// A gap up to the end of a month; the next one begins with a lost reading, then with one
/// that came.
fn gaps_at_the_end() -> Vec<Vec<Call>> {
    let mut lists = Vec::new();
    for lost in EACH_LOST {
        for lost_next in EACH_LOST {
            let all = register_length(FEBRUARY_2001);
            let month = Month::usual(FEBRUARY_2001).set(all - 6, 800, 90);
            let next = Month::usual(FEBRUARY_2001 + 1);
            lists.push(vec![
                opening(HOME, PRICES, FEBRUARY_2001),
                month.lose(lost, all - 5..all).bill(),
                next.clone().lose(lost_next, 0..1).bill(),
                next.clone().lose(lost_next, 0..6).bill(),
                next.lose(lost_next, 1..6).bill(),
                Month::usual(FEBRUARY_2001 + 2).bill(),
            ]);
        }
    }
    lists
}

/// Every March and November of the century: registers with and without the hour that is
/// lost or doubled, and readings beside the edges of windows on each of the first 14 days,
/// where an hour more or less before them tells.
fn clock_changes() -> Vec<Vec<Call>> {
    let mut lists = Vec::new();
    for month in (0..=LAST_MONTH).filter(|&month| [3, 11].contains(&month_of_year(month))) {
        let bill = |delivered: usize, received: usize| Call::Billing {
            month,
            delivered: vec![1; delivered],
            received: vec![2; received],
            critical_days: 0,
        };
        let right = register_length(month);
        let mut calls = vec![opening(HOME, PRICES, month)];
        // The right length last: once it is accepted, the month is another one.
        for length in [2_972, 2_976, 2_884, 2_880]
            .into_iter()
            .filter(|&length| length != right)
        {
            calls.extend([
                bill(length, length),
                bill(length, right),
                bill(right, length),
            ]);
        }
        calls.push(bill(right, right));
        lists.push(calls);
        for place in [3, 8, 19, 23, 27, 63, 67, 71, 79, 83, 87] {
            let mut full = Month::new(month).critical(0b1000_0000_1000);
            for day in 1..=14 {
                // Each day's readings are binary digits of the sums.
                full = full.deliver((day, place), 1 << day);
                full = full.receive((day, place + 1), 1 << day);
            }
            lists.push(vec![opening(BRIDGE, PRICES, month), full.bill()]);
        }
    }
    lists
}

fn critical_days() -> Vec<Vec<Call>> {
    let mut lists = Vec::new();
    for month in EACH_LENGTH {
        let days = days_in_month(month);
        let last_ten = 0b11_1111_1111 << (days - 10);
        for set in [
            0,
            1,
            1 << (days - 1),
            1 << days,
            1 << 31,
            0b11_1111_1111,
            0b111_1111_1111,
            last_ten,
            last_ten | 1,
            last_ten << 1,
            u32::MAX >> (32 - days),
            u32::MAX,
        ] {
            let mut full = Month::new(month).critical(set);
            full.delivered.fill(3);
            full.received.fill(2);
            lists.push(vec![
                opening(HOME, PRICES, month),
                full.bill(),
                Month::usual(month).bill(),
            ]);
        }
    }
    lists
}

fn readings() -> Vec<Vec<Call>> {
    let mut calls = vec![opening(HOME, PRICES, 0)];
    let mut month = 0;
    for wh in [
        LARGEST_READING - 1,
        LARGEST_READING,
        LARGEST_READING + 1,
        LOST - 1,
        LOST,
    ] {
        for place in [(1, 0), (1, 95), (15, 70), (28, 0), (28, 95)] {
            for month_with in [Month::deliver, Month::receive] {
                calls.push(month_with(Month::new(month), place, wh).bill());
                if wh <= LARGEST_READING || (wh == LOST && place != (1, 0)) {
                    month += 1;
                }
            }
        }
    }
    vec![calls]
}

/// Every set of faults that a call may have at once, in each stage of the account.
fn faults() -> Vec<Vec<Call>> {
    let mut faulty = vec![Call::Closing, Call::Repricing { price_list: PRICES }];
    let rising = PriceList {
        energy: [1, 2, 3, 4],
        ..PRICES
    };
    faulty.push(Call::Repricing { price_list: rising });
    let has = |set: u32, fault: u32| (set >> fault) & 1 == 1;
    for set in 0..32 {
        let has = |fault| has(set, fault);
        let mut nameplates = Nameplates::one(if has(0) { 0 } else { 8_000 });
        if has(4) {
            nameplates.count = 9;
            nameplates.places[1..].fill(1);
        }
        faulty.push(opening(
            Terms {
                nameplates,
                class: if has(1) { Class::Business } else { Class::Home },
                rider: if has(1) { Rider::Bridge } else { Rider::Banked },
                ..HOME
            },
            if has(2) { rising } else { PRICES },
            if has(3) { LAST_MONTH + 1 } else { LAST_MONTH },
        ));
    }
    for set in 0..32 {
        let has = |fault| has(set, fault);
        let mut month = Month::usual(if has(0) { 0 } else { LAST_MONTH });
        if has(1) {
            month.delivered.pop();
        }
        if has(2) {
            month.critical_days = u32::MAX;
        }
        if has(3) {
            month.received[5] = LARGEST_READING + 1;
        }
        if has(4) {
            month.received[0] = LOST;
        }
        faulty.push(month.bill());
    }
    let mut lists = Vec::new();
    let open = [opening(HOME, PRICES, LAST_MONTH)];
    let full = [
        opening(HOME, PRICES, LAST_MONTH),
        Month::usual(LAST_MONTH).bill(),
    ];
    let closed = [opening(HOME, PRICES, LAST_MONTH), Call::Closing];
    for stage in [&[][..], &open, &full, &closed] {
        for call in &faulty {
            let mut calls = stage.to_vec();
            calls.push(call.clone());
            lists.push(calls);
        }
    }
    lists
}

/// One reading beside each edge of a window, on each kind of day.
fn windows() -> Vec<Vec<Call>> {
    let mut lists = Vec::new();
    // The last and first months of each season; days 1 to 7 are each day of a week.
    for month in [JUNE_2001, JULY_2001, JULY_2001 + 2, JULY_2001 + 3] {
        for critical_days in [0, 0b111_1111] {
            for quarter in [0, 3, 4, 23, 24, 51, 52, 67, 68, 71, 72, 83, 84, 95] {
                let mut full = Month::new(month).critical(critical_days);
                for day in 1..=7 {
                    // Each day's reading is a binary digit of the sum.
                    full = full.deliver((day, quarter), 1 << day);
                }
                lists.push(vec![opening(HOME, PRICES, month), full.bill()]);
            }
        }
    }
    lists
}

/// Readings in a row: one, two, and some of them lost.
const IN_A_ROW: [&[u32]; 5] = [
    &[1_001],
    &[700, 1_001],
    &[1_001, LOST],
    &[300, LOST, 1_001],
    &[700, LOST, LOST, LOST],
];

/// Readings in a row from each place beside the edges of the window on, which fall into one
/// pair or into two: on each kind of day, the two of the clock change among them, critical
/// and not. Another day has the largest pair where these don't count.
fn pairs() -> Vec<Vec<Call>> {
    let mut lists = Vec::new();
    for (month, day, [start, end]) in [
        // A Saturday in winter, the last day of its month; a Wednesday and a Saturday in summer.
        (JUNE_2001, 30, [68, 84]),
        (JULY_2001, 4, [52, 72]),
        (JULY_2001, 7, [52, 72]),
        (MARCH_2007, 11, [64, 80]),
        (NOVEMBER_2007, 4, [72, 88]),
    ] {
        for place in (start - 3..start + 3).chain(end - 3..end + 3) {
            for readings in IN_A_ROW {
                let full = Month::new(month)
                    .deliver((20, 70), 400)
                    .deliver((20, 71), 500);
                let full = (place..)
                    .zip(readings)
                    .fold(full, |full, (place, &wh)| full.deliver((day, place), wh));
                for critical_days in [0, 1 << (day - 1)] {
                    let bill = full.clone().critical(critical_days).bill();
                    lists.push(vec![opening(HOME, PRICES, month), bill]);
                }
            }
        }
    }
    lists
}

/// Quantities times prices just below, at and above a half cent.
fn half_cents() -> Vec<Vec<Call>> {
    let mut lists = Vec::new();
    let ones = PriceList {
        energy: [1; 4],
        demand: 1,
        standby: 4,
        bypass: 25,
        credit: 1,
        distribution: 1,
        basic: 0,
        minimum: 2,
    };
    for wh in [499_999, 500_000, 500_001] {
        for place in PLACES {
            for terms in [HOME, BRIDGE] {
                lists.push(vec![
                    opening(terms, ones, FEBRUARY_2001),
                    Month::new(FEBRUARY_2001)
                        .critical(CRITICAL_DAYS)
                        .deliver(place, wh)
                        .bill(),
                    Month::new(FEBRUARY_2001 + 1)
                        .critical(CRITICAL_DAYS)
                        .receive(place, wh)
                        .deliver(PLACES[0], wh / 2)
                        .bill(),
                    Call::Closing,
                ]);
            }
        }
        // 0.4 or 0.5 cents in each of two periods.
        for part in [wh, wh - 100_000] {
            let month = Month::new(FEBRUARY_2001);
            lists.push(vec![
                opening(BRIDGE, ones, FEBRUARY_2001),
                month
                    .clone()
                    .deliver(PLACES[1], part)
                    .deliver(PLACES[2], part)
                    .bill(),
            ]);
            lists.push(vec![
                opening(BRIDGE, ones, FEBRUARY_2001),
                month
                    .receive(PLACES[1], part)
                    .receive(PLACES[2], part)
                    .bill(),
            ]);
        }
    }
    for more in [0, 1, 2] {
        // In one nameplate, and in two that come to less than half a cent each.
        let business = [&[124_999 + more][..], &[60_000, 64_999 + more]];
        let bridge = [&[19_998 + more][..], &[10_000, 9_998 + more]];
        for (place, watts) in [business, bridge].concat().into_iter().enumerate() {
            let nameplates = Nameplates::of(watts).expect("one or two");
            let [_, bridge, business] = each_with(nameplates);
            lists.push(vec![
                opening([business, bridge][place / 2], ones, FEBRUARY_2001),
                Month::usual(FEBRUARY_2001).bill(),
            ]);
        }
    }
    lists
}

/// Credit, need or neither in each period, month after month; and a closing.
fn sharing() -> Vec<Vec<Call>> {
    let mut lists = Vec::new();
    for terms in [HOME, BRIDGE] {
        // Readings whose sums and differences tell the periods apart.
        for sizes in [[1_000, 2_300, 4_700, 9_900], [9_900, 4_700, 2_300, 1_000]] {
            let mut calls = vec![opening(terms, PRICES, 0)];
            for set in 0..81 {
                // Months of summer have other periods in the same places.
                let mut month = Month::new(set).critical(CRITICAL_DAYS);
                for (period, place) in PLACES.into_iter().enumerate() {
                    let wh = sizes[(period + set as usize) % 4];
                    month = match set / 3u32.pow(period as u32) % 3 {
                        0 => month,
                        1 => month.deliver(place, wh),
                        _ => month.receive(place, wh),
                    };
                }
                calls.push(month.bill());
            }
            calls.push(Call::Closing);
            lists.push(calls);
        }
    }
    // Each set alone.
    for terms in [HOME, BRIDGE] {
        for set in 0..81 {
            let mut month = Month::new(FEBRUARY_2001).critical(CRITICAL_DAYS);
            for (period, place) in PLACES.into_iter().enumerate() {
                month = match set / 3u32.pow(period as u32) % 3 {
                    0 => month,
                    1 => month.deliver(place, 4_000 + set),
                    _ => month.receive(place, 6_000 - 50 * set),
                };
            }
            lists.push(vec![
                opening(terms, PRICES, FEBRUARY_2001),
                month.bill(),
                Call::Closing,
            ]);
        }
    }
    lists
}
