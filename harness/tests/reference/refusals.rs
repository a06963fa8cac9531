//! 01, "When the office declines": each limit at, below and above, and the order.

use crate::helpers::{
    bridge_home, business, home, open_account, prices, Registers, APRIL_2001, DECEMBER_2099,
    FEBRUARY_2000, FEBRUARY_2001, JANUARY_2000, LOST, MARCH_2001, MARCH_2006, MARCH_2007,
    NOVEMBER_2006, NOVEMBER_2007,
};
use harness::reference::account::{
    Account, Bill, Closing, Nameplates, PriceList, Rider, State, Terms,
};
use harness::reference::calls::{billing, closing, opening, repricing};

// The number that each call answers. A refusal must return zeros and the account
// as it came.

fn opened(account: Account, terms: Terms, price_list: PriceList, first_month: u32) -> u32 {
    let (answer, after) = opening(account, terms, price_list, first_month);
    assert!(answer.number == 0 || after == account);
    answer.number
}

fn repriced(account: Account, price_list: PriceList) -> u32 {
    let (answer, after) = repricing(account, price_list);
    assert!(answer.number == 0 || after == account);
    answer.number
}

fn billed(account: Account, month: u32, registers: &Registers, critical_days: u32) -> u32 {
    let (answer, after) = billing(
        account,
        month,
        &registers.delivered,
        &registers.received,
        critical_days,
    );
    assert!(answer.number == 0 || (answer.amounts == Bill::default() && after == account));
    answer.number
}

fn closed(account: Account) -> u32 {
    let (answer, after) = closing(account);
    assert!(answer.number == 0 || (answer.amounts == Closing::default() && after == account));
    answer.number
}

/// Opening, repricing, billing and closing, each otherwise without fault.
fn all_four(account: Account) -> [u32; 4] {
    [
        opened(account, home(), prices(), 0),
        repriced(account, prices()),
        billed(account, FEBRUARY_2001, &Registers::zeros(28), 0),
        closed(account),
    ]
}

fn fresh() -> Account {
    Account::default()
}

fn open() -> Account {
    open_account(FEBRUARY_2001)
}

fn in_state(state: State, account: Account) -> Account {
    Account { state, ..account }
}

#[test]
fn refusals_1_2_and_3_by_state() {
    assert_eq!(all_four(fresh()), [0, 1, 1, 1]);
    assert_eq!(all_four(open()), [2, 0, 0, 0]);
    assert_eq!(all_four(in_state(State::Closed, open())), [3, 3, 3, 3]);
    assert_eq!(all_four(in_state(State::Closed, fresh())), [3, 3, 3, 3]);
}

/// The account in each state: beyond a bound it is refused everywhere.
fn assert_impossible_in_every_state(account: Account) {
    assert_eq!(all_four(in_state(State::Fresh, account)), [3, 1, 1, 1]);
    assert_eq!(all_four(in_state(State::Open, account)), [2, 3, 3, 3]);
    assert_eq!(all_four(in_state(State::Closed, account)), [3, 3, 3, 3]);
}

fn assert_possible(account: Account) {
    assert_eq!(all_four(in_state(State::Fresh, account)), [0, 1, 1, 1]);
    assert_eq!(all_four(in_state(State::Open, account)), [2, 0, 0, 0]);
}

#[test]
fn refusal_3_carried_in_each_period() {
    for period in 0..4 {
        let with = |wh| {
            let mut account = open();
            account.carried[period] = wh;
            account
        };
        assert_possible(with(3_999_999_999_999));
        assert_possible(with(4_000_000_000_000));
        assert_impossible_in_every_state(with(4_000_000_000_001));
        assert_impossible_in_every_state(with(u64::MAX));
    }
    // The bound is on each period, not on the sum.
    assert_possible(Account {
        carried: [4_000_000_000_000; 4],
        ..open()
    });
}

#[test]
fn refusal_3_standing() {
    let with = |standing| Account { standing, ..open() };
    assert_possible(with(3_999_999_999_999));
    assert_possible(with(4_000_000_000_000));
    assert_impossible_in_every_state(with(4_000_000_000_001));
    assert_impossible_in_every_state(with(u64::MAX));
}

#[test]
fn refusal_3_next_month() {
    let with = |next_month| Account {
        next_month,
        ..open()
    };
    // The billing of February 2001 answers 7 or 11 where it isn't 3.
    assert_eq!(all_four(with(1_199)), [2, 0, 7, 0]);
    assert_eq!(all_four(with(1_200)), [2, 0, 11, 0]);
    assert_eq!(all_four(in_state(State::Fresh, with(1_200))), [0, 1, 1, 1]);
    assert_impossible_in_every_state(with(1_201));
    assert_impossible_in_every_state(with(u32::MAX));
}

#[test]
fn refusal_3_contents_where_open() {
    let bad_price = PriceList {
        minimum: 1_000_001,
        ..prices()
    };
    let bad_order = PriceList {
        energy: [1, 1, 1, 2],
        ..prices()
    };
    let with_prices = |price_list| Account {
        price_list,
        ..open()
    };
    let with_terms = |terms| Account { terms, ..open() };
    let no_nameplate = Terms {
        nameplates: Nameplates::one(0),
        ..home()
    };
    let past_limit = Terms {
        nameplates: Nameplates::one(9_001),
        ..home()
    };
    let bridge_business = Terms {
        rider: Rider::Bridge,
        ..business(1_000)
    };
    let impossible = [
        with_prices(bad_price),
        with_prices(bad_order),
        with_terms(no_nameplate),
        with_terms(past_limit),
        with_terms(bridge_business),
    ];
    for account in impossible {
        assert_eq!(all_four(account), [2, 3, 3, 3]);
        // A fresh account's contents aren't looked at.
        assert_eq!(all_four(in_state(State::Fresh, account)), [0, 1, 1, 1]);
        assert_eq!(all_four(in_state(State::Closed, account)), [3, 3, 3, 3]);
    }
}

#[test]
fn refusal_3_takes_other_unreachable_accounts_as_they_are() {
    let bridge_with_carried = Account {
        terms: bridge_home(),
        carried: [1; 4],
        ..open()
    };
    let banked_with_standing = Account {
        standing: 1,
        ..open()
    };
    assert_possible(bridge_with_carried);
    assert_possible(banked_with_standing);
}

/// The eleven amounts set one at a time, in a list that is otherwise all zeros
/// but has energy prices no lower than the one set.
fn with_amount(place: usize, amount: u32) -> PriceList {
    let mut list = PriceList::default();
    match place {
        0..=3 => list.energy[..=place].fill(amount),
        4 => list.demand = amount,
        5 => list.standby = amount,
        6 => list.bypass = amount,
        7 => list.credit = amount,
        8 => list.distribution = amount,
        9 => list.basic = amount,
        _ => list.minimum = amount,
    }
    list
}

#[test]
fn refusal_4_each_limit_under_both_riders() {
    for terms in [home(), bridge_home()] {
        let account = Account { terms, ..open() };
        for place in 0..11 {
            for (amount, number) in [(999_999, 0), (1_000_000, 0), (1_000_001, 4), (u32::MAX, 4)] {
                let list = with_amount(place, amount);
                assert_eq!(opened(fresh(), terms, list, 0), number);
                assert_eq!(repriced(account, list), number);
            }
        }
    }
}

#[test]
fn refusal_4_energy_prices_do_not_rise() {
    for (energy, number) in [
        ([9, 9, 9, 9], 0),
        ([9, 10, 9, 9], 4),
        ([9, 9, 10, 9], 4),
        ([9, 9, 9, 10], 4),
        ([9, 8, 7, 6], 0),
        ([9, 8, 6, 7], 4),
        ([0, 0, 0, 0], 0),
    ] {
        let list = PriceList { energy, ..prices() };
        assert_eq!(opened(fresh(), home(), list, 0), number);
        assert_eq!(repriced(open(), list), number);
    }
}

#[test]
fn refusal_5_nameplate() {
    let opened_with = |terms: Terms, nameplate, demand_limit| {
        let terms = Terms {
            nameplates: Nameplates::one(nameplate),
            demand_limit,
            ..terms
        };
        opened(fresh(), terms, prices(), 0)
    };
    // At least 1 W, at most the demand limit.
    assert_eq!(opened_with(home(), 0, 9_000), 5);
    assert_eq!(opened_with(home(), 1, 9_000), 0);
    assert_eq!(opened_with(home(), 8_999, 9_000), 0);
    assert_eq!(opened_with(home(), 9_000, 9_000), 0);
    assert_eq!(opened_with(home(), 9_001, 9_000), 5);
    assert_eq!(opened_with(home(), 0, 0), 5);
    assert_eq!(opened_with(home(), 1, 0), 5);
    assert_eq!(opened_with(home(), 1, 1), 0);
    // At most the class's limit.
    for terms in [home(), bridge_home()] {
        assert_eq!(opened_with(terms, 19_999, u32::MAX), 0);
        assert_eq!(opened_with(terms, 20_000, u32::MAX), 0);
        assert_eq!(opened_with(terms, 20_001, u32::MAX), 5);
        assert_eq!(opened_with(terms, u64::MAX, u32::MAX), 5);
    }
    assert_eq!(opened_with(business(1), 999_999, u32::MAX), 0);
    assert_eq!(opened_with(business(1), 1_000_000, u32::MAX), 0);
    assert_eq!(opened_with(business(1), 1_000_001, u32::MAX), 5);
}

#[test]
fn refusal_6_bridge_is_for_homes() {
    let bridge_business = Terms {
        rider: Rider::Bridge,
        ..business(1_000)
    };
    assert_eq!(opened(fresh(), bridge_business, prices(), 0), 6);
    assert_eq!(opened(fresh(), business(1_000), prices(), 0), 0);
    assert_eq!(opened(fresh(), bridge_home(), prices(), 0), 0);
    assert_eq!(opened(fresh(), home(), prices(), 0), 0);
}

#[test]
fn refusal_7_month() {
    for (first_month, number) in [(0, 0), (1_198, 0), (1_199, 0), (1_200, 7), (u32::MAX, 7)] {
        assert_eq!(opened(fresh(), home(), prices(), first_month), number);
    }
    let account = open_account(MARCH_2001);
    let march = Registers::zeros(31);
    assert_eq!(billed(account, MARCH_2001, &march, 0), 0);
    assert_eq!(billed(account, FEBRUARY_2001, &Registers::zeros(28), 0), 7);
    assert_eq!(billed(account, APRIL_2001, &Registers::zeros(30), 0), 7);
    assert_eq!(billed(account, JANUARY_2000, &march, 0), 7);
    assert_eq!(billed(account, 1_200, &march, 0), 7);
    assert_eq!(billed(account, u32::MAX, &march, 0), 7);
}

#[test]
fn refusal_8_register_length() {
    for (month, readings) in [
        (JANUARY_2000, 2_976),
        (FEBRUARY_2000, 2_784),
        (FEBRUARY_2001, 2_688),
        (APRIL_2001, 2_880),
        (MARCH_2006, 2_976),
        (MARCH_2007, 2_972),
        (NOVEMBER_2006, 2_880),
        (NOVEMBER_2007, 2_884),
    ] {
        let account = open_account(month);
        let with = |delivered, received| {
            let registers = Registers {
                delivered: vec![0; delivered],
                received: vec![0; received],
            };
            billed(account, month, &registers, 0)
        };
        assert_eq!(with(readings, readings), 0);
        for wrong in [
            0,
            readings - 96,
            readings - 4,
            readings - 1,
            readings + 1,
            readings + 4,
            readings + 96,
        ] {
            assert_eq!(with(wrong, readings), 8);
            assert_eq!(with(readings, wrong), 8);
            assert_eq!(with(wrong, wrong), 8);
        }
    }
    // An empty register has no first reading that could be lost.
    let registers = Registers {
        delivered: Vec::new(),
        ..Registers::zeros(28).lose_received(1, 0, 1)
    };
    assert_eq!(billed(open(), FEBRUARY_2001, &registers, 0), 8);
}

#[test]
fn refusal_9_critical_days() {
    let with = |month, days, critical_days| {
        let registers = Registers::zeros(days);
        billed(open_account(month), month, &registers, critical_days)
    };
    // The last day's bit, the next one, and the highest.
    for (month, days) in [
        (FEBRUARY_2001, 28),
        (FEBRUARY_2000, 29),
        (APRIL_2001, 30),
        (JANUARY_2000, 31),
    ] {
        assert_eq!(with(month, days, 1 << (days - 1)), 0);
        assert_eq!(with(month, days, 1 << days), 9);
        assert_eq!(with(month, days, 1 << 31), 9);
    }
    // Nine, ten, eleven and thirty-one days.
    assert_eq!(with(JANUARY_2000, 31, 0b1_1111_1111), 0);
    assert_eq!(with(JANUARY_2000, 31, 0b11_1111_1111), 0);
    assert_eq!(with(JANUARY_2000, 31, 0b111_1111_1111), 9);
    assert_eq!(with(JANUARY_2000, 31, 0x7fc0_0001), 0);
    assert_eq!(with(JANUARY_2000, 31, 0x7fc0_0003), 9);
    assert_eq!(with(JANUARY_2000, 31, 0x7fff_ffff), 9);
}

#[test]
fn refusal_10_reading() {
    for index in [0, 1, 1_500, 2_687] {
        let delivered = |reading| {
            let mut registers = Registers::zeros(28);
            registers.delivered[index] = reading;
            billed(open(), FEBRUARY_2001, &registers, 0)
        };
        let received = |reading| {
            let mut registers = Registers::zeros(28);
            registers.received[index] = reading;
            billed(open(), FEBRUARY_2001, &registers, 0)
        };
        for (reading, number) in [
            (999_999, 0),
            (1_000_000, 0),
            (1_000_001, 10),
            (4_294_967_294, 10),
            // The mark is passed over; 13 is for the first reading alone.
            (LOST, if index == 0 { 13 } else { 0 }),
        ] {
            assert_eq!(delivered(reading), number);
            assert_eq!(received(reading), number);
        }
    }
}

#[test]
fn refusal_10_beside_lost_readings() {
    let usual = Registers::zeros(28).lose_delivered(2, 10, 5);
    // Right before the gap, right after it, and later.
    for place in [9, 15, 16] {
        let too_large = usual.clone().deliver(2, place, 1_000_001);
        assert_eq!(billed(open(), FEBRUARY_2001, &too_large, 0), 10);
        let largest = usual.clone().deliver(2, place, 1_000_000);
        assert_eq!(billed(open(), FEBRUARY_2001, &largest, 0), 0);
    }
    // In the other register.
    let other = usual.receive(2, 12, 1_000_001);
    assert_eq!(billed(open(), FEBRUARY_2001, &other, 0), 10);
}

#[test]
fn refusal_13_first_reading_lost() {
    let number = |registers: Registers| billed(open(), FEBRUARY_2001, &registers, 0);
    let zeros = || Registers::zeros(28);
    // The first alone, some, and the whole register; in one of the two or in both.
    for count in [1, 2, 96, 2_687, 2_688] {
        assert_eq!(number(zeros().lose_delivered(1, 0, count)), 13);
        assert_eq!(number(zeros().lose_received(1, 0, count)), 13);
        let both = zeros().lose_delivered(1, 0, count).lose_received(1, 0, 1);
        assert_eq!(number(both), 13);
    }
    // Any other reading may be lost, and all of them but the first.
    for (day, quarter, count) in [(1, 1, 1), (1, 1, 2_687), (2, 0, 96), (28, 95, 1)] {
        assert_eq!(number(zeros().lose_delivered(day, quarter, count)), 0);
        assert_eq!(number(zeros().lose_received(day, quarter, count)), 0);
    }
    // 10 comes first, in the same register or in the other.
    let lost = zeros().lose_delivered(1, 0, 3);
    assert_eq!(number(lost.clone().deliver(1, 3, 1_000_001)), 10);
    assert_eq!(number(lost.clone().deliver(28, 95, 1_000_001)), 10);
    assert_eq!(number(lost.receive(1, 0, 1_000_001)), 10);
}

#[test]
fn refusal_13_does_not_look_at_the_month_before() {
    let february = Registers::zeros(28)
        .deliver(28, 95, 70)
        .lose_received(28, 95, 1);
    let (answer, account) = billing(
        open(),
        FEBRUARY_2001,
        &february.delivered,
        &february.received,
        0,
    );
    assert_eq!(answer.number, 0);
    let march = Registers::zeros(31).lose_delivered(1, 0, 1);
    assert_eq!(billed(account, MARCH_2001, &march, 0), 13);
    let march = Registers::zeros(31).lose_received(1, 0, 1);
    assert_eq!(billed(account, MARCH_2001, &march, 0), 13);
}

#[test]
fn nothing_but_a_reading_may_be_lost() {
    // 4,294,967,295 elsewhere is a number like others, and too large.
    assert_eq!(opened(fresh(), business(LOST), prices(), 0), 5);
    let list = PriceList {
        demand: LOST,
        ..prices()
    };
    assert_eq!(opened(fresh(), home(), list, 0), 4);
    assert_eq!(opened(fresh(), home(), prices(), LOST), 7);
    let zeros = Registers::zeros(28);
    assert_eq!(billed(open(), LOST, &zeros, 0), 7);
    assert_eq!(billed(open(), FEBRUARY_2001, &zeros, LOST), 9);
    // As a demand limit it is one that every nameplate is below.
    let terms = Terms {
        demand_limit: LOST,
        ..home()
    };
    assert_eq!(opened(fresh(), terms, prices(), 0), 0);
}

#[test]
fn refusal_11_book_full() {
    let december = Registers::zeros(31);
    let account = open_account(DECEMBER_2099);
    let (answer, full) = billing(
        account,
        DECEMBER_2099,
        &december.delivered,
        &december.received,
        0,
    );
    assert_eq!((answer.number, full.next_month), (0, 1_200));
    // Whatever else is wrong.
    let lost = december.clone().lose_delivered(1, 0, 1);
    assert_eq!(billed(full, 1_200, &lost, 0), 11);
    for month in [1_200, DECEMBER_2099, 0, u32::MAX] {
        assert_eq!(billed(full, month, &december, 0), 11);
        assert_eq!(billed(full, month, &Registers::zeros(1), u32::MAX), 11);
    }
    // One month earlier the book isn't full.
    assert_eq!(billed(account, 1_200, &december, 0), 7);
    // Repricing and closing still run.
    assert_eq!(repriced(full, prices()), 0);
    assert_eq!(closed(full), 0);
}

fn everything_wrong() -> PriceList {
    PriceList {
        energy: [u32::MAX; 4],
        ..prices()
    }
}

#[test]
fn order_of_an_openings_refusals() {
    let past_bounds = Account {
        next_month: 1_201,
        ..fresh()
    };
    let mut list = everything_wrong();
    let mut terms = Terms {
        rider: Rider::Bridge,
        ..business(0)
    };
    let mut month = 1_200;
    let mut account = in_state(State::Open, past_bounds);
    assert_eq!(opened(account, terms, list, month), 2);
    account = past_bounds;
    assert_eq!(opened(account, terms, list, month), 3);
    account = fresh();
    assert_eq!(opened(account, terms, list, month), 4);
    list = prices();
    terms.nameplates.count = 9;
    assert_eq!(opened(account, terms, list, month), 12);
    terms.nameplates.count = 1;
    assert_eq!(opened(account, terms, list, month), 5);
    terms.nameplates = Nameplates::one(1);
    terms.demand_limit = 1;
    assert_eq!(opened(account, terms, list, month), 6);
    terms.rider = Rider::Banked;
    assert_eq!(opened(account, terms, list, month), 7);
    month = 1_199;
    assert_eq!(opened(account, terms, list, month), 0);
}

#[test]
fn order_of_a_repricings_refusals() {
    let past_bounds = Account {
        standing: u64::MAX,
        ..open()
    };
    let fresh_past_bounds = in_state(State::Fresh, past_bounds);
    assert_eq!(repriced(fresh_past_bounds, everything_wrong()), 1);
    assert_eq!(repriced(past_bounds, everything_wrong()), 3);
    assert_eq!(repriced(open(), everything_wrong()), 4);
    assert_eq!(repriced(open(), prices()), 0);
}

#[test]
fn order_of_a_billings_refusals() {
    let mut account = Account {
        state: State::Fresh,
        next_month: 1_200,
        carried: [u64::MAX; 4],
        ..open()
    };
    let mut month = APRIL_2001;
    let faulty = |days| {
        Registers::zeros(days)
            .lose_delivered(1, 0, 1)
            .receive(1, 5, 1_000_001)
    };
    let mut registers = faulty(27);
    let mut critical_days = u32::MAX;
    assert_eq!(billed(account, month, &registers, critical_days), 1);
    account.state = State::Open;
    assert_eq!(billed(account, month, &registers, critical_days), 3);
    account.carried = [0; 4];
    assert_eq!(billed(account, month, &registers, critical_days), 11);
    account.next_month = FEBRUARY_2001;
    assert_eq!(billed(account, month, &registers, critical_days), 7);
    month = FEBRUARY_2001;
    assert_eq!(billed(account, month, &registers, critical_days), 8);
    registers = faulty(28);
    assert_eq!(billed(account, month, &registers, critical_days), 9);
    critical_days = 0;
    assert_eq!(billed(account, month, &registers, critical_days), 10);
    registers = registers.receive(1, 5, 0);
    assert_eq!(billed(account, month, &registers, critical_days), 13);
    registers = Registers::zeros(28);
    assert_eq!(billed(account, month, &registers, critical_days), 0);
}

#[test]
fn order_of_a_closings_refusals() {
    let past_bounds = Account {
        standing: u64::MAX,
        ..open()
    };
    assert_eq!(closed(in_state(State::Fresh, past_bounds)), 1);
    assert_eq!(closed(past_bounds), 3);
    assert_eq!(closed(open()), 0);
}
