//! The layout of `include/kozempil.h`: calls to buffers, and answers and account to
//! and from their numbers.

use harness::reference::account::{
    Account, Answer, Assisted, Bill, ByPeriod, Class, Closing, Nameplates, PriceList, Rider, State,
    Terms, MOST_NAMEPLATES,
};
use harness::reference::ledger::{Amounts, Call};

/// Numbers of a call.
pub const RECORD: usize = 26;
/// Numbers of an answer.
pub const ROW: usize = 60;
/// Numbers of the account.
pub const ACCOUNT: usize = 31;

pub type Record = [u64; RECORD];
pub type Row = [u64; ROW];
pub type AccountRow = [u64; ACCOUNT];

// Places of terms and price list, in a record and in an account.
pub const RIDER: usize = 1;
pub const CLASS: usize = 2;
pub const COUNT: usize = 3;
pub const NAMEPLATES: usize = 4;
pub const LIMIT: usize = 12;
pub const ASSISTED: usize = 13;
pub const PRICES: usize = 14;
const PRICES_END: usize = 25;

// Other places in a record.
pub const KIND: usize = 0;
pub const FIRST_MONTH: usize = 25;
pub const MONTH: usize = 1;
pub const DELIVERED: usize = 2;
pub const RECEIVED: usize = 3;
pub const CRITICAL_DAYS: usize = 4;

// Other places in an account.
pub const STAGE: usize = 0;
pub const NEXT: usize = 25;
const CARRIED: usize = 26;
const STANDING: usize = 30;

// Kinds of call.
pub const OPENING: u64 = 0;
pub const REPRICING: u64 = 1;
pub const BILLING: u64 = 2;
pub const CLOSING: u64 = 3;

/// The amounts by period, in the order of a row; the first starts at number 1.
const BY_PERIOD: [&str; 11] = [
    "forfeited",
    "delivered",
    "exported",
    "own",
    "credit",
    "need",
    "moved out",
    "moved in",
    "billed",
    "left",
    "paid",
];
const MONEY: usize = 45;
const MONEY_LINES: [&str; 10] = [
    "energy",
    "demand",
    "standby",
    "bypass",
    "shortfall",
    "gross",
    "granted",
    "used",
    "due",
    "standing",
];
const CLOSED: usize = 55;
const REFUNDED: usize = 59;

const ACCOUNT_NAMES: [&str; ACCOUNT] = [
    "stage",
    "rider",
    "class",
    "count of nameplates",
    "place 0 of nameplates",
    "place 1 of nameplates",
    "place 2 of nameplates",
    "place 3 of nameplates",
    "place 4 of nameplates",
    "place 5 of nameplates",
    "place 6 of nameplates",
    "place 7 of nameplates",
    "demand limit",
    "assisted",
    "energy price of period 0",
    "energy price of period 1",
    "energy price of period 2",
    "energy price of period 3",
    "demand price",
    "standby price",
    "bypass price",
    "credit price",
    "distribution price",
    "basic",
    "minimum",
    "next month",
    "carried of period 0",
    "carried of period 1",
    "carried of period 2",
    "carried of period 3",
    "standing",
];

/// What a number of an answer is.
pub fn row_name(place: usize) -> String {
    match place {
        0 => "number".to_string(),
        1..MONEY => format!(
            "{} of period {}",
            BY_PERIOD[(place - 1) / 4],
            (place - 1) % 4
        ),
        MONEY..CLOSED => MONEY_LINES[place - MONEY].to_string(),
        CLOSED..REFUNDED => format!("forfeited by the closing, of period {}", place - CLOSED),
        _ => "refunded".to_string(),
    }
}

/// What a number of the account is.
pub fn account_name(place: usize) -> &'static str {
    ACCOUNT_NAMES
        .get(place)
        .copied()
        .unwrap_or("past the account")
}

/// A list of calls as it is lent.
#[derive(Clone, Debug, Default, PartialEq, Eq)]
pub struct Buffers {
    pub calls: Vec<u64>,
    pub delivered: Vec<u32>,
    pub received: Vec<u32>,
}

impl Buffers {
    pub fn of(calls: &[Call]) -> Buffers {
        let mut buffers = Buffers::default();
        for call in calls {
            buffers.calls.extend(record_of(call));
            if let Call::Billing {
                delivered,
                received,
                ..
            } = call
            {
                buffers.delivered.extend(delivered);
                buffers.received.extend(received);
            }
        }
        buffers
    }
}

fn rider_code(rider: Rider) -> u64 {
    match rider {
        Rider::Banked => 0,
        Rider::Bridge => 1,
    }
}

fn class_code(class: Class) -> u64 {
    match class {
        Class::Home => 0,
        Class::Business => 1,
    }
}

fn assisted_code(assisted: Assisted) -> u64 {
    match assisted {
        Assisted::No => 0,
        Assisted::Yes => 1,
    }
}

pub fn rider_of(code: u64) -> Option<Rider> {
    [Rider::Banked, Rider::Bridge]
        .into_iter()
        .find(|&rider| rider_code(rider) == code)
}

pub fn class_of(code: u64) -> Option<Class> {
    [Class::Home, Class::Business]
        .into_iter()
        .find(|&class| class_code(class) == code)
}

pub fn assisted_of(code: u64) -> Option<Assisted> {
    [Assisted::No, Assisted::Yes]
        .into_iter()
        .find(|&assisted| assisted_code(assisted) == code)
}

/// Puts terms into a record or an account.
fn put_terms(numbers: &mut [u64], terms: &Terms) {
    numbers[RIDER] = rider_code(terms.rider);
    numbers[CLASS] = class_code(terms.class);
    numbers[COUNT] = terms.nameplates.count;
    numbers[NAMEPLATES..LIMIT].copy_from_slice(&terms.nameplates.places);
    numbers[LIMIT] = u64::from(terms.demand_limit);
    numbers[ASSISTED] = assisted_code(terms.assisted);
}

/// The nameplates of a record or an account: every number is one that can stand there.
pub fn nameplates_at(numbers: &[u64]) -> Nameplates {
    let mut places = [0; MOST_NAMEPLATES];
    places.copy_from_slice(&numbers[NAMEPLATES..LIMIT]);
    Nameplates {
        count: numbers[COUNT],
        places,
    }
}

/// The eleven amounts in the order of a record and of the account.
fn price_numbers(list: &PriceList) -> [u64; 11] {
    [
        list.energy[0],
        list.energy[1],
        list.energy[2],
        list.energy[3],
        list.demand,
        list.standby,
        list.bypass,
        list.credit,
        list.distribution,
        list.basic,
        list.minimum,
    ]
    .map(u64::from)
}

pub fn price_list_of(numbers: [u32; 11]) -> PriceList {
    let [critical, on_peak, off_peak, discount, demand, standby, bypass, credit, distribution, basic, minimum] =
        numbers;
    PriceList {
        energy: [critical, on_peak, off_peak, discount],
        demand,
        standby,
        bypass,
        credit,
        distribution,
        basic,
        minimum,
    }
}

/// The record of a call; places that it doesn't use are 0.
pub fn record_of(call: &Call) -> Record {
    let mut record = [0; RECORD];
    match call {
        Call::Opening {
            terms,
            price_list,
            first_month,
        } => {
            record[KIND] = OPENING;
            put_terms(&mut record, terms);
            record[PRICES..PRICES_END].copy_from_slice(&price_numbers(price_list));
            record[FIRST_MONTH] = u64::from(*first_month);
        }
        Call::Repricing { price_list } => {
            record[KIND] = REPRICING;
            record[PRICES..PRICES_END].copy_from_slice(&price_numbers(price_list));
        }
        Call::Billing {
            month,
            delivered,
            received,
            critical_days,
        } => {
            record[KIND] = BILLING;
            record[MONTH] = u64::from(*month);
            record[DELIVERED] = delivered.len() as u64;
            record[RECEIVED] = received.len() as u64;
            record[CRITICAL_DAYS] = u64::from(*critical_days);
        }
        Call::Closing => record[KIND] = CLOSING,
    }
    record
}

/// The numbers of an answer; those that its call doesn't return are 0.
pub fn row_of(answer: &Answer<Amounts>) -> Row {
    let mut row = [0; ROW];
    row[0] = u64::from(answer.number);
    match &answer.amounts {
        Amounts::None => {}
        Amounts::Bill(bill) => {
            let by_period = [
                bill.forfeited,
                bill.delivered,
                bill.exported,
                bill.own,
                bill.credit,
                bill.need,
                bill.moved_out,
                bill.moved_in,
                bill.billed,
                bill.left,
                bill.paid,
            ];
            row[1..MONEY].copy_from_slice(by_period.as_flattened());
            row[MONEY..CLOSED].copy_from_slice(&[
                bill.energy,
                bill.demand,
                bill.standby,
                bill.bypass,
                bill.shortfall,
                bill.gross,
                bill.granted,
                bill.used,
                bill.due,
                bill.standing,
            ]);
        }
        Amounts::Closing(closing) => {
            row[CLOSED..REFUNDED].copy_from_slice(&closing.forfeited);
            row[REFUNDED] = closing.refunded;
        }
    }
    row
}

/// The answer to a call from its numbers. Nothing where its call can't have it.
pub fn answer_of(call: &Call, row: &Row) -> Option<Answer<Amounts>> {
    let four =
        |start: usize| -> ByPeriod { [row[start], row[start + 1], row[start + 2], row[start + 3]] };
    let amounts = match call {
        Call::Opening { .. } | Call::Repricing { .. } => Amounts::None,
        Call::Billing { .. } => Amounts::Bill(Bill {
            forfeited: four(1),
            delivered: four(5),
            exported: four(9),
            own: four(13),
            credit: four(17),
            need: four(21),
            moved_out: four(25),
            moved_in: four(29),
            billed: four(33),
            left: four(37),
            paid: four(41),
            energy: row[45],
            demand: row[46],
            standby: row[47],
            bypass: row[48],
            shortfall: row[49],
            gross: row[50],
            granted: row[51],
            used: row[52],
            due: row[53],
            standing: row[54],
        }),
        Call::Closing => Amounts::Closing(Closing {
            forfeited: four(CLOSED),
            refunded: row[REFUNDED],
        }),
    };
    let answer = Answer {
        number: u32::try_from(row[0]).ok()?,
        amounts,
    };
    (row_of(&answer) == *row).then_some(answer)
}

/// The numbers of an account.
pub fn account_row(account: &Account) -> AccountRow {
    let mut row = [0; ACCOUNT];
    row[STAGE] = match account.state {
        State::Fresh => 0,
        State::Open => 1,
        State::Closed => 2,
    };
    put_terms(&mut row, &account.terms);
    row[PRICES..PRICES_END].copy_from_slice(&price_numbers(&account.price_list));
    row[NEXT] = u64::from(account.next_month);
    row[CARRIED..STANDING].copy_from_slice(&account.carried);
    row[STANDING] = account.standing;
    row
}

/// The account from its numbers. Nothing where no account has them.
pub fn account_of(row: &AccountRow) -> Option<Account> {
    let narrow = |place: usize| u32::try_from(row[place]).ok();
    let mut prices = [0; 11];
    for (place, price) in prices.iter_mut().enumerate() {
        *price = narrow(PRICES + place)?;
    }
    Some(Account {
        state: match row[STAGE] {
            0 => State::Fresh,
            1 => State::Open,
            2 => State::Closed,
            _ => return None,
        },
        terms: Terms {
            rider: rider_of(row[RIDER])?,
            class: class_of(row[CLASS])?,
            nameplates: nameplates_at(row),
            demand_limit: narrow(LIMIT)?,
            assisted: assisted_of(row[ASSISTED])?,
        },
        price_list: price_list_of(prices),
        next_month: narrow(NEXT)?,
        carried: [0, 1, 2, 3].map(|period| row[CARRIED + period]),
        standing: row[STANDING],
    })
}
