//! 01, "When the office declines": the conditions, and their order for each call.

use super::account::{Account, Class, PriceList, Rider, State, Terms, MOST_NAMEPLATES};
use super::calendar::{days_in_month, LAST_MONTH};
use super::gaps::LOST;
use super::hours::{count_critical_days, register_length};

/// Refusal 3: most Wh carried in a period.
pub const MOST_CARRIED: u64 = 4_000_000_000_000;
/// Refusal 3: most cents standing.
pub const MOST_STANDING: u64 = 4_000_000_000_000;
/// Refusal 4: the largest price, and the largest basic and minimum.
pub const LARGEST_PRICE: u32 = 1_000_000;
/// Refusal 5: largest total of a home's nameplates, W.
pub const LARGEST_HOME: u32 = 20_000;
/// Refusal 5: largest total of a business's nameplates, W.
pub const LARGEST_BUSINESS: u32 = 1_000_000;
/// Refusal 9: most critical days in a month.
pub const MOST_CRITICAL_DAYS: usize = 10;
/// Refusal 10: largest reading, Wh.
pub const LARGEST_READING: u32 = 1_000_000;

#[derive(Clone, Copy, Debug, PartialEq, Eq)]
pub enum Refusal {
    NotOpen = 1,
    OpenAlready = 2,
    Closed = 3,
    PriceList = 4,
    Capacity = 5,
    NoBridge = 6,
    Month = 7,
    RegisterLength = 8,
    CriticalDays = 9,
    Reading = 10,
    BookFull = 11,
    /// 02, No. 3.
    Nameplates = 12,
    /// 02, No. 4.
    FirstReadingLost = 13,
}

impl Refusal {
    pub fn number(self) -> u32 {
        self as u32
    }
}

/// The first refusal whose condition holds.
fn first(checks: &[(bool, Refusal)]) -> Option<Refusal> {
    checks
        .iter()
        .find(|(applies, _)| *applies)
        .map(|&(_, refusal)| refusal)
}

/// Order 2, 3, 4, 12, 5, 6, 7.
pub fn of_opening(
    account: &Account,
    terms: &Terms,
    price_list: &PriceList,
    first_month: u32,
) -> Option<Refusal> {
    first(&[
        (account.state == State::Open, Refusal::OpenAlready),
        (is_closed(account), Refusal::Closed),
        (breaks_price_list(price_list), Refusal::PriceList),
        (breaks_nameplates(terms), Refusal::Nameplates),
        (breaks_capacity(terms), Refusal::Capacity),
        (breaks_bridge(terms), Refusal::NoBridge),
        (first_month > LAST_MONTH, Refusal::Month),
    ])
}

/// Order 1, 3, 4.
pub fn of_repricing(account: &Account, price_list: &PriceList) -> Option<Refusal> {
    first(&[
        (account.state == State::Fresh, Refusal::NotOpen),
        (is_closed(account), Refusal::Closed),
        (breaks_price_list(price_list), Refusal::PriceList),
    ])
}

/// Order 1, 3, 11, 7, 8, 9, 10, 13.
pub fn of_billing(
    account: &Account,
    month: u32,
    delivered: &[u32],
    received: &[u32],
    critical_days: u32,
) -> Option<Refusal> {
    first(&[
        (account.state == State::Fresh, Refusal::NotOpen),
        (is_closed(account), Refusal::Closed),
        (account.next_month > LAST_MONTH, Refusal::BookFull),
        (month != account.next_month, Refusal::Month),
        (
            breaks_length(month, delivered) || breaks_length(month, received),
            Refusal::RegisterLength,
        ),
        (
            breaks_critical_days(month, critical_days),
            Refusal::CriticalDays,
        ),
        (
            breaks_reading(delivered) || breaks_reading(received),
            Refusal::Reading,
        ),
        (
            begins_lost(delivered) || begins_lost(received),
            Refusal::FirstReadingLost,
        ),
    ])
}

/// Order 1, 3.
pub fn of_closing(account: &Account) -> Option<Refusal> {
    first(&[
        (account.state == State::Fresh, Refusal::NotOpen),
        (is_closed(account), Refusal::Closed),
    ])
}

/// Refusal 3: closed, or an account that can't arise.
fn is_closed(account: &Account) -> bool {
    account.state == State::Closed || is_impossible(account)
}

/// Refusal 3: the bounds count in every state, the contents only where open.
pub fn is_impossible(account: &Account) -> bool {
    let past_bounds = account.carried.iter().any(|&wh| wh > MOST_CARRIED)
        || account.standing > MOST_STANDING
        || account.next_month > LAST_MONTH + 1;
    let bad_contents = breaks_price_list(&account.price_list)
        || breaks_nameplates(&account.terms)
        || breaks_capacity(&account.terms)
        || breaks_bridge(&account.terms);
    past_bounds || (account.state == State::Open && bad_contents)
}

/// Refusal 4: all eleven amounts are checked, under both riders.
fn breaks_price_list(list: &PriceList) -> bool {
    let PriceList {
        energy: [critical, on_peak, off_peak, discount],
        demand,
        standby,
        bypass,
        credit,
        distribution,
        basic,
        minimum,
    } = *list;
    let amounts = [
        critical,
        on_peak,
        off_peak,
        discount,
        demand,
        standby,
        bypass,
        credit,
        distribution,
        basic,
        minimum,
    ];
    let too_large = amounts.iter().any(|&amount| amount > LARGEST_PRICE);
    let rising = on_peak > critical || off_peak > on_peak || discount > off_peak;
    too_large || rising
}

/// Refusal 12 (02, No. 3): none or more than eight.
fn breaks_nameplates(terms: &Terms) -> bool {
    let count = terms.nameplates.count;
    count == 0 || count > MOST_NAMEPLATES as u64
}

/// Refusal 5: each nameplate is at least 1 W, and the total goes up to the demand limit and up
/// to the class's limit (02, No. 3).
fn breaks_capacity(terms: &Terms) -> bool {
    let class_limit = match terms.class {
        Class::Home => LARGEST_HOME,
        Class::Business => LARGEST_BUSINESS,
    };
    let too_small = terms.nameplates.each().iter().any(|&watts| watts < 1);
    let total = terms.nameplates.total();
    too_small || total > u128::from(terms.demand_limit) || total > u128::from(class_limit)
}

/// Refusal 6: the bridge rider is for homes.
fn breaks_bridge(terms: &Terms) -> bool {
    terms.rider == Rider::Bridge && terms.class == Class::Business
}

/// Refusal 8.
fn breaks_length(month: u32, register: &[u32]) -> bool {
    register.len() != register_length(month)
}

/// Refusal 9: a bit past the month's last day, or more than ten days.
fn breaks_critical_days(month: u32, critical_days: u32) -> bool {
    let past_the_month = critical_days >> days_in_month(month) != 0;
    past_the_month || count_critical_days(critical_days) > MOST_CRITICAL_DAYS
}

/// Refusal 10, which passes over the mark (02, No. 4).
fn breaks_reading(register: &[u32]) -> bool {
    register
        .iter()
        .any(|&reading| reading > LARGEST_READING && reading != LOST)
}

/// Refusal 13.
fn begins_lost(register: &[u32]) -> bool {
    register.first() == Some(&LOST)
}
