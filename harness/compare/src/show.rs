//! Lists of calls and buffers in readable form.

use crate::compare::Room;
use crate::encode::{Buffers, RECORD};
use harness::reference::account::{Assisted, Class, PriceList, Rider, Terms};
use harness::reference::calendar::{month_of_year, year};
use harness::reference::gaps::LOST;
use harness::reference::hours::is_critical_day;
use harness::reference::ledger::Call;

/// Each call with its index, from 0, and its numbers.
pub fn list(calls: &[Call]) -> String {
    let mut text = String::new();
    for (index, call) in calls.iter().enumerate() {
        text.push_str(&format!("  {index} {}\n", one(call)));
    }
    text
}

fn one(call: &Call) -> String {
    match call {
        Call::Opening {
            terms,
            price_list,
            first_month,
        } => format!(
            "opening {}, first month {}\n      {}",
            terms_text(terms),
            month_text(*first_month),
            prices_text(price_list)
        ),
        Call::Repricing { price_list } => {
            format!("repricing\n      {}", prices_text(price_list))
        }
        Call::Billing {
            month,
            delivered,
            received,
            critical_days,
        } => format!(
            "billing {}, critical days {}\n      delivered {}\n      received {}",
            month_text(*month),
            days_text(*critical_days),
            register_text(delivered),
            register_text(received)
        ),
        Call::Closing => "closing".to_string(),
    }
}

fn month_text(month: u32) -> String {
    format!("{month} ({}-{:02})", year(month), month_of_year(month))
}

fn days_text(critical_days: u32) -> String {
    let days: Vec<String> = (1..=32)
        .filter(|&day| is_critical_day(critical_days, day))
        .map(|day| day.to_string())
        .collect();
    format!("{critical_days} (days: {})", days.join(" "))
}

pub fn rider_text(rider: Rider) -> &'static str {
    match rider {
        Rider::Banked => "banked",
        Rider::Bridge => "bridge",
    }
}

pub fn class_text(class: Class) -> &'static str {
    match class {
        Class::Home => "home",
        Class::Business => "business",
    }
}

fn terms_text(terms: &Terms) -> String {
    let rider = rider_text(terms.rider);
    let class = class_text(terms.class);
    let assisted = match terms.assisted {
        Assisted::No => "not assisted",
        Assisted::Yes => "assisted",
    };
    format!(
        "{rider} {class}, {} nameplates in {:?}, demand limit {}, {assisted}",
        terms.nameplates.count, terms.nameplates.places, terms.demand_limit
    )
}

fn prices_text(list: &PriceList) -> String {
    format!(
        "energy {:?} demand {} standby {} bypass {} credit {} distribution {} basic {} minimum {}",
        list.energy,
        list.demand,
        list.standby,
        list.bypass,
        list.credit,
        list.distribution,
        list.basic,
        list.minimum
    )
}

/// Few readings with their places, many in runs, each as count × reading.
fn register_text(register: &[u32]) -> String {
    let not_zero: Vec<String> = register
        .iter()
        .enumerate()
        .filter(|(_, reading)| **reading > 0)
        .map(|(index, &reading)| format!("place {index}: {}", reading_text(reading)))
        .collect();
    let runs: Vec<String> = register
        .chunk_by(|one, next| one == next)
        .map(|run| format!("{}×{}", run.len(), reading_text(run[0])))
        .collect();
    let text = match not_zero.len() {
        0 => "all 0".to_string(),
        1..=5 => format!("0 but {}", not_zero.join(", ")),
        _ => runs.join(" "),
    };
    format!("{} readings, {text}", register.len())
}

fn reading_text(reading: u32) -> String {
    match reading {
        LOST => "lost".to_string(),
        _ => reading.to_string(),
    }
}

/// Damaged buffers: each record, and the lengths of the others.
pub fn buffers(buffers: &Buffers, room: Room) -> String {
    let mut text = String::new();
    for record in buffers.calls.chunks(RECORD) {
        text.push_str(&format!("  {record:?}\n"));
    }
    text.push_str(&format!(
        "  {} delivered and {} received readings, room for {} and {} numbers\n",
        buffers.delivered.len(),
        buffers.received.len(),
        room.answers,
        room.account
    ));
    text
}
