//! What any buffers mean, by the words of `include/kozempil.h`: damaged ones too.
//!
//! The second implementation takes demand limits and prices of 32 bits, the library lends
//! them in 64. A number above 32 bits is read as the largest of 32: it is beyond the
//! same limits. Only an accepted demand limit shows which it was (`limit_shown`).

use crate::encode::{
    assisted_of, class_of, nameplates_at, price_list_of, rider_of, Buffers, Record, ASSISTED,
    BILLING, CLASS, CLOSING, CRITICAL_DAYS, DELIVERED, FIRST_MONTH, KIND, LIMIT, MONTH, OPENING,
    PRICES, RECEIVED, RECORD, REPRICING, RIDER,
};
use harness::reference::account::{Answer, PriceList, Terms};
use harness::reference::ledger::{Amounts, Call};

/// The calls up to the first record that is none. Numbers that don't fill a record
/// at the end are none either.
pub fn calls_in(buffers: &Buffers) -> Vec<Call> {
    let mut delivered = buffers.delivered.as_slice();
    let mut received = buffers.received.as_slice();
    let mut calls = Vec::new();
    for record in records(&buffers.calls) {
        let Some(call) = call_of(record, &mut delivered, &mut received) else {
            break;
        };
        calls.push(call);
    }
    calls
}

fn records(numbers: &[u64]) -> impl Iterator<Item = &Record> {
    numbers.as_chunks::<RECORD>().0.iter()
}

/// The call of a record; a billing takes its readings from the front of the registers.
pub fn call_of(record: &Record, delivered: &mut &[u32], received: &mut &[u32]) -> Option<Call> {
    let call = match record[KIND] {
        OPENING => Call::Opening {
            terms: Terms {
                rider: rider_of(record[RIDER])?,
                class: class_of(record[CLASS])?,
                nameplates: nameplates_at(record),
                demand_limit: saturated(record[LIMIT]),
                assisted: assisted_of(record[ASSISTED])?,
            },
            price_list: prices_at(record),
            first_month: u32::try_from(record[FIRST_MONTH]).ok()?,
        },
        REPRICING => Call::Repricing {
            price_list: prices_at(record),
        },
        BILLING => Call::Billing {
            month: u32::try_from(record[MONTH]).ok()?,
            critical_days: u32::try_from(record[CRITICAL_DAYS]).ok()?,
            delivered: take(delivered, record[DELIVERED]),
            received: take(received, record[RECEIVED]),
        },
        CLOSING => Call::Closing,
        _ => return None,
    };
    Some(call)
}

fn saturated(number: u64) -> u32 {
    u32::try_from(number).unwrap_or(u32::MAX)
}

fn prices_at(record: &Record) -> PriceList {
    let mut numbers = [0; 11];
    for (place, number) in numbers.iter_mut().enumerate() {
        *number = saturated(record[PRICES + place]);
    }
    price_list_of(numbers)
}

/// So many readings from the front, or what is left.
fn take(register: &mut &[u32], count: u64) -> Vec<u32> {
    let count = usize::try_from(count)
        .unwrap_or(usize::MAX)
        .min(register.len());
    let (taken, rest) = register.split_at(count);
    *register = rest;
    taken.to_vec()
}

/// The demand limit that the account shows: that of the one accepted opening.
pub fn limit_shown(buffers: &Buffers, calls: &[Call], answers: &[Answer<Amounts>]) -> Option<u64> {
    let accepted = calls
        .iter()
        .zip(answers)
        .position(|(call, answer)| matches!(call, Call::Opening { .. }) && answer.number == 0)?;
    Some(buffers.calls[RECORD * accepted + LIMIT])
}
