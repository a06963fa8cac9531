//! 01, "Day view and statement": a day's readings as a part of a register.

use super::calendar::{days_in_month, LAST_MONTH};
use super::hours::{first_reading, register_length};

/// Day 1 is the first; number 0 is delivered and 1 received. Where there is no
/// such day, the empty part at the front of the delivered register. Lost readings are
/// shown as they are marked (02, No. 4).
pub fn day_view<'a>(
    delivered: &'a [u32],
    received: &'a [u32],
    month: u32,
    day: u32,
    number: u32,
) -> &'a [u32] {
    let none = &delivered[..0];
    let register = match number {
        0 => delivered,
        1 => received,
        _ => return none,
    };
    let length = register_length(month);
    let month_exists = month <= LAST_MONTH;
    let day_exists = (1..=days_in_month(month)).contains(&day);
    let lengths_fit = delivered.len() == length && received.len() == length;
    if !(month_exists && day_exists && lengths_fit) {
        return none;
    }
    &register[first_reading(month, day)..first_reading(month, day + 1)]
}
