//! The day view as start and length: every month with its first and last days, days and
//! registers that aren't there, and registers of another length, or with every reading
//! lost; in every March and November each of the first fifteen days, among them those on
//! which the clocks change.

use crate::interface;
use harness::reference::calendar::{days_in_month, month_of_year, LAST_MONTH};
use harness::reference::day_view::day_view;
use harness::reference::gaps::LOST;
use harness::reference::hours::register_length;

/// What is asked: lengths of the two registers and the reading in all their places, month,
/// day and register number.
#[derive(Clone, Copy, Debug)]
pub struct View {
    delivered: usize,
    received: usize,
    reading: u32,
    month: u32,
    day: u32,
    number: u32,
}

/// Start and length of the part.
type Place = [u64; 2];

pub fn all() -> impl Iterator<Item = View> {
    (0..=LAST_MONTH + 2).chain([u32::MAX]).flat_map(views)
}

fn views(month: u32) -> Vec<View> {
    let right = register_length(month);
    let last = days_in_month(month);
    let mut views = Vec::new();
    let mut days = vec![0, 1, 2, 28, last - 1, last, last + 1, 32, u32::MAX];
    if [3, 11].contains(&month_of_year(month)) {
        days.extend(3..=15);
    }
    for (delivered, received) in [(0, 0), (-1, 0), (0, -1), (4, 4), (-4, -4), (-96, -96)] {
        for &day in &days {
            for number in [0, 1, 2, u32::MAX] {
                views.push(View {
                    delivered: right.saturating_add_signed(delivered),
                    received: right.saturating_add_signed(received),
                    reading: 0,
                    month,
                    day,
                    number,
                });
            }
        }
    }
    for (day, number) in [(1, 0), (1, 1), (last, 0), (last, 1)] {
        views.push(View {
            delivered: right,
            received: right,
            reading: LOST,
            month,
            day,
            number,
        });
    }
    views
}

impl View {
    pub fn by_library(&self) -> Place {
        let mut place = [u64::MAX; 2];
        interface::day_view(
            &vec![self.reading; self.delivered],
            &vec![self.reading; self.received],
            self.month,
            self.day,
            self.number,
            &mut place,
        );
        place
    }

    /// Where the reference's part lies in its register.
    pub fn expected(&self) -> Place {
        let delivered = vec![self.reading; self.delivered];
        let received = vec![self.reading; self.received];
        let part = day_view(&delivered, &received, self.month, self.day, self.number);
        let register: &[u32] = match (part.is_empty(), self.number) {
            (false, 1) => &received,
            _ => &delivered,
        };
        let bytes = part.as_ptr() as usize - register.as_ptr() as usize;
        [(bytes / size_of::<u32>()) as u64, part.len() as u64]
    }
}

/// Wrong views, each with its name.
pub const WRONG: [(&str, fn(&View) -> Place); 8] = [
    ("days are counted from 0", |view| {
        let [start, length] = view.expected();
        [start + length, length]
    }),
    ("a day has 95 readings", |view| {
        let [start, length] = view.expected();
        [start, length.min(95)]
    }),
    ("the received register may have any length", |view| {
        let received = view.delivered;
        View { received, ..*view }.expected()
    }),
    ("register 2 is the received one", |view| {
        let number = match view.number {
            2 => 1,
            number => number,
        };
        View { number, ..*view }.expected()
    }),
    ("every day has 96 readings", |view| {
        let [start, length] = view.expected();
        [start, if length == 0 { 0 } else { 96 }]
    }),
    (
        "every day begins 96 readings after the one before",
        |view| {
            let [_, length] = view.expected();
            let days_before = if length == 0 { 0 } else { view.day - 1 };
            [96 * u64::from(days_before), length]
        },
    ),
    ("no month is shown", |_| [0, 0]),
    (
        "a day whose readings are lost isn't shown",
        |view| match view.reading {
            LOST => [0, 0],
            _ => view.expected(),
        },
    ),
];
