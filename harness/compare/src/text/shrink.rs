//! The shortest input that can be found with a difference: fewer lines, then fewer bytes.

use std::time::{Duration, Instant};

/// How long one input may be shortened.
const TIME_LIMIT: Duration = Duration::from_secs(20);

/// An input as short as can be found on which `differs` still holds.
pub fn shortest(input: &[u8], differs: &dyn Fn(&[u8]) -> bool) -> Vec<u8> {
    let mut shortest = input.to_vec();
    let deadline = Instant::now() + TIME_LIMIT;
    loop {
        let length = shortest.len();
        let lines: Vec<Vec<u8>> = shortest
            .split_inclusive(|&byte| byte == b'\n')
            .map(<[u8]>::to_vec)
            .collect();
        shortest = fewer(lines, deadline, &|lines| differs(&lines.concat())).concat();
        shortest = fewer(shortest, deadline, differs);
        if shortest.len() == length || Instant::now() > deadline {
            return shortest;
        }
    }
}

/// Drops parts, from the whole down to single items.
fn fewer<Item: Clone>(
    mut items: Vec<Item>,
    deadline: Instant,
    differs: &dyn Fn(&[Item]) -> bool,
) -> Vec<Item> {
    let mut size = items.len();
    while size > 0 {
        let mut start = 0;
        while start < items.len() && Instant::now() < deadline {
            let end = items.len().min(start + size);
            let kept = [&items[..start], &items[end..]].concat();
            if differs(&kept) {
                items = kept;
            } else {
                start = end;
            }
        }
        size /= 2;
    }
    items
}
