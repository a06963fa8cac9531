//! Deliberately wrong variants of the second implementation's `statement`, each with one
//! mistake: the input is changed to one that means what the variant takes it to mean, or
//! the printed text is. A comparison that doesn't notice one of them is worth nothing.

use harness::reference::gaps::LOST;
use harness::reference::statement::{statement, MOST_READINGS};

/// What the variant prints for an input.
pub type Wrong = (&'static str, fn(&[u8]) -> Vec<u8>);

/// A line that is always unreadable.
const UNREADABLE: &[u8] = b"?";

pub const ALL: &[Wrong] = &[
    // Numbers.
    ("eleven digits are read", |input| {
        by_number(input, |digits| match digits {
            [b'0', rest @ ..] if digits.len() == 11 => rest.to_vec(),
            _ => digits.to_vec(),
        })
    }),
    ("digits are read however many there are", |input| {
        by_number(input, |digits| {
            let zeros = digits.iter().take_while(|&&digit| digit == b'0').count();
            digits[zeros.min(digits.len().saturating_sub(10))..].to_vec()
        })
    }),
    ("digits past the tenth are skipped", |input| {
        by_number(input, |digits| digits[..digits.len().min(10)].to_vec())
    }),
    ("ten digits are too many", |input| {
        by_number(input, |digits| match digits.len() {
            10 => UNREADABLE.to_vec(),
            _ => digits.to_vec(),
        })
    }),
    ("numbers have no leading zeros", |input| {
        by_number(input, |digits| match digits {
            [b'0', _, ..] if digits.len() > 2 => UNREADABLE.to_vec(),
            _ => digits.to_vec(),
        })
    }),
    ("2^32 is read", |input| {
        with_number(input, b"4294967296", b"4294967295")
    }),
    ("2^32 - 1 isn't read", |input| {
        with_number(input, b"4294967295", UNREADABLE)
    }),
    ("numbers wrap at 32 bits", |input| {
        by_number(input, |digits| {
            let number = std::str::from_utf8(digits).map(str::parse::<u64>);
            match (digits.len(), number) {
                (10, Ok(Ok(number))) => (number as u32).to_string().into_bytes(),
                _ => digits.to_vec(),
            }
        })
    }),
    ("no digits are 0", |input| {
        by_item(input, |item| match item {
            b"" => b"0".to_vec(),
            _ => item.to_vec(),
        })
    }),
    ("a plus sign is read", |input| {
        by_item(input, |item| {
            item.strip_prefix(b"+").unwrap_or(item).to_vec()
        })
    }),
    ("what follows the digits is skipped", |input| {
        by_item(input, |item| {
            match item.iter().take_while(|byte| byte.is_ascii_digit()).count() {
                0 | 4 => item.to_vec(),
                digits => item[..digits].to_vec(),
            }
        })
    }),
    // Months.
    ("month 13 is read", |input| with_month(input, b"13", b"12")),
    ("month 00 is read", |input| with_month(input, b"00", b"01")),
    ("a month may have one digit", |input| {
        with_month(input, b"1", b"01")
    }),
    ("year 1999 is read", |input| {
        by_month(input, |year, month| match year {
            b"1999-" => [b"2000-", month].concat(),
            _ => [year, month].concat(),
        })
    }),
    ("years after 2099 are unreadable", |input| {
        by_month(input, |year, month| match year > b"2099-" {
            true => UNREADABLE.to_vec(),
            false => [year, month].concat(),
        })
    }),
    ("any byte is taken for the dash", |input| {
        by_value(input, |key, value| match (key, value) {
            (b"opens" | b"bill", [y0, y1, y2, y3, _, month @ ..]) => {
                [&[*y0, *y1, *y2, *y3, b'-'], month].concat()
            }
            _ => value.to_vec(),
        })
    }),
    // Lists and words.
    ("missing numbers are 0", |input| {
        by_value(input, |key, value| match (key, items(value)) {
            (b"prices", 3) | (b"run", 2) => [value, b",0"].concat(),
            _ => value.to_vec(),
        })
    }),
    ("further numbers are skipped", |input| {
        by_value(input, |key, value| match key {
            b"prices" => first_items(value, 4),
            b"run" => first_items(value, 3),
            b"nameplate" => first_items(value, 8),
            _ => first_items(value, 1),
        })
    }),
    ("a comma at the end is skipped", |input| {
        by_value(input, |_, value| {
            value.strip_suffix(b",").unwrap_or(value).to_vec()
        })
    }),
    ("any other class is home", |input| {
        by_value(input, |key, value| {
            match key == b"class" && value != b"business" {
                true => b"home".to_vec(),
                false => value.to_vec(),
            }
        })
    }),
    ("an empty word is read", |input| {
        with_line(input, b"assisted=", b"assisted=no")
    }),
    // Bytes and lines.
    ("capitals are read", |input| {
        statement(&input.to_ascii_lowercase())
    }),
    ("a carriage return is blank", |input| {
        by_line(input, |line| {
            line.strip_suffix(b"\r").unwrap_or(line).to_vec()
        })
    }),
    ("blanks are skipped", |input| {
        by_line(input, |line| {
            without(line, |byte| byte == b' ' || byte == b'\t')
        })
    }),
    ("blanks at the end of a line are skipped", |input| {
        by_line(input, |line| line.trim_ascii_end().to_vec())
    }),
    ("a line ends at a NUL", |input| {
        by_line(input, |line| {
            line.split(|&byte| byte == 0)
                .next()
                .unwrap_or(line)
                .to_vec()
        })
    }),
    ("NUL is skipped", |input| {
        statement(&without(input, |byte| byte == 0))
    }),
    ("a byte's highest bit is dropped", |input| {
        let bytes: Vec<u8> = input.iter().map(|byte| byte & 0x7f).collect();
        statement(&bytes)
    }),
    ("bytes that aren't ASCII are skipped", |input| {
        statement(&without(input, |byte| !byte.is_ascii()))
    }),
    ("an empty line is skipped", |input| {
        let lines: Vec<&[u8]> = input
            .split(|&byte| byte == b'\n')
            .filter(|line| !line.is_empty())
            .collect();
        statement(&lines.join(&b'\n'))
    }),
    ("an empty last line is skipped", |input| {
        match input.ends_with(b"\n\n") {
            true => statement(&input[..input.len() - 1]),
            false => statement(input),
        }
    }),
    ("a last line without newline isn't read", |input| {
        let end = input.iter().rposition(|&byte| byte == b'\n');
        statement(&input[..end.map_or(0, |end| end + 1)])
    }),
    // Runs.
    ("a run past 2,976 is cut there", |input| {
        by_run(input, |before, count| {
            Some(count.min(MOST_READINGS as u64 - before))
        })
    }),
    ("each run alone may have 2,976", |input| {
        by_run(input, |before, count| match count > MOST_READINGS as u64 {
            true => None,
            false => Some(count.min(MOST_READINGS as u64 - before)),
        })
    }),
    ("2,977 readings are taken", |input| {
        by_run(input, |before, count| match before + count {
            2_977 => Some(count - 1),
            _ => Some(count),
        })
    }),
    ("2,976 readings are too many", |input| {
        by_run(input, |before, count| {
            (before + count < MOST_READINGS as u64).then_some(count)
        })
    }),
    ("counts wrap at 32 bits", |input| {
        by_run(input, |before, count| {
            let wrapped = u64::from((before + count) as u32);
            match wrapped <= MOST_READINGS as u64 && wrapped < before {
                true => Some(0),
                false => Some(count),
            }
        })
    }),
    ("a run of none at 2,976 is too many", |input| {
        by_run(input, |before, count| {
            (before < MOST_READINGS as u64).then_some(count)
        })
    }),
    ("a run of none is unreadable", |input| {
        by_run(input, |_, count| (count > 0).then_some(count))
    }),
    ("a run of none counts as one", |input| {
        by_run(input, |_, count| Some(count.max(1)))
    }),
    ("delivered and received are exchanged", |input| {
        by_readings(input, |_, [delivered, received]| [received, delivered])
    }),
    // Gaps.
    ("a lost reading counts as 0", |input| {
        by_readings(input, |_, readings| {
            readings.map(|reading| if reading == LOST { 0 } else { reading })
        })
    }),
    ("a lost reading counts as that beside it", |input| {
        by_readings(input, |_, readings| match readings {
            [LOST, other] | [other, LOST] => [other; 2],
            _ => readings,
        })
    }),
    ("the mark is refused by 10", |input| {
        by_readings(input, |_, readings| {
            readings.map(|reading| reading.min(LOST - 1))
        })
    }),
    ("a gap goes on from the month before", |input| {
        let mut last = [LOST; 2];
        by_readings(input, |count, mut readings| {
            for (reading, last) in readings.iter_mut().zip(&mut last) {
                match count {
                    0 => {}
                    _ if *reading == LOST => *reading = *last,
                    _ => *last = *reading,
                }
            }
            readings
        })
    }),
    ("a gap after a run of none counts as its reading", |input| {
        let mut none = [LOST; 2];
        by_readings(input, |count, mut readings| {
            for (reading, none) in readings.iter_mut().zip(&mut none) {
                match count {
                    0 => *none = *reading,
                    _ if *reading == LOST => *reading = *none,
                    _ => *none = LOST,
                }
            }
            readings
        })
    }),
    ("a count of 4294967295 is lost", |input| {
        by_run(input, |_, count| match count == u64::from(LOST) {
            true => Some(0),
            false => Some(count),
        })
    }),
    ("critical days of 4294967295 are lost", |input| {
        with_line(input, b"critical=4294967295", b"critical=0")
    }),
    ("a nameplate of 4294967295 is lost", |input| {
        with_line(input, b"nameplate=4294967295", b"nameplate=8000")
    }),
    // Nameplates.
    ("only the first nameplate is read", |input| {
        by_nameplates(input, |each| first_items(each, 1))
    }),
    ("one nameplate is all that can be read", |input| {
        by_nameplates(input, |each| match items(each) {
            1 => each.to_vec(),
            _ => UNREADABLE.to_vec(),
        })
    }),
    ("eight nameplates are unreadable", |input| {
        by_nameplates(input, |each| match items(each) {
            8 => UNREADABLE.to_vec(),
            _ => each.to_vec(),
        })
    }),
    ("nine nameplates are read as eight", |input| {
        by_nameplates(input, |each| match items(each) {
            9 => first_items(each, 8),
            _ => each.to_vec(),
        })
    }),
    ("nine nameplates are refused by 12", |input| {
        refused_by_12(input, |each| items(each) == 9)
    }),
    ("no nameplate is refused by 12", |input| {
        refused_by_12(input, <[u8]>::is_empty)
    }),
    ("a 0 among nameplates is unreadable", |input| {
        by_nameplates(input, |each| {
            match each.split(|&byte| byte == b',').any(|item| item == b"0") {
                true => UNREADABLE.to_vec(),
                false => each.to_vec(),
            }
        })
    }),
    ("a 0 among nameplates is skipped", |input| {
        with_some_nameplates(input, |item| item != b"0")
    }),
    ("an empty nameplate is skipped", |input| {
        with_some_nameplates(input, |item| !item.is_empty())
    }),
    ("nameplates are added up in 32 bits", |input| {
        by_nameplates(input, |each| {
            let text = std::str::from_utf8(each).unwrap_or_default();
            let numbers: Option<Vec<u32>> = text.split(',').map(number).collect();
            match numbers.filter(|numbers| numbers.len() <= 8 && !numbers.contains(&0)) {
                Some(numbers) => {
                    let sum = numbers.into_iter().fold(0, u32::wrapping_add);
                    sum.to_string().into_bytes()
                }
                None => each.to_vec(),
            }
        })
    }),
    ("no line has more than 50 bytes", |input| {
        by_line(input, |line| match line.len() > 50 {
            true => UNREADABLE.to_vec(),
            false => line.to_vec(),
        })
    }),
    ("no line has more than 96 bytes", |input| {
        by_line(input, |line| match line.len() > 96 {
            true => UNREADABLE.to_vec(),
            false => line.to_vec(),
        })
    }),
    ("a line is read up to byte 97", |input| {
        by_line(input, |line| line[..line.len().min(97)].to_vec())
    }),
    // Order of lines, and what each is for.
    ("rider and class in either order", |input| {
        in_either_order(input, b"class=", b"rider=")
    }),
    ("bill and critical in either order", |input| {
        in_either_order(input, b"critical=", b"bill=")
    }),
    ("keys aren't compared whole", |input| {
        by_line(input, |line| match line {
            [b'b', b'i', rest @ ..] => [b"bill", after_key(rest)].concat(),
            [b'r', b'u', rest @ ..] => [b"run", after_key(rest)].concat(),
            _ => line.to_vec(),
        })
    }),
    ("a line after the months is skipped", |input| {
        match fault(&statement(input)) {
            Some(number) if number > 17 => statement(&lines_before(input, number)),
            _ => statement(input),
        }
    }),
    ("nameplate and limit are exchanged", |input| {
        exchanged(input, "nameplate", "limit")
    }),
    ("demand and standby are exchanged", |input| {
        exchanged(input, "demand", "standby")
    }),
    ("standby and bypass are exchanged", |input| {
        exchanged(input, "standby", "bypass")
    }),
    ("bypass and credit are exchanged", |input| {
        exchanged(input, "bypass", "credit")
    }),
    ("credit and distribution are exchanged", |input| {
        exchanged(input, "credit", "distribution")
    }),
    ("distribution and basic are exchanged", |input| {
        exchanged(input, "distribution", "basic")
    }),
    ("basic and minimum are exchanged", |input| {
        exchanged(input, "basic", "minimum")
    }),
    ("assisted is skipped", |input| {
        with_line(input, b"assisted=yes", b"assisted=no")
    }),
    ("an empty rider is banked", |input| {
        with_line(input, b"rider=", b"rider=banked")
    }),
    ("critical days are skipped", |input| {
        by_value(input, |key, value| {
            match (key, value.iter().all(u8::is_ascii_digit)) {
                (b"critical", true) if matches!(value.len(), 1..=9) => b"0".to_vec(),
                _ => value.to_vec(),
            }
        })
    }),
    // When a month is complete, and the number of a faulty line.
    (
        "a month is printed though an unreadable line follows",
        |input| {
            let printed = statement(input);
            let Some(number) = fault(&printed) else {
                return printed;
            };
            let before = statement(&lines_before(input, number));
            match fault(&before) {
                Some(_) => printed,
                None => [before, fault_line(number)].concat(),
            }
        },
    ),
    ("the month before a faulty one isn't printed", |input| {
        let printed = statement(input);
        match fault(&printed) {
            Some(number) => [without_last(without_last(&printed)), &fault_line(number)].concat(),
            None => printed,
        }
    }),
    ("the last month is never complete", |input| {
        let printed = statement(input);
        match (fault(&printed), lines(&printed) > 1) {
            (None, true) => without_last(&printed).to_vec(),
            _ => printed,
        }
    }),
    ("the opening is printed at its first line", |input| {
        let printed = statement(input);
        match fault(&printed) {
            Some(2..=14) => [b"open=0\n", &printed[..]].concat(),
            _ => printed,
        }
    }),
    (
        "the opening is complete only with a bill line",
        |input| match lines(input) {
            14 => Vec::new(),
            _ => statement(input),
        },
    ),
    ("after a refused opening nothing is read", |input| {
        let printed = statement(input);
        let opening = printed.split_inclusive(|&byte| byte == b'\n').next();
        match opening {
            Some(line) if line.starts_with(b"open=") && line != b"open=0\n" => line.to_vec(),
            _ => printed,
        }
    }),
    ("a wrong month is a fault of its line", |input| {
        let printed = statement(input);
        let lines: Vec<&[u8]> = printed.split_inclusive(|&byte| byte == b'\n').collect();
        let is_seven = |line: &&[u8]| line.windows(10).any(|part| part == b" answer=7 ");
        match lines.iter().position(is_seven) {
            Some(place) => lines[..place].concat(),
            None => printed,
        }
    }),
    ("an absent line has the number of the last one", |input| {
        by_fault(input, |number| match number > lines(input) {
            true => Some(number - 1),
            false => Some(number),
        })
    }),
    ("an absent line isn't printed", |input| {
        by_fault(input, |number| (number <= lines(input)).then_some(number))
    }),
    ("lines are counted from 0", |input| {
        by_fault(input, |number| Some(number - 1))
    }),
    ("lines are counted in 8 bits", |input| {
        by_fault(input, |number| Some(number % 256))
    }),
    ("a fault ends all printing", |input| {
        let printed = statement(input);
        match fault(&printed) {
            Some(number) => fault_line(number),
            None => printed,
        }
    }),
    // What is printed.
    ("left is dropped", |input| {
        by_column(input, "left", |_| None)
    }),
    ("out is dropped", |input| by_column(input, "out", |_| None)),
    ("paid is printed as 0", |input| {
        by_column(input, "paid", |_| Some("paid=0,0,0,0".to_string()))
    }),
    ("a row has three amounts", |input| {
        by_column(input, "billed", |text| {
            Some(text.rsplit_once(',')?.0.to_string())
        })
    }),
    ("out and in are exchanged", |input| {
        replaced(
            &statement(input),
            &[(" out=", " *="), (" in=", " out="), (" *=", " in=")],
        )
    }),
    ("energy and due are exchanged", |input| {
        replaced(
            &statement(input),
            &[(" energy=", " *="), (" due=", " energy="), (" *=", " due=")],
        )
    }),
    ("a refused month is printed as its number alone", |input| {
        let printed = statement(input);
        let mut lines: Vec<&[u8]> = printed.split(|&byte| byte == b'\n').collect();
        for line in &mut lines {
            let is_refused =
                line.starts_with(b"bill=") && !line.windows(10).any(|part| part == b" answer=0 ");
            if is_refused {
                *line = line.split(|&byte| byte == b'o').next().unwrap_or(line);
            }
        }
        lines.join(&b'\n')
    }),
    ("the last newline is missing", |input| {
        let mut printed = statement(input);
        printed.pop();
        printed
    }),
    ("lines end as in Windows", |input| {
        replaced(&statement(input), &[("\n", "\r\n")])
    }),
    ("January is printed as month 1", |input| {
        replaced(&statement(input), &[("-0", "-")])
    }),
];

fn without(bytes: &[u8], leave_out: fn(u8) -> bool) -> Vec<u8> {
    bytes
        .iter()
        .copied()
        .filter(|&byte| !leave_out(byte))
        .collect()
}

/// Prints for the input with each line changed.
fn by_line(input: &[u8], mut change: impl FnMut(&[u8]) -> Vec<u8>) -> Vec<u8> {
    let lines: Vec<Vec<u8>> = input
        .split(|&byte| byte == b'\n')
        .map(&mut change)
        .collect();
    statement(&lines.join(&b'\n'))
}

/// With the value of each line changed; the change is given the key too.
fn by_value(input: &[u8], mut change: impl FnMut(&[u8], &[u8]) -> Vec<u8>) -> Vec<u8> {
    by_line(input, |line| {
        match line.iter().position(|&byte| byte == b'=') {
            Some(place) => {
                let (key, value) = (&line[..place], &line[place + 1..]);
                [key, b"=", &change(key, value)].concat()
            }
            None => line.to_vec(),
        }
    })
}

/// With each item of a list of values changed.
fn by_item(input: &[u8], change: impl Fn(&[u8]) -> Vec<u8>) -> Vec<u8> {
    by_value(input, |_, value| {
        let items: Vec<Vec<u8>> = value.split(|&byte| byte == b',').map(&change).collect();
        items.join(&b',')
    })
}

/// With each number changed.
fn by_number(input: &[u8], change: impl Fn(&[u8]) -> Vec<u8>) -> Vec<u8> {
    by_item(input, |item| match item.iter().all(u8::is_ascii_digit) {
        true => change(item),
        false => item.to_vec(),
    })
}

/// With the nameplates of their line changed.
fn by_nameplates(input: &[u8], change: impl Fn(&[u8]) -> Vec<u8>) -> Vec<u8> {
    by_value(input, |key, value| match key {
        b"nameplate" => change(value),
        _ => value.to_vec(),
    })
}

/// With some nameplates left out; where none is left, with all.
fn with_some_nameplates(input: &[u8], is_kept: fn(&[u8]) -> bool) -> Vec<u8> {
    by_nameplates(input, |each| {
        let parts = each.split(|&byte| byte == b',');
        let kept: Vec<&[u8]> = parts.filter(|part| is_kept(part)).collect();
        match kept.is_empty() {
            true => each.to_vec(),
            false => kept.join(&b','),
        }
    })
}

/// With nameplates that are unreadable read, and refused by 12.
fn refused_by_12(input: &[u8], is_read: fn(&[u8]) -> bool) -> Vec<u8> {
    let mut is_found = false;
    let printed = by_value(input, |key, value| match key {
        b"nameplate" if is_read(value) => {
            is_found = true;
            b"0".to_vec()
        }
        _ => value.to_vec(),
    });
    match is_found {
        true => replaced(&printed, &[("open=5", "open=12")]),
        false => printed,
    }
}

/// With one line read as another.
fn with_line(input: &[u8], line: &[u8], taken_for: &[u8]) -> Vec<u8> {
    by_line(input, |found| {
        if found == line { taken_for } else { found }.to_vec()
    })
}

/// With one number read as another.
fn with_number(input: &[u8], number: &[u8], taken_for: &[u8]) -> Vec<u8> {
    by_number(input, |found| {
        if found == number { taken_for } else { found }.to_vec()
    })
}

/// With one month of the year read as another.
fn with_month(input: &[u8], month: &[u8], taken_for: &[u8]) -> Vec<u8> {
    by_month(input, |year, found| {
        [year, if found == month { taken_for } else { found }].concat()
    })
}

/// With each month changed, given as the year with its dash, and the rest.
fn by_month(input: &[u8], change: impl Fn(&[u8], &[u8]) -> Vec<u8>) -> Vec<u8> {
    by_value(input, |key, value| match (key, value.get(4)) {
        (b"opens" | b"bill", Some(b'-')) => change(&value[..5], &value[5..]),
        _ => value.to_vec(),
    })
}

/// With the count of each run changed, given the month's readings before it. A run
/// without a count becomes unreadable.
fn by_run(input: &[u8], change: fn(u64, u64) -> Option<u64>) -> Vec<u8> {
    let mut before = 0;
    by_line(input, |line| {
        if line.starts_with(b"bill=") {
            before = 0;
        }
        let text = std::str::from_utf8(line)
            .ok()
            .and_then(|text| text.strip_prefix("run="));
        let Some((count, readings)) = text.and_then(|text| text.split_once(',')) else {
            return line.to_vec();
        };
        match number(count) {
            Some(count) if before <= MOST_READINGS as u64 => {
                let Some(count) = change(before, u64::from(count)) else {
                    return UNREADABLE.to_vec();
                };
                before += count;
                format!("run={count},{readings}").into_bytes()
            }
            _ => line.to_vec(),
        }
    })
}

/// With the two readings of each run changed, given its count.
fn by_readings(input: &[u8], mut change: impl FnMut(u32, [u32; 2]) -> [u32; 2]) -> Vec<u8> {
    by_value(input, |key, value| {
        let items = std::str::from_utf8(value).unwrap_or_default().split(',');
        let numbers: Option<Vec<u32>> = items.map(number).collect();
        match (key, numbers.as_deref()) {
            (b"run", Some(&[count, delivered, received])) => {
                let [delivered, received] = change(count, [delivered, received]);
                format!("{count},{delivered},{received}").into_bytes()
            }
            _ => value.to_vec(),
        }
    })
}

/// 1 to 10 digits that fit 32 bits.
fn number(text: &str) -> Option<u32> {
    let is_number = text.len() <= 10 && text.bytes().all(|byte| byte.is_ascii_digit());
    text.parse().ok().filter(|_| is_number)
}

fn items(value: &[u8]) -> usize {
    value.split(|&byte| byte == b',').count()
}

fn first_items(value: &[u8], count: usize) -> Vec<u8> {
    let items: Vec<&[u8]> = value.split(|&byte| byte == b',').take(count).collect();
    items.join(&b',')
}

fn after_key(rest: &[u8]) -> &[u8] {
    let place = rest.iter().position(|&byte| byte == b'=');
    &rest[place.unwrap_or(0)..]
}

/// With the values of two keys exchanged.
fn exchanged(input: &[u8], one: &str, other: &str) -> Vec<u8> {
    let lines: Vec<&[u8]> = input.split(|&byte| byte == b'\n').collect();
    let place = |key: &str| {
        let key = format!("{key}=");
        lines
            .iter()
            .position(|line| line.starts_with(key.as_bytes()))
    };
    let (Some(first), Some(second)) = (place(one), place(other)) else {
        return statement(input);
    };
    let mut exchanged = lines.clone();
    let first_line = [one.as_bytes(), after_key(lines[second])].concat();
    let second_line = [other.as_bytes(), after_key(lines[first])].concat();
    exchanged[first] = &first_line;
    exchanged[second] = &second_line;
    statement(&exchanged.join(&b'\n'))
}

/// With two neighbouring lines in the right order where they are in the other.
fn in_either_order(input: &[u8], second: &[u8], first: &[u8]) -> Vec<u8> {
    let mut lines: Vec<&[u8]> = input.split(|&byte| byte == b'\n').collect();
    for place in 1..lines.len() {
        if lines[place - 1].starts_with(second) && lines[place].starts_with(first) {
            lines.swap(place - 1, place);
        }
    }
    statement(&lines.join(&b'\n'))
}

/// The number of lines.
fn lines(text: &[u8]) -> usize {
    text.split_inclusive(|&byte| byte == b'\n').count()
}

/// The lines before the one of this number.
fn lines_before(input: &[u8], number: usize) -> Vec<u8> {
    let lines: Vec<&[u8]> = input
        .split_inclusive(|&byte| byte == b'\n')
        .take(number - 1)
        .collect();
    lines.concat()
}

/// The number of the faulty line.
fn fault(printed: &[u8]) -> Option<usize> {
    let (_, last) = printed.split_at(without_last(printed).len());
    let text = std::str::from_utf8(last).ok()?;
    text.strip_prefix("line=")?.trim_end().parse().ok()
}

fn fault_line(number: usize) -> Vec<u8> {
    format!("line={number}\n").into_bytes()
}

/// All lines but the last.
fn without_last(text: &[u8]) -> &[u8] {
    let last = text.split_inclusive(|&byte| byte == b'\n').next_back();
    &text[..text.len() - last.map_or(0, <[u8]>::len)]
}

/// With another number for the faulty line, or none.
fn by_fault(input: &[u8], change: impl Fn(usize) -> Option<usize>) -> Vec<u8> {
    let printed = statement(input);
    match fault(&printed) {
        Some(number) => [
            without_last(&printed),
            &change(number).map_or(Vec::new(), fault_line),
        ]
        .concat(),
        None => printed,
    }
}

/// With one column of each month printed otherwise, or not at all.
fn by_column(input: &[u8], name: &str, change: fn(&str) -> Option<String>) -> Vec<u8> {
    let printed = String::from_utf8(statement(input)).unwrap_or_default();
    let key = format!("{name}=");
    let line = |line: &str| {
        let columns = line
            .split(' ')
            .filter_map(|column| match column.starts_with(&key) {
                true => change(column),
                false => Some(column.to_string()),
            });
        columns.collect::<Vec<_>>().join(" ")
    };
    printed
        .split('\n')
        .map(line)
        .collect::<Vec<_>>()
        .join("\n")
        .into_bytes()
}

fn replaced(printed: &[u8], pairs: &[(&str, &str)]) -> Vec<u8> {
    let mut text = String::from_utf8_lossy(printed).into_owned();
    for (from, to) in pairs {
        text = text.replace(from, to);
    }
    text.into_bytes()
}
