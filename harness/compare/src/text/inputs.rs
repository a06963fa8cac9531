//! What is fed to the program: the worked examples, one input with each line and byte
//! changed in turn, lines of nameplates, runs of lost readings and of pairs, and random
//! inputs, most of them damaged.

use crate::show::{class_text, rider_text};
use harness::generate;
use harness::random::Random;
use harness::reference::account::{Assisted, Nameplates, PriceList, Terms};
use harness::reference::calendar::{month_of_year, year, LAST_MONTH};
use harness::reference::gaps::LOST;
use harness::reference::hours::register_length;
use harness::reference::refusal::LARGEST_READING;
use harness::reference::statement::MOST_READINGS;
use std::collections::HashSet;
use std::fmt::Display;
use std::fs;
use std::path::Path;

pub struct Input {
    pub name: String,
    pub bytes: Vec<u8>,
}

/// The lines of an input, without their newlines.
type Lines = Vec<Vec<u8>>;

/// December 9999, the last month that can be written.
const LAST_WRITTEN: u32 = 12 * 8_000 - 1;

/// Numbers at the limits of their form, and some that have another form.
const NUMBERS: [&str; 24] = [
    "0",
    "1",
    "10",
    "11",
    "0000000000",
    "0000000007",
    "00000000007",
    "00000000000",
    "1000000",
    "1000001",
    "4294967295",
    "4294967296",
    "4294967303",
    "8589934592",
    "9999999999",
    "99999999999",
    "18446744073709551623",
    "",
    "+7",
    "-7",
    "7.",
    "0x7",
    "1e3",
    "seven",
];

const MONTHS: [&str; 20] = [
    "2000-01", "2001-01", "2001-12", "2099-12", "2100-01", "9999-12", "1999-12", "0000-01",
    "10000-01", "2001-00", "2001-13", "2001-20", "2001-1", "2001-011", "201-011", "2001/01",
    "2001-", "20O1-01", "+001-01", "",
];

const WORDS: [&str; 9] = [
    "banked", "bridge", "home", "business", "yes", "no", "", "Home", "banked,",
];

const COUNTS: [u32; 11] = [
    0,
    1,
    192,
    288,
    289,
    2_688,
    2_975,
    2_976,
    2_977,
    u32::MAX - 2_975,
    u32::MAX,
];

/// Bytes to put in any place.
const BYTES: [u8; 25] = *b"0189,=-+ \t\r\n\0\x0b\x7f\x80\xff\xc3\xa4aB.'/:";

/// A line that no rule of the format allows, however long it is.
const LONG: usize = 300_000;

/// The inputs of `examples/`.
pub fn examples() -> Vec<Input> {
    let folder = Path::new(env!("CARGO_MANIFEST_DIR")).join("../../examples");
    let entries = fs::read_dir(folder).expect("the folder of examples is there");
    let mut paths: Vec<_> = entries.flatten().map(|entry| entry.path()).collect();
    paths.retain(|path| path.extension().is_some_and(|extension| extension == "in"));
    paths.sort();
    let read = |path: &std::path::PathBuf| Input {
        name: format!("example {}", path.file_stem().unwrap_or_default().display()),
        bytes: fs::read(path).expect("an example can be read"),
    };
    paths.iter().map(read).collect()
}

/// Single changes of one input, no input twice.
pub fn changes() -> Vec<Input> {
    let base: Lines = include_str!("base.in").lines().map(Into::into).collect();
    let whole = joined(&base);
    let mut inputs = Vec::new();
    let mut seen = HashSet::new();
    let mut add = |name: String, bytes: Vec<u8>| {
        if seen.insert(bytes.clone()) {
            inputs.push(Input { name, bytes });
        }
    };
    for length in 0..=whole.len() {
        add(format!("cut to {length} bytes"), whole[..length].to_vec());
    }
    for place in 0..whole.len() {
        let (before, after) = whole.split_at(place);
        add(
            format!("without byte {place}"),
            [before, &after[1..]].concat(),
        );
        add(
            format!("byte {place} plus 128"),
            [before, &[after[0] ^ 0x80], &after[1..]].concat(),
        );
    }
    for number in 0..base.len() {
        let mut change =
            |name: &str, lines: Lines| add(format!("line {}, {name}", number + 1), joined(&lines));
        let with = |line: &[u8]| {
            let mut lines = base.clone();
            lines[number] = line.to_vec();
            lines
        };
        for value in NUMBERS.iter().chain(&MONTHS).chain(&WORDS) {
            let (key, _) = parts(&base[number]);
            change(value, with(&[key, b"=", value.as_bytes()].concat()));
        }
        for item in 0..4 {
            for value in NUMBERS {
                change(value, with(&with_item(&base[number], item, value)));
            }
        }
        for byte in BYTES {
            change(
                "a byte before",
                with(&[&[byte], &base[number][..]].concat()),
            );
            change("a byte after", with(&[&base[number][..], &[byte]].concat()));
        }
        for other in 0..base.len() {
            let mut lines = base.clone();
            lines.swap(number, other);
            change("exchanged", lines);
        }
        change("a number more", with(&[&base[number][..], b",0"].concat()));
        change("in capitals", with(&base[number].to_ascii_uppercase()));
        change("long", with(&[&base[number][..], &[b'0'; LONG]].concat()));
        let mut lines = base.clone();
        lines.insert(number, Vec::new());
        change("an empty one before", lines);
        let mut lines = base.clone();
        lines.insert(number, base[number].clone());
        change("doubled", lines);
        let mut lines = base.clone();
        lines.remove(number);
        change("dropped", lines);
    }
    let number = base.len() - 1;
    for first in COUNTS {
        for second in COUNTS {
            let mut lines = base[..number].to_vec();
            lines.push(format!("run={first},5,6").into());
            lines.push(format!("run={second},7,8").into());
            add(format!("runs of {first} and {second}"), joined(&lines));
        }
    }
    inputs
}

/// The base input with other runs in June, which it has last.
fn with_june(name: String, runs: &str) -> Input {
    let base = include_str!("base.in").lines();
    let lines = base.clone().take(base.count() - 1).chain(runs.lines());
    let lines: Lines = lines.map(Into::into).collect();
    Input {
        name,
        bytes: joined(&lines),
    }
}

/// The number of a line, from 1, and what stands there.
type Numbered = (usize, &'static str);

/// The base input with another line of nameplates, and these in the place of other lines.
fn with_nameplates(value: &str, others: &[Numbered]) -> Input {
    let mut lines: Lines = include_str!("base.in").lines().map(Into::into).collect();
    lines[3] = format!("nameplate={value}").into();
    for (number, line) in others {
        lines[number - 1] = line.as_bytes().to_vec();
    }
    Input {
        name: format!("nameplates {value} with {others:?}"),
        bytes: joined(&lines),
    }
}

/// Nameplates of any count, with a 0 or nothing in any place, with totals at each limit and
/// past 32 bits, and in lines of up to 99 bytes, of which the longest readable one has 97.
pub fn nameplates() -> Vec<Input> {
    let mut inputs = Vec::new();
    for count in 1..=10 {
        let some = vec!["1000"; count];
        inputs.push(with_nameplates(&some.join(","), &[]));
        for place in 0..=count {
            for other in ["0", "", "x"] {
                let mut more = some.clone();
                more.insert(place, other);
                inputs.push(with_nameplates(&more.join(","), &[]));
            }
        }
        let long = vec!["0000001000"; count].join(",");
        for more in ["", "0", "00", ",", "\r", " ", "\0"] {
            inputs.push(with_nameplates(&format!("{long}{more}"), &[]));
            inputs.push(with_nameplates(&format!("{more}{long}"), &[]));
        }
    }
    let limit = (5, "limit=4294967295");
    let home = [(6, "assisted=yes"), limit];
    let business = [(2, "rider=banked"), (3, "class=business"), limit];
    let kinds: [(&[Numbered], &[u32]); 3] = [
        (&[], &[9_000]),
        (&home, &[8_000, 20_000]),
        (&business, &[100_000, 1_000_000]),
    ];
    for (others, limits) in kinds {
        for total in limits.iter().flat_map(|limit| limit - 1..=limit + 1) {
            let rest = total - 7_000;
            for value in [
                format!("{},1", total - 1),
                format!("1,{}", total - 1),
                format!("1000,{rest},1000,1000,1000,1000,1000,1000"),
            ] {
                inputs.push(with_nameplates(&value, others));
            }
        }
        for value in [
            "4294967295,1",
            "4294967295,2",
            "4294967295,5001",
            "2147483648,2147483648",
            "2147483648,2147488648",
            "4294967295,4294967295,4294967295,4294967295,4294967295,4294967295,4294967295,4294967295",
            "4294967296,1",
            "1,4294967296",
        ] {
            inputs.push(with_nameplates(value, others));
        }
    }
    inputs
}

/// Runs of lost readings in one column or in both.
pub fn gaps() -> Vec<Input> {
    let mut inputs = Vec::new();
    for (delivered, received) in [(LOST, 3), (3, LOST), (LOST, LOST)] {
        for runs in runs_with_gaps(|count| format!("run={count},{delivered},{received}")) {
            inputs.push(with_june(format!("gaps {}", inputs.len()), &runs));
        }
    }
    inputs
}

/// Two runs of a reading each, of one pair or of two, beside the edges of June's window.
pub fn pairs() -> impl Iterator<Item = Input> {
    (65..71).chain(81..87).map(|place| {
        let rest = 2_880 - 2 - place;
        let runs = format!("run={place},0,0\nrun=1,700,0\nrun=1,900,0\nrun={rest},0,0");
        with_june(format!("pairs from {place} on"), &runs)
    })
}

/// June has 2,880 readings, in the first run 68 up to on-peak; July's follow where a gap
/// goes over the end.
fn runs_with_gaps(gap: impl Fn(u32) -> String) -> Vec<String> {
    let july = "bill=2001-07\ncritical=3";
    vec![
        // The whole month, its start, its end, and all but one reading.
        gap(2_880),
        format!("{}\nrun=2879,7,8", gap(1)),
        format!("run=2879,7,8\n{}", gap(1)),
        format!("run=1,7,8\n{}", gap(2_879)),
        // Into on-peak, across midnight, and two runs of one gap.
        format!("run=68,900,20\n{}\nrun=2796,0,0", gap(16)),
        format!("run=90,7,8\n{}\nrun=2778,1,2", gap(12)),
        format!("run=1,7,8\n{}\n{}\nrun=1,9,9", gap(2_000), gap(878)),
        // Runs of none, which are no readings.
        format!("run=0,7,8\n{}", gap(2_880)),
        format!("{}\nrun=2880,7,8", gap(0)),
        format!("run=1,7,8\nrun=0,500,600\n{}", gap(2_879)),
        format!("run=1,7,8\n{}\n{}", gap(0), gap(2_879)),
        // Beside readings above the limit.
        format!("{}\nrun=2879,7,1000001", gap(1)),
        format!("{}\nrun=2879,4294967294,8", gap(1)),
        format!("run=1,7,1000001\n{}", gap(2_879)),
        format!("run=1,7,8\n{}\nrun=1,1000001,8", gap(2_878)),
        format!("run=1,1000000,1000000\n{}", gap(2_879)),
        // A reading too few, and too many for any month.
        format!("run=1,7,8\n{}", gap(2_878)),
        format!("run=1,7,8\n{}\n{}", gap(2_975), gap(1)),
        // Over the end of the month.
        format!("run=2800,7,8\n{}\n{july}\n{}", gap(80), gap(2_976)),
        format!(
            "run=2800,7,8\n{}\n{july}\n{}\nrun=2975,1,2\n{july}\nrun=1,1,2\n{}",
            gap(80),
            gap(1),
            gap(2_975)
        ),
    ]
}

/// So many random inputs, each from its own seed.
pub fn random(first_seed: u64, count: u64) -> impl Iterator<Item = Input> {
    (0..count).map(move |index| {
        let seed = first_seed.wrapping_add(index);
        let mut random = Random::new(seed);
        let mut lines = well_formed(&mut random);
        for _ in 0..random.pick([0, 0, 0, 1, 1, 1, 1, 1, 2, 4]) {
            damage_line(&mut random, &mut lines);
        }
        let mut bytes = joined(&lines);
        for _ in 0..random.pick([0, 0, 0, 0, 0, 1, 1, 2]) {
            damage_byte(&mut random, &mut bytes);
        }
        Input {
            name: format!("random input of seed {seed}"),
            bytes,
        }
    })
}

/// The whole book, then months that it is too full for.
pub fn book() -> Input {
    let mut random = Random::new(0);
    let mut lines: Lines = include_str!("base.in")
        .lines()
        .take(14)
        .map(Into::into)
        .collect();
    lines[0] = b"opens=2000-01".to_vec();
    for month in 0..=LAST_MONTH + 2 {
        lines.push(format!("bill={}", month_text(month)).into());
        lines.push(format!("critical={}", 1 << (month % 28)).into());
        let length = register_length(month);
        runs(&mut random, length, &mut lines, sound_reading);
    }
    Input {
        name: "whole book".to_string(),
        bytes: joined(&lines),
    }
}

/// A line that is longer than any memory that the program should need.
pub fn long() -> Input {
    Input {
        name: "a long line".to_string(),
        bytes: vec![b'o'; 20_000_000],
    }
}

fn joined(lines: &[Vec<u8>]) -> Vec<u8> {
    let mut bytes = lines.join(&b'\n');
    bytes.push(b'\n');
    bytes
}

/// The key and the value of a line; of a line without `=` the whole and nothing.
fn parts(line: &[u8]) -> (&[u8], &[u8]) {
    match line.iter().position(|&byte| byte == b'=') {
        Some(place) => (&line[..place], &line[place + 1..]),
        None => (line, &[]),
    }
}

/// The line with another item in its list of values.
fn with_item(line: &[u8], item: usize, value: &str) -> Vec<u8> {
    let (key, values) = parts(line);
    let mut values: Vec<&[u8]> = values.split(|&byte| byte == b',').collect();
    let place = item % values.len();
    values[place] = value.as_bytes();
    [key, b"=", &values.join(&b',')].concat()
}

fn month_text(month: u32) -> String {
    format!("{:04}-{:02}", year(month), month_of_year(month))
}

/// A number, now and then with leading zeros.
fn numeral(random: &mut Random, number: impl Display) -> String {
    let width = match random.below(20) {
        0 => 1 + random.below(10) as usize,
        _ => 1,
    };
    format!("{number:0>width$}")
}

/// So many nameplates as the count says, and nine where it is above eight. All but the first are
/// written with numbers aside: the rest of a seed's input doesn't depend on how many there are.
fn nameplates_text(random: &mut Random, nameplates: &Nameplates) -> String {
    let mut aside = random.aside();
    let first = numeral(random, nameplates.places[0]);
    let rest = nameplates.places[1..].iter().chain([&1]);
    let rest = rest.map(|watts| numeral(&mut aside, watts));
    let all: Vec<String> = [first].into_iter().chain(rest).collect();
    all[..all.len().min(nameplates.count as usize)].join(",")
}

/// An account and some months, mostly such as it accepts.
fn well_formed(random: &mut Random) -> Lines {
    let terms = generate::terms(random);
    let price_list = generate::price_list(random);
    let mut month = generate::first_month(random).min(LAST_WRITTEN);
    let mut lines = opening_lines(random, &terms, &price_list, month);
    for _ in 0..random.pick([0, 1, 1, 2, 2, 3, 14]) {
        if random.once_in(25) {
            month = generate::near(random, month);
        }
        month = month.min(LAST_WRITTEN);
        month_lines(random, month, &mut lines);
        month += 1;
    }
    lines
}

fn opening_lines(random: &mut Random, terms: &Terms, list: &PriceList, first_month: u32) -> Lines {
    let assisted = match terms.assisted {
        Assisted::No => "no",
        Assisted::Yes => "yes",
    };
    let energy = list.energy.map(|price| numeral(random, price)).join(",");
    let nameplates = nameplates_text(random, &terms.nameplates);
    let mut number = |number| numeral(random, number);
    let values = [
        ("opens", month_text(first_month)),
        ("rider", rider_text(terms.rider).to_string()),
        ("class", class_text(terms.class).to_string()),
        ("nameplate", nameplates),
        ("limit", number(terms.demand_limit)),
        ("assisted", assisted.to_string()),
        ("prices", energy),
        ("demand", number(list.demand)),
        ("standby", number(list.standby)),
        ("bypass", number(list.bypass)),
        ("credit", number(list.credit)),
        ("distribution", number(list.distribution)),
        ("basic", number(list.basic)),
        ("minimum", number(list.minimum)),
    ];
    let line = |(key, value)| format!("{key}={value}").into_bytes();
    values.map(line).to_vec()
}

fn month_lines(random: &mut Random, month: u32, lines: &mut Lines) {
    let critical_days = generate::critical_days(random, month);
    lines.push(format!("bill={}", month_text(month)).into());
    lines.push(format!("critical={}", numeral(random, critical_days)).into());
    if random.once_in(12) {
        let delivered = generate::register(random, month);
        let received = generate::register(random, month);
        let readings: Vec<_> = delivered.iter().zip(&received).collect();
        for run in readings.chunk_by(|one, next| one == next) {
            lines.push(format!("run={},{},{}", run.len(), run[0].0, run[0].1).into());
        }
        return;
    }
    let right = register_length(month);
    let length = match random.below(16) {
        0 => random.pick([0, right - 1, right + 1, MOST_READINGS, MOST_READINGS + 1]),
        _ => right,
    };
    runs(random, length, lines, reading);
}

/// A random reading, which may be the first of its month.
type Reading = fn(&mut Random, bool) -> u32;

/// So many readings in a few runs.
fn runs(random: &mut Random, length: usize, lines: &mut Lines, reading: Reading) {
    let mut left = length;
    while left > 0 {
        let some = 1 + random.below(left as u64) as usize;
        let count = match random.below(40) {
            0 => 0,
            _ => random.pick([some, some, left.min(96), left]),
        };
        let readings = [0, 1].map(|_| reading(random, left == length));
        lines.push(run_line(random, count as u32, readings));
        left -= count;
    }
}

fn run_line(random: &mut Random, count: u32, [delivered, received]: [u32; 2]) -> Vec<u8> {
    let numbers = [count, delivered, received].map(|number| numeral(random, number));
    format!("run={}", numbers.join(",")).into()
}

/// A reading that no month is refused for.
fn sound_reading(random: &mut Random, is_first: bool) -> u32 {
    let any = random.up_to(2_000);
    let largest = random.up_to(LARGEST_READING);
    match random.below(8) {
        0 if !is_first => LOST,
        _ => random.pick([0, 0, any, any, largest]),
    }
}

fn reading(random: &mut Random, is_first: bool) -> u32 {
    match random.below(150) {
        0 => generate::near(random, LARGEST_READING),
        1 => LOST - 1,
        2 => LOST,
        _ => sound_reading(random, is_first),
    }
}

/// Changes, drops, doubles or moves a line.
fn damage_line(random: &mut Random, lines: &mut Lines) {
    if lines.is_empty() {
        return;
    }
    // A fault in the opening hides all that follows: most damage comes after it.
    let from = random.pick([0, lines.len().min(14), lines.len().min(14)]) as u64;
    let place = |random: &mut Random| {
        let place = from + random.below(lines.len() as u64 - from);
        place.min(lines.len() as u64 - 1) as usize
    };
    let (at, other) = (place(random), place(random));
    let line = lines[at].clone();
    let (key, value) = parts(&line);
    let with_value = |value: &[u8]| [key, b"=", value].concat();
    match random.below(14) {
        0 => drop(lines.remove(at)),
        1 => lines.insert(at, line),
        2 => lines.swap(at, other),
        3 => lines[at..].rotate_left(1),
        4 => lines[at] = with_item(&line, random.below(4) as usize, random.pick(NUMBERS)),
        5 => lines[at] = with_value(random.pick(MONTHS).as_bytes()),
        6 => lines[at] = with_value(random.pick(WORDS).as_bytes()),
        7 => lines.insert(at, Vec::new()),
        8 => {
            let readings = [0, 1].map(|_| reading(random, false));
            let count = random.pick(COUNTS);
            lines.insert(at, run_line(random, count, readings));
        }
        9 => {
            lines[at] = [
                &key[..key.len() / 2],
                &key[key.len().min(key.len() / 2 + 1)..],
                b"=",
                value,
            ]
            .concat()
        }
        10 => lines[at].push(random.pick([b'\r', b' ', b'\t', 0, b','])),
        11 => lines[at] = [parts(&lines[other]).0, b"=", value].concat(),
        12 => lines[at] = with_value(&[value, b",7"].concat()),
        _ => {
            if random.once_in(20) {
                lines[at].resize(LONG, random.pick([b'0', b',', b'x']));
            }
        }
    }
}

/// Changes the bytes, whatever they stand for.
fn damage_byte(random: &mut Random, bytes: &mut Vec<u8>) {
    let at = random.below(bytes.len() as u64) as usize;
    let any = random.next_u64() as u8;
    let byte = random.pick([random.clone().pick(BYTES), random.clone().pick(BYTES), any]);
    match random.below(8) {
        0 | 1 => bytes
            .splice(at..bytes.len().min(at + 1), [byte])
            .for_each(drop),
        2 => bytes.insert(at, byte),
        3 => bytes.splice(at..bytes.len().min(at + 1), []).for_each(drop),
        4 => bytes.truncate(at),
        5 => drop(bytes.pop()),
        6 => bytes.push(b'\n'),
        _ => {
            *bytes = bytes
                .split(|&byte| byte == b'\n')
                .collect::<Vec<_>>()
                .join(&b"\r\n"[..])
        }
    }
}

#[cfg(test)]
mod tests {
    use super::*;
    use harness::reference::statement::statement;

    /// Every month is accepted, and the two after the last find the book full.
    #[test]
    fn the_whole_book_is_billed() {
        let printed = statement(&book().bytes);
        let printed = String::from_utf8_lossy(&printed);
        let count = |answer: &str| printed.lines().filter(|line| line.contains(answer)).count();
        assert_eq!((count(" answer=0 "), count(" answer=11 ")), (1_200, 2));
    }
}
