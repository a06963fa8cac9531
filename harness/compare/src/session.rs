//! A whole run: what was asked, what was compared and what came out.

use crate::compare::{compare, Difference, Written};
use crate::damage::{self, Damaged};
use crate::given::{self, Given};
use crate::lists::{self, List};
use crate::met::Met;
use crate::rules::Rules;
use crate::show;
use crate::shrink;
use crate::text;
use crate::views;
use crate::wrong::{self, Wrong};
use harness::reference::ledger::{answer, run, Call};
use std::path::{Path, PathBuf};

/// The command line.
#[derive(Clone, Debug)]
pub struct Options {
    /// First seed of the random lists and inputs.
    pub seed: u64,
    /// Number of random lists.
    pub lists: u64,
    /// Number of random inputs of the program `statement`.
    pub inputs: u64,
    /// The program `statement`.
    pub statement: PathBuf,
    /// Print the shortest list that shows each wrong variant.
    pub show_wrong: bool,
}

impl Options {
    pub fn read(arguments: &[String]) -> Option<Options> {
        let mut options = Options {
            seed: 1_000_000,
            lists: 8_000,
            inputs: 2_000,
            statement: Path::new(env!("CARGO_MANIFEST_DIR")).join("../../target/bin/statement"),
            show_wrong: false,
        };
        let mut arguments = arguments.iter();
        while let Some(flag) = arguments.next() {
            match flag.as_str() {
                "--seed" => options.seed = arguments.next()?.parse().ok()?,
                "--lists" => options.lists = arguments.next()?.parse().ok()?,
                "--inputs" => options.inputs = arguments.next()?.parse().ok()?,
                "--statement" => options.statement = arguments.next()?.into(),
                "--show-wrong" => options.show_wrong = true,
                _ => return None,
            }
        }
        Some(options)
    }
}

/// Differences that are made short and printed; later ones are counted.
const MOST_SHOWN: usize = 3;

#[derive(Default)]
pub struct Session {
    calls: usize,
    lists: usize,
    /// Inputs of the program `statement`.
    inputs: usize,
    differences: usize,
    /// Wrong variants that weren't noticed, and cases that weren't met.
    gaps: usize,
}

impl Session {
    pub fn run(options: &Options) -> Session {
        let mut session = Session::default();
        session.fixed_lists(options.show_wrong);
        session.random_lists(options.seed, options.lists);
        session.damaged_buffers();
        session.given_accounts(options.seed, options.lists);
        session.day_views();
        session.statements(options);
        session
    }

    pub fn is_clean(&self) -> bool {
        self.differences == 0 && self.gaps == 0
    }

    pub fn last_line(&self) -> String {
        let line = format!(
            "compared {} calls in {} lists and {} inputs of statement, {} differences",
            self.calls, self.lists, self.inputs, self.differences
        );
        match self.gaps {
            0 => line,
            gaps => format!("{line}, {gaps} gaps"),
        }
    }

    fn report(&self, part: &str) {
        println!("{part}: {} calls, {} lists so far", self.calls, self.lists);
    }

    fn gap(&mut self, gap: &str) {
        self.gaps += 1;
        println!("  gap: {gap}");
    }

    /// Boundary lists, books and some random lists. They must meet every case and show
    /// every wrong variant.
    fn fixed_lists(&mut self, show_wrong: bool) {
        let mut met = Met::default();
        let mut watch = wrong::Watch::new();
        for list in lists::fixed() {
            let expected = Rules::RIGHT.run(&list.calls);
            assert!(
                expected == run(&list.calls),
                "the rules taken apart aren't those of the reference"
            );
            self.lists += 1;
            self.calls += list.calls.len();
            match compare(&list.calls, &expected) {
                Err(difference) => self.difference(&list, &difference),
                Ok(library) => {
                    met.add(&list.calls, &library);
                    for wrong in watch.look(&list.calls, &library) {
                        if show_wrong {
                            show_shortest(&wrong, &list);
                        }
                    }
                }
            }
        }
        self.report("boundary lists and books");
        for case in met.missing() {
            self.gap(&format!("no {case} was met"));
        }
        let all = wrong::all().len();
        println!(
            "noticed {} of {all} wrong variants",
            all - watch.unnoticed.len()
        );
        for wrong in &watch.unnoticed {
            self.gap(&format!("unnoticed: {}", wrong.name));
        }
    }

    fn random_lists(&mut self, seed: u64, count: u64) {
        for list in lists::random(seed, count) {
            self.lists += 1;
            self.calls += list.calls.len();
            if let Err(difference) = compare(&list.calls, &run(&list.calls)) {
                self.difference(&list, &difference);
            }
        }
        self.report("random lists");
    }

    fn difference(&mut self, list: &List, difference: &Difference) {
        self.differences += 1;
        if self.differences > MOST_SHOWN {
            return;
        }
        println!("difference in {}: {difference}", list.name);
        let differs = |calls: &[Call]| compare(calls, &run(calls)).is_err();
        let shortest = shrink::shortest(&list.calls, &differs);
        if let Err(difference) = compare(&shortest, &run(&shortest)) {
            println!("shortest list found, {difference}");
        }
        print!("{}", show::list(&shortest));
    }

    fn damaged_buffers(&mut self) {
        let mut watch = damage::Watch::new();
        for damaged in damage::all() {
            let library = damaged.by_library();
            let expected = damaged.expected();
            self.lists += 1;
            self.calls += expected.counts.answered as usize;
            match Difference::between_runs(&library, &expected) {
                Some(difference) => self.damaged_difference(&damaged, &difference),
                None => watch.look(&damaged, &library),
            }
        }
        self.report("damaged buffers");
        let noticed = watch.noticed();
        println!(
            "noticed {noticed} of {} wrong readings",
            noticed + watch.unnoticed.len()
        );
        for (name, _) in &watch.unnoticed {
            self.gap(&format!("unnoticed: {name}"));
        }
    }

    fn damaged_difference(&mut self, damaged: &Damaged, difference: &Difference) {
        self.differences += 1;
        if self.differences <= MOST_SHOWN {
            println!(
                "difference in damaged buffers, {}: {difference}",
                damaged.name
            );
            print!("{}", show::buffers(&damaged.buffers, damaged.room));
        }
    }
}

/// Calls on given accounts that are always compared, whatever seed is given.
const FIXED_GIVEN: u64 = 4_000;
/// Of these, so many are tried with numbers that are no account or no call.
const SPOILED: u64 = 200;

impl Session {
    /// Calls on accounts made by hand. The fixed ones must meet every case and show
    /// every wrong variant.
    fn given_accounts(&mut self, seed: u64, count: u64) {
        let mut met = given::Met::default();
        let mut watch = given::Watch::new();
        for given in given::random(0, FIXED_GIVEN).chain(given::boundary()) {
            if let Some(library) = self.given_account(&given) {
                met.add(&given);
                watch.look(&given, &library);
            }
        }
        for given in given::random(seed, count) {
            self.given_account(&given);
        }
        for given in given::random(0, SPOILED) {
            for (name, account, call) in given.spoiled() {
                self.lists += 1;
                if !given.is_left_alone(&account, &call) {
                    self.differences += 1;
                    println!("difference in {}: {name} was taken", given.name);
                }
            }
        }
        self.report("given accounts");
        if !met.is_complete() {
            self.gap("some call was never accepted, or never refused by number 3");
        }
        let all = wrong::given().len();
        println!(
            "noticed {} of {all} wrong variants on given accounts",
            all - watch.unnoticed.len()
        );
        for wrong in &watch.unnoticed {
            self.gap(&format!("unnoticed: {}", wrong.name));
        }
    }

    fn day_views(&mut self) {
        let mut noticed = [false; views::WRONG.len()];
        let mut count = 0;
        for view in views::all() {
            count += 1;
            let library = view.by_library();
            let expected = view.expected();
            if library != expected {
                self.differences += 1;
                if self.differences <= MOST_SHOWN {
                    println!("difference in {view:?}: library {library:?}, expected {expected:?}");
                }
            }
            for (noticed, (_, wrong)) in noticed.iter_mut().zip(views::WRONG) {
                *noticed |= wrong(&view) != library;
            }
        }
        println!("day views: {count} compared");
        for ((name, _), noticed) in views::WRONG.iter().zip(noticed) {
            if !noticed {
                self.gap(&format!("unnoticed: {name}"));
            }
        }
    }

    /// What the program `statement` prints.
    fn statements(&mut self, options: &Options) {
        match text::Session::run(&options.statement, options.seed, options.inputs) {
            Err(error) => self.gap(&format!("{}: {error}", options.statement.display())),
            Ok(text) => {
                self.inputs += text.inputs;
                self.differences += text.differences;
                // Where there are differences, not all has been compared.
                for (name, _) in text.unnoticed.iter().filter(|_| text.differences == 0) {
                    self.gap(&format!("unnoticed: {name}"));
                }
            }
        }
    }

    /// What the library writes, where it is what is expected.
    fn given_account(&mut self, given: &Given) -> Option<Written> {
        self.lists += 1;
        self.calls += 1;
        assert!(
            Rules::RIGHT.answer(&given.account, &given.call) == answer(given.account, &given.call),
            "the rules taken apart aren't those of the reference"
        );
        let expected = given.expected(&Rules::RIGHT);
        let library = given.by_library().unwrap_or(Written::untouched(given.room));
        match Difference::between(&library, &expected) {
            None => Some(library),
            Some(difference) => {
                self.differences += 1;
                if self.differences <= MOST_SHOWN {
                    println!("difference in {}: {difference}", given.name);
                    println!("{:?}", given.account);
                    print!("{}", show::list(std::slice::from_ref(&given.call)));
                }
                None
            }
        }
    }
}

/// The shortest list that shows a wrong variant.
fn show_shortest(wrong: &Wrong, list: &List) {
    let differs = |calls: &[Call]| {
        compare(calls, &run(calls)).is_ok_and(|library| wrong.is_shown(calls, &library))
    };
    let shortest = shrink::shortest(&list.calls, &differs);
    println!("wrong variant: {} (noticed in {})", wrong.name, list.name);
    if let Err(difference) = compare(&shortest, &wrong.rules.run(&shortest)) {
        println!("  {difference}");
    }
    print!("{}", show::list(&shortest));
}
