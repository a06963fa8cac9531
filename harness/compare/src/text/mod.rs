//! The program `statement` against the second implementation, byte for byte.
//!
//! - [`program`]: the program, run on an input.
//! - [`inputs`]: what is compared.
//! - [`wrong`]: variants with a mistake, each of which must be noticed.
//! - [`shrink`]: the shortest input with a difference.

mod inputs;
mod program;
mod shrink;
mod wrong;

use harness::reference::statement::statement;
use inputs::Input;
use program::{Feeding, Program};
use std::io;
use std::path::Path;
use wrong::Wrong;

/// One input in so many is also fed in pieces.
const PIECES_EACH: usize = 12;
/// One input in so many is also typed.
const TYPED_EACH: usize = 100;
/// Random inputs that are always compared, whatever seed is given.
const FIXED_RANDOM: u64 = 1_500;
/// Differences that are made short and printed; later ones are counted.
const MOST_SHOWN: usize = 3;
/// After so many differences the rest isn't compared.
const MOST_DIFFERENCES: usize = 12;

pub struct Session {
    program: Program,
    pub inputs: usize,
    pub runs: usize,
    pub differences: usize,
    /// The wrong variants that no input has shown to be wrong yet.
    pub unnoticed: Vec<Wrong>,
}

impl Session {
    /// Compares the fixed inputs and so many random ones.
    pub fn run(program: &Path, seed: u64, count: u64) -> io::Result<Session> {
        let mut session = Session {
            program: Program::new(program)?,
            inputs: 0,
            runs: 0,
            differences: 0,
            unnoticed: wrong::ALL.to_vec(),
        };
        let examples = inputs::examples();
        for input in &examples {
            session.compare(input, Feeding::File);
            session.compare(input, Feeding::Pieces(seed));
        }
        let changes = inputs::changes().into_iter();
        let fixed = changes.chain(inputs::nameplates());
        let fixed = fixed.chain(inputs::gaps()).chain(inputs::pairs());
        for input in fixed.chain(inputs::random(0, FIXED_RANDOM)) {
            session.compare_all(&input);
        }
        // The largest come when few wrong variants are left to be tried on them.
        let book = inputs::book();
        session.compare(&book, Feeding::Pieces(seed));
        session.unread(&book);
        for input in [book, inputs::long()] {
            session.compare_all(&input);
        }
        // One that isn't prompt can cost the whole time limit.
        if session.differences == 0 {
            for input in &examples {
                session.compare(input, Feeding::Typed);
            }
        }
        session.report("fixed inputs");
        for input in inputs::random(seed, count) {
            session.compare_all(&input);
        }
        session.report("random inputs");
        let all = wrong::ALL.len();
        let noticed = all - session.unnoticed.len();
        println!("noticed {noticed} of {all} wrong variants of statement");
        Ok(session)
    }

    fn report(&self, part: &str) {
        println!(
            "{part} of statement: {} inputs, {} runs so far",
            self.inputs, self.runs
        );
    }

    /// From a file, and now and then in other ways too.
    fn compare_all(&mut self, input: &Input) {
        if self.differences >= MOST_DIFFERENCES {
            return;
        }
        self.inputs += 1;
        self.compare(input, Feeding::File);
        if self.inputs.is_multiple_of(PIECES_EACH) {
            self.compare(input, Feeding::Pieces(self.inputs as u64));
        }
        if self.inputs.is_multiple_of(TYPED_EACH) && input.bytes.len() < 10_000 {
            self.compare(input, Feeding::Typed);
        }
    }

    fn compare(&mut self, input: &Input, feeding: Feeding) {
        self.runs += 1;
        let expected = statement(&input.bytes);
        match self.program.run(&input.bytes, feeding) {
            Ok(printed) if printed == expected => {
                self.unnoticed
                    .retain(|(_, wrong)| wrong(&input.bytes) == printed);
            }
            _ => self.difference(input, feeding),
        }
    }

    fn difference(&mut self, input: &Input, feeding: Feeding) {
        self.differences += 1;
        if self.differences > MOST_SHOWN {
            return;
        }
        println!("difference in {}, {feeding:?}", input.name);
        let printed = |input: &[u8]| self.program.run(input, feeding);
        let differs = |input: &[u8]| printed(input) != Ok(statement(input));
        let shortest = shrink::shortest(&input.bytes, &differs);
        println!("shortest input found:");
        for line in shortest.split_inclusive(|&byte| byte == b'\n') {
            println!("  {}", line.escape_ascii());
        }
        match printed(&shortest) {
            Ok(printed) => println!("program:  {}", printed.escape_ascii()),
            Err(error) => println!("program:  {error}"),
        }
        println!("expected: {}", statement(&shortest).escape_ascii());
    }

    /// Where nobody reads what is printed the program must end too, and quietly.
    fn unread(&mut self, input: &Input) {
        self.runs += 1;
        if let Err(error) = self.program.run(&input.bytes, Feeding::Unread) {
            self.differences += 1;
            println!("difference where nobody reads: {error}");
        }
    }
}
