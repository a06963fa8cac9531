//! Compares the proved library with the second implementation: every number of every
//! answer and of the last account, over boundary lists, whole books, random lists,
//! damaged buffers and calls on accounts made by hand; the place of day views; and what the
//! program `statement` prints. Its last line is `compared N calls in M lists and K inputs of
//! statement, 0 differences` and its exit status is 0 only then.
//!
//! - [`interface`]: the library's function.
//! - [`encode`], [`meaning`]: calls, answers and account in buffers, and back.
//! - [`compare`]: one list both ways.
//! - [`boundary`], [`lists`], [`damage`], [`given`], [`views`]: what is
//!   compared.
//! - [`rules`], [`wrong`]: variants with a mistake, each of which must be noticed.
//! - [`met`]: what the lists must have met.
//! - [`shrink`], [`show`]: the shortest list with a difference, in readable form.
//! - [`text`]: the program `statement`, with inputs and wrong variants of its own.
//! - [`session`]: all of it in turn.

#![deny(unsafe_code)]

mod boundary;
mod compare;
mod damage;
mod encode;
mod given;
mod interface;
mod lists;
mod meaning;
mod met;
mod rules;
mod session;
mod show;
mod shrink;
mod text;
mod views;
mod wrong;

use session::{Options, Session};
use std::process::ExitCode;

fn main() -> ExitCode {
    let arguments: Vec<String> = std::env::args().skip(1).collect();
    let Some(options) = Options::read(&arguments) else {
        eprintln!(
            "usage: compare [--seed N] [--lists N] [--inputs N] [--statement PATH] [--show-wrong]"
        );
        return ExitCode::from(2);
    };
    let session = Session::run(&options);
    println!("{}", session.last_line());
    match session.is_clean() {
        true => ExitCode::SUCCESS,
        false => ExitCode::FAILURE,
    }
}
