//! A second implementation of the billing papers (document 01 and the requests of
//! document 02 that have landed), for comparison with the proved one. It is written
//! from the papers alone.
//!
//! - [`reference`]: the implementation. Clear before fast; total on any input.
//! - [`random`]: a generator of pseudo-random numbers with a fixed seed.
//! - [`generate`]: random calls and accounts, with limits at, below and above.

pub mod generate;
pub mod random;
pub mod reference;
