//! The proved run program, and the listings that it prints.
#![allow(dead_code)]

pub mod program;

use program::Program;

pub const RUN: Program = Program { name: "run", variable: "RUN_PROGRAM" };

/// The answers in a listing.
pub fn answers(listing: &str) -> Vec<u16> {
    let answer = |line: &str| line.split(' ').nth(1).and_then(|word| word.parse().ok());
    listing.lines().skip(1).map(|line| answer(line).expect("an answer")).collect()
}
