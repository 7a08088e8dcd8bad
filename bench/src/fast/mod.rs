//! The routines of paper 01, and print and parse of paper 02, in Rust, written for speed: what the library is measured against.
//!
//! Written from the papers alone. Rows are flat slices, nothing is allocated, and every access is
//! checked as Rust checks it. The interface is the library's: a number (0, or the refusal's), and
//! the answer in four numbers.

mod admission;
mod evaluation;
mod finishing;
mod judgement;
mod parsing;
mod printing;
mod setting;
mod sheet;

pub use evaluation::evaluate;
pub use finishing::finish;
pub use judgement::judge;
pub use parsing::parse;
pub use printing::print;

use admission::{Known, admitted};

/// op, m, n, p, q, r.
type Term = [u32; 6];

/// slot, index, value.
type Cell = [u32; 3];

/// The terms a table may have, and those a finished one may have.
const TERMS: usize = 512;
const FINISHED: usize = 80_000;

/// Number and place.
type Refusal = (u32, u64);

/// The size of an array in an admitted table is at most 16.
const LARGEST: u8 = 16;

/// The value with n ones; the largest that fits n bits, n from 1 to 32.
#[inline(always)]
fn ones(n: u32) -> u32 {
    u32::MAX >> (32u32.wrapping_sub(n) & 31)
}

/// The greatest value of n bits that is not below zero; the least one is the next.
#[inline(always)]
fn greatest(n: u32) -> u32 {
    ones(n) >> 1
}

/// The largest value of a Boolean (n is 0) or of a vector.
#[inline(always)]
fn largest(n: u32) -> u32 {
    if n == 0 { 1 } else { ones(n) }
}

/// Writes a result in the interface's form.
#[inline(always)]
fn answered(result: Result<[u64; 4], Refusal>, answer: &mut [u64; 4]) -> u32 {
    match result {
        Ok(numbers) => {
            *answer = numbers;
            0
        }
        Err((number, place)) => {
            *answer = [place, 0, 0, 0];
            number
        }
    }
}

#[inline(never)]
pub fn admit(table: &[u32], answer: &mut [u64; 4]) -> u32 {
    let mut known = Known::<TERMS>::new();
    answered(admitted(table, TERMS, &mut known).map(|_| [0; 4]), answer)
}

#[cfg(test)]
mod examples;
