//! The value of every term.

use super::admission::{Known, admitted};
use super::setting::{afforded, checked, held};
use super::{Cell, FINISHED, Refusal, TERMS, Term, answered, greatest, ones};

#[inline(never)]
pub fn evaluate(
    table: &[u32],
    values: &[u32],
    cells: &[u32],
    allowance: u64,
    work: &mut [u32],
    answer: &mut [u64; 4],
) -> u32 {
    // The local arrays are cleared at each call: a small table gets small ones.
    let result = match table.len() / 6 {
        0..=TERMS => evaluated::<TERMS>(table, values, cells, allowance, work),
        0..=8192 => evaluated::<8192>(table, values, cells, allowance, work),
        _ => evaluated::<FINISHED>(table, values, cells, allowance, work),
    };
    answered(result, answer)
}

#[inline(never)]
fn evaluated<const N: usize>(
    table: &[u32],
    values: &[u32],
    cells: &[u32],
    allowance: u64,
    work: &mut [u32],
) -> Result<[u64; 4], Refusal> {
    let mut known = Known::<N>::new();
    let terms = admitted(table, FINISHED, &mut known)?;
    let cells = checked(terms, &known, values, cells)?;
    afforded(terms.len(), work.len(), known.steps, allowance)?;
    let work = &mut work[..terms.len()];
    for (t, term) in terms.iter().enumerate() {
        work[t] = match term[0] {
            1 => variable(term, values),
            15 => read(terms, cells, values, work, term),
            _ => operation(term, terms, work),
        };
    }
    Ok([known.steps, allowance - known.steps, 0, 0])
}

/// A variable's value; 0 for an array.
#[inline(always)]
pub fn variable(term: &Term, values: &[u32]) -> u32 {
    if term[1] == 0 { values[term[3] as usize] } else { 0 }
}

/// The value of any term but a variable or a read, from the values before it.
#[inline(always)]
pub fn operation(term: &Term, terms: &[Term], work: &[u32]) -> u32 {
    let &[op, _, n, p, q, r] = term;
    let at = |k: u32| work[k as usize];
    match op {
        0 => p,
        2 => at(p) ^ 1,
        3 | 9 => at(p) & at(q),
        4 | 10 => at(p) | at(q),
        5 => (at(p) ^ 1) | at(q),
        6 => u32::from(at(p) == at(q)),
        7 => at(if at(p) == 1 { q } else { r }),
        8 => !at(p) & ones(n),
        11 => at(p).wrapping_add(at(q)) & ones(n),
        12 => at(p).wrapping_mul(at(q)) & ones(n),
        13 => shifted(at(p), at(q), n),
        14 => u32::from(at(p) < at(q)),
        17 => at(p).wrapping_neg() & ones(n),
        18 => at(p).wrapping_sub(at(q)) & ones(n),
        19 => {
            let sign = greatest(terms[p as usize][2]) + 1;
            u32::from(at(p) ^ sign < at(q) ^ sign)
        }
        20 => shifted_right(at(p), at(q), n),
        _ => 0,
    }
}

#[inline(always)]
fn shifted(value: u32, by: u32, n: u32) -> u32 {
    if by >= n { 0 } else { value << by & ones(n) }
}

/// The sign's bit is moved to the top, and back to its place: what comes in above it is the sign.
#[inline(always)]
fn shifted_right(value: u32, by: u32, n: u32) -> u32 {
    let above = 32 - n;
    ((value << above) as i32 >> above >> by.min(31)) as u32 & ones(n)
}

#[inline(always)]
fn read(terms: &[Term], cells: &[Cell], values: &[u32], work: &[u32], term: &Term) -> u32 {
    let index = work[term[4] as usize];
    let mut array = term[3];
    loop {
        let [op, _, _, p, q, r] = terms[array as usize];
        if op == 1 {
            return held(cells, values, p, index);
        }
        if op == 7 {
            array = if work[p as usize] == 1 { q } else { r };
            continue;
        }
        if work[q as usize] == index {
            return work[r as usize];
        }
        array = p;
    }
}
