//! Refusals 11 to 15, and the lookup of a cell.

use super::admission::{Known, slot_sort};
use super::{Cell, Refusal, Term, largest, ones};

/// The cells of a setting that fits the table.
///
/// Variables of one slot have one sort, so the first of each slot decides for the others.
#[inline(always)]
pub fn checked<'a, const N: usize>(
    terms: &[Term],
    known: &Known<N>,
    values: &[u32],
    cells: &'a [u32],
) -> Result<&'a [Cell], Refusal> {
    let (cells, rest) = cells.as_chunks::<3>();
    if !rest.is_empty() {
        return Err((11, 0));
    }
    for &t in known.firsts() {
        let [_, _, n, slot, ..] = terms[t as usize];
        match values.get(slot as usize) {
            None => return Err((12, u64::from(t))),
            Some(&value) if value > largest(n) => return Err((13, u64::from(t))),
            Some(_) => {}
        }
    }
    for (place, &[slot, index, value]) in cells.iter().enumerate() {
        let (m, n) = known.slots.get(slot as usize).map_or((0, 0), |&slot| slot_sort(slot));
        if m == 0 {
            return Err((14, place as u64));
        }
        if index > ones(m) || value > ones(n) {
            return Err((15, place as u64));
        }
    }
    Ok(cells)
}

/// 22 and 23.
#[inline(always)]
pub fn afforded(needed: usize, room: usize, steps: u64, allowance: u64) -> Result<(), Refusal> {
    if room < needed {
        Err((22, needed as u64))
    } else if allowance < steps {
        Err((23, steps))
    } else {
        Ok(())
    }
}

/// What the array in a slot holds at an index: the earliest cell's value, else the slot's.
#[inline(always)]
pub fn held(cells: &[Cell], values: &[u32], slot: u32, index: u32) -> u32 {
    match cells.iter().find(|cell| cell[0] == slot && cell[1] == index) {
        Some(cell) => cell[2],
        None => values[slot as usize],
    }
}
