//! Settings that fit a table's inputs, and rooms and allowances around what a call needs.

use super::draft::{Draft, Taste};
use crate::random::Random;
use crate::reference::term::Sort;

#[derive(Clone)]
pub struct Setting {
    pub values: Vec<u32>,
    pub cells: Vec<u32>,
}

/// A setting that is not refused. Slots that no variable uses hold anything. In some settings arrays of one sort have one value.
pub fn whole(random: &mut Random, draft: &Draft) -> Setting {
    let used = draft.inputs.iter().map(|i| i.0 as usize + 1).max().unwrap_or(0);
    let extra = if random.chance(20) { random.below(6) } else { 0 };
    let mut values: Vec<u32> = (0..used + extra).map(|_| random.word()).collect();
    let mut cells = vec![];
    let alike = random.chance(30);
    for (number, &(slot, sort, _)) in draft.inputs.iter().enumerate() {
        let same = draft.inputs[..number].iter().find(|input| input.1 == sort && matches!(sort, Sort::Array(..)));
        values[slot as usize] = match same {
            Some(other) if alike => values[other.0 as usize],
            _ => draft.taste.value(random, sort),
        };
        if let Sort::Array(m, _) = sort {
            let count = if random.chance(1) { 60 } else { random.pick(&[0, 1, 2, 3, 5, 8]) };
            for _ in 0..count {
                let index = draft.taste.value(random, Sort::Vector(m));
                cells.push([slot, index, draft.taste.value(random, sort)]);
            }
            if count > 0 && random.chance(40) {
                list_again(random, &draft.taste, sort, &mut cells);
            }
        }
    }
    random.shuffle(&mut cells);
    Setting { values, cells: cells.concat() }
}

/// Lists the last cell a second time, with another value or the same.
fn list_again(random: &mut Random, taste: &Taste, sort: Sort, cells: &mut Vec<[u32; 3]>) {
    let [slot, index, value] = cells[cells.len() - 1];
    let other = if random.chance(70) { taste.value(random, sort) } else { value };
    cells.push([slot, index, other]);
}

/// A room's length where `needed` numbers are needed.
pub fn room(random: &mut Random, needed: usize) -> usize {
    match random.below(20) {
        0 => 0,
        1 | 2 => needed.saturating_sub(1),
        3 => random.below(needed.max(1)),
        4..=8 => needed,
        9 => needed + 6,
        _ => needed + random.between(1, 20),
    }
}

/// An allowance where `steps` steps are needed.
pub fn allowance(random: &mut Random, steps: u64) -> u64 {
    match random.below(20) {
        0 => 0,
        1 | 2 => steps.saturating_sub(1),
        3..=8 => steps,
        9 => u64::MAX,
        10 => random.pick(&[1, 2, 1 << 31]) << 32,
        _ => steps + random.between(1, 30) as u64,
    }
}
