//! Arrays under stores and choices, and reads of them.

use super::draft::{numbers_of, Draft, Taste};
use super::table::compared_read;
use crate::random::Random;
use crate::reference::term::*;

/// A table with an array of just this size, of at most 16, and reads: of it, of what is beneath it, or of neither.
pub fn whole(random: &mut Random, size: usize) -> Draft {
    let (mut draft, sort) = begun(random);
    let top = match size {
        1 | 3 | 7 | 15 if random.chance(50) => tower(random, &mut draft, sort, size),
        _ => tree(random, &mut draft, sort, size),
    };
    let unread = random.chance(10);
    for i in 0..random.between(1, 3) {
        let array = if i == 0 && !unread { top } else { draft.any(random, sort) };
        compared_read(random, &mut draft, array);
    }
    if random.chance(50) {
        let op = random.pick(&[AND, OR, IMPLIES]);
        draft.apply(random, op, Sort::Boolean);
    }
    draft
}

/// A table with an array of a size over 16, by a choice or a store; read or not.
pub fn too_large(random: &mut Random) -> Draft {
    let (mut draft, sort) = begun(random);
    let first = random.between(0, 16);
    let second = if random.chance(30) { random.between(16 - first, 16) } else { 16 - first };
    let top = match random.below(6) {
        0 => tower(random, &mut draft, sort, 31),
        1 => {
            let beneath = tree(random, &mut draft, sort, 16);
            stored(random, &mut draft, sort, beneath)
        }
        2 => {
            let both = random.between(8, 16);
            let array = tree(random, &mut draft, sort, both);
            chosen(random, &mut draft, sort, [array; 2])
        }
        _ => {
            let branches = [first, second].map(|size| tree(random, &mut draft, sort, size));
            chosen(random, &mut draft, sort, branches)
        }
    };
    if random.chance(30) {
        let test = draft.operand(random, Sort::Boolean);
        draft.push([NOT, 0, 0, test, 0, 0]);
    } else {
        compared_read(random, &mut draft, top);
    }
    draft
}

/// A draft with some leaves, and an array sort of its taste.
pub fn begun(random: &mut Random) -> (Draft, Sort) {
    let mut draft = Draft::new(Taste::new(random));
    draft.taste.fresh = random.pick(&[2, 10, 30]);
    draft.taste.chosen = random.pick(&[100, 60, 60, 25]);
    let sort = random.pick(&draft.taste.arrays);
    let (m, n) = numbers_of(sort);
    for sort in [Sort::Boolean, Sort::Vector(m), Sort::Vector(n)] {
        draft.variable(random, sort);
        draft.leaf(random, sort);
    }
    (draft, sort)
}

/// An array of just this size: a variable, a store or a choice; sometimes one that is there.
pub fn tree(random: &mut Random, draft: &mut Draft, sort: Sort, size: usize) -> u32 {
    let known = draft.of_size(sort, size);
    if !known.is_empty() && random.chance(30) {
        return random.pick(&known);
    }
    if size == 0 {
        return draft.variable(random, sort);
    }
    if !random.chance(draft.taste.chosen) {
        let beneath = tree(random, draft, sort, size - 1);
        return stored(random, draft, sort, beneath);
    }
    let first = random.below(size);
    let q = tree(random, draft, sort, first);
    let again = 2 * first + 1 == size && random.chance(40);
    let r = if again { q } else { tree(random, draft, sort, size - 1 - first) };
    chosen(random, draft, sort, [q, r])
}

/// Choices, each between an array and that array again, up to this size: 1, 3, 7, 15 or 31. Mostly of one test.
fn tower(random: &mut Random, draft: &mut Draft, sort: Sort, size: usize) -> u32 {
    let (m, n) = numbers_of(sort);
    let test = draft.operand(random, Sort::Boolean);
    let mut top = draft.variable(random, sort);
    while draft.size(top) < size {
        let test = if random.chance(70) { test } else { draft.operand(random, Sort::Boolean) };
        top = draft.push([CHOICE, m, n, test, top, top]);
    }
    top
}

fn stored(random: &mut Random, draft: &mut Draft, sort: Sort, beneath: u32) -> u32 {
    let (m, n) = numbers_of(sort);
    let index = draft.operand(random, Sort::Vector(m));
    let value = draft.operand(random, Sort::Vector(n));
    draft.push([STORE, m, n, beneath, index, value])
}

fn chosen(random: &mut Random, draft: &mut Draft, sort: Sort, branches: [u32; 2]) -> u32 {
    let (m, n) = numbers_of(sort);
    let test = draft.operand(random, Sort::Boolean);
    let [q, r] = branches;
    draft.push([CHOICE, m, n, test, q, r])
}
