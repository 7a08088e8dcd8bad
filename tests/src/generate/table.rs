//! Whole tables, of several makes.

use super::choices;
use super::draft::{Draft, Taste};
use crate::random::Random;
use crate::reference::term::*;

/// A mixture of all operators, of about `size` terms.
pub fn mixed(random: &mut Random, size: usize) -> Draft {
    let mut draft = Draft::new(Taste::new(random));
    while draft.terms.len() < size {
        let op = random.below(LAST as usize + 1) as u32;
        let sort = sort_for(random, &draft.taste, op);
        draft.apply(random, op, sort);
    }
    draft.close(random);
    draft
}

fn sort_for(random: &mut Random, taste: &Taste, op: u32) -> Sort {
    let vector = random.pick(&taste.vectors);
    let array = random.pick(&taste.arrays);
    match op {
        NOT | AND | OR | IMPLIES => Sort::Boolean,
        CHOICE if random.chance(taste.chosen) => array,
        CONSTANT | EQUAL | CHOICE => random.pick(&[Sort::Boolean, vector, vector]),
        VARIABLE => random.pick(&[Sort::Boolean, vector, array]),
        READ | STORE => array,
        _ => vector,
    }
}

/// One operator at one width over variables and constants, then up to three terms more.
pub fn single(random: &mut Random, op: u32, width: u32) -> Draft {
    let mut draft = Draft::new(Taste::around(random, width));
    draft.taste.fresh = random.pick(&[50, 90, 100]);
    draft.taste.pool = match op {
        VECTOR_AND | PRODUCT => [0, 0, u32::MAX],
        VECTOR_OR => [u32::MAX, u32::MAX, 0],
        SIGNED_LESS => [0, 1, random.below(2) as u32].map(|least| (1 << (width - 1)) - 1 + least),
        _ => [0, u32::MAX, width],
    };
    draft.taste.vectors.truncate(1);
    let sort = sort_for(random, &draft.taste, op);
    if op == READ {
        draft.taste.fresh = random.pick(&[20, 50]);
        let ops = if random.chance(draft.taste.chosen) { [STORE, CHOICE] } else { [STORE; 2] };
        for _ in 0..random.below(3) {
            let op = random.pick(&ops);
            draft.apply(random, op, sort);
        }
    }
    draft.apply(random, op, sort);
    for _ in 0..random.below(3) {
        let op = random.pick(&SCALAR);
        let sort = sort_for(random, &draft.taste, op);
        draft.apply(random, op, sort);
    }
    draft.close(random);
    draft
}

/// A chain of `length` stores with reads at some of its places.
pub fn chain(random: &mut Random, length: usize) -> Draft {
    let mut draft = Draft::new(Taste::new(random));
    draft.taste.fresh = random.pick(&[5, 20]);
    let sort = random.pick(&draft.taste.arrays);
    let links = links(random, &mut draft, sort, length);
    for i in 0..random.between(1, 3) {
        let array = if i == 0 { links[length] } else { random.pick(&links) };
        compared_read(random, &mut draft, array);
    }
    if random.chance(50) {
        let op = random.pick(&[AND, OR, IMPLIES]);
        draft.apply(random, op, Sort::Boolean);
    }
    draft
}

/// A chain of `length` stores: the numbers of its array terms. In half the chains the indexes differ from store to store.
fn links(random: &mut Random, draft: &mut Draft, sort: Sort, length: usize) -> Vec<u32> {
    let Sort::Array(m, n) = sort else { unreachable!("an array sort") };
    for sort in [Sort::Vector(m), Sort::Vector(n)] {
        draft.leaf(random, sort);
        draft.leaf(random, sort);
    }
    let mut links = vec![draft.variable(random, sort)];
    let differ = random.chance(50);
    for i in 0..length {
        let top = links[i];
        let index = match differ {
            true => draft.push([CONSTANT, 0, m, i as u32 & (u32::MAX >> (32 - m)), 0, 0]),
            false => draft.operand(random, Sort::Vector(m)),
        };
        let value = draft.operand(random, Sort::Vector(n));
        links.push(draft.push([STORE, m, n, top, index, value]));
    }
    links
}

/// A read of the array at some index, and a comparison of what is read.
pub fn compared_read(random: &mut Random, draft: &mut Draft, array: u32) {
    let [_, m, n, ..] = draft.terms[array as usize];
    let index = match random.chance(40) {
        true => draft.any(random, Sort::Vector(m)),
        false => draft.operand(random, Sort::Vector(m)),
    };
    let read = draft.push([READ, 0, n, array, index, 0]);
    let other = if random.chance(30) { read } else { draft.operand(random, Sort::Vector(n)) };
    draft.push([random.pick(&[EQUAL, LESS, SIGNED_LESS]), 0, 0, read, other, 0]);
}

/// A table of exactly `size` terms that are mostly reads of long chains, or of large arrays with choices: finished, it is far longer.
pub fn deep(random: &mut Random, size: usize) -> Draft {
    let (mut draft, sort) = choices::begun(random);
    let links = match random.chance(50) {
        true => links(random, &mut draft, sort, 16),
        false => [14, 16, 16].map(|size| choices::tree(random, &mut draft, sort, size)).to_vec(),
    };
    let Sort::Array(m, n) = sort else { unreachable!("an array sort") };
    while draft.terms.len() < size - 1 {
        let array = links[links.len() - random.between(1, 3)];
        let index = draft.any(random, Sort::Vector(m));
        draft.push([READ, 0, n, array, index, 0]);
    }
    let (p, q) = (size as u32 - 2, draft.any(random, Sort::Vector(n)));
    draft.push([random.pick(&[EQUAL, LESS, SIGNED_LESS]), 0, 0, p, q, 0]);
    draft
}

/// A mixture of exactly `size` terms.
pub fn exactly(random: &mut Random, size: usize) -> Draft {
    let mut draft = mixed(random, size.saturating_sub(12).max(1));
    while draft.terms.len() < size {
        let last = draft.terms.len() as u32 - 1;
        let before = draft.terms[..last as usize].iter().rposition(|t| (t[1], t[2]) == (0, 0));
        match before {
            Some(before) => draft.push([random.pick(&[AND, OR, IMPLIES, EQUAL]), 0, 0, last, before as u32, 0]),
            None => draft.push([NOT, 0, 0, last, 0, 0]),
        };
    }
    assert_eq!(draft.terms.len(), size, "the mixture is not longer than asked for");
    draft
}
