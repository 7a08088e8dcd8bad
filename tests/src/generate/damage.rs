//! Damage to tables and settings: each kind aims at one refusal, and may well meet another.

use super::choices;
use super::draft::{numbers_of, width, Draft};
use super::setting::Setting;
use crate::random::Random;
use crate::reference::term::*;

/// Damages a table once, aiming at this refusal (1 to 10), or anywhere (11 and above).
pub fn table(random: &mut Random, table: &mut Vec<u32>, aim: usize) {
    match aim {
        1 => length(random, table),
        2 => table.extend([CONSTANT, 0, 0, 0, 0, 0].repeat(513 - (table.len() / 6).min(513))),
        3 => operator(random, table),
        4 => sort(random, table),
        5 => field(random, table),
        6 => match random.below(6) {
            0..=2 => like_operands(random, table),
            3 | 4 => sorts(random, table),
            _ => faulty_choice(random, table),
        },
        7 => leaf(random, table),
        8 => clash(random, table),
        9 if random.chance(40) => seventeenth(random, table),
        9 => *table = choices::too_large(random).numbers(),
        10 => last(random, table),
        _ => anywhere(random, table),
    }
}

fn length(random: &mut Random, table: &mut Vec<u32>) {
    match random.below(3) {
        0 => table.clear(),
        1 => table.truncate(table.len() - random.between(1, 5)),
        _ => table.extend(vec![0; random.between(1, 5)]),
    }
}

fn operator(random: &mut Random, table: &mut [u32]) {
    let at = 6 * random.below(table.len() / 6);
    table[at] = random.pick(&[LAST + 1, LAST + 2, 255, 1 << 31]);
}

fn sort(random: &mut Random, table: &mut [u32]) {
    let at = 6 * random.below(table.len() / 6);
    let (m, n) = random.pick(&[(8, 0), (0, 33), (33, 8), (8, 33), (32, 0), (33, 0), (u32::MAX, 1), (1, u32::MAX), (0, 1 << 31)]);
    table[at + 1] = m;
    table[at + 2] = n;
}

fn field(random: &mut Random, table: &mut [u32]) {
    let number = random.below(table.len() / 6);
    let term = Term::of(&table[6 * number..6 * number + 6]);
    let own = number as u32;
    let field = random.below(3);
    table[6 * number + 3 + field] = match field < term.operands() {
        true => random.pick(&[own, own + 1, u32::MAX, 1 << 31]),
        false => random.pick(&[1, 2, u32::MAX]),
    };
}

/// Another sort, another operator, other operands.
fn sorts(random: &mut Random, table: &mut [u32]) {
    let number = random.below(table.len() / 6);
    let at = 6 * number;
    let term = Term::of(&table[at..at + 6]);
    match random.below(6) {
        0 => table[at + 2] = term.n % 32 + 1,
        1 => (table[at + 1], table[at + 2]) = random.pick(&[(0, 0), (0, 1), (0, 8), (8, 8)]),
        2 => table[at + 1] = random.pick(&[0, 1, term.m % 32 + 1, term.n]),
        3 => table[at] = random.below(LAST as usize + 1) as u32,
        4 if number > 0 => table[at + 3 + random.below(3)] = random.below(number) as u32,
        _ => table.swap(at + 3, at + 4 + random.below(2)),
    }
}

/// Appends a term whose operands have one sort, allowed for its operator or not: a sum of Booleans, an equality of arrays.
fn like_operands(random: &mut Random, table: &mut Vec<u32>) {
    let sorts: Vec<(u32, u32)> = table.chunks(6).map(|t| (t[1], t[2])).collect();
    let with = |wanted: &dyn Fn((u32, u32)) -> bool| -> Vec<u32> {
        (0..sorts.len()).filter(|&t| wanted(sorts[t])).map(|t| t as u32).collect()
    };
    let (arrays, tests) = (with(&|sort| sort.0 != 0), with(&|sort| sort == (0, 0)));
    let x = if arrays.is_empty() || random.chance(50) { random.below(sorts.len()) as u32 } else { random.pick(&arrays) };
    let (m, n) = sorts[x as usize];
    let other = random.pick(&with(&|sort| sort == (m, n)));
    let op = random.pick(&SCALAR);
    let (m, n) = if compares(op) { (0, 0) } else { (m, n) };
    match op {
        NOT | VECTOR_NOT | NEGATE => table.extend([op, m, n, x, 0, 0]),
        CHOICE if tests.is_empty() => {}
        CHOICE => table.extend([op, m, n, random.pick(&tests), x, other]),
        _ => table.extend([op, m, n, x, other, 0]),
    }
}

/// Appends a choice between arrays of two sorts, or one with a test that is no Boolean; the size may be over 16 besides.
fn faulty_choice(random: &mut Random, table: &mut Vec<u32>) {
    let size = random.pick(&[0, 1, 8, 16, 16]);
    *table = choices::whole(random, size).numbers();
    let terms: Vec<Term> = table.chunks(6).map(Term::of).collect();
    let arrays: Vec<usize> = (0..terms.len()).filter(|&t| terms[t].m != 0).collect();
    let x = if random.chance(70) { arrays[arrays.len() - 1] } else { random.pick(&arrays) };
    let (m, n) = (terms[x].m, terms[x].n);
    let number = |wanted: &dyn Fn(&Term) -> bool| terms.iter().position(wanted).map(|t| t as u32);
    let (x, test) = (x as u32, number(&|t| t.n == 0).unwrap_or(0));
    if random.chance(30) {
        let test = number(&|t| t.n != 0).unwrap_or(x);
        return table.extend([CHOICE, m, n, test, x, x]);
    }
    let used = |slot: &u32| number(&|t| t.op == VARIABLE && t.p == *slot).is_some();
    let slot = (0..256).find(|slot| !used(slot)).unwrap_or(0);
    let other = random.pick(&[(m % 32 + 1, n), (m, n % 32 + 1), (m % 32 + 1, n % 32 + 1)]);
    let y = terms.len() as u32;
    table.extend([VARIABLE, other.0, other.1, slot, 0, 0]);
    let [q, r] = random.pick(&[[x, y], [y, x]]);
    let (m, n) = random.pick(&[(m, n), other]);
    table.extend([CHOICE, m, n, test, q, r]);
}

fn leaf(random: &mut Random, table: &mut [u32]) {
    let leaves: Vec<usize> = (0..table.len() / 6).filter(|t| table[6 * t] <= VARIABLE).collect();
    if leaves.is_empty() {
        return;
    }
    let at = 6 * random.pick(&leaves);
    let n = table[at + 2];
    if table[at] == CONSTANT {
        let above = 1u64.checked_shl(n.max(1)).unwrap_or(0) as u32;
        table[at + 3] = random.pick(&[above.max(1), u32::MAX, above.saturating_add(1)]);
    } else if random.chance(50) {
        table[at + 3] = random.pick(&[256, 257, u32::MAX]);
    } else {
        table[at + 4] = random.pick(&[2, 3, u32::MAX]);
    }
}

/// A variable's slot with another sort or mark, put before the table's end.
fn clash(random: &mut Random, table: &mut Vec<u32>) {
    let variables: Vec<usize> = (0..table.len() / 6).filter(|t| table[6 * t] == VARIABLE).collect();
    if variables.is_empty() {
        return table.extend([VARIABLE, 0, 0, 0, 0, 0, VARIABLE, 0, 0, 0, 1, 0]);
    }
    let number = random.pick(&variables);
    if variables.len() > 1 && random.chance(40) {
        let other = random.pick(&variables);
        return table[6 * number + 3] = table[6 * other + 3];
    }
    let mut term = table[6 * number..6 * number + 6].to_vec();
    if random.chance(50) {
        term[4] ^= 1;
    } else {
        let other = [Sort::Boolean, Sort::Vector(width(random)), Sort::Array(width(random), width(random))];
        (term[1], term[2]) = numbers_of(random.pick(&other));
    }
    let rule = [NOT, 0, 0, table.len() as u32 / 6 - 1, 0, 0];
    table.extend(term);
    table.extend(rule);
}

/// A chain of 17 stores, read or not, in place of the table.
fn seventeenth(random: &mut Random, table: &mut Vec<u32>) {
    let n = width(random);
    let slot = random.below(256) as u32;
    *table = vec![VARIABLE, n, n, slot, 0, 0, CONSTANT, 0, n, 1, 0, 0];
    let length = random.between(17, 19) as u32;
    for i in 0..length {
        let beneath = if i == 0 { 0 } else { i + 1 };
        table.extend([STORE, n, n, beneath, 1, 1]);
    }
    let top = length + 1;
    if random.chance(50) {
        table.extend([READ, 0, n, top, 1, 0]);
    }
    table.extend([EQUAL, 0, 0, 1, 1, 0]);
}

fn last(random: &mut Random, table: &mut Vec<u32>) {
    let no_rule = |t: usize, table: &[u32]| table[6 * t + 2] != 0;
    let ends: Vec<usize> = (0..table.len() / 6).filter(|&t| no_rule(t, table)).collect();
    if ends.is_empty() || random.chance(30) {
        table.extend([CONSTANT, 0, 8, random.below(256) as u32, 0, 0]);
    } else {
        table.truncate(6 * random.pick(&ends) + 6);
    }
}

fn anywhere(random: &mut Random, table: &mut [u32]) {
    if table.is_empty() {
        return;
    }
    let at = random.below(table.len());
    table[at] = match random.below(5) {
        0 => table[at].wrapping_add(1),
        1 => table[at].wrapping_sub(1),
        2 => table[at] ^ 1 << random.below(32),
        3 => random.below(34) as u32,
        _ => random.word(),
    };
}

/// Damages a setting once, aiming at this refusal (11 to 15).
pub fn setting(random: &mut Random, setting: &mut Setting, draft: &Draft, aim: usize) {
    match aim {
        11 => match random.chance(50) {
            true => setting.cells.extend(vec![0; random.between(1, 2)]),
            false => setting.cells.truncate(setting.cells.len().saturating_sub(random.between(1, 2))),
        },
        12 => {
            let keep = random.below(setting.values.len() + 1);
            setting.values.truncate(keep);
        }
        13 => wide_value(random, setting, draft),
        14 => {
            let used: Vec<u32> = draft.inputs.iter().map(|i| i.0).collect();
            let slot = if used.is_empty() || random.chance(50) { random.below(300) as u32 } else { random.pick(&used) };
            insert_cell(random, setting, [slot, 0, 0]);
        }
        _ => wide_cell(random, setting, draft),
    }
}

fn above(random: &mut Random, n: u32) -> Option<u32> {
    let least = 1u32.checked_shl(n)?;
    Some(random.pick(&[least, u32::MAX, least + 1]))
}

fn wide_value(random: &mut Random, setting: &mut Setting, draft: &Draft) {
    if draft.inputs.is_empty() {
        return;
    }
    let (slot, sort, _) = random.pick(&draft.inputs);
    let wide = above(random, numbers_of(sort).1.max(1));
    if let (Some(wide), Some(value)) = (wide, setting.values.get_mut(slot as usize)) {
        *value = wide;
    }
}

fn wide_cell(random: &mut Random, setting: &mut Setting, draft: &Draft) {
    let arrays: Vec<(u32, Sort, u32)> = draft.inputs.iter().copied().filter(|i| matches!(i.1, Sort::Array(..))).collect();
    if arrays.is_empty() {
        return;
    }
    let (slot, sort, _) = random.pick(&arrays);
    let (m, n) = numbers_of(sort);
    let (index, value) = match random.chance(50) {
        true => (above(random, m).unwrap_or(0), 0),
        false => (0, above(random, n).unwrap_or(0)),
    };
    insert_cell(random, setting, [slot, index, value]);
}

/// Puts a cell somewhere in the row of cells.
fn insert_cell(random: &mut Random, setting: &mut Setting, cell: [u32; 3]) {
    let at = 3 * random.below(setting.cells.len() / 3 + 1);
    setting.cells.splice(at..at, cell);
}
