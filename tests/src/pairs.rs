//! Demand 3 by sampling: a second setting, judged under the same sheet, that agrees on every input that is unmarked under it.

use crate::case::{Case, Checker};
use crate::random::Random;
use crate::reference::flaw::Flaw;
use crate::reference::sheets;
use crate::reference::term::*;
use std::collections::BTreeMap;

/// The inputs of a table, by slot: sort and whether they are marked under the sheet.
pub fn inputs(case: &Case) -> BTreeMap<u32, (Sort, bool)> {
    let marked = |t: &Term| sheets::is_marked(&case.sheet, t.p, t.q, Flaw::None);
    let terms = case.table.chunks(6).map(Term::of);
    terms.filter(|t| t.op == VARIABLE).map(|t| (t.p, (t.sort().expect("a sort"), marked(&t)))).collect()
}

/// The call with another setting: it agrees on every unmarked input, and all else is drawn anew. The case is one that judging accepts.
pub fn partner(case: &Case, seed: u64) -> Case {
    let random = &mut Random::new(seed);
    let inputs = inputs(case);
    let used = inputs.keys().last().map_or(0, |&slot| slot as usize + 1);
    let mut values: Vec<u32> = (0..used + random.below(4)).map(|_| random.word()).collect();
    let mut first = vec![];
    let mut hidden = vec![];
    for (&slot, &(sort, marked)) in &inputs {
        let changed = marked && random.chance(70);
        let own = if changed { fitting(random, sort) } else { case.values[slot as usize] };
        values[slot as usize] = own;
        if let Sort::Array(m, _) = sort {
            let mut content = if marked { some_cells(random, sort) } else { listed(case, slot) };
            if !marked {
                values[slot as usize] = relist(random, sort, own, m, &mut content);
            }
            for (&index, &value) in &content {
                first.push([slot, index, value]);
                if random.chance(20) {
                    hidden.push([slot, index, fitting(random, sort)]);
                }
            }
        }
    }
    random.shuffle(&mut first);
    random.shuffle(&mut hidden);
    first.extend(hidden);
    let allowance = case.allowance.saturating_add(random.below(5) as u64);
    Case { values, cells: first.concat(), allowance, room: case.room + random.below(5), ..case.clone() }
}

/// A value of the sort (for an array: one that it may hold), often 0, 1 or all ones.
fn fitting(random: &mut Random, sort: Sort) -> u32 {
    let n = match sort {
        Sort::Boolean => 1,
        Sort::Vector(n) | Sort::Array(_, n) => n,
    };
    let any = random.word();
    random.pick(&[0, 1, u32::MAX, any, any]) & (u32::MAX >> (32 - n))
}

fn some_cells(random: &mut Random, sort: Sort) -> BTreeMap<u32, u32> {
    let Sort::Array(m, _) = sort else { unreachable!("an array sort") };
    (0..random.below(4)).map(|_| (fitting(random, Sort::Vector(m)), fitting(random, sort))).collect()
}

/// The cells of a slot that count.
fn listed(case: &Case, slot: u32) -> BTreeMap<u32, u32> {
    let mut cells = BTreeMap::new();
    for cell in case.cells.chunks(3).filter(|c| c[0] == slot) {
        cells.entry(cell[1]).or_insert(cell[2]);
    }
    cells
}

/// Lists the same array otherwise: cells that hold the slot's own value come and go, and where
/// every cell is listed the slot's own value is free. Gives the slot's value.
fn relist(random: &mut Random, sort: Sort, own: u32, m: u32, cells: &mut BTreeMap<u32, u32>) -> u32 {
    if random.chance(50) {
        cells.retain(|_, value| *value != own);
    }
    for _ in 0..random.below(3) {
        let index = fitting(random, Sort::Vector(m));
        cells.entry(index).or_insert(own);
    }
    if m > 4 || random.chance(50) {
        return own;
    }
    for index in 0..1 << m {
        cells.entry(index).or_insert(own);
    }
    fitting(random, sort)
}

/// What of demand 3 the two judgements break, if anything. A case that is refused breaks nothing.
pub fn fault(checker: &dyn Checker, case: &Case, seed: u64) -> Option<String> {
    let one = checker.call(case);
    if one.number != 0 {
        return None;
    }
    let other_case = partner(case, seed);
    let other = checker.call(&other_case);
    let [rule, condition, steps, _] = one.numbers;
    let [other_rule, other_condition, other_steps, _] = other.numbers;
    let broken = match other.number {
        0 if condition != other_condition => "the conditions differ",
        0 if steps != other_steps => "the steps differ",
        0 if condition == 1 && rule != other_rule => "the condition is true and the rules differ",
        0 => return None,
        _ => "the second setting is refused",
    };
    Some(format!(
        "{broken}\nfirst: {one}\nsecond: {other}\nthe second setting: values {:?}, cells {:?}",
        other_case.values, other_case.cells
    ))
}
