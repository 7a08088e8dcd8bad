//! The laws of printing, by sampling: marks leave no trace; which tables share text; how long a text can be.

use crate::case::{Case, Checker, Routine};
use crate::library::sizes::print_room;
use crate::random::Random;
use crate::reference::admission::admit;
use crate::reference::flaw::Flaw;
use crate::reference::term::*;
use std::collections::{BTreeMap, BTreeSet};

/// Tables to be held beside a printed one.
pub struct Partners {
    /// The table with other marks.
    pub marked: Vec<u32>,
    /// The table without marks and with a slot for each variable, where there are slots enough, and a table made of that one.
    pub pair: Option<(Vec<u32>, Vec<u32>)>,
}

pub fn partners(case: &Case, seed: u64) -> Partners {
    let random = &mut Random::new(seed);
    let plain = plain(&case.table);
    let pair = plain.map(|plain| {
        let other = if random.chance(50) { reordered(random, &plain) } else { changed(random, &plain) };
        (plain, other)
    });
    Partners { marked: marked(random, &case.table), pair }
}

/// The call that prints a table, with room enough.
pub fn call(table: &[u32]) -> Case {
    let room = print_room(table.len() / 6);
    Case { routine: Routine::Print, table: table.to_vec(), ..Case::parse(vec![], room) }
}

/// The text of a table; none where it is refused.
fn text(checker: &dyn Checker, table: &[u32]) -> Option<Vec<u8>> {
    let answer = checker.call(&call(table));
    (answer.number == 0).then(|| answer.text[..answer.numbers[0] as usize].to_vec())
}

fn accepted(table: &[u32]) -> bool {
    admit(table, Routine::Print.limit(), Flaw::None).is_ok()
}

fn places(table: &[u32], wanted: impl Fn(&Term) -> bool) -> Vec<usize> {
    (0..table.len() / 6).filter(|&i| wanted(&Term::of(&table[6 * i..][..6]))).collect()
}

fn variables(table: &[u32]) -> Vec<usize> {
    places(table, |t| t.op == VARIABLE)
}

/// Other marks, one for each slot.
fn marked(random: &mut Random, table: &[u32]) -> Vec<u32> {
    let mut marks = BTreeMap::new();
    let mut table = table.to_vec();
    for i in variables(&table) {
        table[6 * i + 4] = *marks.entry(table[6 * i + 3]).or_insert_with(|| random.below(2) as u32);
    }
    table
}

/// No marks, and a slot of its own for each variable.
fn plain(table: &[u32]) -> Option<Vec<u32>> {
    let mut table = table.to_vec();
    let mut used = BTreeSet::new();
    for i in variables(&table) {
        let own = table[6 * i + 3];
        let slot = (own..256).chain(0..own).find(|slot| !used.contains(slot))?;
        used.insert(slot);
        (table[6 * i + 3], table[6 * i + 4]) = (slot, 0);
    }
    Some(table)
}

/// Two terms in each other's place, the operands of all following.
fn exchanged(table: &[u32], i: usize, j: usize) -> Vec<u32> {
    let f = |x: usize| {
        if x == i {
            j
        } else if x == j {
            i
        } else {
            x
        }
    };
    let mut other = table.to_vec();
    for (place, numbers) in table.chunks(6).enumerate() {
        let mut term = numbers.to_vec();
        let operands = Term::of(numbers).operands();
        term[3..3 + operands].iter_mut().for_each(|x| *x = f(*x as usize) as u32);
        other[6 * f(place)..][..6].copy_from_slice(&term);
    }
    other
}

/// Some variables in another order over the same places.
fn reordered(random: &mut Random, table: &[u32]) -> Vec<u32> {
    let last = table.len() / 6 - 1;
    let movable: Vec<usize> = variables(table).into_iter().filter(|&i| i != last).collect();
    let mut table = table.to_vec();
    for _ in 0..if movable.len() < 2 { 0 } else { 6 } {
        let other = exchanged(&table, random.pick(&movable), random.pick(&movable));
        if accepted(&other) {
            table = other;
        }
    }
    table
}

/// One change of another kind, if the table is accepted with it.
fn changed(random: &mut Random, table: &[u32]) -> Vec<u32> {
    let n = table.len() / 6;
    let (i, j) = (random.below(n), random.below(n));
    let mut other = table.to_vec();
    match random.below(8) {
        0 => other = exchanged(table, i, j),
        1 => other = exchanged(table, i, n - 1),
        2 => (0..6).for_each(|k| other.swap(6 * i + k, 6 * j + k)),
        3 => other.swap(6 * i + 3, 6 * i + 4 + random.below(2)),
        4 => other[6 * i + 3 + random.below(3)] = random.below(i.max(1)) as u32,
        5 => other[6 * i + 3] ^= 1,
        6 => other[6 * i] = random.below(LAST as usize + 1) as u32,
        _ => other.extend([random.pick(&[NOT, CONSTANT]), 0, 0, random.below(2) as u32, 0, 0]),
    }
    let whole = plain(&other).is_some_and(|unchanged| unchanged == other);
    if whole && accepted(&other) {
        other
    } else {
        table.to_vec()
    }
}

/// Whether two tables without marks, each slot used once, differ only in the order of variables over the same places, operands
/// following, a variable that is the rule staying last. A slot tells where a variable went.
pub fn differ_in_order(a: &[u32], b: &[u32]) -> bool {
    let by_slot: BTreeMap<u32, usize> = variables(b).into_iter().map(|i| (b[6 * i + 3], i)).collect();
    let goes = |i: usize| if a[6 * i] == VARIABLE { by_slot.get(&a[6 * i + 3]).copied() } else { Some(i) };
    let n = a.len() / 6;
    let Some(f) = (0..n).map(goes).collect::<Option<Vec<usize>>>() else { return false };
    let follows = |i: usize| {
        let mut term = a[6 * i..][..6].to_vec();
        let operands = Term::of(&term).operands();
        term[3..3 + operands].iter_mut().for_each(|x| *x = f[*x as usize] as u32);
        b[6 * f[i]..].get(..6) == Some(&term)
    };
    a.len() == b.len() && (0..n).all(follows) && f[n - 1] == n - 1
}

/// What of the laws the texts break, if anything. A case that is refused breaks nothing.
pub fn fault(checker: &dyn Checker, case: &Case, seed: u64) -> Option<String> {
    let own = text(checker, &case.table)?;
    let Partners { marked, pair } = partners(case, seed);
    if own.len() > print_room(case.terms()) {
        return Some(format!("{} bytes are over the bound", own.len()));
    }
    if text(checker, &marked).as_ref() != Some(&own) {
        return Some(format!("marks leave a trace: {marked:?}"));
    }
    let (plain, other) = pair?;
    let (one, two) = (text(checker, &plain), text(checker, &other));
    let shared = one == two;
    let broken = one.is_none() || two.is_none() || shared != differ_in_order(&plain, &other);
    broken.then(|| format!("text shared: {shared}\nfirst: {plain:?}\nsecond: {other:?}"))
}
