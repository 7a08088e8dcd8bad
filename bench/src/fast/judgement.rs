//! The value and the condition of every term, in one pass.

use super::admission::{Known, admitted};
use super::evaluation::{operation, variable};
use super::setting::{afforded, checked, held};
use super::sheet::named;
use super::{Cell, LARGEST, Refusal, TERMS, Term, answered, greatest, ones};

#[inline(never)]
pub fn judge(
    table: &[u32],
    sheet: &[u32],
    values: &[u32],
    cells: &[u32],
    allowance: u64,
    work: &mut [u32],
    answer: &mut [u64; 4],
) -> u32 {
    answered(judged(table, sheet, values, cells, allowance, work), answer)
}

#[inline(always)]
fn judged(
    table: &[u32],
    sheet: &[u32],
    values: &[u32],
    cells: &[u32],
    allowance: u64,
    work: &mut [u32],
) -> Result<[u64; 4], Refusal> {
    let mut known = Known::<TERMS>::new();
    let terms = admitted(table, TERMS, &mut known)?;
    let named = named(sheet)?;
    let cells = checked(terms, &known, values, cells)?;
    afforded(2 * terms.len(), work.len(), known.steps, allowance)?;
    let (work, truths) = work[..2 * terms.len()].split_at_mut(terms.len());
    for (t, term) in terms.iter().enumerate() {
        (work[t], truths[t]) = match term[0] {
            1 => (variable(term, values), named.free(term[3], term[4])),
            7 if term[1] != 0 => (0, 0),
            15 => Chain { terms, cells, values, work, truths }.read(term),
            _ => (operation(term, terms, work), condition(term, terms, work, truths)),
        };
    }
    let last = terms.len() - 1;
    let (rule, condition) = (u64::from(work[last]), u64::from(truths[last]));
    Ok([rule, condition, known.steps, allowance - known.steps])
}

/// An operand that is free and settles the result, or both free.
#[inline(always)]
fn settled(c: u32, a: bool, d: u32, b: bool) -> u32 {
    c & u32::from(a) | d & u32::from(b) | c & d
}

/// The condition of any term but a variable or a read.
#[inline(always)]
fn condition(term: &Term, terms: &[Term], work: &[u32], truths: &[u32]) -> u32 {
    let &[op, _, n, p, q, r] = term;
    let at = |k: u32| work[k as usize];
    let free = |k: u32| truths[k as usize];
    match op {
        0 => 1,
        2 | 8 | 17 => free(p),
        3 | 9 | 12 => settled(free(p), at(p) == 0, free(q), at(q) == 0),
        4 => settled(free(p), at(p) == 1, free(q), at(q) == 1),
        5 => settled(free(p), at(p) == 0, free(q), at(q) == 1),
        6 | 11 | 18 => free(p) & free(q),
        7 => {
            let taken = free(if at(p) == 1 { q } else { r });
            free(p) & taken | free(q) & free(r) & u32::from(at(q) == at(r))
        }
        10 => settled(free(p), at(p) == ones(n), free(q), at(q) == ones(n)),
        13 => free(q) & (u32::from(at(q) >= n) | free(p)),
        14 => settled(free(p), at(p) == ones(terms[p as usize][2]), free(q), at(q) == 0),
        19 => {
            let greatest = greatest(terms[p as usize][2]);
            settled(free(p), at(p) == greatest, free(q), at(q) == greatest + 1)
        }
        20 => free(p) & (u32::from(at(p) == 0 || at(p) == ones(n)) | free(q)),
        _ => 0,
    }
}

/// What a read looks at.
struct Chain<'a> {
    terms: &'a [Term],
    cells: &'a [Cell],
    values: &'a [u32],
    work: &'a [u32],
    truths: &'a [u32],
}

impl Chain<'_> {
    /// The value at an index, from the outermost store inward; of a choice in the branch taken.
    #[inline(always)]
    fn value(&self, mut array: u32, index: u32) -> u32 {
        loop {
            let [op, _, _, p, q, r] = self.terms[array as usize];
            if op == 1 {
                return held(self.cells, self.values, p, index);
            }
            if op == 7 {
                array = if self.work[p as usize] == 1 { q } else { r };
                continue;
            }
            if self.work[q as usize] == index {
                return self.work[r as usize];
            }
            array = p;
        }
    }

    /// Value and condition. At an index that is not free no read is.
    #[inline(always)]
    fn read(&self, term: &Term) -> (u32, u32) {
        let index = self.work[term[4] as usize];
        if self.truths[term[4] as usize] == 0 {
            (self.value(term[3], index), 0)
        } else {
            self.at_free_index(term[3], index)
        }
    }

    /// A store whose index is free answers where the indexes are equal, else passes the question on.
    /// A store whose index is not free needs a free stored value, equal to what the array beneath
    /// holds: `beneath` is the value on which all that was asked agrees so far. A choice whose test is
    /// free passes the question to the branch taken. Where the test is not free both branches must be
    /// free and agree: the one that is not taken is asked later.
    #[inline(always)]
    fn at_free_index(&self, mut array: u32, index: u32) -> (u32, u32) {
        let (mut found, mut beneath) = (None, None);
        let (mut later, mut count) = ([0; LARGEST as usize], 0);
        loop {
            let [op, _, _, p, q, r] = self.terms[array as usize];
            if op == 7 {
                let (taken, other) = if self.work[p as usize] == 1 { (q, r) } else { (r, q) };
                if self.truths[p as usize] == 0 {
                    later[count] = other;
                    count += 1;
                }
                array = taken;
                continue;
            }
            let (value, free, here, sure) = match op {
                1 => (held(self.cells, self.values, p, index), self.truths[array as usize], true, true),
                _ => self.stored(q, r, index),
            };
            if !here && sure {
                array = p;
                continue;
            }
            if here {
                found = found.or(Some(value));
            }
            if free == 0 || beneath.is_some_and(|other| other != value) {
                return (found.unwrap_or_else(|| self.value(p, index)), 0);
            }
            beneath = Some(value);
            array = p;
            if sure {
                if count == 0 {
                    return (found.unwrap_or(value), 1);
                }
                count -= 1;
                array = later[count];
            }
        }
    }

    /// Of a store: its value, whether it is free, whether it is at this index, and whether its index is free.
    #[inline(always)]
    fn stored(&self, at: u32, value: u32, index: u32) -> (u32, u32, bool, bool) {
        let (at, value) = (at as usize, value as usize);
        (self.work[value], self.truths[value], self.work[at] == index, self.truths[at] == 1)
    }
}
