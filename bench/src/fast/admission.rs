//! Refusals 1 to 10, and what later stages use of an admitted table.

use super::{LARGEST, Refusal, Term, largest};

/// What is learnt of a table on the way through it. `N` is at least its count of terms.
pub struct Known<const N: usize> {
    /// By slot: 0 where no variable has it, else its sort and mark, packed.
    pub slots: [u16; 256],
    /// The first variable term of each slot in use, ascending.
    pub firsts: [u32; 256],
    pub firsts_len: usize,
    /// By array term: its size.
    pub sizes: [u8; N],
    /// The sum over the reads.
    pub steps: u64,
}

impl<const N: usize> Known<N> {
    #[inline(always)]
    pub fn new() -> Self {
        Known { slots: [0; 256], firsts: [0; 256], firsts_len: 0, sizes: [0; N], steps: 0 }
    }

    pub fn firsts(&self) -> &[u32] {
        &self.firsts[..self.firsts_len]
    }

    /// Array term t is over others of this size together: 9, or 0.
    #[inline(always)]
    fn sized(&mut self, t: usize, beneath: u8) -> u32 {
        if beneath >= LARGEST {
            return 9;
        }
        self.sizes[t] = beneath + 1;
        0
    }
}

/// A used slot: bit 13 set, mark in bit 12, m in bits 6 to 11, n in bits 0 to 5.
#[inline(always)]
fn packed(m: u32, n: u32, mark: u32) -> u16 {
    (1 << 13 | mark << 12 | m << 6 | n) as u16
}

#[inline(always)]
pub fn slot_sort(packed: u16) -> (u32, u32) {
    (u32::from(packed >> 6 & 63), u32::from(packed & 63))
}

/// A sort as one number: m below, n above. A Boolean is 0.
#[inline(always)]
fn sort(term: &Term) -> u64 {
    u64::from(term[1]) | vector(term[2])
}

#[inline(always)]
fn vector(n: u32) -> u64 {
    u64::from(n) << 32
}

#[inline(always)]
fn is_vector(sort: u64) -> bool {
    sort as u32 == 0 && sort != 0
}

/// The terms of an admitted table.
#[inline(always)]
pub fn admitted<'a, const N: usize>(
    table: &'a [u32],
    limit: usize,
    known: &mut Known<N>,
) -> Result<&'a [Term], Refusal> {
    let (terms, rest) = table.as_chunks::<6>();
    if terms.is_empty() || !rest.is_empty() {
        return Err((1, 0));
    }
    if terms.len() > limit {
        return Err((2, 0));
    }
    for t in 0..terms.len() {
        let number = fault(terms, t, known);
        if number != 0 {
            return Err((number, t as u64));
        }
    }
    let last = terms.len() - 1;
    if sort(&terms[last]) != 0 { Err((10, last as u64)) } else { Ok(terms) }
}

/// 5 where a field breaks its bound, 6 where the sorts are wrong, else 0.
#[inline(always)]
fn first_of(bounds: bool, sorts: impl FnOnce() -> bool) -> u32 {
    if !bounds {
        5
    } else if !sorts() {
        6
    } else {
        0
    }
}

/// The lowest refusal of term t among 3 to 9, or 0.
#[inline(always)]
fn fault<const N: usize>(terms: &[Term], t: usize, known: &mut Known<N>) -> u32 {
    let term = &terms[t];
    let &[op, m, n, p, q, r] = term;
    if op > 20 {
        return 3;
    }
    if n > 32 || m > 32 || (m != 0 && n == 0) {
        return 4;
    }
    let s = sort(term);
    let at = |k: u32| sort(&terms[k as usize]);
    let one = (p as usize) < t && q | r == 0;
    let two = (p as usize) < t && (q as usize) < t && r == 0;
    let three = (p as usize) < t && (q as usize) < t && (r as usize) < t;
    match op {
        0 => match first_of(q | r == 0, || m == 0) {
            0 if p > largest(n) => 7,
            number => number,
        },
        1 => variable(term, t, known),
        2 => first_of(one, || s | at(p) == 0),
        3..=5 => first_of(two, || s | at(p) | at(q) == 0),
        6 => first_of(two, || s == 0 && at(p) == at(q) && at(p) as u32 == 0),
        7 => match first_of(three, || at(p) == 0 && at(q) == s && at(r) == s) {
            0 if m != 0 => known.sized(t, known.sizes[q as usize] + known.sizes[r as usize]),
            number => number,
        },
        8 | 17 => first_of(one, || is_vector(s) && at(p) == s),
        9..=13 | 18 | 20 => first_of(two, || is_vector(s) && at(p) == s && at(q) == s),
        14 | 19 => first_of(two, || s == 0 && is_vector(at(p)) && at(p) == at(q)),
        15 => read(terms, term, two, known),
        _ => store(terms, t, three, known),
    }
}

#[inline(always)]
fn variable<const N: usize>(term: &Term, t: usize, known: &mut Known<N>) -> u32 {
    let &[_, m, n, slot, mark, r] = term;
    if r != 0 {
        return 5;
    }
    if slot > 255 || mark > 1 {
        return 7;
    }
    let (now, before) = (packed(m, n, mark), known.slots[slot as usize]);
    if before == 0 {
        known.slots[slot as usize] = now;
        known.firsts[known.firsts_len] = t as u32;
        known.firsts_len += 1;
    } else if before != now {
        return 8;
    }
    0
}

#[inline(always)]
fn read<const N: usize>(terms: &[Term], term: &Term, bounds: bool, known: &mut Known<N>) -> u32 {
    let &[_, m, n, p, q, _] = term;
    let number = first_of(bounds, || {
        let [_, index, width, ..] = terms[p as usize];
        m == 0 && index != 0 && n == width && sort(&terms[q as usize]) == vector(index)
    });
    if number == 0 {
        known.steps += u64::from(known.sizes[p as usize]);
    }
    number
}

#[inline(always)]
fn store<const N: usize>(terms: &[Term], t: usize, bounds: bool, known: &mut Known<N>) -> u32 {
    let term = &terms[t];
    let &[_, m, n, p, q, r] = term;
    let number = first_of(bounds, || {
        let (array, index, value) = (terms[p as usize], terms[q as usize], terms[r as usize]);
        m != 0 && sort(&array) == sort(term) && sort(&index) == vector(m) && sort(&value) == vector(n)
    });
    if number == 0 { known.sized(t, known.sizes[p as usize]) } else { number }
}
