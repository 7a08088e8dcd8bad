//! The finished table: the terms, T, F, the groups, and the conjunction of rule and condition.

use super::admission::{Known, admitted};
use super::{LARGEST, Refusal, TERMS, Term, answered, greatest, ones};

const NOT: u32 = 2;
const AND: u32 = 3;
const OR: u32 = 4;
const EQUAL: u32 = 6;
const CHOICE: u32 = 7;
const LESS: u32 = 14;
const READ: u32 = 15;

#[inline(never)]
pub fn finish(table: &[u32], room: &mut [u32], answer: &mut [u64; 4]) -> u32 {
    answered(finished(table, room), answer)
}

#[inline(always)]
fn finished(table: &[u32], room: &mut [u32]) -> Result<[u64; 4], Refusal> {
    let mut known = Known::<TERMS>::new();
    let terms = admitted(table, TERMS, &mut known)?;
    let added: usize = terms.iter().map(|term| added(term, &known.sizes)).sum();
    let needed = terms.len() + added + 3;
    let room = room.as_chunks_mut::<6>().0;
    if room.len() < needed {
        return Err((21, needed as u64));
    }
    let count = terms.len();
    room[..count].copy_from_slice(terms);
    let mut groups = Groups { room: &mut room[..needed], next: count, conditions: [0; TERMS] };
    groups.push([0, 0, 0, 1, 0, 0]);
    groups.push([0; 6]);
    for (t, term) in terms.iter().enumerate() {
        groups.conditions[t] = groups.group(terms, term);
    }
    let condition = groups.conditions[count - 1];
    let last = groups.push([AND, 0, 0, count as u32 - 1, condition, 0]);
    Ok([needed as u64, u64::from(condition), u64::from(last), 0])
}

/// How many terms a group has.
#[inline(always)]
fn added(term: &Term, sizes: &[u8; TERMS]) -> usize {
    const ADDED: [u8; 21] = [0, 0, 0, 7, 5, 6, 1, 6, 0, 8, 8, 1, 8, 6, 9, 1, 0, 0, 1, 9, 9];
    match term[0] {
        READ => 1 + 9 * usize::from(sizes[term[3] as usize]),
        CHOICE if term[1] != 0 => 0,
        op => usize::from(ADDED[op as usize]),
    }
}

/// A finished table being written.
struct Groups<'a> {
    room: &'a mut [Term],
    next: usize,
    /// By term: the number of its condition.
    conditions: [u32; TERMS],
}

impl Groups<'_> {
    #[inline(always)]
    fn push(&mut self, term: Term) -> u32 {
        self.room[self.next] = term;
        self.next += 1;
        self.next as u32 - 1
    }

    #[inline(always)]
    fn and(&mut self, p: u32, q: u32) -> u32 {
        self.push([AND, 0, 0, p, q, 0])
    }

    #[inline(always)]
    fn or(&mut self, p: u32, q: u32) -> u32 {
        self.push([OR, 0, 0, p, q, 0])
    }

    #[inline(always)]
    fn not(&mut self, p: u32) -> u32 {
        self.push([NOT, 0, 0, p, 0, 0])
    }

    #[inline(always)]
    fn equal(&mut self, p: u32, q: u32) -> u32 {
        self.push([EQUAL, 0, 0, p, q, 0])
    }

    #[inline(always)]
    fn condition(&self, t: u32) -> u32 {
        self.conditions[t as usize]
    }

    /// Writes a term's group; the number of its condition.
    #[inline(always)]
    fn group(&mut self, terms: &[Term], term: &Term) -> u32 {
        let &[op, m, n, p, q, r] = term;
        let (yes, no) = (terms.len() as u32, terms.len() as u32 + 1);
        match op {
            0 => yes,
            1 => yes + q,
            2 | 8 | 17 => self.condition(p),
            3 => self.group_and(p, q),
            4 => self.group_or(p, q),
            5 => self.group_implies(p, q),
            6 | 11 | 18 => self.and(self.condition(p), self.condition(q)),
            7 if m == 0 => self.group_choice(p, q, r),
            9 | 12 => self.group_absorbing(n, 0, p, q),
            10 => self.group_absorbing(n, ones(n), p, q),
            13 => self.group_shift(n, p, q),
            14 => {
                let n = terms[p as usize][2];
                self.group_of_two(n, (p, ones(n)), (q, 0), p, q)
            }
            15 => self.group_read(terms, n, p, q),
            19 => {
                let n = terms[p as usize][2];
                self.group_of_two(n, (p, greatest(n)), (q, greatest(n) + 1), p, q)
            }
            20 => self.group_of_two(n, (p, 0), (p, ones(n)), p, q),
            _ => no,
        }
    }

    #[inline(always)]
    fn group_and(&mut self, p: u32, q: u32) -> u32 {
        let (c, d) = (self.condition(p), self.condition(q));
        let not_p = self.not(p);
        let by_p = self.and(c, not_p);
        let not_q = self.not(q);
        let by_q = self.and(d, not_q);
        self.settled_or_both(by_p, by_q, c, d)
    }

    #[inline(always)]
    fn group_or(&mut self, p: u32, q: u32) -> u32 {
        let (c, d) = (self.condition(p), self.condition(q));
        let by_p = self.and(c, p);
        let by_q = self.and(d, q);
        self.settled_or_both(by_p, by_q, c, d)
    }

    #[inline(always)]
    fn group_implies(&mut self, p: u32, q: u32) -> u32 {
        let (c, d) = (self.condition(p), self.condition(q));
        let not_p = self.not(p);
        let by_p = self.and(c, not_p);
        let by_q = self.and(d, q);
        self.settled_or_both(by_p, by_q, c, d)
    }

    /// Vector and, vector or, product: one value of an operand settles them.
    #[inline(always)]
    fn group_absorbing(&mut self, n: u32, value: u32, p: u32, q: u32) -> u32 {
        let constant = self.push([0, 0, n, value, 0, 0]);
        let by_p = self.free_and_equal(p, constant);
        let by_q = self.free_and_equal(q, constant);
        self.settled_or_both(by_p, by_q, self.condition(p), self.condition(q))
    }

    /// Less, signed less, the shift right: an operand that has a value of n bits settles them, or another with another value.
    #[inline(always)]
    fn group_of_two(&mut self, n: u32, one: (u32, u32), other: (u32, u32), p: u32, q: u32) -> u32 {
        let constant = self.push([0, 0, n, one.1, 0, 0]);
        let by_one = self.free_and_equal(one.0, constant);
        let constant = self.push([0, 0, n, other.1, 0, 0]);
        let by_other = self.free_and_equal(other.0, constant);
        self.settled_or_both(by_one, by_other, self.condition(p), self.condition(q))
    }

    /// An operand that has a constant's value, together with its condition.
    #[inline(always)]
    fn free_and_equal(&mut self, operand: u32, constant: u32) -> u32 {
        let equal = self.equal(operand, constant);
        self.and(self.condition(operand), equal)
    }

    #[inline(always)]
    fn settled_or_both(&mut self, by_p: u32, by_q: u32, c: u32, d: u32) -> u32 {
        let either = self.or(by_p, by_q);
        let both = self.and(c, d);
        self.or(either, both)
    }

    #[inline(always)]
    fn group_shift(&mut self, n: u32, p: u32, q: u32) -> u32 {
        let (c, d) = (self.condition(p), self.condition(q));
        let width = self.push([0, 0, n, n, 0, 0]);
        let less = self.push([LESS, 0, 0, q, width, 0]);
        let out = self.not(less);
        let by_q = self.and(d, out);
        let both = self.and(c, d);
        self.or(by_q, both)
    }

    #[inline(always)]
    fn group_choice(&mut self, p: u32, q: u32, r: u32) -> u32 {
        let (c, d, e) = (self.condition(p), self.condition(q), self.condition(r));
        let taken = self.push([CHOICE, 0, 0, p, d, e]);
        let by_test = self.and(c, taken);
        let both = self.and(d, e);
        let same = self.equal(q, r);
        let by_branches = self.and(both, same);
        self.or(by_test, by_branches)
    }

    /// From the bottom of a chain of stores, which is a variable or a choice, outward.
    #[inline(always)]
    fn group_read(&mut self, terms: &[Term], n: u32, array: u32, index: u32) -> u32 {
        let mut chain = [0; LARGEST as usize];
        let (mut stores, mut bottom) = (0, array);
        while terms[bottom as usize][0] == 16 {
            chain[stores] = bottom;
            stores += 1;
            bottom = terms[bottom as usize][3];
        }
        let mut below = match terms[bottom as usize][0] {
            1 => self.and(self.condition(bottom), self.condition(index)),
            _ => self.group_array_choice(terms, &terms[bottom as usize], index),
        };
        for &store in chain[..stores].iter().rev() {
            below = self.group_store(&terms[store as usize], n, index, below);
        }
        below
    }

    /// The groups of both branches, and the eight terms of the choice.
    #[inline(never)]
    fn group_array_choice(&mut self, terms: &[Term], choice: &Term, index: u32) -> u32 {
        let &[_, _, n, test, q, r] = choice;
        let d = self.group_read(terms, n, q, index);
        let e = self.group_read(terms, n, r, index);
        let of_q = self.push([READ, 0, n, q, index, 0]);
        let of_r = self.push([READ, 0, n, r, index, 0]);
        let taken = self.push([CHOICE, 0, 0, test, d, e]);
        let by_test = self.and(self.condition(test), taken);
        let both = self.and(d, e);
        let same = self.equal(of_q, of_r);
        let by_branches = self.and(both, same);
        self.or(by_test, by_branches)
    }

    /// The nine terms of one store of a read's chain.
    #[inline(always)]
    fn group_store(&mut self, store: &Term, n: u32, index: u32, below: u32) -> u32 {
        let &[_, _, _, array, at, value] = store;
        let (c, d, e) = (self.condition(at), self.condition(index), self.condition(value));
        let read = self.push([READ, 0, n, array, index, 0]);
        let same_index = self.equal(at, index);
        let taken = self.push([CHOICE, 0, 0, same_index, e, below]);
        let indexes = self.and(c, d);
        let by_index = self.and(indexes, taken);
        let same_value = self.equal(value, read);
        let both = self.and(e, below);
        let by_value = self.and(both, same_value);
        self.or(by_index, by_value)
    }
}
