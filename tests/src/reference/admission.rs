//! Which tables are admitted: refusals 1 to 10.

use super::flaw::Flaw;
use super::term::*;
use super::Refusal;
use std::collections::BTreeMap;

/// The size that an array term may have.
const LARGEST: u64 = 16;

/// An input: what the variables of one slot have in common.
#[derive(Clone, Copy, PartialEq, Debug)]
pub struct Input {
    pub sort: Sort,
    pub mark: u32,
}

/// An admitted table, or one whose first terms are admitted.
#[derive(Default)]
pub struct Table {
    pub terms: Vec<Term>,
    pub sorts: Vec<Sort>,
    /// Of an array term: its size. 0 for other terms.
    pub sizes: Vec<u64>,
    pub inputs: BTreeMap<u32, Input>,
}

pub fn admit(numbers: &[u32], limit: usize, flaw: Flaw) -> Result<Table, Refusal> {
    if numbers.is_empty() || numbers.len() % 6 != 0 {
        return Err(Refusal { number: 1, place: 0 });
    }
    if numbers.len() / 6 > limit {
        return Err(Refusal { number: 2, place: 0 });
    }
    let mut table = Table::default();
    let mut clash = None;
    for (place, numbers) in numbers.chunks(6).enumerate() {
        let term = Term::of(numbers);
        match table.fault(&term, flaw) {
            Some(8) if flaw == Flaw::ClashLast => clash = clash.or(Some(place as u64)),
            Some(number) => return Err(Refusal { number, place: place as u64 }),
            None => {}
        }
        table.add(term, flaw);
    }
    if let Some(place) = clash {
        return Err(Refusal { number: 8, place });
    }
    match table.sorts.last() {
        Some(Sort::Boolean) => Ok(table),
        _ => Err(Refusal { number: 10, place: table.terms.len() as u64 - 1 }),
    }
}

impl Table {
    /// The lowest refusal of a term that comes after those of the table.
    fn fault(&self, term: &Term, flaw: Flaw) -> Option<u32> {
        let last = if flaw == Flaw::SignedUnknown { STORE } else { LAST };
        if term.op > last {
            return Some(3);
        }
        let Some(sort) = term.sort() else { return Some(4) };
        if self.bad_field(term) {
            return Some(5);
        }
        let too_large = self.too_large(term, flaw);
        if too_large && flaw == Flaw::SizeBeforeSorts {
            return Some(9);
        }
        if !self.well_sorted(term, sort, flaw) {
            return Some(6);
        }
        if does_not_fit(term, sort) {
            return Some(7);
        }
        if term.op == VARIABLE && self.inputs.get(&term.p).is_some_and(|i| *i != Input { sort, mark: term.q }) {
            return Some(8);
        }
        if too_large {
            return Some(9);
        }
        None
    }

    /// Whether an array term's size is over 16, read or not.
    fn too_large(&self, term: &Term, flaw: Flaw) -> bool {
        match flaw {
            Flaw::SeventeenAllowed => self.size(term, flaw) > LARGEST + 1,
            Flaw::OnlyReadSizes => term.op == READ && self.sizes[term.p as usize] > LARGEST,
            _ => self.size(term, flaw) > LARGEST,
        }
    }

    /// The size of an array term that comes after those of the table: 0 for a variable, 1 more than its operand for a store, 1 more
    /// than both operands together for a choice. 0 for other terms.
    fn size(&self, term: &Term, flaw: Flaw) -> u64 {
        let of = |operand: u32| self.sizes[operand as usize];
        match term.op {
            STORE => of(term.p).saturating_add(1),
            CHOICE if term.m == 0 => 0,
            CHOICE if flaw == Flaw::OneBranchSize => 1 + of(term.q),
            CHOICE if flaw == Flaw::GreaterBranchSize => 1 + of(term.q).max(of(term.r)),
            CHOICE => of(term.q).saturating_add(of(term.r)).saturating_add(1),
            _ => 0,
        }
    }

    fn bad_field(&self, term: &Term) -> bool {
        let fields = term.fields();
        let operands = &fields[..term.operands()];
        let unused = &fields[term.used()..];
        operands.iter().any(|&o| o as usize >= self.terms.len()) || unused.iter().any(|&u| u != 0)
    }

    fn well_sorted(&self, term: &Term, sort: Sort, flaw: Flaw) -> bool {
        let of = |number: u32| self.sorts[number as usize];
        let (p, q, r) = (term.p, term.q, term.r);
        let is_array = |s: Sort| matches!(s, Sort::Array(..));
        let is_vector = |s: Sort| matches!(s, Sort::Vector(_));
        match term.op {
            CONSTANT => !is_array(sort),
            VARIABLE => true,
            NOT => sort == Sort::Boolean && of(p) == Sort::Boolean,
            AND | OR | IMPLIES => [sort, of(p), of(q)] == [Sort::Boolean; 3],
            EQUAL => sort == Sort::Boolean && of(p) == of(q) && !is_array(of(p)),
            CHOICE if flaw == Flaw::ArraysUnchosen && is_array(sort) => false,
            CHOICE if flaw == Flaw::IndexWidthUnasked && is_array(sort) => {
                of(p) == Sort::Boolean && of(q) == sort && is_array(of(r)) && self.terms[r as usize].n == term.n
            }
            CHOICE => of(p) == Sort::Boolean && of(q) == sort && of(r) == sort,
            VECTOR_NOT | NEGATE => is_vector(sort) && of(p) == sort,
            VECTOR_AND | VECTOR_OR | SUM | PRODUCT | SHIFT | SUBTRACT | SHIFT_RIGHT => {
                is_vector(sort) && of(p) == sort && of(q) == sort
            }
            LESS | SIGNED_LESS => sort == Sort::Boolean && is_vector(of(p)) && of(p) == of(q),
            READ => match of(p) {
                Sort::Array(m, n) => of(q) == Sort::Vector(m) && sort == Sort::Vector(n),
                _ => false,
            },
            _ => match sort {
                Sort::Array(m, n) => of(p) == sort && of(q) == Sort::Vector(m) && of(r) == Sort::Vector(n),
                _ => false,
            },
        }
    }

    fn add(&mut self, term: Term, flaw: Flaw) {
        let sort = term.sort().expect("one of the three sorts");
        if term.op == VARIABLE {
            self.inputs.entry(term.p).or_insert(Input { sort, mark: term.q });
        }
        let size = self.size(&term, flaw);
        self.terms.push(term);
        self.sorts.push(sort);
        self.sizes.push(size);
    }

    /// The width of a term's first operand.
    pub fn operand_width(&self, term: &Term) -> u32 {
        self.terms[term.p as usize].n
    }

    /// The sum over the reads: the size of each read's array.
    pub fn steps(&self) -> u64 {
        self.terms.iter().filter(|t| t.op == READ).map(|t| self.sizes[t.p as usize]).sum()
    }
}

fn does_not_fit(term: &Term, sort: Sort) -> bool {
    match term.op {
        CONSTANT => sort.too_wide(term.p),
        VARIABLE => term.p > 255 || term.q > 1,
        _ => false,
    }
}
