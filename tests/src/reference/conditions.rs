//! The condition of each term, straight from its definition: no terms are added here.

use super::admission::Table;
use super::flaw::Flaw;
use super::term::*;
use super::values::Values;
use std::collections::BTreeMap;

/// The truths of the terms' conditions, the inputs being marked as `marks` says; false for a store and for a choice of arrays, which
/// have none.
pub fn conditions(table: &Table, marks: &BTreeMap<u32, bool>, values: &Values, flaw: Flaw) -> Vec<bool> {
    let mut conditions = Conditions { table, marks, values, c: Vec::new(), flaw };
    for term in &table.terms {
        let truth = conditions.condition(term);
        conditions.c.push(truth);
    }
    conditions.c
}

/// The width of the operands of less or signed less, and the value of the first and of the second that settles it: nothing is
/// above the greatest, nothing is below the least.
pub fn settles_less(table: &Table, less: &Term, flaw: Flaw) -> (u32, [u64; 2]) {
    let width = if flaw == Flaw::LessOwnWidth { less.n } else { table.operand_width(less) };
    let ones = (1 << width) - 1;
    let is_signed = less.op == SIGNED_LESS && flaw != Flaw::SignedByOnes;
    let mut values = if is_signed { [ones / 2, ones / 2 + 1] } else { [ones, 0] };
    if matches!((flaw, less.op), (Flaw::LessExchanged, LESS) | (Flaw::SignedExchanged, SIGNED_LESS)) {
        values.reverse();
    }
    (width, values)
}

struct Conditions<'a> {
    table: &'a Table,
    /// By slot.
    marks: &'a BTreeMap<u32, bool>,
    values: &'a Values<'a>,
    c: Vec<bool>,
    flaw: Flaw,
}

impl Conditions<'_> {
    fn of(&self, term: u32) -> bool {
        self.c[term as usize]
    }

    fn condition(&self, t: &Term) -> bool {
        let (p, q, r) = (t.p, t.q, t.r);
        let value = |term| self.values.number(term);
        let holds = |term| self.values.holds(term);
        let ones = (1u64 << t.n) - 1;
        match t.op {
            CONSTANT => true,
            VARIABLE => !self.marks[&p],
            STORE => false,
            NOT | VECTOR_NOT | NEGATE => self.of(p),
            EQUAL | SUM | SUBTRACT => self.of(p) && self.of(q),
            LESS if self.flaw == Flaw::LessUnsettled => self.of(p) && self.of(q),
            LESS | SIGNED_LESS => {
                let (_, [of_p, of_q]) = settles_less(self.table, t, self.flaw);
                self.settled(t, value(p) == of_p, value(q) == of_q)
            }
            AND => self.settled(t, !holds(p), !holds(q)),
            OR => self.settled(t, holds(p), holds(q)),
            IMPLIES => self.settled(t, !holds(p), holds(q)),
            VECTOR_AND | PRODUCT => self.settled(t, value(p) == 0, value(q) == 0),
            VECTOR_OR => self.settled(t, value(p) == ones, value(q) == ones),
            SHIFT_RIGHT if self.flaw != Flaw::AmountSettles => {
                let sixth = if self.flaw == Flaw::SixthByAmount { q } else { p };
                (self.of(p) && value(p) == 0) || (self.of(sixth) && value(p) == ones) || (self.of(p) && self.of(q))
            }
            SHIFT | SHIFT_RIGHT => (self.of(q) && value(q) >= t.n.into()) || (self.of(p) && self.of(q)),
            CHOICE if t.m != 0 && self.flaw != Flaw::ArrayChoiceTruth => false,
            CHOICE => {
                let picked = if holds(p) { self.of(q) } else { self.of(r) };
                let tested = self.of(p) || self.flaw == Flaw::PickedBranch;
                (tested && picked) || (self.of(q) && self.of(r) && value(q) == value(r))
            }
            READ => self.read(p, q),
            _ => unreachable!("no other operator"),
        }
    }

    /// An operand whose condition holds and whose value settles the result, or the conditions of both.
    fn settled(&self, t: &Term, by_p: bool, by_q: bool) -> bool {
        let (c, d) = (self.of(t.p), self.of(t.q));
        let alone = matches!((self.flaw, t.op), (Flaw::FactorAlone, PRODUCT) | (Flaw::LessAlone, LESS));
        ((c || alone) && by_p) || ((d || alone) && by_q) || (c && d)
    }

    /// The condition of a read of an array term at the index that is term j.
    fn read(&self, array: u32, j: u32) -> bool {
        let a = &self.table.terms[array as usize];
        match a.op {
            VARIABLE => self.of(array) && (self.of(j) || self.flaw == Flaw::IndexUnasked),
            CHOICE => self.read_choice(a, j),
            _ => self.read_store(a, j),
        }
    }

    fn read_store(&self, a: &Term, j: u32) -> bool {
        let (beneath, i, e) = (a.p, a.q, a.r);
        let below = self.read(beneath, j);
        let same_index = self.values.number(i) == self.values.number(j);
        let picked = if same_index { self.of(e) } else { below };
        let mut same_value = self.values.number(e) == self.values.read(beneath, self.values.number(j));
        if self.flaw == Flaw::JoinsIndexes {
            same_value = same_index;
        }
        (self.of(i) && self.of(j) && picked) || (self.of(e) && below && same_value)
    }

    /// The test and the branch taken, or both branches, which hold the same at the index.
    fn read_choice(&self, a: &Term, j: u32) -> bool {
        let (c, q, r) = (a.p, a.q, a.r);
        let (dq, dr) = (self.read(q, j), self.read(r, j));
        let takes_q = self.values.holds(c) != (self.flaw == Flaw::OtherArrayFree);
        let taken = if takes_q { dq } else { dr };
        let held = |array: u32| self.values.read(array, self.values.number(j));
        let same = held(q) == held(r);
        let tested = self.of(c) || self.flaw == Flaw::PickedArray;
        (tested && taken) || ((dq && dr || self.flaw == Flaw::EqualReadsAlone) && same)
    }
}
