//! The value of each term: SMT-LIB's meaning.

use super::admission::Table;
use super::flaw::Flaw;
use super::setting::Interpretation;
use super::term::*;

/// A Boolean (0 or 1) or vector is a number; an array is a variable's slot under stores, counted from the inside. A choice of arrays
/// is the array that the test picks.
#[derive(Clone, Debug)]
pub enum Value {
    Number(u64),
    Array { slot: u32, stores: Vec<(u64, u64)> },
}

pub struct Values<'a> {
    table: &'a Table,
    inputs: &'a Interpretation,
    of: Vec<Value>,
    flaw: Flaw,
}

pub fn values<'a>(table: &'a Table, inputs: &'a Interpretation, flaw: Flaw) -> Values<'a> {
    let mut values = Values { table, inputs, of: Vec::new(), flaw };
    for term in &table.terms {
        let value = values.value(term);
        values.of.push(value);
    }
    values
}

impl Values<'_> {
    /// The number that is a term's value; 0 for an array.
    pub fn number(&self, term: u32) -> u64 {
        match self.of[term as usize] {
            Value::Number(x) => x,
            Value::Array { .. } => 0,
        }
    }

    pub fn holds(&self, term: u32) -> bool {
        self.number(term) == 1
    }

    /// What an array term holds at an index: its chain is asked from the outermost store inward, then the variable.
    pub fn read(&self, array: u32, index: u64) -> u64 {
        let Value::Array { slot, stores } = &self.of[array as usize] else { panic!("an array term") };
        let mut chain: Vec<(u64, u64)> = stores.clone();
        if self.flaw != Flaw::InnermostFirst {
            chain.reverse();
        }
        for (at, stored) in chain {
            if at == index {
                return stored;
            }
        }
        let content = &self.inputs[slot];
        *content.cells.get(&index).unwrap_or(&content.value)
    }

    fn value(&self, term: &Term) -> Value {
        match term.op {
            VARIABLE if term.m != 0 => Value::Array { slot: term.p, stores: Vec::new() },
            VARIABLE => Value::Number(self.inputs[&term.p].value),
            STORE => {
                let Value::Array { slot, mut stores } = self.of[term.p as usize].clone() else { panic!("an array term") };
                stores.push((self.number(term.q), self.number(term.r)));
                Value::Array { slot, stores }
            }
            CHOICE if term.m != 0 => self.of[self.picked(term) as usize].clone(),
            READ => Value::Number(self.read(term.p, self.number(term.q))),
            _ => Value::Number(self.number_of(term)),
        }
    }

    /// The branch that a choice's test picks.
    fn picked(&self, choice: &Term) -> u32 {
        let first = self.holds(choice.p) || self.flaw == Flaw::FirstArray && choice.m != 0;
        if first {
            choice.q
        } else {
            choice.r
        }
    }

    /// The value of a term whose operands are no arrays.
    fn number_of(&self, term: &Term) -> u64 {
        if term.op == CONSTANT {
            return term.p.into();
        }
        let values = |o: usize| if o < term.operands() { self.number(term.fields()[o]) } else { 0 };
        let (x, y, z) = (values(0), values(1), values(2));
        let count = 1u64 << term.n;
        match term.op {
            NOT => 1 - x,
            AND => u64::from(x == 1 && y == 1),
            OR => u64::from(x == 1 || y == 1),
            IMPLIES => u64::from(x == 0 || y == 1),
            EQUAL => u64::from(x == y),
            CHOICE if x == 1 => y,
            CHOICE => z,
            VECTOR_NOT => count - 1 - x,
            VECTOR_AND => x & y,
            VECTOR_OR => x | y,
            SUM => (x + y) % count,
            PRODUCT => (x * y) % count,
            SHIFT if self.flaw == Flaw::ShiftsModulo => (x << (y % u64::from(term.n))) % count,
            SHIFT if y >= term.n.into() => 0,
            SHIFT => (x << y) % count,
            LESS => u64::from(x < y),
            NEGATE if self.flaw == Flaw::NegateAsNot => count - 1 - x,
            NEGATE => (count - x) % count,
            SUBTRACT => (count + x - y) % count,
            SIGNED_LESS if self.flaw == Flaw::SignedAsUnsigned => u64::from(x < y),
            SIGNED_LESS => {
                let width = self.table.operand_width(term);
                u64::from(signed(x, width) < signed(y, width))
            }
            SHIFT_RIGHT => self.shifted_right(x, y, term.n),
            _ => unreachable!("no other operator"),
        }
    }

    /// A shift right that keeps the sign: halved so many times, rounded down.
    fn shifted_right(&self, x: u64, amount: u64, width: u32) -> u64 {
        let amount = if self.flaw == Flaw::RightModulo { amount % u64::from(width) } else { amount };
        let value = if self.flaw == Flaw::RightZeros { x as i64 } else { signed(x, width) };
        (value >> amount.min(63)) as u64 % (1 << width)
    }

    /// The stores that a read asks until one supplies the value (an error of `Flaw::StepsToSource`).
    pub fn stores_asked(&self, read: &Term) -> u64 {
        let Value::Array { stores, .. } = &self.of[read.p as usize] else { panic!("an array term") };
        let index = self.number(read.q);
        let asked = stores.iter().rev().position(|&(at, _)| at == index).map_or(stores.len(), |i| i + 1);
        asked as u64
    }

    /// The size of an array without the branches that are not taken (an error of `Flaw::StepsOfBranch`).
    pub fn size_taken(&self, array: u32) -> u64 {
        let a = &self.table.terms[array as usize];
        match a.op {
            STORE => 1 + self.size_taken(a.p),
            CHOICE => 1 + self.size_taken(self.picked(a)),
            _ => 0,
        }
    }
}

/// The number that a vector of this width stands for where its highest bit is the sign.
fn signed(x: u64, width: u32) -> i64 {
    let x = x as i64;
    if x < 1 << (width - 1) {
        x
    } else {
        x - (1 << width)
    }
}
