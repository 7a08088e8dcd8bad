//! A table in the making: terms that are well formed by construction.

use crate::random::Random;
use crate::reference::term::*;
use std::collections::BTreeMap;

/// The widths and values that a table and its setting are drawn from, so that sorts and values often meet.
pub struct Taste {
    pub vectors: Vec<Sort>,
    pub arrays: Vec<Sort>,
    /// Of a hundred variables, how many are marked.
    pub marked: usize,
    /// Of a hundred operands, how many are new variables and constants.
    pub fresh: usize,
    /// Of a hundred choices, how many are between arrays; and in a tree, of a hundred arrays over others, how many are choices.
    pub chosen: usize,
    pub pool: [u32; 3],
}

pub struct Draft {
    pub terms: Vec<[u32; 6]>,
    pub taste: Taste,
    /// Slot, sort and mark of each input.
    pub inputs: Vec<(u32, Sort, u32)>,
    /// Of an array term: its size.
    sizes: Vec<usize>,
    by_sort: BTreeMap<Sort, Vec<u32>>,
}

pub fn width(random: &mut Random) -> u32 {
    if random.chance(60) {
        random.pick(&[1, 2, 8, 8, 31, 32])
    } else {
        random.between(1, 32) as u32
    }
}

impl Taste {
    pub fn new(random: &mut Random) -> Taste {
        let first = width(random);
        Taste::around(random, first)
    }

    /// A taste whose first vector width, and first array's element width, is the given one.
    pub fn around(random: &mut Random, first: u32) -> Taste {
        let second = width(random);
        let pool = [random.pick(&[0, 1, first - 1, first]), random.pick(&[u32::MAX, 0, 1]), random.word()];
        Taste {
            vectors: vec![Sort::Vector(first), Sort::Vector(second)],
            arrays: vec![Sort::Array(second, first), Sort::Array(first, second), Sort::Array(first, first)],
            marked: random.pick(&[0, 25, 50, 50, 75, 100]),
            fresh: random.pick(&[5, 20, 50]),
            chosen: random.pick(&[0, 0, 0, 20, 60]),
            pool,
        }
    }

    /// A value that fits the sort: often one at which an operator settles, often one seen before.
    pub fn value(&self, random: &mut Random, sort: Sort) -> u32 {
        let n = match sort {
            Sort::Boolean => 1,
            Sort::Vector(n) | Sort::Array(_, n) => n,
        };
        let ones = u32::MAX >> (32 - n);
        let value = match random.below(11) {
            0 => 0,
            1 => 1,
            2 => ones,
            3 => n - 1,
            4 => n,
            5 => random.word(),
            6 => (ones >> 1) + random.below(2) as u32,
            _ => random.pick(&self.pool),
        };
        value & ones
    }
}

impl Draft {
    pub fn new(taste: Taste) -> Draft {
        Draft { terms: vec![], taste, inputs: vec![], sizes: vec![], by_sort: BTreeMap::new() }
    }

    /// A table that is admitted, as a draft.
    pub fn of_table(random: &mut Random, table: &[u32]) -> Draft {
        let mut draft = Draft::new(Taste::new(random));
        for term in table.as_chunks::<6>().0 {
            draft.push(*term);
            let t = Term::of(term);
            if t.op == VARIABLE && !draft.inputs.iter().any(|input| input.0 == t.p) {
                draft.inputs.push((t.p, t.sort().expect("a sort"), t.q));
            }
        }
        draft
    }

    pub fn push(&mut self, term: [u32; 6]) -> u32 {
        let number = self.terms.len() as u32;
        let t = Term::of(&term);
        let size = match t.op {
            STORE => 1 + self.size(t.p),
            CHOICE if t.m != 0 => 1 + self.size(t.q) + self.size(t.r),
            _ => 0,
        };
        self.by_sort.entry(t.sort().expect("a sort")).or_default().push(number);
        self.sizes.push(size);
        self.terms.push(term);
        number
    }

    /// The size of an array term.
    pub fn size(&self, array: u32) -> usize {
        self.sizes[array as usize]
    }

    /// The array terms of the sort that are there and have this size.
    pub fn of_size(&self, sort: Sort, size: usize) -> Vec<u32> {
        let known = self.by_sort.get(&sort).map_or(&[][..], Vec::as_slice);
        known.iter().copied().filter(|&array| self.size(array) == size).collect()
    }

    pub fn constant(&mut self, random: &mut Random, sort: Sort) -> u32 {
        let (m, n) = numbers_of(sort);
        let value = self.taste.value(random, sort);
        self.push([CONSTANT, m, n, value, 0, 0])
    }

    /// A variable: of a slot used before, or of a new one.
    pub fn variable(&mut self, random: &mut Random, sort: Sort) -> u32 {
        let same: Vec<(u32, Sort, u32)> = self.inputs.iter().copied().filter(|i| i.1 == sort).collect();
        let again = !same.is_empty() && (random.chance(25) || self.inputs.len() > 200);
        let (slot, _, mark) = if again { random.pick(&same) } else { self.input(random, sort) };
        let (m, n) = numbers_of(sort);
        self.push([VARIABLE, m, n, slot, mark, 0])
    }

    /// A new input. Most slots are small, so that rows of values are short.
    fn input(&mut self, random: &mut Random, sort: Sort) -> (u32, Sort, u32) {
        let mut slot = match random.below(40) {
            0 => 255,
            1 => random.below(256),
            _ => random.below(self.inputs.len() + 3),
        } as u32;
        while self.inputs.iter().any(|i| i.0 == slot) {
            slot = (slot + 1) % 256;
        }
        let mark = random.chance(self.taste.marked) as u32;
        self.inputs.push((slot, sort, mark));
        (slot, sort, mark)
    }

    pub fn leaf(&mut self, random: &mut Random, sort: Sort) -> u32 {
        let array = matches!(sort, Sort::Array(..));
        if array || random.chance(70) {
            self.variable(random, sort)
        } else {
            self.constant(random, sort)
        }
    }

    /// A term of the sort: mostly one that is there, often a recent one.
    pub fn operand(&mut self, random: &mut Random, sort: Sort) -> u32 {
        let known = self.by_sort.get(&sort).map_or(0, Vec::len);
        if known == 0 || random.chance(self.taste.fresh) && self.terms.len() < 400 {
            return self.leaf(random, sort);
        }
        let back = if random.chance(60) { random.below(known.min(3)) } else { random.below(known) };
        self.by_sort[&sort][known - 1 - back]
    }

    /// Any term of the sort that is there.
    pub fn any(&mut self, random: &mut Random, sort: Sort) -> u32 {
        random.pick(&self.by_sort[&sort])
    }

    /// A term with this operator over operands of the first vector or array sort (or Boolean) that it can have.
    pub fn apply(&mut self, random: &mut Random, op: u32, sort: Sort) -> u32 {
        let (m, n) = numbers_of(sort);
        match op {
            CONSTANT => self.constant(random, sort),
            VARIABLE => self.variable(random, sort),
            NOT | VECTOR_NOT | NEGATE => {
                let p = self.operand(random, sort);
                self.push([op, 0, n, p, 0, 0])
            }
            CHOICE => {
                let test = self.operand(random, Sort::Boolean);
                let (q, r) = self.two(random, sort);
                let r = if self.size(q) + self.size(r) < 16 { r } else { self.leaf(random, sort) };
                let q = if self.size(q) + self.size(r) < 16 { q } else { r };
                self.push([op, m, n, test, q, r])
            }
            READ => {
                let p = self.operand(random, sort);
                let q = self.operand(random, Sort::Vector(m));
                self.push([op, 0, n, p, q, 0])
            }
            STORE => self.store(random, sort),
            EQUAL | LESS | SIGNED_LESS => {
                let (p, q) = self.two(random, sort);
                self.push([op, 0, 0, p, q, 0])
            }
            _ => {
                let (p, q) = self.two(random, sort);
                self.push([op, 0, n, p, q, 0])
            }
        }
    }

    fn two(&mut self, random: &mut Random, sort: Sort) -> (u32, u32) {
        let p = self.operand(random, sort);
        let q = if random.chance(5) { p } else { self.operand(random, sort) };
        (p, q)
    }

    fn store(&mut self, random: &mut Random, sort: Sort) -> u32 {
        let mut array = self.operand(random, sort);
        if self.size(array) == 16 {
            array = self.variable(random, sort);
        }
        let (m, n) = numbers_of(sort);
        let index = self.operand(random, Sort::Vector(m));
        let value = self.operand(random, Sort::Vector(n));
        self.push([STORE, m, n, array, index, value])
    }

    pub fn last_sort(&self) -> Option<Sort> {
        self.terms.last().and_then(|t| Term::of(t).sort())
    }

    /// Ends the table with a Boolean term that stands on the last one.
    pub fn close(&mut self, random: &mut Random) {
        while self.last_sort() != Some(Sort::Boolean) {
            let last = self.terms.len() as u32 - 1;
            let [_, m, n, ..] = self.terms[last as usize];
            if m != 0 {
                let index = self.operand(random, Sort::Vector(m));
                self.push([READ, 0, n, last, index, 0]);
            } else {
                let other = self.operand(random, Sort::Vector(n));
                let op = random.pick(&[EQUAL, EQUAL, LESS, SIGNED_LESS]);
                let (p, q) = if random.chance(50) { (last, other) } else { (other, last) };
                self.push([op, 0, 0, p, q, 0]);
            }
        }
    }

    pub fn numbers(&self) -> Vec<u32> {
        self.terms.concat()
    }

    pub fn steps(&self) -> u64 {
        self.terms.iter().filter(|t| t[0] == READ).map(|t| self.size(t[3]) as u64).sum()
    }

    /// The count of terms of the finished table.
    pub fn finished(&self) -> usize {
        self.terms.len() + 3 + self.terms.iter().map(|t| self.added(t)).sum::<usize>()
    }

    fn added(&self, term: &[u32; 6]) -> usize {
        match term[0] {
            CHOICE if term[1] != 0 => 0,
            EQUAL | SUM | SUBTRACT => 1,
            AND => 7,
            OR => 5,
            IMPLIES | SHIFT | CHOICE => 6,
            VECTOR_AND | VECTOR_OR | PRODUCT => 8,
            LESS | SIGNED_LESS | SHIFT_RIGHT => 9,
            READ => 1 + 9 * self.size(term[3]),
            _ => 0,
        }
    }
}

pub fn numbers_of(sort: Sort) -> (u32, u32) {
    match sort {
        Sort::Boolean => (0, 0),
        Sort::Vector(n) => (0, n),
        Sort::Array(m, n) => (m, n),
    }
}
