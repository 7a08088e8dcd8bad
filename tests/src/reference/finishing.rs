//! The finished table: the conditions as terms.

use super::admission::Table;
use super::conditions::settles_less;
use super::flaw::Flaw;
use super::term::*;

pub struct Finished {
    pub terms: Vec<[u32; 6]>,
    /// The number of the rule's condition.
    pub condition: u32,
}

pub fn finish(table: &Table, flaw: Flaw) -> Finished {
    let n = table.terms.len() as u32;
    let given = table.terms.iter().map(|t| [t.op, t.m, t.n, t.p, t.q, t.r]).collect();
    let mut writer = Writer { table, terms: given, c: Vec::new(), yes: n, no: n + 1, met: Vec::new(), flaw };
    writer.add([CONSTANT, 0, 0, 1, 0, 0]);
    writer.add([CONSTANT, 0, 0, 0, 0, 0]);
    for term in &table.terms {
        let condition = writer.group(term);
        writer.c.push(condition);
    }
    let condition = writer.c[n as usize - 1].expect("the rule is no array");
    writer.and(n - 1, condition);
    Finished { terms: writer.terms, condition }
}

struct Writer<'a> {
    table: &'a Table,
    terms: Vec<[u32; 6]>,
    /// The numbers of the conditions of the terms so far; a store and a choice of arrays have none.
    c: Vec<Option<u32>>,
    yes: u32,
    no: u32,
    /// The variables that a read's group met, each with its term (an error of `Flaw::MetOnce`).
    met: Vec<(u32, u32)>,
    flaw: Flaw,
}

impl Writer<'_> {
    fn add(&mut self, term: [u32; 6]) -> u32 {
        self.terms.push(term);
        self.terms.len() as u32 - 1
    }

    fn not(&mut self, x: u32) -> u32 {
        self.add([NOT, 0, 0, x, 0, 0])
    }

    fn and(&mut self, x: u32, y: u32) -> u32 {
        self.add([AND, 0, 0, x, y, 0])
    }

    fn or(&mut self, x: u32, y: u32) -> u32 {
        self.add([OR, 0, 0, x, y, 0])
    }

    fn equal(&mut self, x: u32, y: u32) -> u32 {
        self.add([EQUAL, 0, 0, x, y, 0])
    }

    fn choice(&mut self, test: u32, x: u32, y: u32) -> u32 {
        self.add([CHOICE, 0, 0, test, x, y])
    }

    /// The number of an operand's condition.
    fn of(&self, operand: u32) -> u32 {
        self.c[operand as usize].expect("no store, and no choice of arrays")
    }

    /// Writes a term's group and gives the number of its condition.
    fn group(&mut self, t: &Term) -> Option<u32> {
        Some(match t.op {
            CONSTANT => self.yes,
            VARIABLE => [self.yes, self.no][t.q as usize],
            STORE => return None,
            CHOICE if t.m != 0 => return None,
            NOT | VECTOR_NOT | NEGATE => self.of(t.p),
            EQUAL | SUM | SUBTRACT => self.and(self.of(t.p), self.of(t.q)),
            LESS if self.flaw == Flaw::LessUnsettled => self.and(self.of(t.p), self.of(t.q)),
            LESS | SIGNED_LESS => self.less(t),
            AND | OR | IMPLIES => self.connective(t),
            VECTOR_AND | PRODUCT => self.absorbing(t, 0),
            VECTOR_OR => self.absorbing(t, ((1u64 << t.n) - 1) as u32),
            SHIFT_RIGHT if self.flaw != Flaw::AmountSettles => self.shift_right(t),
            SHIFT | SHIFT_RIGHT => self.shift(t),
            CHOICE => self.branches(t),
            _ => {
                self.met.clear();
                self.read(t.p, t.q)
            }
        })
    }

    fn connective(&mut self, t: &Term) -> u32 {
        let (p, q, cp, cq) = (t.p, t.q, self.of(t.p), self.of(t.q));
        let by_p = if t.op == OR { p } else { self.not(p) };
        let first = self.and(cp, by_p);
        let by_q = if t.op == AND { self.not(q) } else { q };
        let second = self.and(cq, by_q);
        self.settled(t, first, second)
    }

    fn absorbing(&mut self, t: &Term, zero: u32) -> u32 {
        let zero = self.add([CONSTANT, 0, t.n, zero, 0, 0]);
        let first = self.free_and_equal(t.p, zero);
        let second = self.free_and_equal(t.q, zero);
        self.settled(t, first, second)
    }

    fn less(&mut self, t: &Term) -> u32 {
        let (width, [of_p, of_q]) = settles_less(self.table, t, self.flaw);
        let greatest = self.add([CONSTANT, 0, width, of_p as u32, 0, 0]);
        let first = self.free_and_equal(t.p, greatest);
        let least = self.add([CONSTANT, 0, width, of_q as u32, 0, 0]);
        let second = self.free_and_equal(t.q, least);
        self.settled(t, first, second)
    }

    /// Both constants are compared with the first operand, beside its condition.
    fn shift_right(&mut self, t: &Term) -> u32 {
        let zero = self.add([CONSTANT, 0, t.n, 0, 0, 0]);
        let first = self.free_and_equal(t.p, zero);
        let ones = self.add([CONSTANT, 0, t.n, ((1u64 << t.n) - 1) as u32, 0, 0]);
        let equal = self.equal(t.p, ones);
        let sixth = if self.flaw == Flaw::SixthByAmount { t.q } else { t.p };
        let second = self.and(self.of(sixth), equal);
        self.settled(t, first, second)
    }

    /// An operand that has a constant's value, together with its condition.
    fn free_and_equal(&mut self, operand: u32, constant: u32) -> u32 {
        let equal = self.equal(operand, constant);
        self.and(self.of(operand), equal)
    }

    /// One of the two terms by which an operand settles the result, or the conditions of both.
    fn settled(&mut self, t: &Term, by_p: u32, by_q: u32) -> u32 {
        let either = self.or(by_p, by_q);
        let both = self.and(self.of(t.p), self.of(t.q));
        self.or(either, both)
    }

    fn shift(&mut self, t: &Term) -> u32 {
        let (cp, cq) = (self.of(t.p), self.of(t.q));
        let width = self.add([CONSTANT, 0, t.n, t.n, 0, 0]);
        let inside = self.add([LESS, 0, 0, t.q, width, 0]);
        let outside = self.not(inside);
        let settled = self.and(cq, outside);
        let both = self.and(cp, cq);
        self.or(settled, both)
    }

    fn branches(&mut self, t: &Term) -> u32 {
        let (cp, cq, cr) = (self.of(t.p), self.of(t.q), self.of(t.r));
        let picked = self.choice(t.p, cq, cr);
        let tested = self.and(cp, picked);
        let both = self.and(cq, cr);
        let same = self.equal(t.q, t.r);
        let alike = self.and(both, same);
        self.or(tested, alike)
    }

    /// Writes the group of a read of an array term at the index that is term j, and gives its last term's number.
    fn read(&mut self, array: u32, j: u32) -> u32 {
        let a = self.table.terms[array as usize];
        match a.op {
            VARIABLE => self.read_variable(array, j),
            CHOICE => self.read_choice(&a, j),
            _ => self.read_store(&a, j),
        }
    }

    fn read_variable(&mut self, array: u32, j: u32) -> u32 {
        let known = self.met.iter().find(|(variable, _)| *variable == array).map(|(_, term)| *term);
        if let Some(term) = known.filter(|_| self.flaw == Flaw::MetOnce) {
            return term;
        }
        let term = self.and(self.of(array), self.of(j));
        self.met.push((array, term));
        term
    }

    fn read_store(&mut self, a: &Term, j: u32) -> u32 {
        let (beneath, i, e) = (a.p, a.q, a.r);
        let below = self.read(beneath, j);
        let (ci, ce, cj) = (self.of(i), self.of(e), self.of(j));
        let read = self.add([READ, 0, a.n, beneath, j, 0]);
        let same_index = self.equal(i, j);
        let picked = self.choice(same_index, ce, below);
        let indexes = self.and(ci, cj);
        let first = self.and(indexes, picked);
        let same_value = self.equal(e, read);
        let both = self.and(ce, below);
        let joined = if self.flaw == Flaw::JoinsIndexes { same_index } else { same_value };
        let second = self.and(both, joined);
        self.or(first, second)
    }

    fn read_choice(&mut self, a: &Term, j: u32) -> u32 {
        let (c, q, r) = (a.p, a.q, a.r);
        let (dq, dr) = self.read_branches(q, r, j);
        let of_q = self.add([READ, 0, a.n, q, j, 0]);
        let of_r = self.add([READ, 0, a.n, r, j, 0]);
        let picked = match self.flaw {
            Flaw::OtherArrayFree => self.choice(c, dr, dq),
            _ => self.choice(c, dq, dr),
        };
        let tested = self.and(self.of(c), picked);
        let both = self.and(dq, dr);
        let same = match self.flaw {
            Flaw::ReadsExchanged => self.equal(of_r, of_q),
            _ => self.equal(of_q, of_r),
        };
        let alike = self.and(both, same);
        self.or(tested, alike)
    }

    fn read_branches(&mut self, q: u32, r: u32, j: u32) -> (u32, u32) {
        if self.flaw == Flaw::SecondGroupFirst {
            let dr = self.read(r, j);
            return (self.read(q, j), dr);
        }
        (self.read(q, j), self.read(r, j))
    }
}
