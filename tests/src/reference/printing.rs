//! The table as SMT-LIB 2.6: request 01 of paper 02.

use super::admission::Table;
use super::flaw::Flaw;
use super::term::*;

/// The text: a line for the logic, for each used slot, for each term that is no variable, for the rule and for the question.
pub fn text(table: &Table, flaw: Flaw) -> String {
    let mut writer = Writer { table, flaw, text: String::new() };
    writer.put("(set-logic QF_ABV)\n");
    writer.slots().iter().for_each(|&slot| writer.declaration(slot));
    (0..table.terms.len()).filter(|&number| table.terms[number].op != VARIABLE).for_each(|number| writer.definition(number));
    writer.put("(assert ");
    writer.name(table.terms.len() as u32 - 1);
    writer.put(")\n(check-sat)\n");
    if flaw == Flaw::NoLastLineFeed {
        writer.text.pop();
    }
    writer.text
}

struct Writer<'a> {
    table: &'a Table,
    flaw: Flaw,
    text: String,
}

impl Writer<'_> {
    fn put(&mut self, piece: &str) {
        self.text.push_str(piece);
    }

    fn numbered(&mut self, letter: char, number: u32) {
        self.text.push(letter);
        self.put(&number.to_string());
    }

    /// The used slots: those of some variable, each once, ascending.
    fn slots(&self) -> Vec<u32> {
        let by_use: Vec<u32> = self.table.terms.iter().filter(|t| t.op == VARIABLE).map(|t| t.p).collect();
        let mut slots = by_use.clone();
        slots.sort();
        if self.flaw != Flaw::DeclaredAgain {
            slots.dedup();
        }
        if self.flaw == Flaw::SlotsByUse {
            slots.sort_by_key(|slot| by_use.iter().position(|used| used == slot));
        }
        slots
    }

    fn declaration(&mut self, slot: u32) {
        self.put("(declare-const ");
        self.numbered('v', slot);
        self.put(" ");
        self.sort(self.table.inputs[&slot].sort);
        self.put(")\n");
    }

    fn definition(&mut self, number: usize) {
        let term = self.table.terms[number];
        self.put("(define-fun ");
        self.numbered('t', number as u32);
        self.put(" () ");
        self.sort(self.table.sorts[number]);
        self.put(" ");
        if term.op == CONSTANT {
            self.constant(&term);
        } else {
            self.application(&term);
        }
        self.put(")\n");
    }

    fn application(&mut self, term: &Term) {
        self.put("(");
        self.put(word(term.op));
        for &operand in &term.fields()[..term.operands()] {
            self.put(" ");
            match self.flaw {
                Flaw::VariableByNumber => self.numbered('t', operand),
                _ => self.name(operand),
            }
        }
        self.put(")");
    }

    /// A Boolean by its name, a vector by its bits, the highest first.
    fn constant(&mut self, term: &Term) {
        if term.n == 0 {
            return self.put(if term.p == 1 { "true" } else { "false" });
        }
        self.put("#b");
        for place in (0..term.n).rev() {
            let place = if self.flaw == Flaw::BitsReversed { term.n - 1 - place } else { place };
            self.put(if term.p >> place & 1 == 1 { "1" } else { "0" });
        }
    }

    /// A variable is v and its slot, any other term t and its number.
    fn name(&mut self, number: u32) {
        let term = self.table.terms[number as usize];
        match term.op {
            VARIABLE => self.numbered('v', term.p),
            _ => self.numbered('t', number),
        }
    }

    fn sort(&mut self, sort: Sort) {
        match sort {
            Sort::Boolean => self.put("Bool"),
            Sort::Vector(n) => self.put(&format!("(_ BitVec {n})")),
            Sort::Array(m, n) => self.put(&format!("(Array (_ BitVec {m}) (_ BitVec {n}))")),
        }
    }
}

/// SMT-LIB's name of an operator.
fn word(op: u32) -> &'static str {
    match op {
        NOT => "not",
        AND => "and",
        OR => "or",
        IMPLIES => "=>",
        EQUAL => "=",
        CHOICE => "ite",
        VECTOR_NOT => "bvnot",
        VECTOR_AND => "bvand",
        VECTOR_OR => "bvor",
        SUM => "bvadd",
        PRODUCT => "bvmul",
        SHIFT => "bvshl",
        LESS => "bvult",
        READ => "select",
        STORE => "store",
        NEGATE => "bvneg",
        SUBTRACT => "bvsub",
        SIGNED_LESS => "bvslt",
        SHIFT_RIGHT => "bvashr",
        _ => unreachable!("constants and variables have no word"),
    }
}
