//! A typed rule as a table: request 02 of paper 02. The words are looked at one by one from the left, and the first that is
//! refused decides; at one word the lowest number.

use super::flaw::Flaw;
use super::term::*;
use super::words::*;
use super::Refusal;
use std::collections::HashMap;

/// The parentheses that may be open after an assert's own.
const DEEPEST: usize = 64;

/// The table of a text, by the grammar, before admission.
pub fn table(text: &[u8], flaw: Flaw) -> Result<Vec<[u32; 6]>, Refusal> {
    let (words, end) = (words(text, flaw), text.len());
    let mut reader = Reader { words, next: 0, end, names: HashMap::new(), asserted: vec![], joined: 0, terms: vec![], flaw };
    reader.commands()?;
    reader.close();
    Ok(reader.terms)
}

struct Reader<'a> {
    words: Vec<Word<'a>>,
    next: usize,
    /// The text's length.
    end: usize,
    /// The term of each declared name.
    names: HashMap<&'a [u8], u32>,
    /// The terms that are asserted, and the term of their conjunction.
    asserted: Vec<u32>,
    joined: u32,
    terms: Vec<[u32; 6]>,
    flaw: Flaw,
}

/// A list whose closing parenthesis has not come.
struct List {
    op: u32,
    operands: Vec<u32>,
    place: usize,
}

impl<'a> Reader<'a> {
    fn refused<T>(&self, number: u32, place: usize) -> Result<T, Refusal> {
        Err(Refusal { number, place: place as u64 })
    }

    /// The next word. At the end there is none, which is refused.
    fn word(&mut self) -> Result<Word<'a>, Refusal> {
        let Some(&word) = self.words.get(self.next) else {
            let last = self.words.last().map_or(0, |word| word.place + word.bytes.len());
            return self.refused(31, if self.flaw == Flaw::EndAtLastWord { last } else { self.end });
        };
        self.next += 1;
        Ok(word)
    }

    /// The next word, which must be among these: which one.
    fn one_of(&mut self, expected: &[&str]) -> Result<usize, Refusal> {
        let word = self.word()?;
        let found = expected.iter().position(|known| known.as_bytes() == word.bytes);
        found.map_or_else(|| self.refused(31, word.place), Ok)
    }

    fn commands(&mut self) -> Result<(), Refusal> {
        loop {
            self.one_of(&["("])?;
            let known = ["check-sat", "assert", "declare-const"];
            match self.one_of(if self.asserted.is_empty() { &known } else { &known[..2] })? {
                0 => return self.question(),
                1 => self.assertion()?,
                _ => self.declaration()?,
            }
        }
    }

    /// From check-sat, which was taken, to the end.
    fn question(&mut self) -> Result<(), Refusal> {
        let none = self.asserted.is_empty();
        if none && self.flaw != Flaw::NoAssertAtEnd {
            return self.refused(35, self.words[self.next - 1].place);
        }
        self.one_of(&[")"])?;
        if none {
            return self.refused(35, self.end);
        }
        match self.words.get(self.next) {
            Some(more) => self.refused(31, more.place),
            None => Ok(()),
        }
    }

    fn declaration(&mut self) -> Result<(), Refusal> {
        let name = self.word()?;
        if !is_name(name.bytes, self.flaw) {
            return self.refused(31, name.place);
        }
        let slot = self.terms.len() as u32;
        if self.names.contains_key(name.bytes) {
            return self.refused(32, name.place);
        }
        self.names.insert(name.bytes, slot);
        let (m, n) = self.sort()?;
        self.one_of(&[")"])?;
        let mark = u32::from(is_marked(name.bytes, self.flaw));
        self.terms.push([VARIABLE, m, n, slot, mark, 0]);
        Ok(())
    }

    fn sort(&mut self) -> Result<(u32, u32), Refusal> {
        if self.one_of(&["Bool", "("])? == 0 {
            return Ok((0, 0));
        }
        if self.one_of(&["_", "Array"])? == 0 {
            return Ok((0, self.after_underscore()?));
        }
        let mut widths = [0; 2];
        for width in &mut widths {
            self.one_of(&["("])?;
            self.one_of(&["_"])?;
            *width = self.after_underscore()?;
        }
        self.one_of(&[")"])?;
        Ok((widths[0], widths[1]))
    }

    /// The width of a vector's sort, after its first two words.
    fn after_underscore(&mut self) -> Result<u32, Refusal> {
        self.one_of(&["BitVec"])?;
        let word = self.word()?;
        let Some(width) = width(word.bytes, self.flaw) else { return self.refused(31, word.place) };
        self.one_of(&[")"])?;
        Ok(width)
    }

    fn assertion(&mut self) -> Result<(), Refusal> {
        let term = self.expression()?;
        self.one_of(&[")"])?;
        self.asserted.push(term);
        if self.asserted.len() == 1 {
            self.joined = term;
        } else if self.flaw != Flaw::JoinsLate {
            self.joined = self.add([AND, 0, 0, self.joined, term, 0]);
        }
        Ok(())
    }

    /// What a sole assert of a name adds.
    fn close(&mut self) {
        if self.flaw == Flaw::JoinsLate {
            let rest = self.asserted.split_off(1);
            rest.into_iter().for_each(|term| self.joined = self.add([AND, 0, 0, self.joined, term, 0]));
        }
        let is_name = self.terms[self.joined as usize][0] == VARIABLE;
        if is_name && self.flaw != Flaw::SoleNameBare {
            self.add([AND, 0, 0, self.joined, self.joined, 0]);
        }
    }

    fn add(&mut self, term: [u32; 6]) -> u32 {
        if term[0] == CONSTANT && self.flaw == Flaw::SharesConstants {
            if let Some(number) = self.terms.iter().position(|known| *known == term) {
                return number as u32;
            }
        }
        self.terms.push(term);
        self.terms.len() as u32 - 1
    }

    /// One expression, word by word, with the lists that are open. The number of its term.
    fn expression(&mut self) -> Result<u32, Refusal> {
        let mut open: Vec<List> = vec![];
        loop {
            let word = self.word()?;
            let whole = match word.bytes {
                b"(" => {
                    self.opening(word, &mut open)?;
                    continue;
                }
                b")" => self.closing(word, open.pop())?,
                _ => self.leaf(word, open.last())?,
            };
            match open.last_mut() {
                Some(list) => list.operands.push(whole),
                None => return Ok(whole),
            }
        }
    }

    /// Where an operand stands behind as many as the list's operator takes: the place of 34.
    fn too_many(&self, word: Word, list: Option<&List>) -> Option<usize> {
        let list = list.filter(|list| list.operands.len() == arity(list.op))?;
        Some(if self.flaw == Flaw::CountAtList { list.place } else { word.place })
    }

    fn opening(&mut self, word: Word, open: &mut Vec<List>) -> Result<(), Refusal> {
        let deepest = if self.flaw == Flaw::CountsTheAssert { DEEPEST - 1 } else { DEEPEST };
        let too_many = self.too_many(word, open.last());
        if open.len() == deepest && (too_many.is_none() || self.flaw != Flaw::CountBeforeDepth) {
            return self.refused(33, word.place);
        }
        if let Some(place) = too_many {
            return self.refused(34, place);
        }
        let word = self.word()?;
        let Some(op) = operator(word.bytes, self.flaw) else { return self.refused(31, word.place) };
        open.push(List { op, operands: vec![], place: word.place });
        Ok(())
    }

    fn closing(&mut self, word: Word, list: Option<List>) -> Result<u32, Refusal> {
        let Some(list) = list else { return self.refused(31, word.place) };
        if list.operands.len() < arity(list.op) {
            return self.refused(34, if self.flaw == Flaw::CountAtList { list.place } else { word.place });
        }
        let (m, n) = self.sort_of(&list);
        let field = |at: usize| list.operands.get(at).copied().unwrap_or(0);
        Ok(self.add([list.op, m, n, field(0), field(1), field(2)]))
    }

    /// The sort of a list's term. Where the operands' sorts are wrong it does not matter.
    fn sort_of(&self, list: &List) -> (u32, u32) {
        let of = |at: usize| {
            let [_, m, n, ..] = self.terms[list.operands[at] as usize];
            (m, n)
        };
        match list.op {
            NOT | AND | OR | IMPLIES | EQUAL | LESS | SIGNED_LESS => (0, 0),
            CHOICE => of(1),
            READ => (0, of(0).1),
            _ => of(0),
        }
    }

    /// A constant or a name.
    fn leaf(&mut self, word: Word, list: Option<&List>) -> Result<u32, Refusal> {
        let constant = constant(word.bytes);
        let declared = self.names.get(word.bytes).copied();
        if constant.is_none() && !is_name(word.bytes, self.flaw) {
            return self.refused(if self.flaw == Flaw::ReservedUndeclared { 32 } else { 31 }, word.place);
        }
        if constant.is_none() && declared.is_none() {
            return self.refused(32, word.place);
        }
        if let Some(place) = self.too_many(word, list) {
            return self.refused(34, place);
        }
        Ok(match constant {
            Some((n, value)) => self.add([CONSTANT, 0, n, value, 0, 0]),
            None => declared.expect("a declared name"),
        })
    }
}
