//! A typed rule's table: request 02 of paper 02. One pass over the bytes, names by hash.

use super::admission::{Known, admitted};
use super::{Refusal, TERMS, Term, answered};

/// The parentheses that may be open after an assert's own.
const DEEPEST: usize = 64;

/// A text of up to so many bytes gets small arrays: a term takes three bytes at least, a declaration 22.
const SHORT: usize = 600;

#[inline(never)]
pub fn parse(text: &[u8], room: &mut [u32], answer: &mut [u64; 4]) -> u32 {
    let result = if text.len() <= SHORT { parsed::<200, 64>(text, room) } else { parsed::<TERMS, 2048>(text, room) };
    answered(result, answer)
}

#[inline(never)]
fn parsed<const N: usize, const BUCKETS: usize>(text: &[u8], room: &mut [u32]) -> Result<[u64; 4], Refusal> {
    let mut rule = Rule::<N, BUCKETS>::new(text);
    rule.commands()?;
    if rule.count > TERMS {
        return Err((2, 0));
    }
    let table = rule.terms[..rule.count].as_flattened();
    admitted(table, TERMS, &mut Known::<TERMS>::new())?;
    if room.len() < table.len() {
        return Err((21, rule.count as u64));
    }
    room[..table.len()].copy_from_slice(table);
    Ok([table.len() as u64, 0, 0, 0])
}

const SPACE: u8 = 1;
const PARENTHESIS: u8 = 2;
const SYMBOL: u8 = 4;
const CLASSES: [u8; 256] = classes();

const fn classes() -> [u8; 256] {
    let mut classes = [0; 256];
    let mut byte = 0;
    while byte < 256 {
        classes[byte] = match byte as u8 {
            b' ' | b'\t' | b'\n' | b'\r' => SPACE,
            b'(' | b')' => PARENTHESIS,
            b'0'..=b'9' | b'a'..=b'z' | b'A'..=b'Z' => SYMBOL,
            b'~' | b'!' | b'@' | b'$' | b'%' | b'^' | b'&' | b'*' | b'_' | b'-' | b'+' => SYMBOL,
            b'=' | b'<' | b'>' | b'.' | b'?' | b'/' => SYMBOL,
            _ => 0,
        };
        byte += 1;
    }
    classes
}

/// A word, and the place of its first byte.
#[derive(Clone, Copy)]
struct Word<'a> {
    bytes: &'a [u8],
    place: usize,
}

impl Word<'_> {
    #[inline(always)]
    fn refused<T>(&self, number: u32) -> Result<T, Refusal> {
        Err((number, self.place as u64))
    }
}

/// The text, and how much of it was taken.
#[derive(Clone, Copy)]
struct Words<'a> {
    text: &'a [u8],
    at: usize,
}

impl<'a> Words<'a> {
    #[inline(always)]
    fn next(&mut self) -> Option<Word<'a>> {
        let rest = &self.text[self.at..];
        let place = self.at + rest.iter().position(|&byte| CLASSES[byte as usize] != SPACE)?;
        let word = &self.text[place..];
        let ends = |&byte: &u8| CLASSES[byte as usize] & (SPACE | PARENTHESIS) != 0;
        let length = match CLASSES[word[0] as usize] {
            PARENTHESIS => 1,
            _ => word.iter().position(ends).unwrap_or(word.len()),
        };
        self.at = place + length;
        Some(Word { bytes: &word[..length], place })
    }
}

/// The operator, and how many operands it takes.
#[inline(always)]
fn operator(word: &[u8]) -> Option<(u32, usize)> {
    Some(match word {
        b"not" => (2, 1),
        b"and" => (3, 2),
        b"or" => (4, 2),
        b"=>" => (5, 2),
        b"=" => (6, 2),
        b"ite" => (7, 3),
        b"bvnot" => (8, 1),
        b"bvand" => (9, 2),
        b"bvor" => (10, 2),
        b"bvadd" => (11, 2),
        b"bvmul" => (12, 2),
        b"bvshl" => (13, 2),
        b"bvult" => (14, 2),
        b"select" => (15, 2),
        b"store" => (16, 3),
        b"bvneg" => (17, 1),
        b"bvsub" => (18, 2),
        b"bvslt" => (19, 2),
        b"bvashr" => (20, 2),
        _ => return None,
    })
}

#[rustfmt::skip]
fn is_reserved(word: &[u8]) -> bool {
    matches!(
        word,
        b"!" | b"_" | b"as" | b"BINARY" | b"DECIMAL" | b"exists" | b"HEXADECIMAL" | b"forall" | b"let" | b"match" | b"NUMERAL"
            | b"par" | b"STRING" | b"true" | b"false"
            | b"assert" | b"check-sat" | b"check-sat-assuming" | b"declare-const" | b"declare-datatype" | b"declare-datatypes"
            | b"declare-fun" | b"declare-sort" | b"define-fun" | b"define-fun-rec" | b"define-funs-rec" | b"define-sort"
            | b"echo" | b"exit" | b"get-assertions" | b"get-assignment" | b"get-info" | b"get-model" | b"get-option"
            | b"get-proof" | b"get-unsat-assumptions" | b"get-unsat-core" | b"get-value" | b"pop" | b"push" | b"reset"
            | b"reset-assertions" | b"set-info" | b"set-logic" | b"set-option"
    )
}

fn is_name(word: &[u8]) -> bool {
    let first = word[0];
    word.iter().all(|&byte| CLASSES[byte as usize] == SYMBOL)
        && !(first.is_ascii_digit() || first == b'@' || first == b'.')
        && operator(word).is_none()
        && !is_reserved(word)
}

#[inline(always)]
fn is_marked(name: &[u8]) -> bool {
    name[0] == b'x' && name.len() > 1 && name[1..].iter().all(u8::is_ascii_digit)
}

/// The value of #b and 1 to 32 digits.
#[inline(always)]
fn bits(word: &[u8]) -> Option<(u32, u32)> {
    let digits = word.strip_prefix(b"#b").filter(|digits| (1..=32).contains(&digits.len()))?;
    let mut value = 0u32;
    for &digit in digits {
        if digit & 0xfe != b'0' {
            return None;
        }
        value = value << 1 | u32::from(digit & 1);
    }
    Some((digits.len() as u32, value))
}

/// A list whose closing parenthesis has not come.
#[derive(Clone, Copy)]
struct List {
    op: u32,
    arity: usize,
    count: usize,
    operands: [u32; 3],
}

/// What is read so far. The first `N` terms are kept, and the place of the first `BUCKETS` / 2 names.
struct Rule<'a, const N: usize, const BUCKETS: usize> {
    words: Words<'a>,
    terms: [Term; N],
    count: usize,
    names: usize,
    asserts: usize,
    /// One more than a name's slot; 0 where none is.
    buckets: [u16; BUCKETS],
    /// By bucket, the name's place and length.
    places: [(u32, u32); BUCKETS],
}

impl<'a, const N: usize, const BUCKETS: usize> Rule<'a, N, BUCKETS> {
    #[inline(always)]
    fn new(text: &'a [u8]) -> Self {
        let words = Words { text, at: 0 };
        let (buckets, places) = ([0; BUCKETS], [(0, 0); BUCKETS]);
        Rule { words, terms: [[0; 6]; N], count: 0, names: 0, asserts: 0, buckets, places }
    }

    #[inline(always)]
    fn word(&mut self) -> Result<Word<'a>, Refusal> {
        self.words.next().ok_or((31, self.words.text.len() as u64))
    }

    #[inline(always)]
    fn expect(&mut self, expected: &[u8]) -> Result<(), Refusal> {
        let word = self.word()?;
        if word.bytes == expected { Ok(()) } else { word.refused(31) }
    }

    #[inline(always)]
    fn push(&mut self, term: Term) -> u32 {
        if let Some(place) = self.terms.get_mut(self.count) {
            *place = term;
        }
        self.count += 1;
        self.count as u32 - 1
    }

    fn commands(&mut self) -> Result<(), Refusal> {
        let mut rule = 0;
        loop {
            self.expect(b"(")?;
            let word = self.word()?;
            match word.bytes {
                b"declare-const" if self.asserts == 0 => self.declaration()?,
                b"assert" => rule = self.assertion(rule)?,
                b"check-sat" => return self.question(word, rule),
                _ => return word.refused(31),
            }
        }
    }

    fn question(&mut self, word: Word, rule: u32) -> Result<(), Refusal> {
        if self.asserts == 0 {
            return word.refused(35);
        }
        self.expect(b")")?;
        if let Some(more) = self.words.next() {
            return more.refused(31);
        }
        if (rule as usize) < self.names {
            self.push([3, 0, 0, rule, rule, 0]);
        }
        Ok(())
    }

    fn declaration(&mut self) -> Result<(), Refusal> {
        let name = self.word()?;
        if !is_name(name.bytes) {
            return name.refused(31);
        }
        let bucket = self.bucket(name.bytes);
        if self.slot(name.bytes, bucket).is_some() {
            return name.refused(32);
        }
        let slot = self.names;
        if slot < BUCKETS / 2 {
            self.buckets[bucket] = slot as u16 + 1;
            self.places[bucket] = (name.place as u32, name.bytes.len() as u32);
        }
        self.names += 1;
        let (m, n) = self.sort()?;
        self.expect(b")")?;
        self.push([1, m, n, slot as u32, u32::from(is_marked(name.bytes)), 0]);
        Ok(())
    }

    /// The bucket that has the name, or an empty one.
    #[inline(always)]
    fn bucket(&self, name: &[u8]) -> usize {
        let hash = name.iter().fold(0u32, |hash, &byte| (hash ^ u32::from(byte)).wrapping_mul(0x0100_0193));
        let mut bucket = (hash ^ hash >> 15) as usize % BUCKETS;
        while self.buckets[bucket] != 0 {
            let (place, length) = self.places[bucket];
            if &self.words.text[place as usize..][..length as usize] == name {
                break;
            }
            bucket = (bucket + 1) % BUCKETS;
        }
        bucket
    }

    #[inline(always)]
    fn slot(&self, name: &[u8], bucket: usize) -> Option<u32> {
        match self.buckets[bucket] {
            0 if self.names > BUCKETS / 2 => self.sought(name),
            0 => None,
            slot => Some(u32::from(slot) - 1),
        }
    }

    /// A name's slot, by the declarations in the text.
    #[cold]
    fn sought(&self, name: &[u8]) -> Option<u32> {
        let mut words = Words { text: self.words.text, at: 0 };
        let mut slot = 0;
        while slot < self.names {
            if words.next()?.bytes == b"declare-const" {
                if words.next()?.bytes == name {
                    return Some(slot as u32);
                }
                slot += 1;
            }
        }
        None
    }

    fn sort(&mut self) -> Result<(u32, u32), Refusal> {
        let word = self.word()?;
        match word.bytes {
            b"Bool" => return Ok((0, 0)),
            b"(" => {}
            _ => return word.refused(31),
        }
        let word = self.word()?;
        match word.bytes {
            b"_" => Ok((0, self.width()?)),
            b"Array" => {
                let (m, n) = (self.vector()?, self.vector()?);
                self.expect(b")")?;
                Ok((m, n))
            }
            _ => word.refused(31),
        }
    }

    fn vector(&mut self) -> Result<u32, Refusal> {
        self.expect(b"(")?;
        self.expect(b"_")?;
        self.width()
    }

    fn width(&mut self) -> Result<u32, Refusal> {
        self.expect(b"BitVec")?;
        let word = self.word()?;
        let width = match *word.bytes {
            [a @ b'1'..=b'9'] => a - b'0',
            [a @ b'1'..=b'3', b @ b'0'..=b'9'] => 10 * (a - b'0') + (b - b'0'),
            _ => 0,
        };
        if width == 0 || width > 32 {
            return word.refused(31);
        }
        self.expect(b")")?;
        Ok(width.into())
    }

    fn assertion(&mut self, before: u32) -> Result<u32, Refusal> {
        let term = self.expression()?;
        self.expect(b")")?;
        self.asserts += 1;
        Ok(if self.asserts == 1 { term } else { self.push([3, 0, 0, before, term, 0]) })
    }

    fn expression(&mut self) -> Result<u32, Refusal> {
        let mut open = [List { op: 0, arity: 0, count: 0, operands: [0; 3] }; DEEPEST];
        let mut depth = 0;
        loop {
            let word = self.word()?;
            let full = depth > 0 && open[depth - 1].count == open[depth - 1].arity;
            let whole = match word.bytes[0] {
                b'(' if depth == DEEPEST => return word.refused(33),
                b'(' if full => return word.refused(34),
                b'(' => {
                    let word = self.word()?;
                    let Some((op, arity)) = operator(word.bytes) else { return word.refused(31) };
                    open[depth] = List { op, arity, count: 0, operands: [0; 3] };
                    depth += 1;
                    continue;
                }
                b')' if depth == 0 => return word.refused(31),
                b')' if !full => return word.refused(34),
                b')' => {
                    depth -= 1;
                    self.list(&open[depth])
                }
                _ => self.leaf(word, full)?,
            };
            if depth == 0 {
                return Ok(whole);
            }
            let list = &mut open[depth - 1];
            list.operands[list.count] = whole;
            list.count += 1;
        }
    }

    #[inline(always)]
    fn sort_of(&self, term: u32) -> (u32, u32) {
        self.terms.get(term as usize).map_or((0, 0), |term| (term[1], term[2]))
    }

    #[inline(always)]
    fn list(&mut self, list: &List) -> u32 {
        let [p, q, r] = list.operands;
        let (m, n) = match list.op {
            2..=6 | 14 | 19 => (0, 0),
            7 => self.sort_of(q),
            15 => (0, self.sort_of(p).1),
            _ => self.sort_of(p),
        };
        self.push([list.op, m, n, p, q, r])
    }

    #[inline(always)]
    fn leaf(&mut self, word: Word, full: bool) -> Result<u32, Refusal> {
        let constant = match word.bytes {
            b"true" => Some((0, 1)),
            b"false" => Some((0, 0)),
            [b'#', ..] => bits(word.bytes),
            _ => None,
        };
        let slot = if constant.is_none() { self.slot(word.bytes, self.bucket(word.bytes)) } else { None };
        match (constant, slot) {
            (None, None) => word.refused(if is_name(word.bytes) { 32 } else { 31 }),
            _ if full => word.refused(34),
            (Some((n, value)), _) => Ok(self.push([0, 0, n, value, 0, 0])),
            (_, Some(slot)) => Ok(slot),
        }
    }
}
