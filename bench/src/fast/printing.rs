//! The table as SMT-LIB text: request 01 of paper 02.

use super::admission::{Known, admitted, slot_sort};
use super::{FINISHED, Refusal, TERMS, Term, answered};

#[inline(never)]
pub fn print(table: &[u32], text: &mut [u8], answer: &mut [u64; 4]) -> u32 {
    // As in `evaluate`: a small table gets small arrays.
    let result = match table.len() / 6 {
        0..=TERMS => printed::<TERMS>(table, text),
        0..=8192 => printed::<8192>(table, text),
        _ => printed::<FINISHED>(table, text),
    };
    answered(result, answer)
}

#[inline(never)]
fn printed<const N: usize>(table: &[u32], text: &mut [u8]) -> Result<[u64; 4], Refusal> {
    let mut known = Known::<N>::new();
    let terms = admitted(table, FINISHED, &mut known)?;
    let mut count = Count(0);
    lines(&mut count, terms, &known.slots);
    if text.len() < count.0 {
        return Err((24, count.0 as u64));
    }
    lines(&mut Writer { text: &mut text[..count.0], at: 0 }, terms, &known.slots);
    Ok([count.0 as u64, 0, 0, 0])
}

/// What the pieces of a text go to.
trait Sink {
    fn put(&mut self, piece: &[u8]);
    fn numeral(&mut self, number: u32);
    fn bits(&mut self, value: u32, n: u32);
}

/// The bytes so far.
struct Count(usize);

impl Sink for Count {
    #[inline(always)]
    fn put(&mut self, piece: &[u8]) {
        self.0 += piece.len();
    }

    #[inline(always)]
    fn numeral(&mut self, number: u32) {
        self.0 += digits(number);
    }

    #[inline(always)]
    fn bits(&mut self, _: u32, n: u32) {
        self.0 += n as usize;
    }
}

struct Writer<'a> {
    text: &'a mut [u8],
    at: usize,
}

impl Writer<'_> {
    #[inline(always)]
    fn next(&mut self, count: usize) -> &mut [u8] {
        let from = self.at;
        self.at += count;
        &mut self.text[from..self.at]
    }
}

impl Sink for Writer<'_> {
    #[inline(always)]
    fn put(&mut self, piece: &[u8]) {
        self.next(piece.len()).copy_from_slice(piece);
    }

    #[inline(always)]
    fn numeral(&mut self, mut number: u32) {
        for digit in self.next(digits(number)).iter_mut().rev() {
            *digit = b'0' + (number % 10) as u8;
            number /= 10;
        }
    }

    #[inline(always)]
    fn bits(&mut self, mut value: u32, n: u32) {
        for bit in self.next(n as usize).iter_mut().rev() {
            *bit = b'0' + (value & 1) as u8;
            value >>= 1;
        }
    }
}

/// The digits of a number below 100,000: slots, widths and terms are.
#[inline(always)]
fn digits(number: u32) -> usize {
    1 + [10, 100, 1000, 10_000].iter().filter(|&&limit| number >= limit).count()
}

#[inline(always)]
fn lines(sink: &mut impl Sink, terms: &[Term], slots: &[u16; 256]) {
    sink.put(b"(set-logic QF_ABV)\n");
    for (slot, &packed) in slots.iter().enumerate().filter(|(_, packed)| **packed != 0) {
        let (m, n) = slot_sort(packed);
        sink.put(b"(declare-const v");
        sink.numeral(slot as u32);
        sink.put(b" ");
        sort(sink, m, n);
        sink.put(b")\n");
    }
    for (t, term) in terms.iter().enumerate().filter(|(_, term)| term[0] != 1) {
        definition(sink, terms, t, term);
    }
    sink.put(b"(assert ");
    name(sink, terms, terms.len() as u32 - 1);
    sink.put(b")\n(check-sat)\n");
}

#[inline(always)]
fn definition(sink: &mut impl Sink, terms: &[Term], t: usize, term: &Term) {
    let &[op, m, n, p, ..] = term;
    sink.put(b"(define-fun t");
    sink.numeral(t as u32);
    sink.put(b" () ");
    sort(sink, m, n);
    if op != 0 {
        application(sink, terms, term);
    } else if n == 0 {
        sink.put(if p == 0 { b" false)\n" } else { b" true)\n" });
    } else {
        sink.put(b" #b");
        sink.bits(p, n);
        sink.put(b")\n");
    }
}

/// By operator: its name after a parenthesis, and how many operands it has.
const WORDS: [(&[u8], usize); 21] = [
    (b"", 0),
    (b"", 0),
    (b" (not", 1),
    (b" (and", 2),
    (b" (or", 2),
    (b" (=>", 2),
    (b" (=", 2),
    (b" (ite", 3),
    (b" (bvnot", 1),
    (b" (bvand", 2),
    (b" (bvor", 2),
    (b" (bvadd", 2),
    (b" (bvmul", 2),
    (b" (bvshl", 2),
    (b" (bvult", 2),
    (b" (select", 2),
    (b" (store", 3),
    (b" (bvneg", 1),
    (b" (bvsub", 2),
    (b" (bvslt", 2),
    (b" (bvashr", 2),
];

#[inline(always)]
fn application(sink: &mut impl Sink, terms: &[Term], term: &Term) {
    let (word, operands) = WORDS[term[0] as usize];
    sink.put(word);
    for &operand in &term[3..3 + operands] {
        sink.put(b" ");
        name(sink, terms, operand);
    }
    sink.put(b"))\n");
}

#[inline(always)]
fn name(sink: &mut impl Sink, terms: &[Term], t: u32) {
    let term = &terms[t as usize];
    let (letter, number): (&[u8; 1], u32) = if term[0] == 1 { (b"v", term[3]) } else { (b"t", t) };
    sink.put(letter);
    sink.numeral(number);
}

#[inline(always)]
fn sort(sink: &mut impl Sink, m: u32, n: u32) {
    if n == 0 {
        return sink.put(b"Bool");
    }
    if m != 0 {
        sink.put(b"(Array (_ BitVec ");
        sink.numeral(m);
        sink.put(b") ");
    }
    sink.put(b"(_ BitVec ");
    sink.numeral(n);
    sink.put(if m == 0 { b")" } else { b"))" });
}
