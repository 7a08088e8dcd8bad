//! The words of a typed rule, and what each may be: request 02 of paper 02.

use super::flaw::Flaw;
use super::term::STORE;

#[derive(Clone, Copy, PartialEq, Debug)]
pub struct Word<'a> {
    pub bytes: &'a [u8],
    /// Of its first byte.
    pub place: usize,
}

/// The operators, from 2 on, and the operands that each takes.
pub const OPERATORS: [(&str, usize); 19] = [
    ("not", 1),
    ("and", 2),
    ("or", 2),
    ("=>", 2),
    ("=", 2),
    ("ite", 3),
    ("bvnot", 1),
    ("bvand", 2),
    ("bvor", 2),
    ("bvadd", 2),
    ("bvmul", 2),
    ("bvshl", 2),
    ("bvult", 2),
    ("select", 2),
    ("store", 3),
    ("bvneg", 1),
    ("bvsub", 2),
    ("bvslt", 2),
    ("bvashr", 2),
];

/// SMT-LIB 2.6's reserved words other than the commands' names.
pub const RESERVED: [&str; 13] =
    ["!", "_", "as", "BINARY", "DECIMAL", "exists", "HEXADECIMAL", "forall", "let", "match", "NUMERAL", "par", "STRING"];

pub const COMMANDS: [&str; 30] = [
    "assert",
    "check-sat",
    "check-sat-assuming",
    "declare-const",
    "declare-datatype",
    "declare-datatypes",
    "declare-fun",
    "declare-sort",
    "define-fun",
    "define-fun-rec",
    "define-funs-rec",
    "define-sort",
    "echo",
    "exit",
    "get-assertions",
    "get-assignment",
    "get-info",
    "get-model",
    "get-option",
    "get-proof",
    "get-unsat-assumptions",
    "get-unsat-core",
    "get-value",
    "pop",
    "push",
    "reset",
    "reset-assertions",
    "set-info",
    "set-logic",
    "set-option",
];

fn is_space(byte: u8, flaw: Flaw) -> bool {
    match byte {
        b'\r' => flaw != Flaw::ReturnIsNoSpace,
        b' ' | b'\t' | b'\n' => true,
        _ => false,
    }
}

/// Each parenthesis is a word, and each longest run of bytes that are neither white space nor parentheses.
pub fn words(text: &[u8], flaw: Flaw) -> Vec<Word<'_>> {
    let mut words: Vec<Word> = vec![];
    let mut goes_on = false;
    for (place, &byte) in text.iter().enumerate() {
        let alone = byte == b'(' || byte == b')';
        let in_word = !alone && !is_space(byte, flaw);
        match words.last_mut() {
            Some(word) if in_word && goes_on => word.bytes = &text[word.place..=place],
            _ if in_word || alone => words.push(Word { bytes: &text[place..=place], place }),
            _ => {}
        }
        goes_on = in_word;
    }
    words
}

fn among(list: &[&str], word: &[u8]) -> bool {
    list.iter().any(|known| known.as_bytes() == word)
}

/// The operator's number.
pub fn operator(word: &[u8], flaw: Flaw) -> Option<u32> {
    let found = OPERATORS.iter().position(|(name, _)| name.as_bytes() == word).map(|at| at as u32 + 2);
    found.filter(|&op| op <= STORE || flaw != Flaw::SignedUnknown)
}

pub fn arity(op: u32) -> usize {
    OPERATORS[op as usize - 2].1
}

fn is_symbol(word: &[u8]) -> bool {
    let fits = |byte: &u8| byte.is_ascii_alphanumeric() || b"~!@$%^&*_-+=<>.?/".contains(byte);
    word.first().is_some_and(|first| !first.is_ascii_digit()) && word.iter().all(fits)
}

/// A simple symbol that is not taken.
pub fn is_name(word: &[u8], flaw: Flaw) -> bool {
    let solvers_own = matches!(word.first(), Some(b'@' | b'.')) && flaw != Flaw::NamesWithAt;
    let reserved = among(&RESERVED, word) || among(&COMMANDS, word) && flaw != Flaw::CommandsAreNames;
    is_symbol(word) && !solvers_own && !reserved && operator(word, flaw).is_none() && constant(word).is_none()
}

/// The width and the value of a constant; a Boolean's width is 0.
pub fn constant(word: &[u8]) -> Option<(u32, u32)> {
    match word {
        b"true" => Some((0, 1)),
        b"false" => Some((0, 0)),
        [b'#', b'b', digits @ ..] if (1..=32).contains(&digits.len()) => {
            let text = std::str::from_utf8(digits).ok().filter(|text| text.bytes().all(|b| b == b'0' || b == b'1'))?;
            Some((digits.len() as u32, u32::from_str_radix(text, 2).ok()?))
        }
        _ => None,
    }
}

/// A sort's width: a numeral from 1 to 32.
pub fn width(word: &[u8], flaw: Flaw) -> Option<u32> {
    let digits = match word {
        [b'0', rest @ ..] if flaw == Flaw::LeadingZeros => rest,
        _ => word,
    };
    (1..=32).find(|number: &u32| number.to_string().as_bytes() == digits)
}

/// x, then at least one digit, then nothing.
pub fn is_marked(name: &[u8], flaw: Flaw) -> bool {
    match name {
        [b'x', rest @ ..] if flaw == Flaw::MarkedByX => rest.first().is_some_and(u8::is_ascii_digit),
        [b'x', digits @ ..] => !digits.is_empty() && digits.iter().all(u8::is_ascii_digit),
        _ => false,
    }
}
