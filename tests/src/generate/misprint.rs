//! Damage to texts, at words and at bytes.

use super::rule::name;
use crate::random::Random;
use crate::reference::words::{COMMANDS, OPERATORS, RESERVED};

/// The kinds of damage at words.
pub const KINDS: usize = 16;

/// One operand more, one less, and a name declared again.
pub const MORE: usize = 5;
pub const LESS: usize = 7;
pub const AGAIN: usize = 8;

/// Words that are near the language's, and some of its own.
pub const TRICKY: [&str; 62] = [
    "(",
    ")",
    "(",
    ")",
    "true",
    "false",
    "|a|",
    "||",
    "#x1",
    "#b",
    "#b2",
    "#b01",
    "#b0b",
    "#B1",
    "#b10101010101010101010101010101010",
    "#b101010101010101010101010101010101",
    "#b111111111111111111111111111111111111111",
    "#",
    "08",
    "0",
    "00",
    "1",
    "32",
    "33",
    "100",
    "4294967297",
    "4294967304",
    "18446744073709551617",
    "-1",
    "+1",
    "1.0",
    "Bool",
    "BitVec",
    "Array",
    "_",
    "xor",
    "bvlshr",
    "bvsle",
    "bvsgt",
    "bvnand",
    "x",
    "x01",
    "x1a",
    "X1",
    "@a",
    ".a",
    "@",
    ".",
    "!",
    "=>",
    "=",
    ";",
    ";a",
    "\"a\"",
    "'a'",
    ":named",
    "a,b",
    "a:b",
    "{",
    "[",
    "\\",
    "`",
];

fn tricky(random: &mut Random) -> String {
    let word = match random.below(10) {
        0 => random.pick(&OPERATORS).0,
        1 => random.pick(&RESERVED),
        2 => random.pick(&COMMANDS),
        3 => return name(random),
        _ => random.pick(&TRICKY),
    };
    word.to_string()
}

fn places(words: &[String], wanted: impl Fn(usize) -> bool) -> Vec<usize> {
    (0..words.len()).filter(|&at| wanted(at)).collect()
}

fn owned(words: &[&str]) -> Vec<String> {
    words.iter().map(|word| word.to_string()).collect()
}

/// Damages the words once.
pub fn words(random: &mut Random, words: &mut Vec<String>, kind: usize) {
    if words.is_empty() {
        return words.push(tricky(random));
    }
    let at = random.below(words.len());
    let other = if random.chance(50) { (at + 1) % words.len() } else { random.below(words.len()) };
    match kind {
        0 => drop(words.remove(at)),
        1 => words.insert(at, words[at].clone()),
        2 => words.swap(at, other),
        3 => words[at] = tricky(random),
        4 => words.insert(at, tricky(random)),
        MORE | 6 => one_operand_more(random, words),
        LESS => one_operand_less(random, words),
        AGAIN => declared_again(random, words),
        9 => undeclared(random, words),
        10 => no_asserts(random, words),
        11 => moved(random, words),
        12 => words.truncate(at),
        13 => numeral(random, words),
        14 => deeper(random, words),
        _ => behind(random, words),
    }
}

fn first_assert(words: &[String]) -> usize {
    words.iter().position(|word| word == "assert").unwrap_or(0)
}

/// Before a closing parenthesis of an expression, often the deepest one: one operand, or its beginning.
fn one_operand_more(random: &mut Random, words: &mut Vec<String>) {
    let start = first_assert(words);
    let last_opening =
        words.iter().rposition(|word| word != "check-sat" && word != "(" && word != ")" && word != "assert").unwrap_or(0);
    let closing = places(words, |at| at > start && words[at] == ")");
    let Some(&first) = closing.first() else { return };
    let at = match random.below(4) {
        0 | 1 => first,
        2 => closing.iter().copied().find(|&at| at > last_opening).unwrap_or(first),
        _ => random.pick(&closing),
    };
    let mut more = match random.below(8) {
        0 => owned(&["true"]),
        1 => owned(&["#b101"]),
        2 => owned(&["(", "not", "true", ")"]),
        3 => owned(&["(", "zz", ")"]),
        4 => owned(&["("]),
        5 => vec![tricky(random)],
        _ => vec![words[random.below(words.len())].clone()],
    };
    (0..more.len()).for_each(|k| words.insert(at + k, std::mem::take(&mut more[k])));
}

/// A leaf before a closing parenthesis left out, or all between an operator and the next closing parenthesis.
fn one_operand_less(random: &mut Random, words: &mut Vec<String>) {
    let start = first_assert(words);
    let leaves = places(words, |at| at > start && words[at] != ")" && words.get(at + 1).is_some_and(|next| next == ")"));
    if leaves.is_empty() {
        return;
    }
    let at = random.pick(&leaves);
    words.remove(at);
    if random.chance(20) && at > 0 && words[at - 1] != "(" {
        words.remove(at - 1);
    }
}

/// One declaration's name for another's, or a declaration once more behind all of them.
fn declared_again(random: &mut Random, words: &mut Vec<String>) {
    let names = places(words, |at| at > 0 && words[at - 1] == "declare-const");
    if names.is_empty() {
        return;
    }
    let early = random.below(names.len().min(20));
    let (one, other) = (names[if random.chance(50) { early } else { random.below(names.len()) }], random.pick(&names));
    if random.chance(50) {
        words[one] = words[other].clone();
    } else {
        let again = vec!["(".to_string(), "declare-const".to_string(), words[one].clone(), "Bool".to_string(), ")".to_string()];
        let at = first_assert(words).saturating_sub(1);
        words.splice(at..at, again);
    }
}

fn undeclared(random: &mut Random, words: &mut [String]) {
    let start = first_assert(words);
    let operands = places(words, |at| at > start + 1 && words[at] != "(" && words[at] != ")" && words[at - 1] != "(");
    if !operands.is_empty() {
        let at = random.pick(&operands);
        words[at] = if random.chance(70) { name(random) } else { tricky(random) };
    }
}

/// All asserts left out, or all but the word check-sat with something else before it.
fn no_asserts(random: &mut Random, words: &mut Vec<String>) {
    let from = first_assert(words).saturating_sub(1);
    words.drain(from..words.len().saturating_sub(3).max(from));
    if random.chance(20) {
        words.push(tricky(random));
    }
}

/// A whole command somewhere else.
fn moved(random: &mut Random, words: &mut Vec<String>) {
    let starts = places(words, |at| {
        words[at] == "("
            && words.get(at + 1).is_some_and(|next| ["assert", "declare-const", "check-sat"].contains(&next.as_str()))
    });
    let which = random.below(starts.len().max(1));
    let Some(&from) = starts.get(which) else { return };
    let to = starts.get(which + 1).copied().unwrap_or(words.len());
    let command: Vec<String> = words.drain(from..to).collect();
    let at = match random.below(3) {
        0 => words.len(),
        1 => 0,
        _ => starts[random.below(starts.len())].min(words.len()),
    };
    words.splice(at..at, command);
}

const WIDTHS: [&str; 14] =
    ["08", "0", "00", "33", "32", "1", "01", "032", "320", "4294967297", "4294967296", "18446744073709551617", "-1", "8."];
const CONSTANTS: [&str; 9] = ["#b", "#b2", "#b0102", "#x1", "#xff", "#B1", "#b1b", "#", "b1"];

/// Another width, or another constant: one of 28 to 40 digits, or none.
fn numeral(random: &mut Random, words: &mut [String]) {
    let numerals = places(words, |at| words[at].starts_with("#b") || at > 0 && words[at - 1] == "BitVec");
    if numerals.is_empty() {
        return;
    }
    let at = random.pick(&numerals);
    words[at] = match words[at].starts_with('#') {
        true if random.chance(40) => format!("#b{}", &"01".repeat(20)[..random.between(28, 40)]),
        true => random.pick(&CONSTANTS).to_string(),
        false => random.pick(&WIDTHS).to_string(),
    };
}

/// An operand under more lists of one operator, closed or not.
fn deeper(random: &mut Random, words: &mut Vec<String>) {
    let start = first_assert(words);
    let leaves = places(words, |at| at > start && words[at] != "(" && words[at] != ")" && words[at - 1] != "(");
    if leaves.is_empty() {
        return;
    }
    let at = random.pick(&leaves);
    let (lists, op) = (random.pick(&[1, 2, 62, 63, 64, 65, 66, 200]), random.pick(&["not", "bvnot", "and", "select"]));
    let closing = if random.chance(80) { lists } else { random.below(lists + 1) };
    words.splice(at + 1..at + 1, owned(&vec![")"; closing]));
    words.splice(at..at, owned(&["(", op].repeat(lists)));
}

/// A word behind the whole rule, or a whole command.
fn behind(random: &mut Random, words: &mut Vec<String>) {
    match random.below(3) {
        0 => words.push(tricky(random)),
        1 => words.extend(owned(&["(", "check-sat", ")"])),
        _ => words.extend(owned(&["(", "assert", "true", ")"])),
    }
}

/// Damages the bytes once: one changed, inserted or removed, or the rest cut off.
pub fn bytes(random: &mut Random, text: &mut Vec<u8>) {
    let any = random.below(256) as u8;
    let byte = random.pick(&[
        b'(', b')', b' ', b'\n', b'\t', b'\r', 11, 12, 0, b'#', b'b', b'0', b'1', b'|', b';', b'x', b'@', b'.', 127, 128, 255,
        any,
    ]);
    if text.is_empty() {
        return text.push(byte);
    }
    let at = random.below(text.len());
    match random.below(4) {
        0 => text[at] = byte,
        1 => text.insert(at, byte),
        2 => drop(text.remove(at)),
        _ => text.truncate(at),
    }
}
