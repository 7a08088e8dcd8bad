//! Texts: whole rules of several makes, laid out in several ways.

use super::draft::width;
use super::rule::{index_of, Rule, Writer};
use crate::random::Random;
use crate::reference::flaw::Flaw;
use crate::reference::parsing;
use crate::reference::term::*;
use crate::reference::words;

/// How many operators there are.
const OPERATORS: u64 = words::OPERATORS.len() as u64;

/// A rule of ordinary size. The number sees to it that every make has its turn.
pub fn small(random: &mut Random, number: u64) -> Rule {
    let turn = number / 6;
    let wrong = random.pick(&[0, 0, 0, 0, 20, 100]);
    let mut writer = Writer::new(random, wrong);
    match number % 6 {
        0 => sole(&mut writer, turn),
        1 | 2 => single(&mut writer, (turn % OPERATORS) as u32 + 2, (turn / OPERATORS % 32) as u32 + 1),
        3 | 4 => mixed(&mut writer),
        _ => match turn % 3 {
            0 => deep(&mut writer, turn / 3),
            1 => stores(&mut writer, turn / 3),
            _ => choices(&mut writer, turn / 3),
        },
    }
    for _ in 0..writer.random.pick(&[0, 0, 0, 1, 3]) {
        let sort = writer.any_sort();
        writer.declare(sort);
    }
    if writer.random.chance(30) {
        writer.random.shuffle(&mut writer.rule.names);
    }
    writer.rule
}

/// One assert of a bare name or of a constant.
fn sole(writer: &mut Writer, turn: u64) {
    let vector = Sort::Vector(turn as u32 / 2 % 32 + 1);
    let array = Sort::Array(width(writer.random), width(writer.random));
    let sort = writer.random.pick(&[Sort::Boolean, Sort::Boolean, vector, array]);
    writer.taste.fresh = 100;
    let mut words = vec![];
    writer.leaf(&mut words, sort);
    writer.assert(words);
}

/// One operator at one width over leaves.
fn single(writer: &mut Writer, op: u32, width: u32) {
    writer.taste.vectors = vec![Sort::Vector(width)];
    writer.taste.arrays = vec![Sort::Array(width, width)];
    let sort = match op {
        NOT | AND | OR | IMPLIES | EQUAL | LESS | SIGNED_LESS => Sort::Boolean,
        STORE => Sort::Array(width, width),
        CHOICE if writer.random.chance(30) => Sort::Array(width, width),
        _ => Sort::Vector(width),
    };
    let mut words = vec![];
    writer.list(&mut words, op, sort, 1);
    compared(writer, words, sort);
}

/// Asserts what an expression of the sort says, seldom itself where it is not Boolean.
fn compared(writer: &mut Writer, expression: Vec<String>, sort: Sort) {
    let word = |word: &str| vec![word.to_string()];
    let mut other = vec![];
    let words = match sort {
        _ if sort == Sort::Boolean || writer.random.chance(5) => expression,
        Sort::Array(m, n) => {
            writer.leaf(&mut other, index_of(sort));
            let read = [word("("), word("select"), expression, other, word(")")].concat();
            assert!(m > 0);
            return compared(writer, read, Sort::Vector(n));
        }
        _ => {
            writer.leaf(&mut other, sort);
            let op = writer.random.pick(&["=", "bvult", "bvslt"]);
            [word("("), word(op), expression, other, word(")")].concat()
        }
    };
    writer.assert(words);
}

fn mixed(writer: &mut Writer) {
    for _ in 0..writer.random.pick(&[1, 1, 2, 3, 5]) {
        let sort = if writer.random.chance(97) { Sort::Boolean } else { writer.any_sort() };
        let lists = writer.random.pick(&[0, 1, 2, 4, 8, 20]);
        let mut words = vec![];
        writer.expression(&mut words, sort, lists);
        writer.assert(words);
    }
}

/// About 64 parentheses open.
fn deep(writer: &mut Writer, turn: u64) {
    let mut words = vec![];
    writer.deep(&mut words, Sort::Boolean, [61, 62, 63, 64, 64, 64, 65, 66, 67][turn as usize % 9]);
    writer.assert(words);
}

/// A read of a chain of stores.
fn stores(writer: &mut Writer, turn: u64) {
    let sort = writer.random.pick(&writer.taste.arrays);
    let mut words = vec![];
    writer.chain(&mut words, sort, turn as usize % 20);
    compared(writer, words, sort);
}

/// A read of an array of stores and choices; or a choice between arrays of two sorts.
fn choices(writer: &mut Writer, turn: u64) {
    let sort = writer.random.pick(&writer.taste.arrays);
    let mut words = vec![];
    if writer.random.chance(90) {
        writer.tree(&mut words, sort, turn as usize % 20);
        return compared(writer, words, sort);
    }
    let other = Sort::Array(width(writer.random), width(writer.random));
    words.extend(["(", "ite", "true"].map(str::to_string));
    writer.leaf(&mut words, sort);
    writer.leaf(&mut words, other);
    words.push(")".to_string());
    compared(writer, words, sort);
}

/// The turns of large rules; at one there are more names than a table has terms, at one far more terms.
pub const TURNS: u64 = 10;
pub const MANY_NAMES: u64 = 6;
pub const MANY_TERMS: u64 = 7;

/// Rules about the limits: of terms, and of names.
pub fn large(random: &mut Random, turn: u64) -> Rule {
    let wrong = random.pick(&[0, 0, 1]);
    let mut writer = Writer::new(random, wrong);
    mixed(&mut writer);
    let (terms, names) = match turn {
        0 => (512, 0),
        1 => (513, 0),
        2 => (0, 256),
        3 => (0, 257),
        4 => (0, 512),
        5 => (0, writer.random.between(258, 511)),
        MANY_NAMES => (0, writer.random.between(513, 900)),
        MANY_TERMS => (writer.random.between(600, 1500), 0),
        8 => (512, 256),
        _ => (writer.random.between(400, 512), writer.random.between(100, 256)),
    };
    while writer.rule.names.len() < names {
        let sort = if writer.random.chance(50) { Sort::Boolean } else { writer.any_sort() };
        writer.declare(sort);
    }
    fill(&mut writer, terms);
    writer.rule
}

/// Asserts more until the table has just so many terms, where it has not more.
fn fill(writer: &mut Writer, terms: usize) {
    while count(&writer.rule) < terms {
        let left = terms - count(&writer.rule);
        let mut words = vec![];
        match left {
            1 => {
                writer.declare(Sort::Boolean);
                continue;
            }
            2..=40 => words.push("true".to_string()),
            _ => writer.expression(&mut words, Sort::Boolean, left.min(100) / 8),
        }
        writer.assert(words);
    }
}

/// The terms of a rule's table.
fn count(rule: &Rule) -> usize {
    let text = rule.words().join(" ");
    parsing::table(text.as_bytes(), Flaw::None).map_or(0, |table| table.len())
}

const SPACES: [&[u8]; 4] = [b" ", b"\t", b"\n", b"\r"];

/// White space by one of several manners: as little as can be, a space, lines, wild.
pub fn lay_out(random: &mut Random, words: &[impl AsRef<[u8]>]) -> Vec<u8> {
    let manner = random.below(6);
    let sole = random.pick(&SPACES);
    let mut text = vec![];
    let mut before: &[u8] = b"(";
    for word in words.iter().map(AsRef::as_ref) {
        let touching = [before, word].iter().any(|word| *word == b"(" || *word == b")");
        let needed = if touching { 0 } else { 1 };
        match manner {
            0 => text.extend(sole.repeat(needed)),
            1 => text.extend(b" "),
            2 if before == b")" && word == b"(" => text.extend(random.pick(&[&b"\n"[..], b"\r\n", b"\n\n\t"])),
            2 | 3 => text.extend(b" ".repeat(needed)),
            4 => text.extend(sole.repeat(needed.max(random.below(3)))),
            _ => (0..needed.max(random.below(4))).for_each(|_| text.extend(random.pick(&SPACES))),
        }
        text.extend(word);
        before = word;
    }
    (0..random.pick(&[0, 1, 1, 3])).for_each(|_| text.extend(random.pick(&SPACES)));
    text
}
