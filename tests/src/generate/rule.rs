//! Whole typed rules, in words.

use super::draft::{width, Taste};
use crate::random::Random;
use crate::reference::flaw::Flaw;
use crate::reference::term::*;
use crate::reference::words::{is_name, COMMANDS, OPERATORS, RESERVED};
use std::collections::BTreeSet;

/// Declarations, and the words of each assert's expression.
#[derive(Default)]
pub struct Rule {
    pub names: Vec<(String, Sort)>,
    pub asserts: Vec<Vec<String>>,
}

/// Names that look like something else.
const ODD: [&str; 38] = [
    "Bool", "BitVec", "Array", "xor", "bvlshr", "bvsle", "bvsgt", "bvnand", "x", "X1", "x1a", "x1x", "xx1", "x-1", "x1.", "a@",
    "a.b", "True", "FALSE", "distinct", "concat", "const", "Int", "bv1", "b1", "b", "~", "$", "%", "^", "&", "*", "-", "+", "<",
    ">", "?", "/",
];

fn owned(word: &str) -> String {
    word.to_string()
}

impl Rule {
    pub fn words(&self) -> Vec<String> {
        let mut words = vec![];
        for (name, sort) in &self.names {
            words.extend(["(", "declare-const", name].map(owned));
            words.extend(sort_words(*sort));
            words.push(owned(")"));
        }
        for expression in &self.asserts {
            words.extend(["(", "assert"].map(owned));
            words.extend(expression.iter().cloned());
            words.push(owned(")"));
        }
        words.extend(["(", "check-sat", ")"].map(owned));
        words
    }
}

pub fn sort_words(sort: Sort) -> Vec<String> {
    let vector = |n: u32| ["(", "_", "BitVec", &n.to_string(), ")"].map(owned);
    match sort {
        Sort::Boolean => vec![owned("Bool")],
        Sort::Vector(n) => vector(n).to_vec(),
        Sort::Array(m, n) => [&["(", "Array"].map(owned)[..], &vector(m), &vector(n), &[owned(")")]].concat(),
    }
}

/// A name that may be declared: marked, plain, odd, of any bytes that a symbol has, near a word of the language, or long.
pub fn name(random: &mut Random) -> String {
    let below = random.pick(&[10, 1000, 1_000_000]);
    let number = random.below(below).to_string();
    let near = OPERATORS.map(|o| o.0).iter().chain(&RESERVED).chain(&COMMANDS).copied().collect::<Vec<&str>>();
    let symbol = b"abcxyzABXYZ0123456789~!@$%^&*_-+=<>.?/";
    let any = |random: &mut Random, length: usize| (0..length).map(|_| random.pick(symbol) as char).collect::<String>();
    let name = match random.below(20) {
        0..=4 => format!("x{number}"),
        5 => format!("x0{number}"),
        6..=10 => format!("{}{number}", random.pick(&["a", "v", "t", "offset", "Y", "_"])),
        11..=13 => owned(random.pick(&ODD)),
        14..=16 => {
            let length = random.between(1, 8);
            any(random, length)
        }
        17 | 18 => format!("{}{}", random.pick(&near), random.pick(&["", "1", "x", "!", "-", "="])),
        _ => {
            let length = random.pick(&[30, 64, 300]);
            format!("n{}", any(random, length))
        }
    };
    if is_name(name.as_bytes(), Flaw::None) {
        name
    } else {
        format!("a{number}")
    }
}

pub struct Writer<'a> {
    pub random: &'a mut Random,
    pub taste: Taste,
    pub rule: Rule,
    taken: BTreeSet<String>,
    /// Of a thousand operands, how many may have any sort.
    wrong: usize,
}

impl<'a> Writer<'a> {
    pub fn new(random: &'a mut Random, wrong: usize) -> Writer<'a> {
        let mut taste = Taste::new(random);
        taste.fresh = random.pick(&[10, 40, 80]);
        Writer { random, taste, rule: Rule::default(), taken: BTreeSet::new(), wrong }
    }

    /// A new name of the sort.
    pub fn declare(&mut self, sort: Sort) -> String {
        let mut name = name(self.random);
        while !self.taken.insert(name.clone()) {
            name = format!("{}{}", self::name(self.random), self.taken.len());
        }
        self.rule.names.push((name.clone(), sort));
        name
    }

    pub fn any_sort(&mut self) -> Sort {
        let (vector, array) = (self.random.pick(&self.taste.vectors), self.random.pick(&self.taste.arrays));
        let other = Sort::Vector(width(self.random));
        self.random.pick(&[Sort::Boolean, vector, vector, array, other])
    }

    /// A name of the sort, or a constant, which is no array.
    pub fn leaf(&mut self, words: &mut Vec<String>, sort: Sort) {
        let constant = !matches!(sort, Sort::Array(..)) && self.random.chance(35);
        let known: Vec<&String> = self.rule.names.iter().filter(|(_, of)| *of == sort).map(|(name, _)| name).collect();
        let word = if constant {
            self.constant(sort)
        } else if !known.is_empty() && (!self.random.chance(self.taste.fresh) || self.rule.names.len() > 240) {
            known[self.random.below(known.len())].clone()
        } else {
            self.declare(sort)
        };
        words.push(word);
    }

    fn constant(&mut self, sort: Sort) -> String {
        let value = self.taste.value(self.random, sort);
        match sort {
            Sort::Vector(n) => format!("#b{value:0width$b}", width = n as usize),
            _ => owned(if value == 1 { "true" } else { "false" }),
        }
    }

    fn operator(&mut self, sort: Sort) -> u32 {
        match sort {
            Sort::Boolean => self.random.pick(&[NOT, AND, OR, IMPLIES, EQUAL, EQUAL, CHOICE, LESS, LESS, SIGNED_LESS]),
            Sort::Vector(_) => {
                let signed = self.random.pick(&[NEGATE, SUBTRACT, SHIFT_RIGHT]);
                self.random.pick(&[CHOICE, VECTOR_NOT, VECTOR_AND, VECTOR_OR, SUM, PRODUCT, SHIFT, READ, READ, signed, signed])
            }
            Sort::Array(..) if self.random.chance(self.taste.chosen) => CHOICE,
            Sort::Array(..) => STORE,
        }
    }

    /// The sorts of an operator's operands where its term has this sort.
    fn operand_sorts(&mut self, op: u32, sort: Sort) -> Vec<Sort> {
        let vector = self.random.pick(&self.taste.vectors);
        let index = width(self.random);
        let mut sorts = match (op, sort) {
            (NOT, _) => vec![Sort::Boolean],
            (AND | OR | IMPLIES, _) => vec![Sort::Boolean; 2],
            (EQUAL, _) => vec![self.random.pick(&[Sort::Boolean, vector, vector]); 2],
            (LESS | SIGNED_LESS, _) => vec![vector; 2],
            (CHOICE, _) => vec![Sort::Boolean, sort, sort],
            (VECTOR_NOT | NEGATE, _) => vec![sort],
            (READ, Sort::Vector(n)) => {
                let known: Vec<Sort> =
                    self.taste.arrays.iter().copied().filter(|a| matches!(a, Sort::Array(_, e) if *e == n)).collect();
                let array = if known.is_empty() { Sort::Array(index, n) } else { self.random.pick(&known) };
                vec![array, index_of(array)]
            }
            (STORE, Sort::Array(m, n)) => vec![sort, Sort::Vector(m), Sort::Vector(n)],
            _ => vec![sort; 2],
        };
        if self.random.below(1000) < self.wrong {
            let at = self.random.below(sorts.len());
            sorts[at] = self.any_sort();
        }
        sorts
    }

    /// An expression of about so many lists.
    pub fn expression(&mut self, words: &mut Vec<String>, sort: Sort, lists: usize) {
        if lists == 0 {
            return self.leaf(words, sort);
        }
        let op = self.operator(sort);
        self.list(words, op, sort, lists);
    }

    /// A list of this operator. An array has at most 16 lists, and so at most that size.
    pub fn list(&mut self, words: &mut Vec<String>, op: u32, sort: Sort, lists: usize) {
        let mut left = if matches!(sort, Sort::Array(..)) { lists.min(16) } else { lists } - 1;
        words.extend([owned("("), owned(OPERATORS[op as usize - 2].0)]);
        for sort in self.operand_sorts(op, sort) {
            let share = self.random.below(left + 1);
            self.expression(words, sort, share.min(60));
            left -= share;
        }
        words.push(owned(")"));
    }

    /// An expression with just so many parentheses open at its deepest place. The other operands are leaves.
    pub fn deep(&mut self, words: &mut Vec<String>, sort: Sort, depth: usize) {
        if depth == 0 {
            return self.leaf(words, sort);
        }
        let op = self.operator(sort);
        let sorts = self.operand_sorts(op, sort);
        let goes_down = if op == STORE { self.random.between(1, 2) } else { self.random.below(sorts.len()) };
        words.extend([owned("("), owned(OPERATORS[op as usize - 2].0)]);
        for (at, &sort) in sorts.iter().enumerate() {
            self.deep(words, sort, if at == goes_down { depth - 1 } else { 0 });
        }
        words.push(owned(")"));
    }

    /// An array of just this size, of stores and choices.
    pub fn tree(&mut self, words: &mut Vec<String>, sort: Sort, size: usize) {
        let Sort::Array(m, n) = sort else { unreachable!("an array sort") };
        if size == 0 {
            return self.leaf(words, sort);
        }
        let is_choice = self.random.chance(60);
        words.extend([owned("("), owned(if is_choice { "ite" } else { "store" })]);
        if is_choice {
            let first = self.random.below(size);
            self.leaf(words, Sort::Boolean);
            self.tree(words, sort, first);
            self.tree(words, sort, size - 1 - first);
        } else {
            self.tree(words, sort, size - 1);
            self.leaf(words, Sort::Vector(m));
            self.leaf(words, Sort::Vector(n));
        }
        words.push(owned(")"));
    }

    /// An array under so many stores.
    pub fn chain(&mut self, words: &mut Vec<String>, sort: Sort, stores: usize) {
        let Sort::Array(m, n) = sort else { unreachable!("an array sort") };
        (0..stores).for_each(|_| words.extend([owned("("), owned("store")]));
        self.leaf(words, sort);
        for _ in 0..stores {
            self.leaf(words, Sort::Vector(m));
            self.leaf(words, Sort::Vector(n));
            words.push(owned(")"));
        }
    }

    pub fn assert(&mut self, words: Vec<String>) {
        self.rule.asserts.push(words);
    }
}

pub fn index_of(array: Sort) -> Sort {
    match array {
        Sort::Array(m, _) => Sort::Vector(m),
        other => other,
    }
}
