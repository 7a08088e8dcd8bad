//! What occurred in texts, and what must.

use super::{choices, kind, Counts, Key};
use crate::case::{Answer, Case, Routine};
use crate::reference::flaw::Flaw;
use crate::reference::parsing;
use crate::reference::term::*;
use crate::reference::words::*;

pub const REFUSALS: [u32; 11] = [2, 6, 7, 9, 10, 21, 31, 32, 33, 34, 35];

const KINDS: [&str; 13] = [
    "the end",
    "(",
    ")",
    "a reserved word",
    "a command",
    "an operator",
    "true or false",
    "#b",
    "a name",
    "a numeral",
    "another #",
    "@ or . first",
    "other bytes",
];

/// Which of the kinds a word is.
fn kind_of_word(word: Option<&Word>) -> u32 {
    let Some(Word { bytes, .. }) = word else { return 0 };
    let among = |list: &[&str]| list.iter().any(|known| known.as_bytes() == *bytes);
    let kinds = [
        *bytes == b"(",
        *bytes == b")",
        among(&RESERVED),
        among(&COMMANDS),
        operator(bytes, Flaw::None).is_some(),
        among(&["true", "false"]),
        constant(bytes).is_some(),
        is_name(bytes, Flaw::None),
        bytes.iter().all(u8::is_ascii_digit),
        bytes[0] == b'#',
        matches!(bytes[0], b'@' | b'.'),
    ];
    kinds.iter().position(|&is| is).map_or(12, |at| at as u32 + 1)
}

const UNEXPECTED: &str = "31 at a word of this kind";
const AFTER: &str = "31 behind a word of this kind";
const BEYOND: &str = "refused behind more than 512 terms";
const COUNT: &str = "34: operator, too few or too many";
const ODD: [&str; 9] = ["Bool", "BitVec", "Array", "xor", "bvlshr", "x01", "x1a", "x", "X1"];
const SPACES: [u8; 4] = *b" \t\n\r";

pub fn observe(counts: &mut Counts, case: &Case, answer: &Answer) {
    let words = words(&case.text, Flaw::None);
    let routine = Routine::Parse as u32;
    let place = answer.numbers[0];
    match answer.number {
        0 => accepted(counts, case, answer, &words),
        31..=35 => refused(counts, answer, &words),
        21 if case.room as u64 == 6 * place - 1 => counts.count(("room one short", routine, 0)),
        21 if case.room == 0 => counts.count(("no room at all", routine, 0)),
        21 => {}
        number => {
            let table = parsing::table(&case.text, Flaw::None).expect("a table");
            match number {
                2 if table.len() == 513 => counts.count(("one term over the limit", routine, 0)),
                2 => {}
                10 => counts.count(("parse: the last term is not Boolean, operator", table[place as usize][0], 0)),
                _ => {
                    counts.count(("parse refuses, operator", number, table[place as usize][0]));
                    let [op, _, _, _, q, r] = table[place as usize];
                    let sort = |operand: u32| &table[operand as usize][1..3];
                    if (number, op) == (6, CHOICE) && sort(q)[0] != 0 && sort(r)[0] != 0 && sort(q) != sort(r) {
                        counts.count(("parse refuses 6 at a choice of arrays of two sorts", 0, 0));
                    }
                }
            }
        }
    }
}

fn refused(counts: &mut Counts, answer: &Answer, words: &[Word]) {
    let at = words.iter().position(|word| word.place as u64 == answer.numbers[0]).unwrap_or(words.len());
    let (before, word) = (&words[..at], words.get(at));
    let is_operator = |word: &Word| operator(word.bytes, Flaw::None).is_some();
    let own = |word: &Word| word.bytes == b"declare-const" || is_operator(word) || constant(word.bytes).is_some();
    if before.iter().filter(|word| own(word)).count() > 512 {
        counts.count((BEYOND, answer.number, 0));
    }
    match answer.number {
        31 => {
            counts.count((UNEXPECTED, kind_of_word(word), 0));
            counts.count((AFTER, kind_of_word(before.last()), 0));
        }
        32 => {
            let names: Vec<&Word> = before.windows(2).filter(|w| w[0].bytes == b"declare-const").map(|w| &w[1]).collect();
            match names.iter().position(|name| word.is_some_and(|word| word.bytes == name.bytes)) {
                Some(first) => {
                    counts.count(("32: declared again, over 512 names between", (names.len() - first > 512).into(), 0))
                }
                None => counts.count(("32: not declared", 0, 0)),
            }
        }
        33 | 34 => counted(counts, answer.number, before, word),
        _ => counts.count(("35: names declared", before.iter().any(|w| w.bytes == b"declare-const").into(), 0)),
    }
}

/// 33 and 34: the operator whose list is open, and what of it has come.
fn counted(counts: &mut Counts, number: u32, before: &[Word], word: Option<&Word>) {
    let mut open: Vec<(&[u8], usize)> = vec![];
    for pair in before.windows(2) {
        match (pair[0].bytes, pair[1].bytes) {
            (b"(", operator) => open.push((operator, 0)),
            (_, b")") => {
                open.pop();
                open.last_mut().into_iter().for_each(|list| list.1 += 1);
            }
            (_, b"(") => {}
            _ => open.last_mut().into_iter().for_each(|list| list.1 += 1),
        }
    }
    let Some((name, operands)) = open.pop() else { return };
    let op = operator(name, Flaw::None).unwrap_or(0);
    let many = op > 0 && operands >= arity(op);
    if number == 33 {
        counts.count(("33: an operand too many at once", many.into(), 0));
    } else {
        counts.count((COUNT, op, many.into()));
        counts.count(("34 at a word of this kind", kind_of_word(word), 0));
    }
}

fn accepted(counts: &mut Counts, case: &Case, answer: &Answer, words: &[Word]) {
    let routine = Routine::Parse as u32;
    let count = answer.numbers[0] as usize;
    let exact = case.room == count;
    counts.count((if exact { "room exactly enough" } else { "room longer" }, routine, 0));
    if count == 6 * 512 {
        counts.count(("terms at the limit", routine, 0));
    }
    let table: Vec<&[u32]> = answer.room[..count].chunks(6).collect();
    for term in &table {
        match term[0] {
            CONSTANT => counts.count(("parsed: constant, width", term[2], 0)),
            VARIABLE => counts.count(("parsed: variable: kind of sort, mark", kind(term), term[4])),
            op => counts.count(("parsed: operator", op, 0)),
        }
    }
    choices::observe_text(counts, "parsed: a choice of arrays", &table.concat());
    let names = table.iter().filter(|term| term[0] == VARIABLE).count();
    if names == 256 {
        counts.count(("parsed: 256 names", 0, 0));
    }
    let asserts = words.iter().filter(|word| word.bytes == b"assert").count();
    counts.count(("parsed: asserts", asserts.min(3) as u32, 0));
    if asserts == 1 && words[words.len() - 6].bytes == b"assert" {
        counts.count(("parsed: a sole leaf, constant or name", kind_of_word(words.get(words.len() - 5)), 0));
    }
    observe_words(counts, case, words);
}

/// White space, depth and names of an accepted text.
fn observe_words(counts: &mut Counts, case: &Case, words: &[Word]) {
    let (mut open, mut deepest) = (0, 0);
    for word in words {
        open += usize::from(word.bytes == b"(");
        open -= usize::from(word.bytes == b")");
        deepest = deepest.max(open);
        if let Some(odd) = ODD.iter().position(|odd| odd.as_bytes() == word.bytes) {
            counts.count(("parsed: an odd name or sort", odd as u32, 0));
        }
    }
    counts.count(("parsed: parentheses open after the assert's own", deepest as u32 - 1, 0));
    let text = &case.text;
    for (at, space) in SPACES.iter().enumerate() {
        let places = [text.first(), text.last()].map(|byte| byte == Some(space));
        let alone = text.windows(3).any(|w| w[1] == *space && !SPACES.contains(&w[0]) && !SPACES.contains(&w[2]));
        for (k, _) in [places[0], places[1], alone].iter().enumerate().filter(|(_, &is)| is) {
            counts.count(("parsed: white space first, last, alone", k as u32, at as u32));
        }
    }
}

pub fn wanted(keys: &mut Vec<Key>) {
    keys.extend((0..KINDS.len() as u32).map(|kind| (UNEXPECTED, kind, 0)));
    keys.extend((0..=9).map(|kind| (AFTER, kind, 0)));
    keys.extend([31, 32, 34].map(|number| (BEYOND, number, 0)));
    keys.extend([0, 1].map(|far| ("32: declared again, over 512 names between", far, 0)));
    keys.extend([0, 1].map(|many| ("33: an operand too many at once", many, 0)));
    keys.extend([0, 1].map(|names| ("35: names declared", names, 0)));
    keys.push(("32: not declared", 0, 0));
    for op in NOT..=LAST {
        keys.extend([0, 1].map(|many| (COUNT, op, many)));
        keys.extend([("parsed: operator", op, 0), ("parse refuses, operator", 6, op)]);
    }
    keys.extend([1, 2, 6, 7, 8].map(|kind| ("34 at a word of this kind", kind, 0)));
    keys.extend([CONSTANT, CHOICE, SUM, READ, STORE].map(|op| ("parse: the last term is not Boolean, operator", op, 0)));
    keys.extend([("parse refuses, operator", 7, VARIABLE), ("parse refuses, operator", 9, STORE)]);
    keys.extend((0..=32).map(|width| ("parsed: constant, width", width, 0)));
    for sort in 0..=2 {
        keys.extend([0, 1].map(|mark| ("parsed: variable: kind of sort, mark", sort, mark)));
    }
    keys.extend((1..=3).map(|asserts| ("parsed: asserts", asserts, 0)));
    keys.extend([6, 8].map(|kind| ("parsed: a sole leaf, constant or name", kind, 0)));
    keys.extend([0, 1, 63, 64].map(|open| ("parsed: parentheses open after the assert's own", open, 0)));
    keys.extend((0..ODD.len() as u32).map(|odd| ("parsed: an odd name or sort", odd, 0)));
    (0..3).for_each(|place| keys.extend((0..4).map(|byte| ("parsed: white space first, last, alone", place, byte))));
    let rooms = ["room exactly enough", "room longer", "room one short", "no room at all"];
    let limits = ["one term over the limit", "terms at the limit"];
    keys.extend(rooms.iter().chain(&limits).map(|&name| (name, Routine::Parse as u32, 0)));
    keys.extend([0, 2, 6, 31, 32, 33, 34, 35].map(|number| ("laid out otherwise, refused", number, 0)));
    keys.extend([0, 6].map(|number| ("renamed, refused", number, 0)));
    keys.extend(["parsed: 256 names", "parsed table judged"].map(|name| (name, 0, 0)));
}
