//! What occurred in a run, and what must occur, so that the test cannot go blind.

mod choices;
mod parsing;
mod sheets;

use crate::case::{Answer, Case, Routine, ROUTINES};
use crate::reference::flaw::Flaw;
use crate::reference::sheets::is_marked;
use crate::reference::term::*;
use std::collections::BTreeMap;

/// The counts.
pub struct Counts {
    seen: BTreeMap<Key, u64>,
    pub calls: u64,
    pub pairs: u64,
    pub finished: u64,
    pub sheeted: u64,
    pub printed: u64,
    pub parsed: u64,
}

/// What is counted: a name with up to two numbers, e.g. an operator and a width.
pub type Key = (&'static str, u32, u32);

const ROUTINE_NAMES: [&str; 6] =
    ["admit refuses", "finish refuses", "evaluate refuses", "judge refuses", "print refuses", "parse refuses"];
const RECORD_NAMES: [&str; 2] = ["evaluate, records, refuses", "judge, records, refuses"];
const SHIFTED: &str = "shift right, the sign, the amount below the width or not";
const LIKE: &str = "refusal 6, operands of one sort: operator, kind of sort";
const REFUSALS: [&[u32]; 6] = [
    &[1, 2, 3, 4, 5, 6, 7, 8, 9, 10],
    &[1, 2, 3, 4, 5, 6, 7, 8, 9, 10, 21],
    &[1, 2, 3, 4, 5, 6, 7, 8, 9, 10, 11, 12, 13, 14, 15, 22, 23],
    &[1, 2, 3, 4, 5, 6, 7, 8, 9, 10, 11, 12, 13, 14, 15, 16, 22, 23],
    &[1, 2, 3, 4, 5, 6, 7, 8, 9, 10, 24],
    &parsing::REFUSALS,
];

impl Counts {
    pub fn new() -> Counts {
        Counts { seen: BTreeMap::new(), calls: 0, pairs: 0, finished: 0, sheeted: 0, printed: 0, parsed: 0 }
    }

    pub fn count(&mut self, key: Key) {
        *self.seen.entry(key).or_default() += 1;
    }

    pub fn of(&self, key: Key) -> u64 {
        self.seen.get(&key).copied().unwrap_or(0)
    }

    /// Counts one call and the reference's answer to it.
    pub fn observe(&mut self, case: &Case, answer: &Answer) {
        self.calls += 1;
        let routine = case.routine as usize;
        self.count((ROUTINE_NAMES[routine], answer.number, 0));
        if case.routine == Routine::Parse {
            return parsing::observe(self, case, answer);
        }
        if case.routine == Routine::Judge {
            sheets::observe(self, case, answer);
        }
        match answer.number {
            0 => self.observe_result(case, answer),
            1 | 2 => self.observe_length(case, answer),
            3..=9 => {
                let op = case.table[6 * answer.numbers[0] as usize].min(LAST + 1);
                self.count(("refusal, operator", answer.number, op));
                if matches!(answer.number, 6 | 9) {
                    choices::observe_refused(self, case, answer.number, answer.numbers[0] as usize);
                }
                if answer.number == 6 {
                    self.observe_like_operands(case, &Term::of(&case.table[6 * answer.numbers[0] as usize..][..6]));
                }
            }
            13..=15 => self.observe_setting(case, answer),
            21 if case.room as u64 == 6 * answer.numbers[0] - 1 => self.count(("room one short", routine as u32, 0)),
            22 | 24 if case.room as u64 == answer.numbers[0] - 1 => self.count(("room one short", routine as u32, 0)),
            21 | 22 | 24 if case.room == 0 => self.count(("no room at all", routine as u32, 0)),
            23 if case.allowance == answer.numbers[0] - 1 => self.count(("allowance one below", routine as u32, 0)),
            _ => {}
        }
    }

    /// Counts the same call through the record entrance.
    pub fn observe_records(&mut self, case: &Case, answer: &Answer) {
        self.calls += 1;
        self.count((RECORD_NAMES[usize::from(case.routine == Routine::Judge)], answer.number, 0));
        if !case.cells.is_empty() {
            self.count(("records, of some cells", answer.number.min(1), 0));
        }
    }

    /// A term that is refused 6 for nothing but the one sort that it and its operands have (but a choice's test; the term
    /// itself is Boolean for the comparisons).
    fn observe_like_operands(&mut self, case: &Case, t: &Term) {
        let from = usize::from(t.op == CHOICE);
        let operands = &t.fields()[from.min(t.operands())..t.operands()];
        let sorts: Vec<&[u32]> = operands.iter().map(|&o| &case.table[6 * o as usize + 1..][..2]).collect();
        let Some(&first) = sorts.first() else { return };
        let own: &[u32] = if compares(t.op) { &[0, 0] } else { first };
        if own == [t.m, t.n] && sorts.iter().all(|&sort| sort == first) {
            self.count((LIKE, t.op, kind(&[0, first[0], first[1]])));
        }
    }

    fn observe_length(&mut self, case: &Case, answer: &Answer) {
        if answer.number == 2 && case.terms() == case.routine.limit() + 1 {
            self.count(("one term over the limit", case.routine as u32, 0));
        }
        if case.table.is_empty() {
            self.count(("no numbers at all", case.routine as u32, 0));
        }
    }

    fn observe_setting(&mut self, case: &Case, answer: &Answer) {
        let place = answer.numbers[0] as usize;
        let kind_of_slot = |slot: u32| {
            let variable = case.table.chunks(6).find(|t| t[0] == VARIABLE && t[3] == slot);
            variable.map_or(if slot > 255 { 4 } else { 3 }, kind)
        };
        match answer.number {
            13 => self.count(("too wide, kind of sort", kind(&case.table[6 * place..]), 0)),
            14 => self.count(("cell of no array, kind of slot", kind_of_slot(case.cells[3 * place]), 0)),
            _ => {
                let array = case.table.chunks(6).find(|t| t[0] == VARIABLE && t[3] == case.cells[3 * place]).expect("an array");
                let by_index = u64::from(case.cells[3 * place + 1]) >= 1 << array[1];
                self.count(("cell too wide, by index", by_index.into(), 0));
            }
        }
    }

    fn observe_result(&mut self, case: &Case, answer: &Answer) {
        let routine = case.routine as u32;
        if case.terms() == case.routine.limit() {
            self.count(("terms at the limit", routine, 0));
        }
        if case.terms() > 10_000 {
            self.count(("over 10,000 terms", routine, 0));
        }
        let (needed, spent) = match case.routine {
            Routine::Admit | Routine::Parse => return,
            Routine::Finish => (6 * answer.numbers[0] as usize, None),
            Routine::Evaluate => (case.terms(), Some((answer.numbers[0], answer.numbers[1]))),
            Routine::Judge => (2 * case.terms(), Some((answer.numbers[2], answer.numbers[3]))),
            Routine::Print => (answer.numbers[0] as usize, None),
        };
        self.count((if case.room == needed { "room exactly enough" } else { "room longer" }, routine, 0));
        if let Some((steps, left)) = spent {
            self.count((if left == 0 { "allowance exact" } else { "allowance more" }, routine, steps.min(1) as u32));
        }
        if spent.is_some_and(|(steps, _)| case.allowance % (1 << 32) < steps && steps < case.allowance) {
            self.count(("allowance enough by its high half", routine, 0));
        }
        if case.routine == Routine::Judge {
            self.count(("rule, condition", answer.numbers[0] as u32, answer.numbers[1] as u32));
            self.observe_terms(case, &answer.room);
            choices::observe_judged(self, case, &answer.room);
            self.observe_cells(case);
        }
        if case.routine == Routine::Print {
            self.observe_printed(case);
        }
    }

    /// The words, numerals, bits and sorts of a text, and where slots and terms stand.
    fn observe_printed(&mut self, case: &Case) {
        choices::observe_text(self, "printed: a choice of arrays", &case.table);
        let terms: Vec<Term> = case.table.chunks(6).map(Term::of).collect();
        let mut slots = vec![];
        for (number, t) in terms.iter().enumerate() {
            match t.op {
                VARIABLE if slots.contains(&t.p) => self.count(("printed: a slot used again", 0, 0)),
                VARIABLE => {
                    self.count(("printed: digits of a slot, kind of sort", digits(t.p), kind(&[0, t.m, t.n])));
                    slots.push(t.p);
                }
                CONSTANT if t.n == 0 => self.count(("printed: true or false", t.p, 0)),
                CONSTANT => self.count(("printed: constant, width", t.n, 0)),
                _ => self.count(("printed: operator, digits of its number", t.op, digits(number as u32))),
            }
        }
        if !slots.is_sorted() {
            self.count(("printed: slots not in the order of use", 0, 0));
        }
        if terms.last().is_some_and(|t| t.op == VARIABLE) {
            self.count(("printed: the rule is a variable", 0, 0));
        }
    }

    /// Operators, widths, chains and conditions of a judged table; `room` holds values and conditions. Choices of arrays, and reads of
    /// arrays with such a choice, are counted elsewhere.
    fn observe_terms(&mut self, case: &Case, room: &[u32]) {
        let n = case.terms();
        let mut stores = vec![Some(0); n];
        let mut slots = BTreeMap::new();
        for (number, term) in case.table.chunks(6).enumerate() {
            let t = Term::of(term);
            let width = if compares(t.op) { case.table[6 * t.p as usize + 2] } else { t.n };
            if t.op == CHOICE && t.m != 0 {
                stores[number] = None;
                continue;
            }
            self.count(("operator, width", t.op, width));
            self.observe_signs(&t, width, room);
            match t.op {
                VARIABLE => {
                    self.count(("variable: kind of sort, mark", kind(term), t.q));
                    if slots.insert(t.p, ()).is_some() {
                        self.count(("slot used again, kind of sort", kind(term), 0));
                    }
                }
                STORE => stores[number] = stores[t.p as usize].map(|stores| stores + 1),
                READ => {
                    self.count(("read, index width", case.table[6 * t.p as usize + 1], 0));
                    if let Some(stores) = stores[t.p as usize] {
                        self.count(("read, stores in its chain", stores, 0));
                        self.observe_read(case, room, &t, room[n + number] == 1);
                    }
                }
                _ if room[n + number] == 1 => self.observe_settled(&t, width, room.split_at(n)),
                _ => {}
            }
        }
    }

    /// The operands' signs, and of a shift right whether its amount is the width or more; `values` begins with the values.
    fn observe_signs(&mut self, t: &Term, width: u32, values: &[u32]) {
        let value = |operand: u32| values[operand as usize];
        let sign = |operand: u32| value(operand) >> (width - 1);
        match t.op {
            SIGNED_LESS => self.count(("signed less, the operands' signs", sign(t.p), sign(t.q))),
            SHIFT_RIGHT => self.count((SHIFTED, sign(t.p), (value(t.q) >= width).into())),
            _ => {}
        }
    }

    /// A term whose condition is true although an operand's is not, by the values and the conditions.
    fn observe_settled(&mut self, t: &Term, width: u32, (values, free): (&[u32], &[u32])) {
        let operands = &t.fields()[..t.operands()];
        let is_free: Vec<bool> = operands.iter().map(|&o| free[o as usize] == 1).collect();
        if is_free.iter().all(|&f| f) {
            return;
        }
        self.count(("settled, operator, width", t.op, width));
        if let Some(first) = is_free.iter().position(|&f| f) {
            self.count(("settled, operator, first free operand", t.op, first as u32));
        }
        if t.op == SHIFT_RIGHT {
            self.count(("shift right settled, by 0 or all ones", (values[t.p as usize] > 0).into(), 0));
        }
    }

    /// Where a read's value comes from: a store of the chain, a listed cell, the slot's own value. And by what its condition is true.
    fn observe_read(&mut self, case: &Case, room: &[u32], read: &Term, condition: bool) {
        let term = |number: u32| Term::of(&case.table[6 * number as usize..][..6]);
        let index = room[read.q as usize];
        let (mut array, mut depth, mut source, mut free_indexes) = (term(read.p), 0, None, true);
        while array.op == STORE {
            if source.is_none() {
                free_indexes &= room[case.terms() + array.q as usize] == 1;
                source = (room[array.q as usize] == index).then_some(depth);
            }
            depth += 1;
            array = term(array.p);
        }
        let listed = case.cells.chunks(3).any(|c| c[0] == array.p && c[1] == index);
        match source {
            Some(depth) => self.count(("read from store, from outside", depth, 0)),
            None if listed => self.count(("read from a cell", 0, 0)),
            None => self.count(("read from the slot's value", 0, 0)),
        }
        if condition && is_marked(&case.sheet, array.p, array.q, Flaw::None) {
            self.count(("settled, operator, width", READ, read.n));
        }
        if condition && !free_indexes {
            self.count(("read settled by equal values", 0, 0));
        }
    }

    fn observe_cells(&mut self, case: &Case) {
        let cells: Vec<&[u32]> = case.cells.chunks(3).collect();
        for (i, later) in cells.iter().enumerate() {
            for earlier in &cells[..i] {
                let (slot, index) = (earlier[0] == later[0], earlier[1] == later[1]);
                match (slot, index, earlier[2] == later[2]) {
                    (true, true, false) => self.count(("cell hidden by an earlier one", 0, 0)),
                    (true, true, true) => self.count(("cell listed twice", 0, 0)),
                    (false, true, _) => self.count(("one index, cells of two slots", 0, 0)),
                    _ => {}
                }
            }
        }
    }

    /// What must occur and did not.
    pub fn missing(&self) -> Vec<Key> {
        wanted().into_iter().filter(|key| self.of(*key) == 0).collect()
    }

    /// The refusals seen, all routines together.
    pub fn refusals(&self) -> u64 {
        self.seen.iter().filter(|(key, _)| ROUTINE_NAMES.contains(&key.0) && key.1 != 0).map(|(_, count)| count).sum()
    }

    /// All counts, a line for each name.
    pub fn lines(&self) -> Vec<String> {
        let mut lines: BTreeMap<&str, String> = BTreeMap::new();
        for ((name, a, b), count) in &self.seen {
            lines.entry(name).or_default().push_str(&format!(" {a}/{b}:{count}"));
        }
        lines.iter().map(|(name, counts)| format!("{name}:{counts}")).collect()
    }
}

/// 0 for a Boolean, 1 for a vector, 2 for an array.
fn kind(term: &[u32]) -> u32 {
    match (term[1], term[2]) {
        (0, 0) => 0,
        (0, _) => 1,
        _ => 2,
    }
}

fn digits(number: u32) -> u32 {
    number.checked_ilog10().unwrap_or(0) + 1
}

fn wanted() -> Vec<Key> {
    let mut keys = vec![];
    for (routine, name) in ROUTINE_NAMES.iter().enumerate() {
        keys.push((*name, 0, 0));
        keys.extend(REFUSALS[routine].iter().map(|&number| (*name, number, 0)));
    }
    for (name, refusals) in RECORD_NAMES.iter().zip(&REFUSALS[2..]) {
        keys.push((name, 0, 0));
        keys.extend(refusals.iter().filter(|&&number| number != 11).map(|&number| (*name, number, 0)));
    }
    keys.extend([0, 1].map(|refused| ("records, of some cells", refused, 0)));
    wanted_of_tables(&mut keys);
    wanted_of_results(&mut keys);
    wanted_of_texts(&mut keys);
    parsing::wanted(&mut keys);
    sheets::wanted(&mut keys);
    choices::wanted(&mut keys);
    keys
}

fn wanted_of_texts(keys: &mut Vec<Key>) {
    for op in NOT..=LAST {
        keys.extend((1..=5).map(|digits| ("printed: operator, digits of its number", op, digits)));
    }
    for sort in 0..=2 {
        keys.extend((1..=3).map(|digits| ("printed: digits of a slot, kind of sort", digits, sort)));
    }
    keys.extend((1..=32).map(|width| ("printed: constant, width", width, 0)));
    keys.extend([0, 1].map(|value| ("printed: true or false", value, 0)));
    keys.extend([0, 1].map(|shared| ("printed beside another table, text shared", shared, 0)));
    let shapes = ["printed: a slot used again", "printed: slots not in the order of use", "printed: the rule is a variable"];
    keys.extend(shapes.iter().chain(&["printed with other marks"]).map(|&name| (name, 0, 0)));
}

fn wanted_of_tables(keys: &mut Vec<Key>) {
    for op in CONSTANT..=LAST {
        keys.extend([4, 5].map(|number| ("refusal, operator", number, op)));
        if op != VARIABLE {
            keys.push(("refusal, operator", 6, op));
        }
        let widths = match op {
            NOT | AND | OR | IMPLIES => 0..=0,
            CONSTANT | VARIABLE | EQUAL | CHOICE => 0..=32,
            _ => 1..=32,
        };
        keys.extend(widths.map(|width| ("operator, width", op, width)));
    }
    for op in SCALAR {
        let forbidden: &[u32] = match op {
            NOT | AND | OR | IMPLIES => &[1, 2],
            EQUAL => &[2],
            CHOICE => &[],
            _ => &[0, 2],
        };
        keys.extend(forbidden.iter().map(|&kind| (LIKE, op, kind)));
    }
    keys.extend([(7, CONSTANT), (7, VARIABLE), (9, CHOICE), (9, STORE)].map(|(number, op)| ("refusal, operator", number, op)));
    wanted_of_conditions(keys);
    keys.extend((0..=16).map(|length| ("read, stores in its chain", length, 0)));
    keys.extend((0..=15).map(|depth| ("read from store, from outside", depth, 0)));
    keys.extend((1..=32).map(|width| ("read, index width", width, 0)));
    for sort in 0..=2 {
        keys.extend([0, 1].map(|mark| ("variable: kind of sort, mark", sort, mark)));
        keys.extend([("slot used again, kind of sort", sort, 0), ("too wide, kind of sort", sort, 0)]);
    }
}

/// What settles a term, and the signs where they count.
fn wanted_of_conditions(keys: &mut Vec<Key>) {
    for op in [AND, OR, IMPLIES, VECTOR_AND, VECTOR_OR, PRODUCT, CHOICE, LESS, SIGNED_LESS] {
        keys.extend([0, 1].map(|operand| ("settled, operator, first free operand", op, operand)));
    }
    for op in [CHOICE, VECTOR_AND, VECTOR_OR, PRODUCT, SHIFT, LESS, READ, SIGNED_LESS, SHIFT_RIGHT] {
        keys.extend((1..=32).map(|width| ("settled, operator, width", op, width)));
    }
    keys.extend([0, 1].map(|ones| ("shift right settled, by 0 or all ones", ones, 0)));
    for (a, b) in [(0, 0), (0, 1), (1, 0), (1, 1)] {
        keys.extend([("signed less, the operands' signs", a, b), (SHIFTED, a, b)]);
    }
}

fn wanted_of_results(keys: &mut Vec<Key>) {
    for routine in ROUTINES {
        let number = routine as u32;
        keys.extend(["one term over the limit", "terms at the limit", "no numbers at all"].map(|name| (name, number, 0)));
        if routine != Routine::Admit {
            let rooms = ["room exactly enough", "room longer", "room one short", "no room at all"];
            keys.extend(rooms.map(|name| (name, number, 0)));
        }
        if matches!(routine, Routine::Evaluate | Routine::Judge) {
            keys.extend([0, 1].map(|some| ("allowance exact", number, some)));
            keys.extend([("allowance more", number, 1), ("allowance one below", number, 0)]);
            keys.push(("allowance enough by its high half", number, 0));
        }
    }
    keys.extend([Routine::Evaluate, Routine::Print].map(|routine| ("over 10,000 terms", routine as u32, 0)));
    keys.extend([(0, 0), (0, 1), (1, 0), (1, 1)].map(|(rule, condition)| ("rule, condition", rule, condition)));
    keys.extend([0, 1, 3, 4].map(|slot| ("cell of no array, kind of slot", slot, 0)));
    keys.extend([0, 1].map(|index| ("cell too wide, by index", index, 0)));
    let cells = ["cell hidden by an earlier one", "cell listed twice", "one index, cells of two slots"];
    let reads = ["read from a cell", "read from the slot's value", "read settled by equal values"];
    for name in cells.iter().chain(&reads).chain(&["pair: cells relisted", "finished table over 10,000 terms"]) {
        keys.push((name, 0, 0));
    }
    for sheet in [0, 1] {
        keys.push(("pair: condition true, marked values differ; sheet changes marks", sheet, 0));
        keys.push(("pair: condition false, rules differ; sheet changes marks", sheet, 0));
        keys.push(("finished table evaluated and printed, some sheet", sheet, 0));
    }
}
