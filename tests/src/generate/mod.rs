//! Random rounds. A round is one table in one setting and under one sheet, handed to all routines that take a table, or a text;
//! rooms and allowances are each call's own.

pub mod choices;
pub mod damage;
pub mod draft;
pub mod misprint;
pub mod rule;
pub mod setting;
pub mod sheet;
pub mod table;
pub mod typed;

use crate::case::{Case, Routine, ROUTINES};
use crate::random::Random;
use crate::reference::{admission, flaw::Flaw, parsing, printing};
use draft::Draft;

/// Every so many rounds comes a large table.
const LARGE_EVERY: u64 = 1500;

/// And every so many a large text.
const LARGE_TEXT_EVERY: u64 = 400;

/// The calls of a round. The number sees to it that every kind of table and of damage has its turn.
pub fn round(random: &mut Random, number: u64) -> Vec<Case> {
    if number % LARGE_EVERY == 7 {
        return large(random, number / LARGE_EVERY);
    }
    if number % 4 == 3 {
        return vec![typed(random, number)];
    }
    let draft = small(random, number);
    let mut table = draft.numbers();
    let mut setting = setting::whole(random, &draft);
    if number % 4 == 1 {
        damage::table(random, &mut table, (number / 4) as usize % 14 + 1);
        while random.chance(25) && table.len() % 6 == 0 && !table.is_empty() {
            let aim = random.between(1, 14);
            damage::table(random, &mut table, aim);
        }
    }
    if number % 4 == 2 || random.chance(5) {
        damage::setting(random, &mut setting, &draft, (number / 4) as usize % 5 + 11);
        while random.chance(30) {
            let aim = random.between(11, 15);
            damage::setting(random, &mut setting, &draft, aim);
        }
    }
    let mut sheet = sheet::of_table(random, &table);
    let damaged = [6, 30, 25, 0][number as usize % 4];
    while random.chance(damaged) {
        sheet::damage(random, &mut sheet);
    }
    cases(random, &draft, table, sheet, setting)
}

/// The operators; twice and more those that one operand can settle. Their count is odd, so that each meets every kind of round.
const OPERATORS: [u32; 39] = [
    0, 1, 2, 3, 4, 5, 6, 7, 7, 8, 9, 9, 9, 10, 10, 10, 11, 12, 12, 12, 13, 13, 14, 14, 14, 15, 15, 15, 16, 17, 18, 19, 19, 19,
    19, 19, 20, 20, 20,
];

fn small(random: &mut Random, number: u64) -> Draft {
    match random.below(22) {
        0..=9 => {
            let (turn, place) = (number as usize / OPERATORS.len(), number as usize % OPERATORS.len());
            table::single(random, OPERATORS[place], (turn % 32) as u32 + 1)
        }
        10..=14 => {
            let size = random.between(1, 14);
            table::mixed(random, size)
        }
        15..=17 => {
            let size = random.between(15, 50);
            table::mixed(random, size)
        }
        18 | 19 => table::chain(random, (number % 17) as usize),
        _ => choices::whole(random, (number % 17) as usize),
    }
}

/// Tables at the limits. What is too long for one routine is handed to all the same.
fn large(random: &mut Random, turn: u64) -> Vec<Case> {
    let size = match turn % 9 {
        0 => 512,
        1 => 80_000,
        2 => 513,
        3 => 80_001,
        4 => random.between(514, 5_000),
        5 => random.between(10_000, 79_999),
        6 => random.between(300, 512),
        _ => random.between(100, 512),
    };
    let draft = if turn % 9 == 6 { table::deep(random, size) } else { table::exactly(random, size) };
    let setting = setting::whole(random, &draft);
    let mut table = draft.numbers();
    if turn >= 9 && random.chance(30) {
        let aim = random.between(1, 14);
        damage::table(random, &mut table, aim);
    }
    let sheet = sheet::of_table(random, &table);
    let mut cases = cases(random, &draft, table, sheet, setting);
    if turn < 9 || random.chance(50) {
        for case in &mut cases {
            case.room = case.room.max(needed(&draft, case.routine));
            case.allowance = case.allowance.max(draft.steps());
        }
    }
    cases
}

/// A text, whole, or damaged at words or at bytes. Those beyond the limits are mostly damaged, so that what comes late is found.
fn typed(random: &mut Random, number: u64) -> Case {
    let large = number % LARGE_TEXT_EVERY == 11;
    let turn = number / LARGE_TEXT_EVERY % typed::TURNS;
    let rule = if large { typed::large(random, turn) } else { typed::small(random, number / 4) };
    let kinds = match turn {
        typed::MANY_NAMES if large => [misprint::AGAIN; 2],
        typed::MANY_TERMS if large => [misprint::MORE, misprint::LESS],
        _ if large => [misprint::MORE, misprint::AGAIN],
        _ => [misprint::MORE, misprint::LESS],
    };
    let beyond = large && (turn == typed::MANY_NAMES || turn == typed::MANY_TERMS);
    let mut words = rule.words();
    let damage = if beyond { 0 } else { random.below(6) };
    while damage == 0 || damage == 1 {
        let any = if beyond { kinds } else { [random.below(misprint::KINDS); 2] };
        let kind = random.pick(&[any, kinds].concat());
        misprint::words(random, &mut words, kind);
        if !random.chance(20) {
            break;
        }
    }
    let mut text = typed::lay_out(random, &words);
    if damage == 2 {
        (0..=random.below(2)).for_each(|_| misprint::bytes(random, &mut text));
    }
    let needed = 6 * parsing::table(&text, Flaw::None).map_or(7, |table| table.len());
    let room = setting::room(random, needed);
    Case::parse(text, room)
}

/// A table that was parsed, in some setting and under some sheet.
pub fn of_table(random: &mut Random, table: &[u32]) -> Vec<Case> {
    let draft = Draft::of_table(random, table);
    let setting = setting::whole(random, &draft);
    let sheet = sheet::of_table(random, table);
    cases(random, &draft, table.to_vec(), sheet, setting)
}

/// The numbers that the room of a call needs, or the bytes.
fn needed(draft: &Draft, routine: Routine) -> usize {
    match routine {
        Routine::Admit => 0,
        Routine::Finish => 6 * draft.finished(),
        Routine::Evaluate => draft.terms.len(),
        Routine::Judge => 2 * draft.terms.len(),
        Routine::Print => printed(draft),
        Routine::Parse => 0,
    }
}

/// The bytes of the table's text.
fn printed(draft: &Draft) -> usize {
    let table = admission::admit(&draft.numbers(), usize::MAX, Flaw::None);
    table.map_or(0, |table| printing::text(&table, Flaw::None).len())
}

fn cases(random: &mut Random, draft: &Draft, table: Vec<u32>, sheet: Vec<u32>, setting: setting::Setting) -> Vec<Case> {
    let case = |routine: Routine| Case {
        routine,
        table: table.clone(),
        sheet: sheet.clone(),
        text: vec![],
        values: setting.values.clone(),
        cells: setting.cells.clone(),
        allowance: setting::allowance(random, draft.steps()),
        room: setting::room(random, needed(draft, routine)),
    };
    ROUTINES.map(case).to_vec()
}
