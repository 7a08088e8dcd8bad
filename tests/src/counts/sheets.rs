//! What must occur of mark sheets.

use super::{kind, Counts, Key};
use crate::case::{Answer, Case};
use crate::reference::flaw::Flaw;
use crate::reference::sheets::{faults, faulty, is_marked, Fault, KEEP, MARK};
use crate::reference::term::VARIABLE;
use std::collections::BTreeMap;

const BEFORE: &str = "refused before the faulty sheet is looked at";
const ALONE: &str = "16 for one fault: which, line 0 or later";
const BESIDE: &str = "16 beside a later refusal";
const TURNED: &str = "sheet turns: kind of sort, the table's mark";
const NAMED: &str = "slot in mark and keep lines, which stands first";

/// A sheet of so many lines is a long one.
const LONG: usize = 100;

/// Counts a call of judge.
pub fn observe(counts: &mut Counts, case: &Case, answer: &Answer) {
    match answer.number {
        0 => observe_judged(counts, case),
        1..=10 if !faulty(&case.sheet).is_empty() => counts.count((BEFORE, answer.number, 0)),
        11 if !case.sheet.is_empty() => counts.count(("11 behind a whole sheet", 0, 0)),
        16 => observe_faulty(counts, case, answer.numbers[0] as usize),
        _ => {}
    }
}

/// A call that is refused 16 at this line.
fn observe_faulty(counts: &mut Counts, case: &Case, place: usize) {
    let line = case.sheet.chunks(3).nth(place).expect("a line");
    let faults = faults(line);
    match faults[..] {
        [Fault::Cut] => {
            counts.count(("16 for a cut line: numbers it has, line 0 or later", line.len() as u32, place.min(1) as u32))
        }
        [fault] => counts.count((ALONE, fault as u32, place.min(1) as u32)),
        _ => counts.count(("16 for several faults in one line", 0, 0)),
    }
    if place >= LONG {
        counts.count(("16 in a long sheet", 0, 0));
    }
    let faulty = faulty(&case.sheet);
    let is_cut = case.sheet.len() % 3 != 0 && line.len() == 3;
    if faulty.len() > 1 {
        counts.count(("16, and a later line is faulty, cut", is_cut.into(), 0));
    }
    let slots: Vec<u32> = case.table.chunks(6).filter(|t| t[0] == VARIABLE).map(|t| t[3]).collect();
    if line.len() == 3 && !slots.iter().any(|slot| (line[1]..=line[2]).contains(slot)) && line[1] <= line[2] {
        counts.count(("16 at a line of slots that nobody uses", 0, 0));
    }
    if case.cells.len() % 3 != 0 {
        counts.count((BESIDE, 11, 0));
    }
    if slots.iter().any(|&slot| slot as usize >= case.values.len()) {
        counts.count((BESIDE, 12, 0));
    }
    if case.room < 2 * case.terms() {
        counts.count((BESIDE, 22, 0));
    }
}

/// A judged call: what its sheet says of the inputs.
fn observe_judged(counts: &mut Counts, case: &Case) {
    let lines: Vec<&[u32]> = case.sheet.chunks(3).collect();
    counts.count((
        ("judged, lines of the sheet: none, one, some, many"),
        lines.len().min(2) as u32 + u32::from(lines.len() >= LONG),
        0,
    ));
    let inputs: BTreeMap<u32, &[u32]> = case.table.chunks(6).filter(|t| t[0] == VARIABLE).map(|t| (t[3], t)).collect();
    let names = |line: &[u32], slot: u32| (line[1]..=line[2]).contains(&slot);
    let (mut turned, mut named) = (false, false);
    for (&slot, &term) in &inputs {
        let kinds: Vec<u32> = lines.iter().filter(|line| names(line, slot)).map(|line| line[0]).collect();
        named |= !kinds.is_empty();
        if kinds.contains(&MARK) && kinds.contains(&KEEP) {
            counts.count((NAMED, kinds[0], 0));
        }
        if is_marked(&case.sheet, slot, term[4], Flaw::None) != (term[4] == 1) {
            counts.count((TURNED, kind(term), term[4]));
            turned = true;
        }
        if kinds.is_empty() && !lines.is_empty() {
            counts.count(("slot that no line names, the table's mark", term[4], 0));
        }
    }
    if named && !turned {
        counts.count(("sheet names inputs and leaves their marks", 0, 0));
    }
    if lines.iter().any(|line| !inputs.keys().any(|&slot| names(line, slot))) {
        counts.count(("line of slots that nobody uses", 0, 0));
    }
    for end in lines.iter().filter(|line| line[2] == 255 || line[1] == 0) {
        counts.count(("line from slot 0, to slot 255", (end[1] == 0).into(), (end[2] == 255).into()));
    }
}

pub fn wanted(keys: &mut Vec<Key>) {
    for fault in [Fault::Kind, Fault::Reversed, Fault::Slot] {
        keys.extend([0, 1].map(|line| (ALONE, fault as u32, line)));
    }
    for length in [1, 2] {
        keys.extend([0, 1].map(|line| ("16 for a cut line: numbers it has, line 0 or later", length, line)));
    }
    keys.extend([0, 1].map(|cut| ("16, and a later line is faulty, cut", cut, 0)));
    keys.extend([11, 12, 22].map(|number| (BESIDE, number, 0)));
    keys.extend((1..=10).map(|number| (BEFORE, number, 0)));
    keys.extend((0..=3).map(|lines| ("judged, lines of the sheet: none, one, some, many", lines, 0)));
    for mark in [0, 1] {
        keys.extend((0..=2).map(|sort| (TURNED, sort, mark)));
        keys.push(("slot that no line names, the table's mark", mark, 0));
    }
    keys.extend([KEEP, MARK].map(|first| (NAMED, first, 0)));
    keys.extend([(0, 1), (1, 0), (1, 1)].map(|(low, high)| ("line from slot 0, to slot 255", low, high)));
    let names = [
        "11 behind a whole sheet",
        "16 for several faults in one line",
        "16 in a long sheet",
        "16 at a line of slots that nobody uses",
        "sheet names inputs and leaves their marks",
        "line of slots that nobody uses",
    ];
    keys.extend(names.map(|name| (name, 0, 0)));
    for (own, plain) in [(0, 0), (0, 1), (1, 0), (1, 1)] {
        keys.push(("sheeted: condition, that by the table", own, plain));
    }
    keys.extend([0, 1].map(|refused| ("sheeted: refused between two judgements", refused, 0)));
}
