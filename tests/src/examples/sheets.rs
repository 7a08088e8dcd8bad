//! Mark sheets, request 06: the marks that hold, refusal 16 with its places and its order, and two parties with one rule.

use super::{call, example, h, refused, Example, Term, G};
use crate::case::{Case, Routine};

/// Slots 0 to 3: the gauge's reading, its offset (marked), the laboratory's basis weight, whether a sample was taken. Where one was,
/// the basis weight is below 90, else the reading with the offset is.
pub const GAUGE: [Term; 10] = [
    [1, 0, 8, 0, 0, 0],
    [1, 0, 8, 1, 1, 0],
    [1, 0, 8, 2, 0, 0],
    [1, 0, 0, 3, 0, 0],
    [0, 0, 8, 90, 0, 0],
    [14, 0, 0, 2, 4, 0],
    [11, 0, 8, 0, 1, 0],
    [0, 0, 8, 90, 0, 0],
    [14, 0, 0, 6, 7, 0],
    [7, 0, 0, 3, 5, 8],
];

/// The mill vouches for the laboratory, the shop for its offset.
pub const MILL: [u32; 6] = [1, 1, 1, 0, 2, 2];
pub const SHOP: [u32; 6] = [0, 1, 1, 1, 2, 2];

/// A call of judge under a sheet, with an allowance of 100.
pub fn under(sheet: &[u32], terms: &[Term], values: &[u32]) -> Case {
    Case { sheet: sheet.to_vec(), ..call(Routine::Judge, terms, values, &[], 100) }
}

/// A judgement that takes no steps: rule and condition.
fn judged(name: &'static str, sheet: &[u32], terms: &[Term], values: &[u32], rule: bool, condition: bool) -> Example {
    example(name, under(sheet, terms, values), 0, [rule.into(), condition.into(), 0, 100])
}

pub fn all() -> Vec<Example> {
    let mut examples = parties();
    examples.extend(marks());
    examples.extend(rooms());
    examples.extend(faulty_lines());
    examples.extend(order());
    examples
}

/// One rule and one setting under two sheets. A judgement of one party between two of the other changes neither: the calls are made
/// in this order.
fn parties() -> Vec<Example> {
    let sampled = [80, 4, 85, 1];
    let gauged = [80, 4, 85, 0];
    let of = |name, sheet: &[u32], values: &[u32], condition| judged(name, sheet, &GAUGE, values, true, condition);
    vec![
        of("the mill, a sample", &MILL, &sampled, true),
        of("the shop, the same sample", &SHOP, &sampled, false),
        of("the mill again", &MILL, &sampled, true),
        of("the shop again", &SHOP, &sampled, false),
        of("the mill, no sample", &MILL, &gauged, false),
        of("the shop, no sample", &SHOP, &gauged, true),
        refused("the shop is refused", under(&[SHOP.as_slice(), &[1]].concat(), &GAUGE, &sampled), 16, 2),
        of("the mill after the shop's refusal", &MILL, &sampled, true),
        of("no sheet: the table's own marks, which are the mill's", &[], &sampled, true),
        of("no sheet, no sample", &[], &gauged, false),
    ]
}

/// Which marks hold.
fn marks() -> Vec<Example> {
    let (p1, p2) = ([0, 5, 1], [1, 1, 0]);
    let g = |name, sheet: &[u32], values: &[u32], condition| judged(name, sheet, &G, values, true, condition);
    let highest = [[1, 0, 0, 255, 0, 0]];
    let last = |name, sheet: &[u32], condition| judged(name, sheet, &highest, &[1; 256], true, condition);
    vec![
        g("P1 under the empty sheet", &[], &p1, true),
        g("P2 under the empty sheet", &[], &p2, false),
        g("P2, x kept", &[0, 1, 1], &p2, true),
        g("P2, all kept", &[0, 0, 255], &p2, true),
        g("P1, a marked", &[1, 0, 0], &p1, false),
        g("P1, all marked", &[1, 0, 2], &p1, false),
        g("P1, b marked: the last slot of a line", &[1, 1, 2], &p1, false),
        g("P1, lines of other slots: as the table says", &[1, 3, 9, 0, 9, 255], &p1, true),
        g("P2, lines of other slots: as the table says", &[1, 3, 9, 0, 9, 255], &p2, false),
        g("a mark and a keep line: marked", &[1, 1, 1, 0, 0, 2], &p2, false),
        g("a keep and a mark line: marked", &[0, 0, 2, 1, 1, 1], &p2, false),
        g("mark 0 to 63, keep 1: slot 1 stays marked", &[1, 0, 63, 0, 1, 1], &p2, false),
        g("a keep line beneath a wide mark line: a is marked too", &[1, 0, 63, 0, 0, 0], &p1, false),
        g("two keep lines", &[0, 1, 1, 0, 1, 5], &p2, true),
        g("two mark lines", &[1, 2, 2, 1, 0, 2], &p1, false),
        g("the same line a hundred times", &[0, 1, 1].repeat(100), &p2, true),
        last("slot 255 in a mark line", &[1, 254, 255], false),
        last("slot 255 beside a mark line", &[1, 254, 254], true),
        last("slot 255 in a line of all", &[1, 0, 255], false),
    ]
}

/// The values in the room and the steps are those of any sheet; the truths are those under this one.
fn rooms() -> Vec<Example> {
    let front = |sheet: &[u32], values: [u32; 3], front: [u32; 14], condition| {
        let judged = judged("the room under a sheet", sheet, &G, &values, true, condition);
        Example { front: front.to_vec(), ..judged }
    };
    let h = h(1, 0);
    let chain = |name, sheet: &[u32], values: &[u32], condition| {
        let case = Case { allowance: 1, ..under(sheet, &h, values) };
        example(name, case, 0, [1, condition, 1, 0])
    };
    vec![
        front(&[], [1, 1, 0], [1, 1, 0, 1, 1, 0, 1, 1, 0, 1, 0, 0, 1, 0], false),
        front(&[0, 1, 1], [1, 1, 0], [1, 1, 0, 1, 1, 0, 1, 1, 1, 1, 1, 1, 1, 1], true),
        front(&[1, 0, 2, 0, 1, 1], [1, 1, 0], [1, 1, 0, 1, 1, 0, 1, 0, 0, 0, 0, 0, 1, 0], false),
        chain("P8", &[], &[42, 0, 2], 0),
        chain("P8, the array kept", &[0, 0, 0], &[42, 0, 2], 1),
        chain("P7, the stored index marked", &[1, 1, 1], &[9, 0, 0], 0),
        chain("P7, the stored index marked and t all 42: the array decides", &[1, 1, 1], &[42, 0, 0], 0),
        chain("the same, the array kept: it holds what is stored", &[0, 0, 0, 1, 1, 1], &[42, 0, 0], 1),
        refused("the steps are those of any sheet", Case { allowance: 0, ..under(&[0, 0, 0], &h, &[42, 0, 2]) }, 23, 1),
    ]
}

/// Refusal 16: the lowest faulty line, counted from 0.
fn faulty_lines() -> Vec<Example> {
    let of = |name, sheet: &[u32], place| refused(name, under(sheet, &G, &[0, 5, 1]), 16, place);
    let many = [[1, 0, 2].repeat(300), vec![0, 2, 1]].concat();
    vec![
        of("a cut last line has its own number", &[1, 0, 0, 0, 3], 1),
        of("a reversed line before a cut one", &[1, 0, 0, 0, 3, 2, 1], 1),
        of("one number", &[1], 0),
        of("two numbers", &[0, 0], 0),
        of("a cut line with a kind that is none", &[1, 0, 0, 7], 1),
        of("another kind", &[2, 0, 0], 0),
        of("a kind of all ones", &[u32::MAX, 0, 0], 0),
        of("the ends reversed", &[1, 2, 1], 0),
        of("a highest slot of 256", &[1, 0, 256], 0),
        of("both slots 256", &[0, 256, 256], 0),
        of("both slots all ones", &[0, u32::MAX, u32::MAX], 0),
        of("a lowest slot of 256 alone", &[0, 256, 3], 0),
        of("a later line", &[1, 0, 255, 0, 0, 0, 1, 9, 8], 2),
        of("the lowest of two, by another fault", &[1, 0, 0, 1, 0, 300, 3, 0, 0], 1),
        of("the lowest of two, the other one first in the list of faults", &[0, 9, 3, 2, 0, 0], 0),
        of("a line of slots that nobody uses", &[1, 0, 0, 0, 200, 199], 1),
        of("the last of many lines", &many, 300),
    ]
}

/// 16 comes after 10 and before 11; 8 goes by the table's marks.
fn order() -> Vec<Example> {
    let faulty = [2, 0, 0];
    let of = |terms: &[Term], values: &[u32]| under(&faulty, terms, values);
    let cut_cells = |sheet: &[u32]| Case { cells: vec![0], ..under(sheet, &G, &[0, 5, 1]) };
    let both_marks = [[1, 0, 0, 4, 0, 0], [1, 0, 0, 4, 1, 0]];
    let clash = |name, sheet: &[u32]| refused(name, under(sheet, &both_marks, &[0; 5]), 8, 1);
    vec![
        refused("1 before 16", of(&[], &[]), 1, 0),
        refused("7 before 16", of(&[[0, 0, 0, 2, 0, 0]], &[]), 7, 0),
        refused("10 before 16", of(&[[0, 0, 8, 1, 0, 0]], &[]), 10, 0),
        refused("16 before 11", cut_cells(&faulty), 16, 0),
        refused("11 behind a whole sheet", cut_cells(&[1, 0, 0]), 11, 0),
        refused("16 before 12", of(&G, &[]), 16, 0),
        refused("16 before 13", of(&G, &[256, 0, 0]), 16, 0),
        refused("16 before 22", Case { room: 0, ..of(&G, &[0, 5, 1]) }, 16, 0),
        refused("16 before 23", Case { allowance: 0, ..of(&h(1, 0), &[9, 0, 0]) }, 16, 0),
        refused("22 behind a whole sheet", Case { room: 13, ..under(&SHOP, &G, &[0, 5, 1]) }, 22, 14),
        clash("8 although all are marked", &[1, 0, 255]),
        clash("8 although all are kept", &[0, 0, 255]),
        clash("8 before 16", &[1, 0]),
    ]
}
