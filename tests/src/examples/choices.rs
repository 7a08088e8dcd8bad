//! Choices of arrays, request 07: values, conditions, steps, finished tables, sizes with refusals 6 and 9, and texts.

use super::typed::{not_read, read};
use super::{call, example, finished, judged, not_admitted, printed, refused, Example, Term};
use crate::case::{Case, Routine};

/// Whether it is summer, the summer curve, the winter curve and an index in slots 0 to 3, with these marks: what the curve that the
/// test picks holds at the index is below 90.
pub const fn curves(marks: [u32; 4]) -> [Term; 8] {
    [
        [1, 0, 0, 0, marks[0], 0],
        [1, 8, 8, 1, marks[1], 0],
        [1, 8, 8, 2, marks[2], 0],
        [1, 0, 8, 3, marks[3], 0],
        [7, 8, 8, 0, 1, 2],
        [15, 0, 8, 4, 3, 0],
        [0, 0, 8, 90, 0, 0],
        [14, 0, 0, 5, 6, 0],
    ]
}

pub fn all() -> Vec<Example> {
    let mut examples = seasons();
    examples.extend(same_array());
    examples.extend(store_over_choice());
    examples.extend(choice_over_stores());
    examples.extend(choice_over_choice());
    examples.extend(steps());
    examples.extend(finished_tables());
    examples.extend(sizes());
    examples.extend(sorts());
    examples.extend(texts());
    examples
}

/// The summer and the winter curve.
fn seasons() -> Vec<Example> {
    let marked = curves([1, 0, 0, 0]);
    let of = |name, marks, values: [u32; 4], rule, condition| judged(name, &curves(marks), &values, rule, condition, 1);
    let cells = [1, 7, 50, 2, 7, 50];
    let at = |name, index, answer| example(name, call(Routine::Judge, &marked, &[1, 0, 9, index], &cells, 1), 0, answer);
    let front = vec![1, 0, 0, 7, 0, 50, 90, 1, 0, 1, 1, 1, 0, 1, 1, 1];
    let alike = of("a marked test, curves that agree", [1, 0, 0, 0], [1, 50, 50, 7], true, true);
    vec![
        Example { front, ..alike },
        of("a marked test picks the other of two that agree", [1, 0, 0, 0], [0, 50, 50, 7], true, true),
        of("a marked test, curves that differ", [1, 0, 0, 0], [1, 50, 60, 7], true, false),
        of("a marked test picks the other of two that differ", [1, 0, 0, 0], [0, 50, 95, 7], false, false),
        of("curves that agree, one of them marked", [1, 0, 1, 0], [1, 50, 50, 7], true, false),
        of("curves that agree at a marked index", [1, 0, 0, 1], [1, 50, 50, 7], true, false),
        of("a free test picks the first curve", [0, 0, 1, 0], [1, 50, 60, 7], true, true),
        of("a free test picks the second curve", [0, 1, 0, 0], [0, 50, 95, 7], false, true),
        of("a free test picks a marked first curve", [0, 1, 0, 0], [1, 50, 60, 7], true, false),
        of("a free test picks a marked second curve", [0, 0, 1, 0], [0, 50, 60, 7], true, false),
        of("a free test picks a marked curve, and both agree", [0, 1, 0, 0], [1, 50, 50, 7], true, false),
        of("a free test at a marked index", [0, 0, 0, 1], [1, 50, 60, 7], true, false),
        at("curves that agree at this index alone", 7, [1, 1, 1, 0]),
        at("and at no other", 8, [1, 0, 1, 0]),
    ]
}

/// A choice between an array and itself, read and equal to what is read.
const fn same(marks: [u32; 2]) -> [Term; 6] {
    [
        [1, 0, 0, 0, marks[0], 0],
        [1, 8, 8, 1, marks[1], 0],
        [1, 0, 8, 2, 0, 0],
        [7, 8, 8, 0, 1, 1],
        [15, 0, 8, 3, 2, 0],
        [6, 0, 0, 4, 4, 0],
    ]
}

fn same_array() -> Vec<Example> {
    let unread = [[1, 0, 0, 0, 0, 0], [1, 8, 8, 1, 0, 0], [7, 8, 8, 0, 1, 1], [2, 0, 0, 0, 0, 0]];
    let unread = judged("a choice that is not read: no value, no truth, no steps", &unread, &[0, 5], true, true, 0);
    let array = [1, 8, 8, 1, 0, 0];
    let again =
        [[1, 0, 0, 0, 1, 0], array, array, [1, 0, 8, 2, 0, 0], [7, 8, 8, 0, 1, 2], [15, 0, 8, 4, 3, 0], [6, 0, 0, 5, 5, 0]];
    vec![
        judged("two variables of one slot by a marked test", &again, &[1, 5, 7], true, true, 1),
        judged("an array and itself by a marked test", &same([1, 0]), &[1, 5, 7], true, true, 1),
        judged("a marked array and itself", &same([1, 1]), &[1, 5, 7], true, false, 1),
        judged("a marked array and itself by a free test", &same([0, 1]), &[1, 5, 7], true, false, 1),
        Example { front: vec![0, 0, 0, 1, 1, 1, 0, 1], ..unread },
    ]
}

/// 42 stored at an index over a choice between two arrays, read at another index, is 42. Slots: the test, the arrays, the indexes.
const fn stored(marks: [u32; 5]) -> [Term; 10] {
    [
        [1, 0, 0, 0, marks[0], 0],
        [1, 8, 8, 1, marks[1], 0],
        [1, 8, 8, 2, marks[2], 0],
        [1, 0, 8, 3, marks[3], 0],
        [1, 0, 8, 4, marks[4], 0],
        [0, 0, 8, 42, 0, 0],
        [7, 8, 8, 0, 1, 2],
        [16, 8, 8, 6, 3, 5],
        [15, 0, 8, 7, 4, 0],
        [6, 0, 0, 8, 5, 0],
    ]
}

fn store_over_choice() -> Vec<Example> {
    let of = |name, marks, values: [u32; 5], rule, condition| judged(name, &stored(marks), &values, rule, condition, 2);
    vec![
        of("the store answers, whatever the test is", [1, 0, 0, 0, 0], [1, 9, 8, 1, 1], true, true),
        of("past the store to arrays that agree", [1, 0, 0, 0, 0], [1, 42, 42, 1, 2], true, true),
        of("past the store to arrays that differ", [1, 0, 0, 0, 0], [1, 42, 7, 1, 2], true, false),
        of("past the store by a free test", [0, 0, 1, 0, 0], [1, 42, 7, 1, 2], true, true),
        of("a marked index, and the choice holds what is stored", [0, 0, 1, 1, 0], [1, 42, 7, 1, 1], true, true),
        of("a marked index, and the choice holds something else", [0, 0, 0, 1, 0], [0, 42, 7, 1, 1], true, false),
    ]
}

/// A choice between one array with two values stored at an index, read there, is 5. Slots: the test, the array, the index, the values.
const fn of_stores(marks: [u32; 5]) -> [Term; 11] {
    [
        [1, 0, 0, 0, marks[0], 0],
        [1, 8, 8, 1, marks[1], 0],
        [1, 0, 8, 2, marks[2], 0],
        [1, 0, 8, 3, marks[3], 0],
        [1, 0, 8, 4, marks[4], 0],
        [16, 8, 8, 1, 2, 3],
        [16, 8, 8, 1, 2, 4],
        [7, 8, 8, 0, 5, 6],
        [15, 0, 8, 7, 2, 0],
        [0, 0, 8, 5, 0, 0],
        [6, 0, 0, 8, 9, 0],
    ]
}

fn choice_over_stores() -> Vec<Example> {
    let of = |name, marks, values: [u32; 5], rule, condition| judged(name, &of_stores(marks), &values, rule, condition, 3);
    vec![
        of("equal values stored", [1, 0, 0, 0, 0], [1, 0, 7, 5, 5], true, true),
        of("equal values stored over a marked array", [1, 1, 0, 0, 0], [0, 0, 7, 5, 5], true, true),
        of("two values stored", [1, 0, 0, 0, 0], [1, 0, 7, 5, 6], true, false),
        of("equal values stored, one of them marked", [1, 0, 0, 0, 1], [1, 0, 7, 5, 5], true, false),
        of("a free test picks the free one", [0, 0, 0, 0, 1], [1, 0, 7, 5, 6], true, true),
        of("a free test picks the marked one", [0, 0, 0, 0, 1], [0, 0, 7, 5, 6], false, false),
    ]
}

/// A choice between a choice of two arrays and a third, read at 3, is 50. Slots: the tests, the second marked, and the arrays.
const fn nested(mark: u32) -> [Term; 11] {
    [
        [1, 0, 0, 0, mark, 0],
        [1, 0, 0, 1, 1, 0],
        [1, 8, 8, 2, 0, 0],
        [1, 8, 8, 3, 0, 0],
        [1, 8, 8, 4, 0, 0],
        [0, 0, 8, 3, 0, 0],
        [7, 8, 8, 1, 2, 3],
        [7, 8, 8, 0, 6, 4],
        [15, 0, 8, 7, 5, 0],
        [0, 0, 8, 50, 0, 0],
        [6, 0, 0, 8, 9, 0],
    ]
}

fn choice_over_choice() -> Vec<Example> {
    let of = |name, mark, values: [u32; 5], rule, condition| judged(name, &nested(mark), &values, rule, condition, 2);
    vec![
        of("three arrays that agree", 1, [1, 1, 50, 50, 50], true, true),
        of("the third differs", 1, [1, 1, 50, 50, 60], true, false),
        of("the second differs", 1, [0, 1, 50, 60, 50], true, false),
        of("a free test picks the third", 0, [0, 1, 50, 60, 50], true, true),
        of("a free test picks the two that differ", 0, [1, 1, 50, 60, 50], true, false),
        of("a free test picks the two that agree", 0, [1, 0, 60, 60, 50], false, true),
    ]
}

/// Steps are the size of the whole array.
fn steps() -> Vec<Example> {
    let table = [
        [1, 0, 0, 0, 0, 0],
        [1, 8, 8, 1, 0, 0],
        [1, 0, 8, 2, 0, 0],
        [16, 8, 8, 1, 2, 2],
        [7, 8, 8, 0, 3, 1],
        [15, 0, 8, 4, 2, 0],
        [6, 0, 0, 5, 2, 0],
    ];
    let with = |values: [u32; 3], allowance| call(Routine::Judge, &table, &values, &[], allowance);
    let finished = [&stored([1, 0, 0, 0, 0])[..], &ADDED_TO_STORED].concat();
    let finished = call(Routine::Evaluate, &finished, &[1, 42, 7, 1, 2], &[], 100);
    vec![
        example("the store's branch is taken: 2 steps", with([1, 0, 9], 2), 0, [1, 1, 2, 0]),
        example("the other branch is taken: 2 steps", with([0, 9, 9], 2), 0, [1, 1, 2, 0]),
        example("a finished read takes steps of its own", finished, 0, [3, 97, 0, 0]),
        refused("an allowance of 1", with([0, 9, 9], 1), 23, 2),
        refused("an allowance of 0", with([1, 0, 9], 0), 23, 2),
    ]
}

const YES: Term = [0, 0, 0, 1, 0, 0];
const NO: Term = [0, 0, 0, 0, 0, 0];

/// What is added to the curves, the test marked: the read's ten terms, and the nine of less.
const ADDED_TO_CURVES: [Term; 22] = [
    YES,
    NO,
    [3, 0, 0, 8, 8, 0],
    [3, 0, 0, 8, 8, 0],
    [15, 0, 8, 1, 3, 0],
    [15, 0, 8, 2, 3, 0],
    [7, 0, 0, 0, 10, 11],
    [3, 0, 0, 9, 14, 0],
    [3, 0, 0, 10, 11, 0],
    [6, 0, 0, 12, 13, 0],
    [3, 0, 0, 16, 17, 0],
    [4, 0, 0, 15, 18, 0],
    [0, 0, 8, 255, 0, 0],
    [6, 0, 0, 5, 20, 0],
    [3, 0, 0, 19, 21, 0],
    [0, 0, 8, 0, 0, 0],
    [6, 0, 0, 6, 23, 0],
    [3, 0, 0, 8, 24, 0],
    [4, 0, 0, 22, 25, 0],
    [3, 0, 0, 19, 8, 0],
    [4, 0, 0, 26, 27, 0],
    [3, 0, 0, 7, 28, 0],
];

/// What is added to a choice between an array and itself, the test marked: nothing is shared, 1 + 1 + 8 terms for the read.
const ADDED_TO_SAME: [Term; 14] = [
    YES,
    NO,
    [3, 0, 0, 6, 6, 0],
    [3, 0, 0, 6, 6, 0],
    [15, 0, 8, 1, 2, 0],
    [15, 0, 8, 1, 2, 0],
    [7, 0, 0, 0, 8, 9],
    [3, 0, 0, 7, 12, 0],
    [3, 0, 0, 8, 9, 0],
    [6, 0, 0, 10, 11, 0],
    [3, 0, 0, 14, 15, 0],
    [4, 0, 0, 13, 16, 0],
    [3, 0, 0, 17, 17, 0],
    [3, 0, 0, 5, 18, 0],
];

/// What is added to a store over a choice, the test marked: 1 + 1 + 8 terms of the choice, then nine of the store.
const ADDED_TO_STORED: [Term; 23] = [
    YES,
    NO,
    [3, 0, 0, 10, 10, 0],
    [3, 0, 0, 10, 10, 0],
    [15, 0, 8, 1, 4, 0],
    [15, 0, 8, 2, 4, 0],
    [7, 0, 0, 0, 12, 13],
    [3, 0, 0, 11, 16, 0],
    [3, 0, 0, 12, 13, 0],
    [6, 0, 0, 14, 15, 0],
    [3, 0, 0, 18, 19, 0],
    [4, 0, 0, 17, 20, 0],
    [15, 0, 8, 6, 4, 0],
    [6, 0, 0, 3, 4, 0],
    [7, 0, 0, 23, 10, 21],
    [3, 0, 0, 10, 10, 0],
    [3, 0, 0, 25, 24, 0],
    [6, 0, 0, 5, 22, 0],
    [3, 0, 0, 10, 21, 0],
    [3, 0, 0, 28, 27, 0],
    [4, 0, 0, 26, 29, 0],
    [3, 0, 0, 30, 10, 0],
    [3, 0, 0, 9, 31, 0],
];

/// Of a choice over stores, the test marked, T being 11 and F 12: the first branch, the second, the choice.
const ADDED_TO_STORES: [Term; 32] = [
    YES,
    NO,
    [3, 0, 0, 11, 11, 0],
    [15, 0, 8, 1, 2, 0],
    [6, 0, 0, 2, 2, 0],
    [7, 0, 0, 15, 11, 13],
    [3, 0, 0, 11, 11, 0],
    [3, 0, 0, 17, 16, 0],
    [6, 0, 0, 3, 14, 0],
    [3, 0, 0, 11, 13, 0],
    [3, 0, 0, 20, 19, 0],
    [4, 0, 0, 18, 21, 0],
    [3, 0, 0, 11, 11, 0],
    [15, 0, 8, 1, 2, 0],
    [6, 0, 0, 2, 2, 0],
    [7, 0, 0, 25, 11, 23],
    [3, 0, 0, 11, 11, 0],
    [3, 0, 0, 27, 26, 0],
    [6, 0, 0, 4, 24, 0],
    [3, 0, 0, 11, 23, 0],
    [3, 0, 0, 30, 29, 0],
    [4, 0, 0, 28, 31, 0],
    [15, 0, 8, 5, 2, 0],
    [15, 0, 8, 6, 2, 0],
    [7, 0, 0, 0, 22, 32],
    [3, 0, 0, 12, 35, 0],
    [3, 0, 0, 22, 32, 0],
    [6, 0, 0, 33, 34, 0],
    [3, 0, 0, 37, 38, 0],
    [4, 0, 0, 36, 39, 0],
    [3, 0, 0, 40, 11, 0],
    [3, 0, 0, 10, 41, 0],
];

fn finished_tables() -> Vec<Example> {
    let whole = |name, given: &[Term], added: &[Term]| {
        let count = (given.len() + added.len()) as u64;
        finished(name, given, [count, count - 2, count - 1], [given.concat(), added.concat()].concat())
    };
    vec![
        whole("the curves finished", &curves([1, 0, 0, 0]), &ADDED_TO_CURVES),
        whole("an array and itself finished", &same([1, 0]), &ADDED_TO_SAME),
        whole("a store over a choice finished", &stored([1, 0, 0, 0, 0]), &ADDED_TO_STORED),
        whole("a choice over stores finished", &of_stores([1, 0, 0, 0, 0]), &ADDED_TO_STORES),
    ]
}

/// A test and an array in slots 0 and 1, then choices, each between the array before it and that array again: sizes 1, 3, 7, 15, 31.
fn tower(choices: u32) -> Vec<Term> {
    let mut terms = vec![[1, 0, 0, 0, 0, 0], [1, 8, 8, 1, 0, 0]];
    terms.extend((1..=choices).map(|array| [7, 8, 8, 0, array, array]));
    terms
}

/// Size over 16 is 9, at the term, read or not.
fn sizes() -> Vec<Example> {
    let (index, rule) = ([0, 0, 8, 3, 0, 0], [2, 0, 0, 0, 0, 0]);
    let with = |more: &[Term]| [tower(4), more.to_vec()].concat();
    let read = |array: Term| with(&[index, array, [15, 0, 8, 7, 6, 0], [6, 0, 0, 8, 6, 0]]);
    let sixteen = [7, 8, 8, 0, 5, 1];
    let finished = finished("16 finished: 1 + 9 times 16 for the read", &read(sixteen), [159, 157, 158], vec![]);
    let chain = |first, second| {
        let stores = (1..=8).map(|k| [16, 8, 8, if k == 1 { 1 } else { k + 1 }, 2, 2]);
        [tower(0), vec![index], stores.collect(), vec![[7, 8, 8, 0, first, second], rule]].concat()
    };
    vec![
        judged("15 and 0 make 16", &read(sixteen), &[1, 3], true, true, 16),
        judged("0 and 15 make 16", &read([7, 8, 8, 0, 1, 5]), &[0, 3], true, true, 16),
        judged("a store over 15 makes 16", &read([16, 8, 8, 5, 6, 6]), &[1, 9], true, true, 16),
        judged("a tower of 15 that is not read", &with(&[rule]), &[0, 3], true, true, 0),
        judged("8 and 7 stores", &chain(10, 9), &[0, 3], true, true, 0),
        Example { case: Case { room: 6 * 159, ..finished.case }, ..finished },
        not_admitted("a tower's fifth choice", &[tower(5), vec![rule]].concat(), 9, 6),
        not_admitted("a tower's fifth choice, read", &read([7, 8, 8, 0, 5, 5]), 9, 7),
        not_admitted("15 and 1 make 17", &read([7, 8, 8, 0, 5, 2]), 9, 7),
        not_admitted("1 and 15 make 17", &read([7, 8, 8, 0, 2, 5]), 9, 7),
        not_admitted("16 and 0 make 17", &with(&[sixteen, [7, 8, 8, 0, 6, 1], rule]), 9, 7),
        not_admitted("a store over 16", &with(&[sixteen, index, [16, 8, 8, 6, 7, 7], rule]), 9, 8),
        not_admitted("8 and 8 stores", &chain(10, 10), 9, 11),
        not_admitted("5 before 9", &with(&[[7, 8, 8, 0, 5, 6], rule]), 5, 6),
        not_admitted("6 before 9: a test that is no Boolean", &with(&[[7, 8, 8, 1, 5, 5], rule]), 6, 6),
        not_admitted("6 before 9: two sorts", &with(&[sixteen, [1, 4, 8, 2, 0, 0], [7, 8, 8, 0, 6, 7], rule]), 6, 8),
        not_admitted("9 before a later 3", &[tower(5), vec![[21, 0, 0, 0, 0, 0]]].concat(), 9, 6),
    ]
}

/// What is chosen has one sort, the term's.
fn sorts() -> Vec<Example> {
    let given = [[1, 0, 0, 0, 0, 0], [1, 8, 8, 1, 0, 0], [1, 4, 8, 2, 0, 0], [1, 8, 4, 3, 0, 0], [1, 0, 8, 4, 0, 0]];
    let with = |more: &[Term]| [&given, more].concat();
    let of = |name, term: Term| not_admitted(name, &with(&[term]), 6, 5);
    vec![
        of("two index widths", [7, 8, 8, 0, 1, 2]),
        of("two index widths, with the sort of the second", [7, 4, 8, 0, 1, 2]),
        of("two widths", [7, 8, 8, 0, 1, 3]),
        of("two widths, with the sort of the second", [7, 8, 4, 0, 1, 3]),
        of("an array and a vector", [7, 8, 8, 0, 1, 4]),
        of("a vector and an array", [7, 0, 8, 0, 4, 1]),
        of("a choice of arrays that is a vector", [7, 0, 8, 0, 1, 1]),
        of("a choice of arrays that is a Boolean", [7, 0, 0, 0, 1, 1]),
        of("a choice of vectors that is an array", [7, 8, 8, 0, 4, 4]),
        of("a test that is a vector", [7, 8, 8, 4, 1, 1]),
        of("a test that is an array", [7, 8, 8, 1, 1, 1]),
        of("equal arrays", [6, 0, 0, 1, 1, 0]),
        not_admitted("equal choices of arrays", &with(&[[7, 8, 8, 0, 1, 1], [6, 0, 0, 5, 5, 0]]), 6, 6),
        not_admitted("a choice of arrays is no rule", &with(&[[7, 8, 8, 0, 1, 1]]), 10, 5),
    ]
}

const SEASONS: &str = "(declare-const x0 Bool)(declare-const summer (Array (_ BitVec 8) (_ BitVec 8)))\
                       (declare-const winter (Array (_ BitVec 8) (_ BitVec 8)))(declare-const i (_ BitVec 8))";

/// The curves printed and typed; refusals of typed choices.
fn texts() -> Vec<Example> {
    let lines = [
        "(declare-const v0 Bool)",
        "(declare-const v1 (Array (_ BitVec 8) (_ BitVec 8)))",
        "(declare-const v2 (Array (_ BitVec 8) (_ BitVec 8)))",
        "(declare-const v3 (_ BitVec 8))",
        "(define-fun t4 () (Array (_ BitVec 8) (_ BitVec 8)) (ite v0 v1 v2))",
        "(define-fun t5 () (_ BitVec 8) (select t4 v3))",
        "(define-fun t6 () (_ BitVec 8) #b01011010)",
        "(define-fun t7 () Bool (bvult t5 t6))",
        "(assert t7)",
    ];
    let typed = |expression: &str| format!("{SEASONS}(assert (bvult (select {expression} i) #b01011010))(check-sat)");
    let choices = |count: usize| typed(&format!("{}winter{}", "(ite x0 summer ".repeat(count), ")".repeat(count)));
    let [x, summer, winter, i, choice, read_it, constant, less] = curves([1, 0, 0, 0]);
    let of_two_sorts = "(declare-const narrow (Array (_ BitVec 4) (_ BitVec 8)))".to_string() + &typed("(ite x0 summer narrow)");
    let again =
        [x, summer, winter, i, [7, 8, 8, 0, 1, 1], [7, 8, 8, 0, 4, 2], [15, 0, 8, 5, 3, 0], constant, [14, 0, 0, 6, 7, 0]];
    let all: Vec<Term> = [x, summer, winter, i, choice].into_iter().chain((4..19).map(|r| [7, 8, 8, 0, 1, r])).collect();
    let all = [all, vec![[15, 0, 8, 19, 3, 0], constant, [14, 0, 0, 20, 21, 0]]].concat();
    vec![
        printed("the curves printed", &curves([1, 0, 0, 0]), &lines),
        read("the curves typed", &typed("(ite x0 summer winter)"), &[x, summer, winter, i, choice, read_it, constant, less]),
        read("a choice of a choice typed", &typed("(ite x0 (ite x0 summer summer) winter)"), &again),
        read("16 choices typed", &choices(16), &all),
        not_read("17 choices typed", &choices(17), 9, 20),
        not_read("a typed choice between arrays of two sorts", &of_two_sorts, 6, 5),
        not_read("a typed choice of arrays by a vector", &typed("(ite i summer winter)"), 6, 4),
        not_read("equal typed choices", &format!("{SEASONS}(assert (= (ite x0 summer winter) summer))(check-sat)"), 6, 5),
        not_read("a sole typed choice of arrays", &format!("{SEASONS}(assert (ite x0 summer winter))(check-sat)"), 10, 4),
    ]
}
