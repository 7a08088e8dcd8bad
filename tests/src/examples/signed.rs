//! The signed operators, request 05: values, conditions, finished tables, refusals and texts.

use super::{calculation, call, example, finished, judged, not_admitted, printed, Example, Term};
use crate::case::Routine;

/// A vector in slot 0 and one in slot 1, with these marks, under an operator, and what it gives equal to a constant.
const fn applied(op: u32, width: u32, marks: [u32; 2], is: u32) -> [Term; 5] {
    [
        [1, 0, width, 0, marks[0], 0],
        [1, 0, width, 1, marks[1], 0],
        [op, 0, width, 0, 1, 0],
        [0, 0, width, is, 0, 0],
        [6, 0, 0, 2, 3, 0],
    ]
}

/// The same two under signed less.
const fn compared(width: u32, marks: [u32; 2]) -> [Term; 3] {
    [[1, 0, width, 0, marks[0], 0], [1, 0, width, 1, marks[1], 0], [19, 0, 0, 0, 1, 0]]
}

pub fn all() -> Vec<Example> {
    let mut examples = values();
    examples.extend(less());
    examples.extend(right_shift());
    examples.extend(strict());
    examples.extend(finished_tables());
    examples.extend(refusals());
    examples.push(text());
    examples
}

/// Two numbers under an operator, and what it gives.
fn values() -> Vec<Example> {
    let evaluated = |name, table: &[Term], front: Vec<u32>| Example {
        front,
        ..example(name, call(Routine::Evaluate, table, &[], &[], 0), 0, [0; 4])
    };
    let value = |width, op, x, y, is| {
        let table = calculation(op, x, y, is).map(|[op, m, n, p, q, r]| [op, m, if n == 8 { width } else { n }, p, q, r]);
        evaluated("two numbers", &table, vec![x, y, is, is, 1])
    };
    let negated = |width, x, is| {
        let table = [[0, 0, width, x, 0, 0], [17, 0, width, 0, 0, 0], [0, 0, width, is, 0, 0], [6, 0, 0, 1, 2, 0]];
        evaluated("a number negated", &table, vec![x, is, is, 1])
    };
    let less = |width, x, y, is| {
        let table = [[0, 0, width, x, 0, 0], [0, 0, width, y, 0, 0], [19, 0, 0, 0, 1, 0]];
        evaluated("two numbers compared", &table, vec![x, y, is])
    };
    let max = u32::MAX;
    let mut examples: Vec<Example> =
        [(8, 0, 0), (8, 1, 255), (8, 128, 128), (8, 255, 1), (1, 0, 0), (1, 1, 1), (32, 1, max), (32, 1 << 31, 1 << 31)]
            .map(|(width, x, is)| negated(width, x, is))
            .into();
    let differences = [(8, 3, 5, 254), (8, 5, 3, 2), (8, 0, 128, 128), (8, 7, 7, 0), (1, 0, 1, 1), (1, 1, 1, 0), (32, 0, 1, max)];
    examples.extend(differences.map(|(width, x, y, is)| value(width, 18, x, y, is)));
    let shifts =
        [(128, 255, 255), (128, 7, 255), (128, 8, 255), (128, 1, 192), (127, 255, 0), (127, 1, 63), (200, 0, 200), (200, 8, 255)];
    examples.extend(shifts.map(|(x, y, is)| value(8, 20, x, y, is)));
    examples.extend([(0, 0, 0), (0, 1, 0), (1, 0, 1), (1, 1, 1)].map(|(x, y, is)| value(1, 20, x, y, is)));
    examples.extend([(1 << 31, 31, max), (1 << 31, max, max), (max / 2, 30, 1)].map(|(x, y, is)| value(32, 20, x, y, is)));
    let orders =
        [(8, 255, 0, 1), (8, 0, 255, 0), (8, 127, 128, 0), (8, 128, 127, 1), (8, 128, 255, 1), (8, 5, 5, 0), (8, 3, 5, 1)];
    examples.extend(orders.map(|(width, x, y, is)| less(width, x, y, is)));
    examples.extend([(0, 0, 0), (0, 1, 0), (1, 0, 1), (1, 1, 0)].map(|(x, y, is)| less(1, x, y, is)));
    examples
}

/// What settles signed less, and what does not.
fn less() -> Vec<Example> {
    let of = |name, width, marks, values: [u32; 2], rule, condition| {
        judged(name, &compared(width, marks), &values, rule, condition, 0)
    };
    vec![
        of("nothing is above the greatest", 8, [0, 1], [127, 5], false, true),
        of("nothing is below the least", 8, [1, 0], [5, 128], false, true),
        of("the least may be below", 8, [0, 1], [128, 5], true, false),
        of("the greatest may be above", 8, [1, 0], [5, 127], true, false),
        of("all ones are no greatest", 8, [0, 1], [255, 5], true, false),
        of("0 is no least", 8, [1, 0], [5, 0], false, false),
        of("a marked greatest settles nothing", 8, [1, 0], [127, 5], false, false),
        of("a marked least settles nothing", 8, [0, 1], [5, 128], false, false),
        of("the greatest of width 1 is 0", 1, [0, 1], [0, 0], false, true),
        of("the least of width 1 is 1", 1, [1, 0], [0, 1], false, true),
        of("1 of width 1 may be below", 1, [0, 1], [1, 0], true, false),
        of("0 of width 1 may be above", 1, [1, 0], [1, 0], true, false),
        of("127 is not the greatest of width 9", 9, [0, 1], [127, 5], false, false),
        of("the greatest of width 32", 32, [0, 1], [u32::MAX / 2, 5], false, true),
        of("the least of width 32", 32, [1, 0], [5, 1 << 31], false, true),
    ]
}

/// What settles a shift right: 0 and all ones of the first operand, and no amount.
fn right_shift() -> Vec<Example> {
    let of = |name, width, marks, values: [u32; 2], is, condition| {
        judged(name, &applied(20, width, marks, is), &values, true, condition, 0)
    };
    vec![
        of("0 stays 0", 8, [0, 1], [0, 3], 0, true),
        of("all ones stay all ones", 8, [0, 1], [255, 3], 255, true),
        of("the least does not stay", 8, [0, 1], [128, 255], 255, false),
        of("an amount of the width settles nothing", 8, [1, 0], [128, 8], 255, false),
        of("nor does a larger one", 8, [1, 0], [128, 255], 255, false),
        of("a marked 255 by 1: the sixth term has the condition of p", 8, [1, 0], [255, 1], 255, false),
        of("a marked 0 by 1", 8, [1, 0], [0, 1], 0, false),
        of("width 1, a free 1", 1, [0, 1], [1, 1], 1, true),
        of("width 1, a free 0", 1, [0, 1], [0, 1], 0, true),
        of("width 1, a marked 1", 1, [1, 0], [1, 1], 1, false),
        of("255 is not all ones of width 9", 9, [0, 1], [255, 0], 255, false),
        of("all ones of width 32", 32, [0, 1], [u32::MAX, 3], u32::MAX, true),
    ]
}

/// No value settles negate or subtract.
fn strict() -> Vec<Example> {
    let negated = |mark| [[1, 0, 8, 0, mark, 0], [17, 0, 8, 0, 0, 0], [0, 0, 8, 0, 0, 0], [6, 0, 0, 1, 2, 0]];
    vec![
        judged("an unmarked 0 negated", &negated(0), &[0], true, true, 0),
        judged("a marked 0 negated", &negated(1), &[0], true, false, 0),
        judged("a difference of unmarked vectors", &applied(18, 8, [0, 0], 254), &[3, 5], true, true, 0),
        judged("0 minus a marked vector", &applied(18, 8, [0, 1], 251), &[0, 5], true, false, 0),
        judged("a marked vector minus 0", &applied(18, 8, [1, 0], 5), &[5, 0], true, false, 0),
    ]
}

const YES: Term = [0, 0, 0, 1, 0, 0];
const NO: Term = [0, 0, 0, 0, 0, 0];

/// What is added to signed less of a marked and an unmarked vector.
const ADDED_TO_LESS: [Term; 12] = [
    YES,
    NO,
    [0, 0, 8, 127, 0, 0],
    [6, 0, 0, 0, 5, 0],
    [3, 0, 0, 4, 6, 0],
    [0, 0, 8, 128, 0, 0],
    [6, 0, 0, 1, 8, 0],
    [3, 0, 0, 3, 9, 0],
    [4, 0, 0, 7, 10, 0],
    [3, 0, 0, 4, 3, 0],
    [4, 0, 0, 11, 12, 0],
    [3, 0, 0, 2, 13, 0],
];

/// What is added to the same two under a shift right, equal to the first.
const ADDED_TO_SHIFT: [Term; 13] = [
    YES,
    NO,
    [0, 0, 8, 0, 0, 0],
    [6, 0, 0, 0, 6, 0],
    [3, 0, 0, 5, 7, 0],
    [0, 0, 8, 255, 0, 0],
    [6, 0, 0, 0, 9, 0],
    [3, 0, 0, 5, 10, 0],
    [4, 0, 0, 8, 11, 0],
    [3, 0, 0, 5, 4, 0],
    [4, 0, 0, 12, 13, 0],
    [3, 0, 0, 14, 5, 0],
    [3, 0, 0, 3, 15, 0],
];

fn finished_tables() -> Vec<Example> {
    let (x, a) = ([1, 0, 8, 0, 1, 0], [1, 0, 8, 1, 0, 0]);
    let whole = |name, given: &[Term], added: &[Term], condition: u64| {
        let count = (given.len() + added.len()) as u64;
        finished(name, given, [count, condition, count - 1], [given.concat(), added.concat()].concat())
    };
    let negated = [x, [17, 0, 8, 0, 0, 0], [6, 0, 0, 1, 0, 0]];
    let difference = [x, a, [18, 0, 8, 0, 1, 0], [6, 0, 0, 2, 1, 0]];
    let shifted = [x, a, [20, 0, 8, 0, 1, 0], [6, 0, 0, 2, 0, 0]];
    let of_difference = [YES, NO, [3, 0, 0, 5, 4, 0], [3, 0, 0, 6, 4, 0], [3, 0, 0, 3, 7, 0]];
    vec![
        whole("negate finished: nothing added", &negated, &[YES, NO, [3, 0, 0, 4, 4, 0], [3, 0, 0, 2, 5, 0]], 5),
        whole("subtract finished", &difference, &of_difference, 7),
        whole("signed less finished", &compared(8, [1, 0]), &ADDED_TO_LESS, 13),
        whole("shift right finished", &shifted, &ADDED_TO_SHIFT, 15),
    ]
}

fn refusals() -> Vec<Example> {
    let (vector, boolean) = ([1, 0, 8, 0, 0, 0], [1, 0, 0, 1, 0, 0]);
    vec![
        not_admitted("a signed less that is no Boolean", &[vector, [19, 0, 8, 0, 0, 0]], 6, 1),
        not_admitted("a signed less of Booleans", &[boolean, [19, 0, 0, 0, 0, 0]], 6, 1),
        not_admitted("negate has one field", &[vector, [17, 0, 8, 0, 1, 0]], 5, 1),
        not_admitted("negate of a Boolean", &[boolean, [17, 0, 0, 0, 0, 0]], 6, 1),
        not_admitted("a difference of two sorts", &[vector, boolean, [18, 0, 8, 0, 1, 0]], 6, 2),
        not_admitted("a shift right of another width", &[vector, [20, 0, 9, 0, 0, 0]], 6, 1),
        not_admitted("a shift right is no rule", &[vector, [20, 0, 8, 0, 0, 0]], 10, 1),
        not_admitted("op 21", &[boolean, [21, 0, 0, 0, 0, 0]], 3, 1),
    ]
}

fn text() -> Example {
    let table = [[1, 0, 8, 0, 0, 0], [17, 0, 8, 0, 0, 0], [18, 0, 8, 1, 0, 0], [20, 0, 8, 2, 1, 0], [19, 0, 0, 3, 0, 0]];
    let lines = [
        "(declare-const v0 (_ BitVec 8))",
        "(define-fun t1 () (_ BitVec 8) (bvneg v0))",
        "(define-fun t2 () (_ BitVec 8) (bvsub t1 v0))",
        "(define-fun t3 () (_ BitVec 8) (bvashr t2 t1))",
        "(define-fun t4 () Bool (bvslt t3 v0))",
        "(assert t4)",
    ];
    printed("the signed operators printed", &table, &lines)
}
