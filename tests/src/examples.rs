//! Paper 01's bench examples, the texts of requests 01 and 02, request 03's less, request 05's operators, request 06's sheets, request
//! 07's choices of arrays, and a case for each point that the papers leave open, with the expected answers.

mod choices;
pub mod sheets;
mod signed;
mod typed;

use crate::case::{Case, Checker, Routine};

/// A call, the answer it should get (0 or a refusal, and the numbers) and what its room should begin with, numbers or text.
pub struct Example {
    pub name: &'static str,
    pub case: Case,
    pub number: u32,
    pub numbers: [u64; 4],
    pub front: Vec<u32>,
    pub text: String,
}

type Term = [u32; 6];

/// 0 < a × x + b, at width 8: a, x, b in slots 0, 1, 2, x marked.
pub const G: [Term; 7] = [
    [1, 0, 8, 0, 0, 0],
    [1, 0, 8, 1, 1, 0],
    [1, 0, 8, 2, 0, 0],
    [12, 0, 8, 0, 1, 0],
    [11, 0, 8, 3, 2, 0],
    [0, 0, 8, 0, 0, 0],
    [14, 0, 0, 5, 4, 0],
];

/// Array t, a, c in slots 0, 1, 2: 42 stored in t at a, read at c, is 42.
pub const fn h(t_mark: u32, a_mark: u32) -> [Term; 7] {
    [
        [1, 8, 8, 0, t_mark, 0],
        [1, 0, 8, 1, a_mark, 0],
        [1, 0, 8, 2, 0, 0],
        [0, 0, 8, 42, 0, 0],
        [16, 8, 8, 0, 1, 3],
        [15, 0, 8, 4, 2, 0],
        [6, 0, 0, 5, 3, 0],
    ]
}

/// A vector in slot 0, marked, shifted by the one in slot 1, is 0.
const SHIFTED: [Term; 5] = [[1, 0, 8, 0, 1, 0], [1, 0, 8, 1, 0, 0], [13, 0, 8, 0, 1, 0], [0, 0, 8, 0, 0, 0], [6, 0, 0, 2, 3, 0]];

/// The test in slot 0, marked, between the vectors in slots 1 and 2, is 3.
const CHOSEN: [Term; 6] =
    [[1, 0, 0, 0, 1, 0], [1, 0, 8, 1, 0, 0], [1, 0, 8, 2, 0, 0], [7, 0, 8, 0, 1, 2], [0, 0, 8, 3, 0, 0], [6, 0, 0, 3, 4, 0]];

/// x < 5 or not (x < 5), x marked.
const TAUTOLOGY: [Term; 5] =
    [[1, 0, 8, 0, 1, 0], [0, 0, 8, 5, 0, 0], [14, 0, 0, 0, 1, 0], [2, 0, 0, 2, 0, 0], [4, 0, 0, 2, 3, 0]];

/// The marked vector in slot 0 is less than a constant.
const fn below(width: u32, constant: u32) -> [Term; 3] {
    [[1, 0, width, 0, 1, 0], [0, 0, width, constant, 0, 0], [14, 0, 0, 0, 1, 0]]
}

/// The constant is less than the marked vector in slot 0.
const fn above(width: u32, constant: u32) -> [Term; 3] {
    [[1, 0, width, 0, 1, 0], [0, 0, width, constant, 0, 0], [14, 0, 0, 1, 0, 0]]
}

/// The vectors of slots 0 and 1, with these marks, under less.
const fn compared(marks: [u32; 2]) -> [Term; 3] {
    [[1, 0, 8, 0, marks[0], 0], [1, 0, 8, 1, marks[1], 0], [14, 0, 0, 0, 1, 0]]
}

/// Two constants under an operator, then equal to a third.
const fn calculation(op: u32, x: u32, y: u32, is: u32) -> [Term; 5] {
    [[0, 0, 8, x, 0, 0], [0, 0, 8, y, 0, 0], [op, 0, 8, 0, 1, 0], [0, 0, 8, is, 0, 0], [6, 0, 0, 2, 3, 0]]
}

/// An array variable and a constant, so many stores, then (if asked) a read of the last, and an equality.
fn stores(count: u32, read: bool) -> Vec<Term> {
    let mut terms = vec![[1, 8, 8, 0, 0, 0], [0, 0, 8, 1, 0, 0]];
    for i in 0..count {
        terms.push([16, 8, 8, if i == 0 { 0 } else { i + 1 }, 1, 1]);
    }
    let top = if count == 0 { 0 } else { count + 1 };
    if read {
        terms.push([15, 0, 8, top, 1, 0]);
    }
    terms.push([6, 0, 0, 1, if read { terms.len() as u32 - 1 } else { 1 }, 0]);
    terms
}

fn call(routine: Routine, terms: &[Term], values: &[u32], cells: &[u32], allowance: u64) -> Case {
    Case {
        routine,
        table: terms.concat(),
        sheet: vec![],
        text: vec![],
        values: values.to_vec(),
        cells: cells.to_vec(),
        allowance,
        room: 10 * 6 * terms.len() + 20,
    }
}

/// A judgement with an allowance of 100: rule, condition and steps.
fn judged(name: &'static str, terms: &[Term], values: &[u32], rule: bool, condition: bool, steps: u64) -> Example {
    let case = call(Routine::Judge, terms, values, &[], 100);
    example(name, case, 0, [rule.into(), condition.into(), steps, 100 - steps])
}

fn example(name: &'static str, case: Case, number: u32, numbers: [u64; 4]) -> Example {
    Example { name, case, number, numbers, front: vec![], text: String::new() }
}

fn refused(name: &'static str, case: Case, number: u32, place: u64) -> Example {
    example(name, case, number, [place, 0, 0, 0])
}

fn not_admitted(name: &'static str, terms: &[Term], number: u32, place: u64) -> Example {
    refused(name, call(Routine::Admit, terms, &[], &[], 0), number, place)
}

fn finished(name: &'static str, terms: &[Term], numbers: [u64; 3], front: Vec<u32>) -> Example {
    let [count, condition, last] = numbers;
    Example { front, ..example(name, call(Routine::Finish, terms, &[], &[], 0), 0, [count, condition, last, 0]) }
}

/// A table printed in a room that is just long enough, with these lines between the first and the last.
fn printed(name: &'static str, terms: &[Term], lines: &[&str]) -> Example {
    let text = [&["(set-logic QF_ABV)"], lines, &["(check-sat)"]].concat().join("\n") + "\n";
    let case = Case { room: text.len(), ..call(Routine::Print, terms, &[], &[], 0) };
    Example { text: text.clone(), ..example(name, case, 0, [text.len() as u64, 0, 0, 0]) }
}

pub fn all() -> Vec<Example> {
    let mut examples = bench();
    examples.extend(more_bench());
    examples.extend(less());
    examples.extend(signed::all());
    examples.extend(sheets::all());
    examples.extend(choices::all());
    examples.extend(open_points());
    examples.extend(open_points_of_settings());
    examples.extend(texts());
    examples.extend(sharing_texts());
    examples.extend(open_points_of_texts());
    examples.extend(typed::all());
    examples
}

/// P1 to P12.
fn bench() -> Vec<Example> {
    let h = h(1, 0);
    let value = |name, op, x, y, is| Example {
        front: vec![x, y, is, is, 1],
        ..example(name, call(Routine::Evaluate, &calculation(op, x, y, is), &[], &[], 0), 0, [0; 4])
    };
    vec![
        judged("P1", &G, &[0, 5, 1], true, true, 0),
        judged("P2", &G, &[1, 1, 0], true, false, 0),
        judged("P3", &G, &[0, 5, 0], false, true, 0),
        judged("P4", &G, &[1, 0, 1], true, false, 0),
        value("P5", 11, 200, 100, 44),
        value("P6", 12, 16, 16, 0),
        judged("P7", &h, &[9, 0, 0], true, true, 1),
        judged("P8", &h, &[42, 0, 2], true, false, 1),
        judged("P9", &SHIFTED, &[200, 8], true, true, 0),
        judged("P10", &SHIFTED, &[200, 7], true, false, 0),
        judged("P11, 3 and 3", &CHOSEN, &[0, 3, 3], true, true, 0),
        judged("P11, 3 and 4", &CHOSEN, &[1, 3, 4], true, false, 0),
        judged("P12, x 4", &TAUTOLOGY, &[4], true, false, 0),
        judged("P12, x 5", &TAUTOLOGY, &[5], true, false, 0),
    ]
}

fn more_bench() -> Vec<Example> {
    let h = h(1, 0);
    let with = |allowance| call(Routine::Judge, &h, &[9, 0, 0], &[], allowance);
    let admitted = |name, terms: &[Term]| example(name, call(Routine::Admit, terms, &[], &[], 0), 0, [0; 4]);
    vec![
        refused("H with allowance 0", with(0), 23, 1),
        example("H with allowance 1", with(1), 0, [1, 1, 1, 0]),
        finished("G finished", &G, [28, 26, 27], finished_g()),
        finished("H finished", &h, [21, 19, 20], finished_h()),
        admitted("16 stores", &stores(16, true)),
        not_admitted("17 stores", &stores(17, true), 9, 18),
        not_admitted("one slot, two marks", &[[1, 0, 0, 4, 0, 0], [1, 0, 0, 4, 1, 0]], 8, 1),
    ]
}

/// What settles less, and what does not.
fn less() -> Vec<Example> {
    let shifted = [[1, 0, 8, 0, 1, 0], [13, 0, 8, 0, 0, 0], [6, 0, 0, 1, 1, 0]];
    vec![
        judged("nothing is below 0", &below(8, 0), &[5], false, true, 0),
        judged("nothing is above all ones", &above(8, 255), &[5], false, true, 0),
        judged("0 may be below", &above(8, 0), &[5], true, false, 0),
        judged("0 is not below 0, but may be below", &above(8, 0), &[0], false, false, 0),
        judged("all ones may be above", &below(8, 255), &[5], true, false, 0),
        judged("all ones are not above all ones, but may be above", &below(8, 255), &[255], false, false, 0),
        judged("0 is below 1", &below(8, 1), &[0], true, false, 0),
        judged("nothing is below 0 of width 1", &below(1, 0), &[1], false, true, 0),
        judged("nothing is above all ones of width 1", &above(1, 1), &[1], false, true, 0),
        judged("nothing is above all ones of width 32", &above(32, u32::MAX), &[5], false, true, 0),
        judged("255 is not all ones of width 9", &above(9, 255), &[5], false, false, 0),
        judged("a marked 0 settles nothing", &compared([0, 1]), &[5, 0], false, false, 0),
        judged("marked all ones settle nothing", &compared([1, 0]), &[255, 5], false, false, 0),
        judged("an unmarked 0 settles", &compared([1, 0]), &[5, 0], false, true, 0),
        judged("unmarked all ones settle", &compared([0, 1]), &[255, 5], false, true, 0),
        finished("a shift's own less has no group", &shifted, [13, 11, 12], finished_shift(&shifted)),
    ]
}

fn finished_shift(shifted: &[Term; 3]) -> Vec<u32> {
    let added: [Term; 10] = [
        [0, 0, 0, 1, 0, 0],
        [0, 0, 0, 0, 0, 0],
        [0, 0, 8, 8, 0, 0],
        [14, 0, 0, 0, 5, 0],
        [2, 0, 0, 6, 0, 0],
        [3, 0, 0, 4, 7, 0],
        [3, 0, 0, 4, 4, 0],
        [4, 0, 0, 8, 9, 0],
        [3, 0, 0, 10, 10, 0],
        [3, 0, 0, 2, 11, 0],
    ];
    [shifted.concat(), added.concat()].concat()
}

fn finished_g() -> Vec<u32> {
    let added: [Term; 21] = [
        [0, 0, 0, 1, 0, 0],
        [0, 0, 0, 0, 0, 0],
        [0, 0, 8, 0, 0, 0],
        [6, 0, 0, 0, 9, 0],
        [3, 0, 0, 7, 10, 0],
        [6, 0, 0, 1, 9, 0],
        [3, 0, 0, 8, 12, 0],
        [4, 0, 0, 11, 13, 0],
        [3, 0, 0, 7, 8, 0],
        [4, 0, 0, 14, 15, 0],
        [3, 0, 0, 16, 7, 0],
        [0, 0, 8, 255, 0, 0],
        [6, 0, 0, 5, 18, 0],
        [3, 0, 0, 7, 19, 0],
        [0, 0, 8, 0, 0, 0],
        [6, 0, 0, 4, 21, 0],
        [3, 0, 0, 17, 22, 0],
        [4, 0, 0, 20, 23, 0],
        [3, 0, 0, 7, 17, 0],
        [4, 0, 0, 24, 25, 0],
        [3, 0, 0, 6, 26, 0],
    ];
    [G.concat(), added.concat()].concat()
}

fn finished_h() -> Vec<u32> {
    let added: [Term; 14] = [
        [0, 0, 0, 1, 0, 0],
        [0, 0, 0, 0, 0, 0],
        [3, 0, 0, 8, 7, 0],
        [15, 0, 8, 0, 2, 0],
        [6, 0, 0, 1, 2, 0],
        [7, 0, 0, 11, 7, 9],
        [3, 0, 0, 7, 7, 0],
        [3, 0, 0, 13, 12, 0],
        [6, 0, 0, 3, 10, 0],
        [3, 0, 0, 7, 9, 0],
        [3, 0, 0, 16, 15, 0],
        [4, 0, 0, 14, 17, 0],
        [3, 0, 0, 18, 7, 0],
        [3, 0, 0, 6, 19, 0],
    ];
    [h(1, 0).concat(), added.concat()].concat()
}

/// Points that paper 01 leaves open, on tables.
fn open_points() -> Vec<Example> {
    let boolean = [1, 0, 0, 3, 0, 0];
    let array = [1, 8, 8, 0, 0, 0];
    let byte = [0, 0, 8, 1, 0, 0];
    let nots = [[1, 0, 0, 0, 0, 0], [1, 0, 0, 1, 1, 0], [3, 0, 0, 0, 1, 0], [2, 0, 0, 0, 0, 0]];
    vec![
        judged("a read joins equal(e, the read)", &h(0, 1), &[9, 0, 0], true, false, 1),
        judged("the same with a 1: the rule is false", &h(0, 1), &[9, 1, 0], false, false, 1),
        not_admitted("8 before a later 3", &[boolean, [1, 0, 0, 3, 1, 0], [21, 0, 0, 0, 0, 0]], 8, 1),
        not_admitted("7 before 8 in one term", &[boolean, [1, 0, 0, 3, 2, 0]], 7, 1),
        not_admitted("a not that is no sort", &[boolean, [2, 0, 33, 0, 0, 0]], 4, 1),
        not_admitted("a not of another sort", &[boolean, [2, 0, 8, 0, 0, 0]], 6, 1),
        not_admitted("5 before 6", &[boolean, [2, 0, 8, 0, 1, 0]], 5, 1),
        not_admitted("a read of an array's sort", &[array, byte, [15, 8, 8, 0, 1, 0]], 6, 2),
        not_admitted("a 17th store that is not read", &stores(17, false), 9, 18),
        finished("C(rule) is not the last but one", &nots, [14, 4, 13], vec![]),
        not_admitted("the last term is a vector", &[byte], 10, 0),
        judged("three stores: judging takes 3 steps", &stores(3, true), &[0], true, true, 3),
    ]
}

/// Points that paper 01 leaves open, on settings.
fn open_points_of_settings() -> Vec<Example> {
    let bytes = [[1, 0, 8, 0, 0, 0], [1, 0, 8, 5, 0, 0], [6, 0, 0, 0, 1, 0]];
    let bit_array = [[1, 1, 8, 0, 0, 0], [0, 0, 1, 0, 0, 0], [15, 0, 8, 0, 1, 0], [6, 0, 0, 2, 2, 0]];
    let set = |terms: &[Term], values: &[u32], cells: &[u32]| call(Routine::Judge, terms, values, cells, 9);
    let hidden = [0, 1, 7, 0, 1, 300];
    vec![
        refused("13 at one variable before 12 at the next", set(&bytes, &[300], &[]), 13, 0),
        refused("12 at the second variable", set(&bytes, &[30], &[]), 12, 1),
        refused("14 counts cells", set(&bit_array, &[0], &[0, 0, 0, 0, 1, 0, 1, 0, 0]), 14, 2),
        refused("15 counts cells, also hidden ones", set(&bit_array, &[0], &hidden), 15, 1),
        refused("15 by the index", set(&bit_array, &[0], &[0, 2, 0]), 15, 0),
        refused("an array whose value does not fit, all cells listed", set(&bit_array, &[300], &[0, 0, 1, 0, 1, 2]), 13, 0),
        refused("11", set(&bit_array, &[0], &[0, 0]), 11, 0),
    ]
}

/// Rules G and H as text.
fn texts() -> Vec<Example> {
    let finished: Vec<Term> = finished_g().chunks(6).map(|term| term.try_into().expect("six numbers")).collect();
    vec![
        printed("the constant true, 72 bytes", &[TRUE], &["(define-fun t0 () Bool true)", "(assert t0)"]),
        printed("G printed", &G, &[&TEXT_OF_G[..], &["(assert t6)"]].concat()),
        printed("G finished and printed", &finished, &[&TEXT_OF_G[..], &TEXT_OF_G_FINISHED].concat()),
        printed(
            "H printed",
            &h(1, 0),
            &[
                "(declare-const v0 (Array (_ BitVec 8) (_ BitVec 8)))",
                "(declare-const v1 (_ BitVec 8))",
                "(declare-const v2 (_ BitVec 8))",
                "(define-fun t3 () (_ BitVec 8) #b00101010)",
                "(define-fun t4 () (Array (_ BitVec 8) (_ BitVec 8)) (store v0 v1 t3))",
                "(define-fun t5 () (_ BitVec 8) (select t4 v2))",
                "(define-fun t6 () Bool (= t5 t3))",
                "(assert t6)",
            ],
        ),
    ]
}

const TRUE: Term = [0, 0, 0, 1, 0, 0];

const TEXT_OF_G: [&str; 7] = [
    "(declare-const v0 (_ BitVec 8))",
    "(declare-const v1 (_ BitVec 8))",
    "(declare-const v2 (_ BitVec 8))",
    "(define-fun t3 () (_ BitVec 8) (bvmul v0 v1))",
    "(define-fun t4 () (_ BitVec 8) (bvadd t3 v2))",
    "(define-fun t5 () (_ BitVec 8) #b00000000)",
    "(define-fun t6 () Bool (bvult t5 t4))",
];

const TEXT_OF_G_FINISHED: [&str; 22] = [
    "(define-fun t7 () Bool true)",
    "(define-fun t8 () Bool false)",
    "(define-fun t9 () (_ BitVec 8) #b00000000)",
    "(define-fun t10 () Bool (= v0 t9))",
    "(define-fun t11 () Bool (and t7 t10))",
    "(define-fun t12 () Bool (= v1 t9))",
    "(define-fun t13 () Bool (and t8 t12))",
    "(define-fun t14 () Bool (or t11 t13))",
    "(define-fun t15 () Bool (and t7 t8))",
    "(define-fun t16 () Bool (or t14 t15))",
    "(define-fun t17 () Bool (and t16 t7))",
    "(define-fun t18 () (_ BitVec 8) #b11111111)",
    "(define-fun t19 () Bool (= t5 t18))",
    "(define-fun t20 () Bool (and t7 t19))",
    "(define-fun t21 () (_ BitVec 8) #b00000000)",
    "(define-fun t22 () Bool (= t4 t21))",
    "(define-fun t23 () Bool (and t17 t22))",
    "(define-fun t24 () Bool (or t20 t23))",
    "(define-fun t25 () Bool (and t7 t17))",
    "(define-fun t26 () Bool (or t24 t25))",
    "(define-fun t27 () Bool (and t6 t26))",
    "(assert t27)",
];

/// Tables that share a text with another, and one that does not.
fn sharing_texts() -> Vec<Example> {
    let (a, b) = ([1, 0, 8, 4, 0, 0], [1, 0, 8, 7, 0, 0]);
    let less = |x, y| [14, 0, 0, x, y, 0];
    let lines = [
        "(declare-const v4 (_ BitVec 8))",
        "(declare-const v7 (_ BitVec 8))",
        "(define-fun t2 () Bool (bvult v4 v7))",
        "(assert t2)",
    ];
    let p = [1, 0, 0, 0, 0, 0];
    let q = [1, 0, 0, 1, 0, 0];
    let booleans = ["(declare-const v0 Bool)", "(declare-const v1 Bool)"];
    vec![
        printed("two variables", &[a, b, less(0, 1)], &lines),
        printed("the same variables in the other order, operands following", &[b, a, less(1, 0)], &lines),
        printed("the same with marks", &[[1, 0, 8, 4, 1, 0], b, less(0, 1)], &lines),
        printed("a variable that is the rule", &[p, q], &[&booleans[..], &["(assert v1)"]].concat()),
        printed("the other variable is the rule", &[q, p], &[&booleans[..], &["(assert v0)"]].concat()),
    ]
}

/// Points that request 01 leaves open.
fn open_points_of_texts() -> Vec<Example> {
    let room = |terms: &[Term], room| Case { room, ..call(Routine::Print, terms, &[], &[], 0) };
    let (boolean, byte) = ([1, 0, 0, 3, 0, 0], [0, 0, 8, 1, 0, 0]);
    let (ninth, tenth) = ([1, 0, 1, 9, 0, 0], [1, 0, 32, 10, 0, 0]);
    let both = ["(declare-const v9 (_ BitVec 1))", "(declare-const v10 (_ BitVec 32))"];
    vec![
        printed("a sole variable", &[boolean], &["(declare-const v3 Bool)", "(assert v3)"]),
        printed(
            "v9 before v10, needed by the rule or not",
            &[tenth, ninth, TRUE],
            &[&both[..], &["(define-fun t2 () Bool true)", "(assert t2)"]].concat(),
        ),
        printed(
            "a slot used twice is declared once",
            &[boolean, boolean, [3, 0, 0, 0, 1, 0]],
            &["(declare-const v3 Bool)", "(define-fun t2 () Bool (and v3 v3))", "(assert t2)"],
        ),
        printed(
            "a term that the rule does not need",
            &[[0, 0, 3, 1, 0, 0], boolean],
            &["(declare-const v3 Bool)", "(define-fun t0 () (_ BitVec 3) #b001)", "(assert v3)"],
        ),
        refused("a text room one byte short", room(&[TRUE], 71), 24, 72),
        refused("no text room", room(&[TRUE], 0), 24, 72),
        refused("10 before 24", room(&[byte], 0), 10, 0),
    ]
}

/// The first example that a checker answers otherwise, if any.
pub fn check(checker: &dyn Checker) -> Result<(), String> {
    for example in all() {
        for answer in [Some(checker.call(&example.case)), checker.call_with_records(&example.case)].into_iter().flatten() {
            let front = answer.room.starts_with(&example.front) && answer.text.starts_with(example.text.as_bytes());
            if (answer.number, answer.numbers) != (example.number, example.numbers) || !front || answer.strayed {
                return Err(format!("{}\n{}\nanswered: {answer}", example.name, example.case));
            }
        }
    }
    Ok(())
}
