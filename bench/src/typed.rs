//! The typed rules that are measured, and two that are compared only. The same at each run.

use crate::inputs::Input;

/// What is asserted, over and over. V, B and T stand for a vector's, a Boolean's and an array's name.
const EXPRESSIONS: [&str; 3] = [
    "(bvult (bvadd (bvmul V V) #b00000101) (ite B V V))",
    "(= (select (store T V #b00101010) V) (bvor V (bvshl V #b00000001)))",
    "(=> (and B (not B)) (or B (= V (bvnot (bvand V V)))))",
];

const VECTOR: &str = "(_ BitVec 8)";
const ARRAY: &str = "(Array (_ BitVec 8) (_ BitVec 8))";

/// The k-th name: every other one is marked.
fn name(k: usize) -> String {
    if k % 2 == 1 { format!("x{k}") } else { format!("offset{k}") }
}

fn declaration(k: usize, sort: &str) -> String {
    format!("(declare-const {} {sort})\n", name(k))
}

fn input(lines: &[String]) -> Input {
    Input { typed: (lines.concat() + "(check-sat)\n").into_bytes(), ..Input::default() }
}

/// The lists and constants of an expression.
fn terms_of(expression: &str) -> usize {
    expression.matches(['(', '#']).count()
}

/// A rule of just so many terms, a name at about every twentieth. The third name is Boolean, the fourth an array's.
pub fn rule(terms: usize) -> Input {
    let names = if terms < 20 { 3 } else { 4.max(terms / 20) };
    let sort = |k: usize| [VECTOR, VECTOR, "Bool", ARRAY].get(k).copied().unwrap_or(VECTOR);
    let mut lines: Vec<String> = (0..names).map(|k| declaration(k, sort(k))).collect();
    let (mut count, mut used) = (names, 0);
    for expression in EXPRESSIONS.into_iter().cycle() {
        let more = terms_of(expression) + usize::from(count > names);
        if count + more > terms {
            break;
        }
        lines.push(format!("(assert {})\n", filled(expression, names, &mut used)));
        count += more;
    }
    let rest: Vec<String> = (count..terms).map(|k| declaration(names + k, VECTOR)).collect();
    lines.splice(names..names, rest);
    input(&lines)
}

/// The expression with names, the vectors' in turn.
fn filled(expression: &str, names: usize, used: &mut usize) -> String {
    let mut next = || {
        *used += 1;
        let others = if names > 4 { names - 2 } else { 2 };
        let k = *used % others;
        name(if k < 2 { k } else { k + 2 })
    };
    let mut word = |letter: char| match letter {
        'V' => next(),
        'B' => name(2),
        'T' => name(3),
        other => other.to_string(),
    };
    expression.chars().map(&mut word).collect()
}

/// The signed operators.
pub fn signed() -> Input {
    let lines = [
        declaration(0, VECTOR),
        declaration(1, VECTOR),
        format!("(assert (bvslt (bvneg {0}) (bvashr (bvsub {1} {0}) {1})))\n", name(0), name(1)),
    ];
    input(&lines)
}

/// Choices of arrays.
pub fn choices() -> Input {
    let lines = [
        declaration(0, "Bool"),
        declaration(1, ARRAY),
        declaration(2, ARRAY),
        declaration(3, VECTOR),
        format!(
            "(assert (bvult (select (ite {0} (store {1} {3} {3}) (ite {0} {2} {1})) {3}) #b01011010))\n",
            name(0),
            name(1),
            name(2),
            name(3)
        ),
    ];
    input(&lines)
}

/// So many names, each used once, two in an assert.
pub fn names(count: usize) -> Input {
    let mut lines: Vec<String> = (0..count).map(|k| declaration(k, VECTOR)).collect();
    let (low, high) = (|k: usize| name(k), |k: usize| name(count - 1 - k));
    lines.extend((0..count / 2).map(|k| format!("(assert (bvult {} {}))\n", low(k), high(k))));
    input(&lines)
}
