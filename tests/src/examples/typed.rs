//! Typed rules: request 02, and a text for each point that it leaves open.

use super::{example, h, refused, Example, Term, G};
use crate::case::Case;
use crate::reference::words::{COMMANDS, OPERATORS, RESERVED};

/// A text with its table, in a room that is just long enough.
pub fn read(name: &'static str, text: &str, terms: &[Term]) -> Example {
    let front = terms.concat();
    let case = Case::parse(text.into(), front.len());
    Example { front: front.clone(), ..example(name, case, 0, [front.len() as u64, 0, 0, 0]) }
}

pub fn not_read(name: &'static str, text: &str, number: u32, place: usize) -> Example {
    refused(name, Case::parse(text.into(), 4000), number, place as u64)
}

/// A text whose refusal is at the mark ^, which is no part of it.
fn at_mark(name: &'static str, marked: &str, number: u32) -> Example {
    let place = marked.find('^').expect("a mark");
    not_read(name, &marked.replace('^', ""), number, place)
}

/// Behind two declarations, in an assert of its own.
fn asserted(name: &'static str, marked: &str, number: u32) -> Example {
    let declarations = "(declare-const a Bool)(declare-const v (_ BitVec 8))";
    at_mark(name, &format!("{declarations}(assert {marked})(check-sat)"), number)
}

/// A name declared.
fn declared(name: &'static str, marked: &str, number: u32) -> Example {
    at_mark(name, &format!("(declare-const {marked} Bool)(assert true)(check-sat)"), number)
}

/// A sort of a name.
fn sorted(name: &'static str, marked: &str) -> Example {
    at_mark(name, &format!("(declare-const a {marked})(assert true)(check-sat)"), 31)
}

pub fn all() -> Vec<Example> {
    let mut examples = tables();
    examples.extend(signed());
    examples.extend(marks());
    examples.extend(grammar());
    examples.extend(expressions());
    examples.extend(widths());
    examples.extend(names());
    examples.extend(words_taken());
    examples.extend(counts());
    examples.extend(one_place());
    examples.extend(of_the_table());
    examples.extend(long());
    examples
}

const TEXT_OF_G: &str = "(declare-const a (_ BitVec 8))\n(declare-const x1 (_ BitVec 8))\n(declare-const b (_ BitVec 8))\n\
                         (assert (bvult #b00000000 (bvadd (bvmul a x1) b)))\n(check-sat)\n";
const TEXT_OF_H: &str = "(declare-const x0 (Array (_ BitVec 8) (_ BitVec 8)))\n(declare-const a (_ BitVec 8))\n\
                         (declare-const c (_ BitVec 8))\n\
                         (assert (= (select (store x0 a #b00101010) c) #b00101010))\n(check-sat)\n";

const TRUE: Term = [0, 0, 0, 1, 0, 0];
const FALSE: Term = [0, 0, 0, 0, 0, 0];
const A: Term = [1, 0, 0, 0, 0, 0];
const B: Term = [1, 0, 0, 1, 0, 0];
const AB: &str = "(declare-const a Bool)(declare-const b Bool)";

/// Where the terms stand.
fn tables() -> Vec<Example> {
    let typed = |asserts: &str| format!("{AB}{asserts}(check-sat)");
    let and = |p, q| [3, 0, 0, p, q, 0];
    let [a, x, b, product, sum, zero, _] = G;
    let g = [a, x, b, zero, product, [11, 0, 8, 4, 2, 0], [14, 0, 0, 3, 5, 0]];
    let [t, i, c, stored, store, ..] = h(1, 0);
    let again = [0, 0, 8, 42, 0, 0];
    assert_eq!((product, sum), ([12, 0, 8, 0, 1, 0], [11, 0, 8, 3, 2, 0]));
    vec![
        read("G typed: operands before their operator", TEXT_OF_G, &g),
        read("H typed: nothing shared", TEXT_OF_H, &[t, i, c, stored, store, [15, 0, 8, 4, 2, 0], again, [6, 0, 0, 5, 6, 0]]),
        read("a sole constant", "(assert true)(check-sat)", &[TRUE]),
        read("a sole name", &typed("(assert a)"), &[A, B, and(0, 0)]),
        read("a sole name, the last variable", &typed("(assert b)"), &[A, B, and(1, 1)]),
        read("two names", &typed("(assert a)(assert b)"), &[A, B, and(0, 1)]),
        read("one name twice", &typed("(assert a)(assert a)"), &[A, B, and(0, 0)]),
        read("a constant twice", &typed("(assert true)(assert true)"), &[A, B, TRUE, TRUE, and(2, 3)]),
        read(
            "three asserts: each join after its second",
            &typed("(assert (not a))(assert false)(assert (or a b))"),
            &[A, B, [2, 0, 0, 0, 0, 0], FALSE, and(2, 3), [4, 0, 0, 0, 1, 0], and(4, 5)],
        ),
        read(
            "a choice has its second operand's sort",
            &typed("(assert (= #b1 (ite a #b1 #b0)))"),
            &[A, B, [0, 0, 1, 1, 0, 0], [0, 0, 1, 1, 0, 0], [0, 0, 1, 0, 0, 0], [7, 0, 1, 0, 3, 4], [6, 0, 0, 2, 5, 0]],
        ),
        read("white space of all kinds, and none where none is needed", "\t\r\n (\nassert\rtrue\t)(check-sat )\r", &[TRUE]),
        refused("a room one number short", Case::parse(typed("(assert a)").into(), 17), 21, 3),
        refused("no room", Case::parse("(assert true)(check-sat)".into(), 0), 21, 1),
        refused("31 before 21", Case::parse("(assert true)(check-sat".into(), 0), 31, 23),
        refused("6 before 21", Case::parse(typed("(assert (not #b1))").into(), 0), 6, 3),
    ]
}

/// The signed operators: negate has one operand, and signed less is Boolean.
fn signed() -> Vec<Example> {
    let typed = |expression: &str| format!("(declare-const v (_ BitVec 8))(assert {expression})(check-sat)");
    let (negated, one, difference) = ([17, 0, 8, 0, 0, 0], [0, 0, 8, 1, 0, 0], [18, 0, 8, 0, 2, 0]);
    let table = [[1, 0, 8, 0, 0, 0], negated, one, difference, [20, 0, 8, 3, 0, 0], [19, 0, 0, 1, 4, 0]];
    vec![
        read("the signed operators", &typed("(bvslt (bvneg v) (bvashr (bvsub v #b00000001) v))"), &table),
        not_read("a sole vector, negated", &typed("(bvneg v)"), 10, 1),
        not_read("a signed less of Booleans", &typed("(bvslt true true)"), 6, 3),
        not_read("a difference of two widths", &typed("(bvslt v (bvsub v #b1))"), 6, 2),
    ]
}

fn marks() -> Vec<Example> {
    let variable = |name: &str, mark| {
        let text = format!("(declare-const {name} Bool)(assert true)(check-sat)");
        read("a mark", &text, &[[1, 0, 0, 0, mark, 0], TRUE])
    };
    let marked = ["x0", "x01", "x1", "x00", "x1234567890123456789012345"].map(|name| variable(name, 1));
    let plain = ["x", "x1a", "X1", "xx1", "ax1", "x-1", "x1.", "y1", "x1_"].map(|name| variable(name, 0));
    marked.into_iter().chain(plain).collect()
}

/// Words and ends that the grammar does not expect outside an assert, and 35.
fn grammar() -> Vec<Example> {
    let at = |marked| at_mark("unexpected", marked, 31);
    vec![
        not_read("the empty text", "", 31, 0),
        not_read("white space alone", " \t\r\n", 31, 4),
        at("^)"),
        at("^check-sat"),
        at("(^"),
        at("( ^"),
        at("(^)"),
        at("(^("),
        at("(^set-logic QF_ABV)"),
        at("(assert true)(check-sat)^x"),
        at("(assert true)(check-sat)^("),
        at("(assert true)(check-sat)^;"),
        at("(assert true)(check-sat^"),
        at("(assert true)(check-sat ^true)"),
        at("(assert true)(^declare-const a Bool)(check-sat)"),
        at("(assert true)(check-sat)^(check-sat)"),
        at("(declare-const a Bool ^Bool)(assert a)(check-sat)"),
        at("(declare-const ^(a) Bool)(assert a)(check-sat)"),
        at("(declare-const a^)(assert a)(check-sat)"),
        not_read("the end, white space counted", "(assert true) ", 31, 14),
        not_read("no assert", "(check-sat)", 35, 1),
        not_read("no assert, and more", " ( check-sat ) (", 35, 3),
        not_read("no assert, and nothing more", "(check-sat", 35, 1),
        at_mark("no assert behind a declaration", "(declare-const a Bool)(^check-sat)", 35),
    ]
}

/// Words that an assert does not expect.
fn expressions() -> Vec<Example> {
    let at = |marked| at_mark("unexpected in an assert", marked, 31);
    vec![
        at("(assert^)(check-sat)"),
        at("(assert true ^false)(check-sat)"),
        at("(assert true ^(not true))(check-sat)"),
        at("(assert ^; comment\n true)(check-sat)"),
        at("(assert (^))(check-sat)"),
        at("(assert (^zz))(check-sat)"),
        at("(assert (^(not true)))(check-sat)"),
        at("(assert (^true))(check-sat)"),
        at("(assert (^#b1))(check-sat)"),
        at("(assert (^_ bv1 8))(check-sat)"),
        at("(assert (^xor true true))(check-sat)"),
        at("(assert (^let ((a true)) a))(check-sat)"),
        at("(assert ^|a|)(check-sat)"),
        at("(assert ^\u{b}true)(check-sat)"),
        at("(assert ^\u{c}true)(check-sat)"),
        at("(assert ^true\0)(check-sat)"),
    ]
}

/// Sorts, and #b.
fn widths() -> Vec<Example> {
    let vector = |n: u32| {
        let text = format!("(declare-const a (_ BitVec {n}))(assert true)(check-sat)");
        read("a width", &text, &[[1, 0, n, 0, 0, 0], TRUE])
    };
    let array = "(declare-const a (Array (_ BitVec 1) (_ BitVec 32)))(assert true)(check-sat)";
    let longest = format!("(assert (= #b{0} #b{0}))(check-sat)", "1".repeat(32));
    let all = [0, 0, 32, u32::MAX, 0, 0];
    let wrong = ["08", "0", "00", "33", "032", "100", "4294967297", "18446744073709551624", "8a", "-8", "#b1", "a", "(", ")"];
    let constants = ["#b", "#b2", "#x1", "#b01010101010101010101010101010101010", "#B1", "#", "#b1a", "1", "0"];
    let mut examples: Vec<Example> = [1, 8, 9, 10, 32].map(vector).into();
    examples.extend(wrong.map(|word| sorted("no width", &format!("(_ BitVec ^{word})"))));
    examples.extend(wrong.map(|word| sorted("no width", &format!("(Array (_ BitVec 8) (_ BitVec ^{word}))"))));
    examples.extend(constants.map(|word| asserted("no constant", &format!("(= v ^{word})"), 31)));
    examples.extend(
        ["^bool", "^BitVec", "(^BitVec 8)", "(_ ^bitvec 8)", "(^(_ BitVec 8))", "(Array ^Bool Bool)"]
            .map(|s| sorted("no sort", s)),
    );
    examples.extend(
        ["(Array (_ BitVec 8)^)", "(_ BitVec 8 ^8)", "(Array (_ BitVec 8) (_ BitVec 8) ^a)"].map(|s| sorted("no sort", s)),
    );
    examples.push(read("an array", array, &[[1, 1, 32, 0, 0, 0], TRUE]));
    examples.push(read("32 digits", &longest, &[all, all, [6, 0, 0, 0, 1, 0]]));
    examples.push(at_mark("33 digits", &longest.replacen("#b", "^#b1", 1), 31));
    examples
}

/// What is a name, declared and used.
fn names() -> Vec<Example> {
    let used = |name: &str| {
        let text = format!("(declare-const {name} Bool)(assert {name})(check-sat)");
        read("a name", &text, &[A, [3, 0, 0, 0, 0, 0]])
    };
    let good =
        ["Bool", "BitVec", "Array", "xor", "bvlshr", "bvsle", "bvsgt", "bvnand", "~!@$%^&*_-+=<>.?/", "a.b", "a@", "+", "Not"];
    let bad = ["|a|", "1a", "#x1", "a'", "\"a\"", "a:b", ":a", "a|b", "{", "ä"];
    let mut examples: Vec<Example> = good.map(used).into();
    examples.extend(bad.map(|word| declared("no name", &format!("^{word}"), 31)));
    examples.extend(bad.map(|word| asserted("no operand", &format!("(not ^{word})"), 31)));
    examples.push(at_mark("declared again, at the second", "(declare-const a Bool)(declare-const ^a (", 32));
    examples.push(at_mark("declared again with another sort", "(declare-const a Bool)(declare-const ^a (_ BitVec 8))", 32));
    examples.push(asserted("not declared", "^zz", 32));
    examples.push(asserted("not declared, in a list", "(not (and a ^zz", 32));
    examples.push(at_mark("a variable of another case", "(declare-const a Bool)(assert ^A", 32));
    examples
}

/// Reserved words, commands, operators, symbols with @ or . first, and constants: 31 where they are declared, and as operands all but
/// the constants.
fn words_taken() -> Vec<Example> {
    let operators = OPERATORS.map(|(word, _)| word);
    let taken = RESERVED.iter().chain(&COMMANDS).chain(&operators).chain(&["@a", ".a", "@", ".", "@1", ".x"]);
    let twice = |word: &&str| {
        [
            declared("a word that is taken", &format!("^{word}"), 31),
            asserted("a word that is taken", &format!("(not ^{word})"), 31),
        ]
    };
    let mut examples: Vec<Example> = taken.flat_map(twice).collect();
    examples.extend(["true", "false"].map(|word| declared("a constant declared", &format!("^{word}"), 31)));
    examples
}

/// Nesting and operands.
fn counts() -> Vec<Example> {
    let nested = |open: usize, inner: &str| format!("(assert {}{inner}{})(check-sat)", "(not ".repeat(open), ")".repeat(open));
    let nots: Vec<Term> = [TRUE].into_iter().chain((0..64).map(|p| [2, 0, 0, p, 0, 0])).collect();
    let mut examples = vec![
        read("64 open", &nested(64, "true"), &nots),
        at_mark("65 open", &nested(64, "^(not true)"), 33),
        at_mark("65 open, where an operator must stand", &nested(63, "(^("), 31),
        at_mark("the 65th is an operand too many", &nested(64, "true ^("), 33),
        at_mark("the 65th with nothing behind it", &format!("(assert {}^(", "(not ".repeat(64)), 33),
        asserted("too few, at the closing parenthesis", "(and a^)", 34),
        asserted("none at all", "(not^)", 34),
        asserted("too many, at the first", "(not a ^a a a)", 34),
        asserted("too many, a list, whatever follows", "(not a ^(and", 34),
        asserted("too many, a constant", "(not a ^true)", 34),
        asserted("and takes two", "(and a a ^a)", 34),
    ];
    for (operator, arity) in OPERATORS {
        let some = |count: usize| vec!["a"; count].join(" ");
        examples.push(asserted("too few", &format!("({operator} {}^)", some(arity - 1)), 34));
        examples.push(asserted("too many", &format!("({operator} {} ^a)", some(arity)), 34));
    }
    examples
}

/// Several refusals at one word: the lowest number.
fn one_place() -> Vec<Example> {
    vec![
        asserted("an operand too many, not declared", "(not a ^zz)", 32),
        asserted("an operand too many, no word of the language", "(not a ^#x1)", 31),
        asserted("an operand too many, reserved", "(not a ^let)", 31),
        asserted("an operand too many, wrong inside", "(not a ^(zz))", 34),
        asserted("a lower place decides", "(and a ^zz", 32),
        asserted("a lower place decides, of a count", "(and^) (zz)", 34),
        declared("a word that is taken, twice", "a Bool)(declare-const ^let", 31),
    ]
}

/// 2, 6, 7, 9 and 10 of the table that is built.
fn of_the_table() -> Vec<Example> {
    let typed = |asserts: &str| {
        format!("(declare-const v (_ BitVec 8))(declare-const t (Array (_ BitVec 8) (_ BitVec 8))){asserts}(check-sat)")
    };
    let of = |name, asserts: &str, number, place| not_read(name, &typed(asserts), number, place);
    let stores = |count: usize| format!("(assert (= v (select {}t{} v)))", "(store ".repeat(count), " v v)".repeat(count));
    let slots = |count: usize| (0..count).map(|k| format!("(declare-const a{k} Bool)")).collect::<String>();
    vec![
        of("a sole vector's name: 6 at the and", "(assert v)", 6, 2),
        of("a sole array's name: 6 at the and", "(assert t)", 6, 2),
        of("a sole vector constant", "(assert #b1)", 10, 2),
        of("a sole vector", "(assert (bvnot v))", 10, 2),
        of("a sole array", "(assert (store t v v))", 10, 2),
        of("6 at the join of vectors", "(assert (bvnot v))(assert (bvnot v))", 6, 4),
        of("equal arrays", "(assert (= t t))", 6, 2),
        of("a choice between an array and a vector", "(assert (= v (select (ite true t v) v)))", 6, 3),
        of("a read of a vector", "(assert (= v (select v v)))", 6, 2),
        of("a read of a Boolean", "(assert (= v (select true v)))", 6, 3),
        of("a store in a vector", "(assert (= v (select (store v v v) v)))", 6, 2),
        of("another width", "(assert (= v #b1))", 6, 3),
        of("17 stores", &stores(17), 9, 18),
        not_read("257 names", &format!("{}(assert a0)(check-sat)", slots(257)), 7, 256),
        not_read("513 names", &format!("{}(assert a0)(check-sat)", slots(513)), 2, 0),
        not_read(
            "6 before 7, at a lower term",
            &format!("{}(assert (not v))(check-sat)", "(declare-const v (_ BitVec 1))"),
            6,
            1,
        ),
        not_read(
            "256 names, 129 lists and 128 joins",
            &format!("{}{}(check-sat)", slots(256), "(assert (and a0 a1))".repeat(129)),
            2,
            0,
        ),
    ]
}

/// Beyond the limits everything is read to the end.
fn long() -> Vec<Example> {
    let names = |count: usize| (0..count).map(|k| format!("(declare-const a{k} Bool)\n")).collect::<String>();
    let asserts = "(assert true)".repeat(600);
    vec![
        at_mark(
            "a name declared again behind 700 others",
            &format!("{}(declare-const ^a0 Bool)(assert a1)(check-sat)", names(700)),
            32,
        ),
        at_mark("an operand not declared behind 600 asserts", &format!("{asserts}(assert ^a)(check-sat)"), 32),
        at_mark("a word behind 600 asserts", &format!("{asserts}(check-sat)^a"), 31),
        not_read("1199 terms", &format!("{asserts}(check-sat)"), 2, 0),
        at_mark("no assert behind 700 names", &format!("{}(^check-sat)", names(700)), 35),
    ]
}
