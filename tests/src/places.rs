//! Typed rules with every word at every place: in the place of a word, before it, and behind the last.

use crate::case::{Case, Checker};
use crate::compare::{Check, Difference};
use crate::generate::misprint::TRICKY;
use crate::reference::words::{COMMANDS, OPERATORS, RESERVED};

/// Between them they have every operator, every sort, marked names and others, one assert and several, a sole name and a constant.
const RULES: [&str; 4] = [
    "( declare-const a Bool ) ( assert a ) ( check-sat )",
    "( assert true ) ( check-sat )",
    "( declare-const x1 ( _ BitVec 8 ) ) ( declare-const t ( Array ( _ BitVec 8 ) ( _ BitVec 4 ) ) ) \
     ( assert ( = ( select ( store t x1 #b0101 ) ( bvnot x1 ) ) ( ite false #b0000 ( select ( ite true t t ) x1 ) ) ) ) \
     ( assert ( not ( bvult ( bvshl x1 ( bvand x1 x1 ) ) ( bvor x1 #b00000001 ) ) ) ) ( check-sat )",
    "( declare-const a Bool ) ( declare-const x2 ( _ BitVec 3 ) ) ( assert ( => ( and a ( or a true ) ) a ) ) \
     ( assert ( = ( bvadd x2 ( bvmul x2 x2 ) ) #b101 ) ) ( assert a ) \
     ( assert ( bvslt ( bvneg x2 ) ( bvashr ( bvsub x2 #b001 ) x2 ) ) ) ( check-sat )",
];

/// The words that are tried: the language's, those near it, and the names of the rules.
fn words() -> Vec<&'static str> {
    let operators = OPERATORS.map(|(word, _)| word);
    let own = ["a", "x1", "x2", "t", "declare-const", "zz"];
    let all = [&operators[..], &RESERVED, &COMMANDS, &TRICKY, &own];
    all.concat()
}

/// Compares on all of them: how many texts.
pub fn compare(subject: &dyn Checker, reference: &dyn Checker) -> Result<u64, Difference> {
    let mut count = 0;
    for rule in RULES {
        let own: Vec<&str> = rule.split(' ').collect();
        for at in 0..=own.len() {
            for text in texts(&own, at) {
                let case = Case::parse(text.into_bytes(), 100);
                if subject.call(&case) != reference.call(&case) {
                    return Err(Difference { check: Check::Answers, case });
                }
                count += 1;
            }
        }
    }
    Ok(count)
}

/// The rule cut off at a place, without the word there, and with each word in its place and before it.
fn texts(own: &[&str], at: usize) -> Vec<String> {
    let (before, rest) = own.split_at(at);
    let behind = &rest[rest.len().min(1)..];
    let mut texts = vec![before.join(" "), [before, behind].concat().join(" ")];
    for word in words() {
        texts.push([before, &[word], behind].concat().join(" "));
        texts.push([before, &[word], rest].concat().join(" "));
    }
    texts
}
