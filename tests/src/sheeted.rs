//! The laws of sheets, by sampling: judging under a sheet is judging the table with the marks that hold; values and steps do not
//! depend on the sheet; and a judgement of one party between two of another changes neither.

use crate::case::{Case, Checker};
use crate::generate::sheet;
use crate::pairs;
use crate::random::Random;
use crate::reference::sheets;

/// The same call under the empty sheet.
pub fn plain(case: &Case) -> Case {
    Case { sheet: vec![], ..case.clone() }
}

/// The table with the marks that hold, under the empty sheet.
fn applied(case: &Case) -> Case {
    Case { table: sheets::applied(&case.table, &case.sheet), ..plain(case) }
}

/// A call of another party, to which the same table is lent: a sheet, a setting, a room and an allowance of its own.
pub fn other_party(case: &Case, seed: u64) -> Case {
    let random = &mut Random::new(seed);
    let mut other = pairs::partner(case, random.next());
    other.sheet = sheet::of_table(random, &case.table);
    match random.below(6) {
        0 => sheet::damage(random, &mut other.sheet),
        1 => other.room = other.room.saturating_sub(random.between(1, 30)),
        2 => other.values.truncate(random.below(other.values.len() + 1)),
        _ => {}
    }
    other
}

/// What of the laws the answers break, if anything. A case that is refused breaks nothing.
pub fn fault(checker: &dyn Checker, case: &Case, seed: u64) -> Option<String> {
    let own = checker.call(case);
    if own.number != 0 {
        return None;
    }
    let applied = applied(case);
    let by_table = checker.call(&applied);
    if own != by_table {
        return Some(format!(
            "the marks that hold do not decide\nunder the sheet: {own}\nby the table's own: {by_table}\nof {:?}",
            applied.table
        ));
    }
    let plain = checker.call(&plain(case));
    let n = case.terms();
    let told = |answer: &crate::case::Answer| (answer.number, answer.numbers[0], answer.numbers[2], answer.numbers[3]);
    if told(&own) != told(&plain) || own.room[..n] != plain.room[..n] {
        return Some(format!("rule, steps or values depend on the sheet\nunder it: {own}\nwithout: {plain}"));
    }
    let other = other_party(case, seed);
    let [between, again, last] = [&other, case, &other].map(|call| checker.call(call));
    (own != again || between != last).then(|| {
        format!("one party's call changes another's\nfirst: {own}\nagain: {again}\nthe other, {other}: {between}\nagain: {last}")
    })
}
