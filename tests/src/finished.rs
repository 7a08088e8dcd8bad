//! The finished table says what judging says, under every sheet that leaves the table's marks as they are.

use crate::case::{Case, Checker, Routine};
use crate::generate::sheet;
use crate::random::Random;
use crate::reference::sheets;

/// The calls behind the check: finishing the table, and evaluating the finished table in the setting.
pub struct Calls {
    pub finish: Case,
    pub evaluate: Case,
}

/// The two calls for a judged case, with room and allowance enough; none if the table is refused.
pub fn calls(checker: &dyn Checker, judged: &Case) -> Option<Calls> {
    let ask = Case { routine: Routine::Finish, room: 0, ..judged.clone() };
    let refused = checker.call(&ask);
    if refused.number != 21 {
        return None;
    }
    let terms = refused.numbers[0] as usize;
    let finish = Case { room: 6 * terms, ..ask };
    let table = checker.call(&finish).room;
    let evaluate = Case { routine: Routine::Evaluate, table, room: terms, allowance: u64::MAX, ..judged.clone() };
    Some(Calls { finish, evaluate })
}

/// Whether the sheet leaves the table's marks as they are.
pub fn leaves_marks(case: &Case) -> bool {
    sheets::applied(&case.table, &case.sheet) == case.table
}

/// The judged case under a sheet that leaves the table's marks: its own, or one that is made.
pub fn left(judged: &Case, seed: u64) -> Case {
    match leaves_marks(judged) {
        true => judged.clone(),
        false => Case { sheet: sheet::leaving(&mut Random::new(seed), &judged.table), ..judged.clone() },
    }
}

/// What the finished table gets wrong, if anything. A case that judging refuses breaks nothing.
pub fn fault(checker: &dyn Checker, judged: &Case, seed: u64) -> Option<String> {
    if checker.call(judged).number != 0 {
        return None;
    }
    let judged = &left(judged, seed);
    let verdict = checker.call(judged);
    if verdict.number != 0 {
        return Some(format!("refused under a sheet that leaves the marks, {:?}: {verdict}", judged.sheet));
    }
    let [rule, condition, steps, _] = verdict.numbers;
    let Some(calls) = calls(checker, judged) else { return Some("a judged table is not finished".into()) };
    let finish = checker.call(&calls.finish);
    let [terms, condition_at, last, _] = finish.numbers;
    let evaluated = checker.call(&calls.evaluate);
    if evaluated.number != 0 {
        return Some(format!("evaluating the finished table is refused: {evaluated}"));
    }
    let n = judged.terms() as u64;
    let value = |at: u64| evaluated.room.get(at as usize).map_or(u64::MAX, |&v| v.into());
    let added = terms.saturating_sub(n);
    let wrong = [
        (finish.number != 0, "finishing is refused with room enough"),
        (last + 1 != terms, "the last term's number"),
        (added > 3 + 9 * n + 9 * steps || added > 3 + 145 * n, "more terms added than allowed"),
        (evaluated.room.get(..n as usize) != verdict.room.get(..n as usize), "the values of the given terms"),
        ((value(n), value(n + 1)) != (1, 0), "the constants true and false"),
        (value(n - 1) != rule, "the rule"),
        (value(condition_at) != condition, "the condition"),
        (value(last) != rule * condition, "the conjunction"),
    ];
    let (_, what) = wrong.iter().find(|(is_wrong, _)| *is_wrong)?;
    let sheet = &judged.sheet;
    Some(format!("{what}\njudged under {sheet:?}: {verdict}\nfinished: {finish}\nevaluated: {evaluated}"))
}
