//! Tests of the test: the reference on the papers' examples, and whether the comparison can fail.

use crate::case::{Case, Checker, Routine};
use crate::compare::{Check, Comparison, Difference};
use crate::examples::sheets::under;
use crate::examples::{self, h};
use crate::printed::{self, differ_in_order};
use crate::reference::flaw::{Flaw, FLAWS};
use crate::reference::setting::Content;
use crate::reference::term::*;
use crate::reference::{admission, values, Reference};
use crate::shrink::shrink;
use std::collections::BTreeMap;
use std::time::Duration;

const REFERENCE: Reference = Reference { flaw: Flaw::None };

/// The first difference within so many rounds, if any.
fn first_difference(subject: &dyn Checker, reference: &dyn Checker, rounds: u64) -> Option<Difference> {
    let mut comparison = Comparison::new(subject, reference);
    (0..rounds).find_map(|number| comparison.round(1, number).err())
}

#[test]
fn the_reference_answers_the_papers_examples() {
    examples::check(&REFERENCE).unwrap();
}

#[test]
fn the_finished_chain_of_three_takes_six_steps() {
    let example = examples::all().into_iter().find(|e| e.name.starts_with("three stores")).unwrap();
    let calls = crate::finished::calls(&REFERENCE, &example.case).unwrap();
    assert_eq!(REFERENCE.call(&calls.evaluate).numbers, [6, u64::MAX - 6, 0, 0]);
    assert_eq!(crate::finished::fault(&REFERENCE, &example.case, 1), None);
}

/// An array (1, 8) of value 300 whose two cells are listed: refused 13 as a setting, but its content fits and has a meaning.
#[test]
fn a_fitting_content_may_be_a_refused_setting() {
    let table = [[1, 1, 8, 0, 0, 0], [0, 0, 1, 1, 0, 0], [15, 0, 8, 0, 1, 0], [0, 0, 8, 2, 0, 0], [6, 0, 0, 2, 3, 0]].concat();
    let case = Case {
        routine: Routine::Judge,
        table,
        sheet: vec![],
        text: vec![],
        values: vec![300],
        cells: vec![0, 0, 1, 0, 1, 2],
        allowance: 0,
        room: 10,
    };
    assert_eq!((REFERENCE.call(&case).number, REFERENCE.call(&case).numbers[0]), (13, 0));
    let admitted = admission::admit(&case.table, 512, Flaw::None).unwrap();
    let inputs = BTreeMap::from([(0, Content { value: 300, cells: BTreeMap::from([(0, 1), (1, 2)]) })]);
    assert!(values::values(&admitted, &inputs, Flaw::None).holds(4));
}

#[test]
fn the_reference_agrees_with_itself() {
    assert!(first_difference(&REFERENCE, &REFERENCE, 10_000).is_none());
}

#[test]
fn a_short_run_misses_something() {
    let mut comparison = Comparison::new(&REFERENCE, &REFERENCE);
    (0..10).for_each(|number| comparison.round(1, number).unwrap());
    assert!(!comparison.counts.missing().is_empty());
}

/// Every deliberate error is found soon, and the call that shows it is made small.
#[test]
fn every_flaw_is_found_and_shrunk() {
    for (name, flaw) in FLAWS {
        let flawed = Reference { flaw };
        let found = first_difference(&flawed, &REFERENCE, 10_000).unwrap_or_else(|| panic!("{name} is not found"));
        let fails = |case: &Case| found.check.fault(&flawed, &REFERENCE, case).is_some();
        let small = shrink(&found.case, Duration::from_secs(10), &fails);
        assert!(fails(&small), "{name}: what is printed still fails");
        let terms = match flaw {
            // 17 stores or choices; a room that fits one text.
            Flaw::SeventeenAllowed | Flaw::OnlyReadSizes => 22,
            Flaw::TextSpare => 60,
            _ => 12,
        };
        assert!(small.terms() <= terms && small.sheet.len() <= 12 && small.text.len() <= 500, "{name}: {small}");
    }
}

/// Errors that make the condition too weak break demand 3: the pairs alone show it, without a reference.
#[test]
fn pairs_alone_find_conditions_that_are_too_weak() {
    let less = [Flaw::LessExchanged, Flaw::LessOwnWidth, Flaw::LessAlone];
    let signed = [Flaw::SignedByOnes, Flaw::SignedExchanged, Flaw::AmountSettles, Flaw::SixthByAmount];
    let first = [Flaw::JoinsIndexes, Flaw::FactorAlone, Flaw::PickedBranch, Flaw::IndexUnasked];
    let sheets = [Flaw::TableMarks, Flaw::KeepWins, Flaw::FirstLine, Flaw::LastSlotLeftOut, Flaw::UnnamedUnmarked];
    let arrays = [Flaw::PickedArray, Flaw::OtherArrayFree, Flaw::EqualReadsAlone, Flaw::StepsOfBranch];
    for flaw in first.into_iter().chain(less).chain(signed).chain(sheets).chain(arrays) {
        let flawed = Reference { flaw };
        let mut comparison = Comparison::new(&flawed, &flawed);
        let pair = |d: &Difference| matches!(d.check, Check::Pair(_));
        let found = (0..200_000).find_map(|number| comparison.round(1, number).err().filter(pair));
        assert!(found.is_some(), "{flaw:?}");
    }
}

/// Tables of up to three Boolean terms, without marks and each slot used once.
fn small_tables() -> Vec<Vec<u32>> {
    let mut tables: Vec<Vec<u32>> = vec![vec![]];
    for place in 0..3 {
        let mut leaves = vec![[0, 0, 0, 0, 0, 0], [0, 0, 0, 1, 0, 0]];
        leaves.extend((0..3).map(|slot| [1, 0, 0, slot, 0, 0]));
        leaves.extend((0..place).map(|p| [2, 0, 0, p, 0, 0]));
        leaves.extend((0..place * place).map(|pq| [3, 0, 0, pq / place, pq % place, 0]));
        let longest = tables.iter().filter(|t| t.len() == 6 * place as usize).cloned().collect::<Vec<_>>();
        tables.extend(longest.iter().flat_map(|table| leaves.iter().map(|leaf| [&table[..], leaf].concat())));
    }
    let slots = |t: &[u32]| t.chunks(6).filter(|t| t[0] == 1).map(|t| t[3]).collect::<Vec<_>>();
    let once = |t: &Vec<u32>| !t.is_empty() && slots(t).iter().all(|s| slots(t).iter().filter(|&x| x == s).count() == 1);
    tables.into_iter().filter(once).collect()
}

/// The sentence of the request, word by word: some permutation of the places does it.
fn some_order(a: &[u32], b: &[u32]) -> bool {
    let n = a.len() / 6;
    let orders = [[0, 1, 2], [0, 2, 1], [1, 0, 2], [1, 2, 0], [2, 0, 1], [2, 1, 0]];
    let does = |f: &&[usize; 3]| {
        f[..n].iter().all(|&x| x < n)
            && (0..n).all(|i| {
                let t = &a[6 * i..6 * i + 6];
                let follow = |x: u32, is: bool| if is { f[x as usize] as u32 } else { x };
                let (p, q) = (follow(t[3], t[0] > 1), follow(t[4], t[0] == 3));
                (t[0] == 1 || f[i] == i) && b[6 * f[i]..6 * f[i] + 6] == [t[0], t[1], t[2], p, q, 0]
            })
            && (a[6 * n - 6] != 1 || f[n - 1] == n - 1)
    };
    a.len() == b.len() && orders.iter().any(|f| does(&f))
}

/// On all small tables: text is shared just where the request says, and where the comparison's own test says.
#[test]
fn small_tables_share_text_just_where_only_the_order_differs() {
    let tables = small_tables();
    let texts: Vec<Vec<u8>> = tables.iter().map(|t| REFERENCE.call(&printed::call(t)).text).collect();
    let front = |text: &[u8]| text.iter().take_while(|b| b.is_ascii()).count();
    let mut shared = 0;
    for (i, a) in tables.iter().enumerate() {
        for (j, b) in tables.iter().enumerate() {
            let same = texts[i][..front(&texts[i])] == texts[j][..front(&texts[j])];
            assert_eq!((same, same), (some_order(a, b), differ_in_order(a, b)), "{a:?} {b:?}");
            shared += usize::from(same && i != j);
        }
    }
    assert!(tables.len() > 300 && shared > 10, "{} tables, {shared} pairs", tables.len());
}

/// The laws alone show what the texts get wrong, without a reference.
#[test]
fn laws_alone_find_texts_that_are_wrong() {
    for flaw in [Flaw::SlotsByUse, Flaw::VariableByNumber, Flaw::ReturnIsNoSpace, Flaw::EndAtLastWord, Flaw::MarkedByX] {
        let flawed = Reference { flaw };
        let mut comparison = Comparison::new(&flawed, &flawed);
        let law = |d: &Difference| matches!(d.check, Check::Printed(_) | Check::Parsed(_));
        let found = (0..40_000).find_map(|number| comparison.round(1, number).err().filter(law));
        assert!(found.is_some(), "{flaw:?}");
    }
}

/// So do the laws of sheets, and what the finished table says under a sheet that leaves the marks.
#[test]
fn laws_alone_find_marks_that_are_wrong() {
    let law = |d: &Difference| matches!(d.check, Check::Sheeted(_));
    for flaw in [Flaw::TableMarks, Flaw::KeepWins, Flaw::FirstLine, Flaw::LastSlotLeftOut, Flaw::UnnamedUnmarked] {
        let flawed = Reference { flaw };
        let mut comparison = Comparison::new(&flawed, &flawed);
        assert!((0..40_000).any(|number| comparison.round(1, number).is_err_and(|d| law(&d))), "{flaw:?}");
    }
    let flawed = Reference { flaw: Flaw::UnnamedUnmarked };
    let mut comparison = Comparison::new(&flawed, &flawed);
    let law = |d: &Difference| matches!(d.check, Check::Finished(_));
    assert!((0..40_000).any(|number| comparison.round(1, number).is_err_and(|d| law(&d))));
}

/// A mark or a keep line of one slot is that slot's mark in the table: all sheets of two such lines over three slots.
#[test]
fn a_sheet_is_the_table_with_other_marks() {
    let lines: Vec<[u32; 3]> = (0..6).map(|k| [k % 2, k / 2, k / 2]).collect();
    for (one, other) in lines.iter().flat_map(|one| lines.iter().map(move |other| (one, other))) {
        for values in [[0, 5, 1], [1, 1, 0], [0, 5, 0], [1, 0, 1]] {
            let case = under(&[*one, *other].concat(), &examples::G, &values);
            let mut table = examples::G;
            table[one[1] as usize][4] = one[0];
            let is_kept_after_mark = one[1] == other[1] && one[0] == 1;
            if !is_kept_after_mark {
                table[other[1] as usize][4] = other[0];
            }
            assert_eq!(REFERENCE.call(&case), REFERENCE.call(&under(&[], &table, &values)), "{one:?} {other:?}");
        }
    }
}

/// With no sheet all is as it was before sheets: the reference by the table's own marks.
#[test]
fn an_empty_sheet_leaves_every_mark() {
    let by_table = Reference { flaw: Flaw::TableMarks };
    for number in 0..4_000 {
        let mut random = crate::random::Random::new(number);
        for case in crate::generate::round(&mut random, number) {
            let plain = crate::sheeted::plain(&case);
            assert_eq!(REFERENCE.call(&plain), by_table.call(&plain), "{plain}");
        }
    }
}

/// Paper 01's P1 to P12 do not tell the two readings of a read's group apart; rule H with other marks does.
#[test]
fn only_the_example_of_our_own_tells_how_a_read_is_joined() {
    let flawed = Reference { flaw: Flaw::JoinsIndexes };
    for example in examples::all().iter().filter(|e| e.name.starts_with('P')) {
        assert_eq!(flawed.call(&example.case).numbers, example.numbers, "{}", example.name);
    }
    let case = Case {
        routine: Routine::Judge,
        table: h(0, 1).concat(),
        sheet: vec![],
        text: vec![],
        values: vec![9, 0, 0],
        cells: vec![],
        allowance: 1,
        room: 14,
    };
    assert_eq!(flawed.call(&case).numbers[1], 1);
    assert_eq!(REFERENCE.call(&case).numbers[1], 0);
}

/// The table with each read of a store or a choice as a choice: of the stored value and what is beneath, of the branches' reads. Only
/// variables are read then.
fn reads_as_choices(table: &[u32]) -> Vec<[u32; 6]> {
    let given: Vec<Term> = table.chunks(6).map(Term::of).collect();
    let (mut terms, mut now): (Vec<[u32; 6]>, Vec<u32>) = (vec![], vec![]);
    for t in &given {
        let moved = |at: usize| if at < t.operands() { now[t.fields()[at] as usize] } else { t.fields()[at] };
        match t.op {
            READ => drop(pushed_in(&given, &now, &mut terms, t.p, t.q)),
            STORE => {}
            CHOICE if t.m != 0 => {}
            _ => terms.push([t.op, t.m, t.n, moved(0), moved(1), moved(2)]),
        }
        now.push(terms.len() as u32 - 1);
    }
    terms
}

/// Adds what a read of an array at the index that is term j is, and gives its number.
fn pushed_in(given: &[Term], now: &[u32], terms: &mut Vec<[u32; 6]>, array: u32, j: u32) -> u32 {
    let a = given[array as usize];
    let at = |term: u32| now[term as usize];
    let last = match a.op {
        VARIABLE => [READ, 0, a.n, at(array), at(j), 0],
        STORE => {
            let beneath = pushed_in(given, now, terms, a.p, j);
            terms.push([EQUAL, 0, 0, at(a.q), at(j), 0]);
            [CHOICE, 0, a.n, terms.len() as u32 - 1, at(a.r), beneath]
        }
        _ => {
            let (q, r) = (pushed_in(given, now, terms, a.q, j), pushed_in(given, now, terms, a.r, j));
            [CHOICE, 0, a.n, at(a.p), q, r]
        }
    };
    terms.push(last);
    terms.len() as u32 - 1
}

/// A read of a store or of a choice has the value and the condition of that choice.
#[test]
fn a_read_is_a_choice_of_reads() {
    let (mut compared, mut with_choices) = (0, 0);
    for number in 0..20_000 {
        let mut random = crate::random::Random::new(number);
        let judged = crate::generate::round(&mut random, number).into_iter().filter(|case| case.routine == Routine::Judge);
        for case in judged.filter(|case| REFERENCE.call(case).number == 0) {
            let table = reads_as_choices(&case.table);
            let other = REFERENCE.call(&Case { table: table.concat(), room: 2 * table.len(), ..case.clone() });
            if table.len() <= 512 {
                assert_eq!(other.numbers[..2], REFERENCE.call(&case).numbers[..2], "{case}");
                compared += 1;
                with_choices += u32::from(case.table.chunks(6).any(|t| t[0] == CHOICE && t[1] != 0));
            }
        }
    }
    assert!(compared > 3000 && with_choices > 300, "{compared} tables, {with_choices} with choices of arrays");
}
