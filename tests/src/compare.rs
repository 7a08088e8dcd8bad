//! The comparison, round by round.

use crate::case::{Answer, Case, Checker, Routine};
use crate::counts::Counts;
use crate::generate;
use crate::random::Random;
use crate::{finished, pairs, parsed, printed, sheeted};

/// What is checked of a call.
#[derive(Clone, Copy, Debug)]
pub enum Check {
    /// Answer and room equal the reference's.
    Answers,
    /// So they do with the cells as a row of records.
    Records,
    /// Demand 3 for the setting and the partner with this seed.
    Pair(u64),
    /// The finished table agrees with judging under the call's own sheet, where it leaves the table's marks, else under one with
    /// this seed.
    Finished(u64),
    /// The laws of sheets for the call and another party's with this seed.
    Sheeted(u64),
    /// The laws of printing for the table and the partners with this seed.
    Printed(u64),
    /// The laws of parsing for the text and the partners with this seed.
    Parsed(u64),
}

/// A check that failed, and the call.
#[derive(Debug)]
pub struct Difference {
    pub check: Check,
    pub case: Case,
}

pub struct Comparison<'a> {
    pub subject: &'a dyn Checker,
    pub reference: &'a dyn Checker,
    pub counts: Counts,
}

impl Check {
    /// What is wrong with the call, if anything.
    pub fn fault(&self, subject: &dyn Checker, reference: &dyn Checker, case: &Case) -> Option<String> {
        match *self {
            Check::Answers => {
                let (one, other) = (subject.call(case), reference.call(case));
                (one != other).then(|| format!("library:   {one}\nreference: {other}"))
            }
            Check::Records => {
                let (one, other) = (subject.call_with_records(case)?, reference.call(case));
                (one != other).then(|| format!("library, cells as records: {one}\nreference:                 {other}"))
            }
            Check::Pair(seed) => pairs::fault(subject, case, seed),
            Check::Finished(seed) => finished::fault(subject, case, seed),
            Check::Sheeted(seed) => sheeted::fault(subject, case, seed),
            Check::Printed(seed) => printed::fault(subject, case, seed),
            Check::Parsed(seed) => parsed::fault(subject, case, seed),
        }
    }
}

impl<'a> Comparison<'a> {
    pub fn new(subject: &'a dyn Checker, reference: &'a dyn Checker) -> Comparison<'a> {
        Comparison { subject, reference, counts: Counts::new() }
    }

    /// Runs the round with this number; the same seed and number give the same round.
    pub fn round(&mut self, seed: u64, number: u64) -> Result<(), Difference> {
        let mut random = Random::new(seed ^ Random::new(number).next());
        let cases = generate::round(&mut random, number);
        self.cases(&mut random, &cases)
    }

    fn cases(&mut self, random: &mut Random, cases: &[Case]) -> Result<(), Difference> {
        for case in cases {
            let answer = self.compare(case)?;
            if case.routine == Routine::Judge && answer.number == 0 {
                if random.chance(40) || case.terms() > 100 {
                    self.pair(case, &answer, random.next())?;
                }
                if random.chance(25) || case.terms() > 100 {
                    self.finished(case, random.next())?;
                }
                if random.chance(25) {
                    self.sheeted(case, &answer, random.next())?;
                }
            }
            if case.routine == Routine::Print && answer.number == 0 && random.chance(15) {
                self.printed(case, random.next())?;
            }
            if case.routine == Routine::Parse {
                self.parsed(random, case, &answer)?;
            }
        }
        Ok(())
    }

    fn compare(&mut self, case: &Case) -> Result<Answer, Difference> {
        let answer = self.reference.call(case);
        self.counts.observe(case, &answer);
        if self.subject.call(case) != answer {
            return Err(Difference { check: Check::Answers, case: case.clone() });
        }
        if let Some(same) = self.subject.call_with_records(case) {
            self.counts.observe_records(case, &answer);
            if same != answer {
                return Err(Difference { check: Check::Records, case: case.clone() });
            }
        }
        Ok(answer)
    }

    /// Fails where the check does.
    fn hold(&self, check: Check, case: &Case) -> Result<(), Difference> {
        match check.fault(self.subject, self.reference, case) {
            None => Ok(()),
            Some(_) => Err(Difference { check, case: case.clone() }),
        }
    }

    fn pair(&mut self, case: &Case, answer: &Answer, seed: u64) -> Result<(), Difference> {
        self.counts.pairs += 1;
        self.counts.calls += 2;
        let partner = pairs::partner(case, seed);
        let other = self.compare(&partner)?;
        self.hold(Check::Pair(seed), case)?;
        let [rule, condition, ..] = answer.numbers;
        let sheet = u32::from(!finished::leaves_marks(case));
        let differ = |slot: u32| case.values[slot as usize] != partner.values[slot as usize];
        let differ = pairs::inputs(case).iter().any(|(&slot, &(_, marked))| marked && differ(slot));
        if condition == 1 && differ {
            self.counts.count(("pair: condition true, marked values differ; sheet changes marks", sheet, 0));
        }
        if condition == 0 && rule != other.numbers[0] {
            self.counts.count(("pair: condition false, rules differ; sheet changes marks", sheet, 0));
        }
        if case.cells != partner.cells && !case.cells.is_empty() {
            self.counts.count(("pair: cells relisted", 0, 0));
        }
        Ok(())
    }

    fn finished(&mut self, case: &Case, seed: u64) -> Result<(), Difference> {
        self.counts.finished += 1;
        self.counts.calls += 7;
        let calls = finished::calls(self.reference, case).expect("a judged table");
        self.compare(&calls.finish)?;
        self.compare(&calls.evaluate)?;
        self.compare(&printed::call(&calls.evaluate.table))?;
        let left = finished::left(case, seed);
        self.compare(&left)?;
        self.hold(Check::Finished(seed), case)?;
        self.counts.count(("finished table evaluated and printed, some sheet", (!left.sheet.is_empty()).into(), 0));
        if calls.evaluate.terms() > 10_000 {
            self.counts.count(("finished table over 10,000 terms", 0, 0));
        }
        Ok(())
    }

    fn sheeted(&mut self, case: &Case, answer: &Answer, seed: u64) -> Result<(), Difference> {
        self.counts.sheeted += 1;
        self.counts.calls += 7;
        self.hold(Check::Sheeted(seed), case)?;
        let plain = self.compare(&sheeted::plain(case))?;
        self.counts.count(("sheeted: condition, that by the table", answer.numbers[1] as u32, plain.numbers[1] as u32));
        let other = self.compare(&sheeted::other_party(case, seed))?;
        self.counts.count(("sheeted: refused between two judgements", other.number.min(1), 0));
        Ok(())
    }

    /// The laws, and what the other routines say of the table.
    fn parsed(&mut self, random: &mut Random, case: &Case, answer: &Answer) -> Result<(), Difference> {
        if random.chance(20) || case.text.len() > 4000 && random.chance(30) {
            self.counts.parsed += 1;
            self.counts.calls += 2;
            self.hold(Check::Parsed(random.next()), case)?;
            self.counts.count(("laid out otherwise, refused", answer.number, 0));
            if answer.number < 31 {
                self.counts.count(("renamed, refused", answer.number, 0));
            }
        }
        if answer.number == 0 && random.chance(15) {
            self.counts.count(("parsed table judged", 0, 0));
            let cases = generate::of_table(random, &answer.room[..answer.numbers[0] as usize]);
            self.cases(random, &cases)?;
        }
        Ok(())
    }

    fn printed(&mut self, case: &Case, seed: u64) -> Result<(), Difference> {
        self.counts.printed += 1;
        self.counts.calls += 4;
        self.hold(Check::Printed(seed), case)?;
        let partners = printed::partners(case, seed);
        if partners.marked != case.table {
            self.counts.count(("printed with other marks", 0, 0));
        }
        if let Some((plain, other)) = partners.pair.filter(|(plain, other)| plain != other) {
            let in_order = printed::differ_in_order(&plain, &other);
            self.counts.count(("printed beside another table, text shared", in_order.into(), 0));
        }
        Ok(())
    }
}
