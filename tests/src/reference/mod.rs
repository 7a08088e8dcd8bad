//! A second evaluator, written from the papers alone and for plainness: admitting, finishing, evaluating, judging under a mark
//! sheet, printing, parsing.

pub mod admission;
pub mod conditions;
pub mod finishing;
pub mod flaw;
pub mod parsing;
pub mod printing;
pub mod setting;
pub mod sheets;
pub mod term;
pub mod values;
pub mod words;

use crate::case::{Answer, Case, Checker, Routine};
use admission::Table;
use flaw::Flaw;
use term::READ;

#[derive(Clone, Copy, PartialEq, Debug)]
pub struct Refusal {
    pub number: u32,
    pub place: u64,
}

/// A result: the numbers of the answer, and what the room's front holds, numbers or text.
#[derive(Default)]
struct Outcome {
    numbers: Vec<u64>,
    front: Vec<u32>,
    text: String,
}

pub struct Reference {
    pub flaw: Flaw,
}

impl Checker for Reference {
    fn call(&self, case: &Case) -> Answer {
        let (mut room, mut text) = case.rooms();
        let outcome = match case.routine {
            Routine::Admit => self.admit(case),
            Routine::Finish => self.finish(case),
            Routine::Evaluate => self.evaluate(case, &mut room),
            Routine::Judge => self.judge(case),
            Routine::Print => self.print(case),
            Routine::Parse => self.parse(case),
        };
        let mut numbers = [0; 4];
        let number = match outcome {
            Ok(outcome) => {
                numbers[..outcome.numbers.len()].copy_from_slice(&outcome.numbers);
                room[..outcome.front.len()].copy_from_slice(&outcome.front);
                text[..outcome.text.len()].copy_from_slice(outcome.text.as_bytes());
                0
            }
            Err(refusal) => {
                numbers[0] = refusal.place;
                refusal.number
            }
        };
        Answer { number, numbers, room, text, strayed: false }
    }
}

impl Reference {
    fn admit(&self, case: &Case) -> Result<Outcome, Refusal> {
        admission::admit(&case.table, case.routine.limit(), self.flaw)?;
        Ok(Outcome::default())
    }

    fn finish(&self, case: &Case) -> Result<Outcome, Refusal> {
        let table = admission::admit(&case.table, case.routine.limit(), self.flaw)?;
        let finished = finishing::finish(&table, self.flaw);
        let count = finished.terms.len();
        if case.room < 6 * count {
            return Err(Refusal { number: 21, place: count as u64 });
        }
        let numbers = vec![count as u64, finished.condition.into(), count as u64 - 1];
        Ok(Outcome { numbers, front: finished.terms.concat(), ..Outcome::default() })
    }

    fn evaluate(&self, case: &Case, room: &mut [u32]) -> Result<Outcome, Refusal> {
        let table = admission::admit(&case.table, case.routine.limit(), self.flaw)?;
        setting::check(&table, &case.values, &case.cells, self.flaw)?;
        let inputs = setting::interpret(&table, &case.values, &case.cells, self.flaw);
        let values = values::values(&table, &inputs, self.flaw);
        let steps = self.steps(&table, &values);
        let front = numbers(&table, &values);
        let afforded = self.afford(case, front.len(), steps);
        if self.flaw == Flaw::WritesRefused && front.len() <= room.len() {
            room[..front.len()].copy_from_slice(&front);
        }
        afforded?;
        Ok(Outcome { numbers: vec![steps, case.allowance - steps], front, ..Outcome::default() })
    }

    /// The table is admitted by its own marks, and its conditions go by those that hold under the sheet.
    fn judge(&self, case: &Case) -> Result<Outcome, Refusal> {
        if self.flaw == Flaw::SheetFirst {
            sheets::check(None, &case.sheet, self.flaw)?;
        }
        let table = match self.flaw {
            Flaw::ClashBySheet => admission::admit(&sheets::applied(&case.table, &case.sheet), case.routine.limit(), self.flaw)?,
            _ => admission::admit(&case.table, case.routine.limit(), self.flaw)?,
        };
        if !(self.flaw == Flaw::SheetAfterCells && case.cells.len() % 3 != 0) {
            sheets::check(Some(&table), &case.sheet, self.flaw)?;
        }
        setting::check(&table, &case.values, &case.cells, self.flaw)?;
        let inputs = setting::interpret(&table, &case.values, &case.cells, self.flaw);
        let values = values::values(&table, &inputs, self.flaw);
        let marks = sheets::marks(&table, &case.sheet, self.flaw);
        let conditions = conditions::conditions(&table, &marks, &values, self.flaw);
        let steps = self.steps(&table, &values);
        let mut front = numbers(&table, &values);
        front.extend(conditions.iter().map(|&c| u32::from(c)));
        self.afford(case, front.len(), steps)?;
        let last = table.terms.len() - 1;
        let numbers = vec![values.number(last as u32), conditions[last].into(), steps, case.allowance - steps];
        Ok(Outcome { numbers, front, ..Outcome::default() })
    }

    fn print(&self, case: &Case) -> Result<Outcome, Refusal> {
        let table = admission::admit(&case.table, case.routine.limit(), self.flaw)?;
        let text = printing::text(&table, self.flaw);
        let spare = usize::from(self.flaw == Flaw::TextSpare);
        if case.room < text.len() + spare {
            return Err(Refusal { number: 24, place: text.len() as u64 });
        }
        Ok(Outcome { numbers: vec![text.len() as u64], text, ..Outcome::default() })
    }

    fn parse(&self, case: &Case) -> Result<Outcome, Refusal> {
        let front = parsing::table(&case.text, self.flaw)?.concat();
        let admitted = admission::admit(&front, case.routine.limit(), self.flaw);
        let short = case.room < front.len();
        if !(short && self.flaw == Flaw::RoomFirst) {
            admitted?;
        }
        if short {
            return Err(Refusal { number: 21, place: front.len() as u64 / 6 });
        }
        Ok(Outcome { numbers: vec![front.len() as u64], front, ..Outcome::default() })
    }

    /// Refusals 22 and 23.
    fn afford(&self, case: &Case, needed: usize, steps: u64) -> Result<(), Refusal> {
        let short = Refusal { number: 22, place: needed as u64 };
        let poor = Refusal { number: 23, place: steps };
        let is_short = case.room < needed;
        let is_poor = case.allowance < steps;
        match self.flaw {
            Flaw::AllowanceFirst if is_poor => Err(poor),
            _ if is_short => Err(short),
            _ if is_poor => Err(poor),
            _ => Ok(()),
        }
    }

    fn steps(&self, table: &Table, values: &values::Values) -> u64 {
        let reads = table.terms.iter().filter(|t| t.op == READ);
        match self.flaw {
            Flaw::StepsToSource => reads.map(|t| values.stores_asked(t)).sum(),
            Flaw::StepsOfBranch => reads.map(|t| values.size_taken(t.p)).sum(),
            _ => table.steps(),
        }
    }
}

fn numbers(table: &Table, values: &values::Values) -> Vec<u32> {
    (0..table.terms.len() as u32).map(|t| values.number(t) as u32).collect()
}
