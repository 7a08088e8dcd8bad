//! A call of one routine, and what it answered.

use std::fmt;

#[derive(Clone, Copy, PartialEq, Eq, Debug)]
pub enum Routine {
    Admit,
    Finish,
    Evaluate,
    Judge,
    Print,
    Parse,
}

/// The routines that take a table.
pub const ROUTINES: [Routine; 5] = [Routine::Admit, Routine::Finish, Routine::Evaluate, Routine::Judge, Routine::Print];

/// The arguments of a call. `room` is the length of the lent room, for print in bytes. Parse takes the text alone, the others the
/// table, and judge alone the sheet; a routine that takes no setting ignores the rest.
#[derive(Clone, PartialEq, Debug)]
pub struct Case {
    pub routine: Routine,
    pub table: Vec<u32>,
    pub sheet: Vec<u32>,
    pub text: Vec<u8>,
    pub values: Vec<u32>,
    pub cells: Vec<u32>,
    pub allowance: u64,
    pub room: usize,
}

/// What a call answered: 0 or a refusal's number, the four numbers, and the whole room after the call: numbers, or for print bytes.
#[derive(Clone, PartialEq, Debug)]
pub struct Answer {
    pub number: u32,
    pub numbers: [u64; 4],
    pub room: Vec<u32>,
    pub text: Vec<u8>,
    /// Something outside the room was changed: the numbers around it, or a row that was lent for reading.
    pub strayed: bool,
}

/// Whoever answers calls: the library, or the reference.
pub trait Checker {
    fn call(&self, case: &Case) -> Answer;

    /// The same call with the cells as a row of records; none where the routine takes no cells, where they are no whole
    /// cells, or where the checker has no such entrance.
    fn call_with_records(&self, _case: &Case) -> Option<Answer> {
        None
    }
}

/// What a room holds before the call: no number that a routine writes there by chance.
fn pattern(length: usize) -> Vec<u32> {
    (0..length as u32).map(|i| 0xA5C0_0000 ^ i).collect()
}

/// What a text room holds before the call: no byte of ASCII.
fn text_pattern(length: usize) -> Vec<u8> {
    (0..length).map(|i| 0x80 | i as u8).collect()
}

impl Routine {
    /// The terms that a table may have.
    pub fn limit(self) -> usize {
        match self {
            Routine::Admit | Routine::Finish | Routine::Judge | Routine::Parse => 512,
            Routine::Evaluate | Routine::Print => 80_000,
        }
    }
}

impl Case {
    /// The call that parses a text.
    pub fn parse(text: Vec<u8>, room: usize) -> Case {
        let (table, sheet, values, cells) = (vec![], vec![], vec![], vec![]);
        Case { routine: Routine::Parse, table, sheet, text, values, cells, allowance: 0, room }
    }

    pub fn terms(&self) -> usize {
        self.table.len() / 6
    }

    /// What the lent room holds before the call: the numbers and the bytes, one of them none.
    pub fn rooms(&self) -> (Vec<u32>, Vec<u8>) {
        match self.routine {
            Routine::Print => (vec![], text_pattern(self.room)),
            _ => (pattern(self.room), vec![]),
        }
    }
}

/// A text as Rust writes it.
fn byte_string(text: &[u8]) -> String {
    let written: String = text.escape_ascii().to_string();
    format!("b\"{written}\"")
}

/// How much of a room's front was written.
fn written<T: PartialEq>(room: &[T], before: &[T]) -> usize {
    (0..room.len()).rev().find(|&i| room[i] != before[i]).map_or(0, |i| i + 1)
}

impl fmt::Display for Case {
    fn fmt(&self, f: &mut fmt::Formatter) -> fmt::Result {
        writeln!(f, "Case {{")?;
        writeln!(f, "    routine: Routine::{:?},", self.routine)?;
        writeln!(f, "    table: vec![")?;
        for term in self.table.chunks(6) {
            let numbers: Vec<String> = term.iter().map(u32::to_string).collect();
            writeln!(f, "        {},", numbers.join(", "))?;
        }
        writeln!(f, "    ],")?;
        writeln!(f, "    sheet: vec!{:?},", self.sheet)?;
        writeln!(f, "    text: {}.to_vec(),", byte_string(&self.text))?;
        writeln!(f, "    values: vec!{:?},", self.values)?;
        writeln!(f, "    cells: vec!{:?},", self.cells)?;
        writeln!(f, "    allowance: {},", self.allowance)?;
        writeln!(f, "    room: {},", self.room)?;
        write!(f, "}}")
    }
}

impl fmt::Display for Answer {
    fn fmt(&self, f: &mut fmt::Formatter) -> fmt::Result {
        let numbers = written(&self.room, &pattern(self.room.len()));
        let bytes = written(&self.text, &text_pattern(self.text.len()));
        match self.number {
            0 => write!(f, "result {:?}", self.numbers)?,
            n => write!(f, "refusal {n}, place {}, rest {:?}", self.numbers[0], &self.numbers[1..])?,
        }
        write!(f, "; room {:?}, then {} untouched", &self.room[..numbers], self.room.len() - numbers)?;
        if !self.text.is_empty() {
            let front = String::from_utf8_lossy(&self.text[..bytes]);
            write!(f, "; text {front:?}, then {} bytes untouched", self.text.len() - bytes)?;
        }
        if self.strayed {
            write!(f, "; OUTSIDE THE ROOM something was changed")?;
        }
        Ok(())
    }
}
