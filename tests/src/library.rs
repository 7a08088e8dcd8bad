//! The library, called through its C interface.

use crate::case::{Answer, Case, Checker, Routine};

include!("../../include/hiranthok.rs");

pub struct Library;

/// Numbers or bytes kept on either side of a lent room, to see writes beyond it.
const GUARD: usize = 16;
const FENCE: u32 = 0xFE0C_E5ED;
const TEXT_FENCE: u8 = 0xFE;

/// A room between fences.
struct Lent<T> {
    all: Vec<T>,
    length: usize,
    fence: T,
}

impl<T: Copy + PartialEq> Lent<T> {
    fn new(room: &[T], fence: T) -> Lent<T> {
        let guard = [fence; GUARD];
        Lent { all: [&guard[..], room, &guard].concat(), length: room.len(), fence }
    }

    fn room(&mut self) -> *mut T {
        self.all[GUARD..].as_mut_ptr()
    }

    /// The room, and whether the fences are as they were.
    fn back(self) -> (Vec<T>, bool) {
        let end = GUARD + self.length;
        let whole = self.all[..GUARD].iter().chain(&self.all[end..]).all(|&x| x == self.fence);
        (self.all[GUARD..end].to_vec(), whole)
    }
}

/// The rooms that are lent for a call, and its answer.
struct Rooms {
    numbers: Lent<u32>,
    text: Lent<u8>,
    answer: [u64; 4],
}

impl Rooms {
    fn new(case: &Case) -> Rooms {
        let (numbers, text) = case.rooms();
        Rooms { numbers: Lent::new(&numbers, FENCE), text: Lent::new(&text, TEXT_FENCE), answer: UNWRITTEN }
    }

    fn answer(self, number: u32, changed: bool) -> Answer {
        let (room, whole) = self.numbers.back();
        let (text, text_whole) = self.text.back();
        Answer { number, numbers: self.answer, room, text, strayed: changed || !whole || !text_whole }
    }
}

/// What the four numbers hold before a call.
const UNWRITTEN: [u64; 4] = [0xDEAD_BEEF_DEAD_BEEF; 4];

impl Checker for Library {
    fn call(&self, case: &Case) -> Answer {
        let rows = Rows::new(case);
        let Rows { table: t, sheet: s, values: v, text: typed } = &rows;
        let (c, allowance) = (case.cells.clone(), case.allowance);
        let mut lent = Rooms::new(case);
        let (room, text, out) = (lent.numbers.room(), lent.text.room(), &mut lent.answer);
        let (table, sheet, values, cells) = (t.as_ptr(), s.as_ptr(), v.as_ptr(), c.as_ptr());
        // SAFETY: every pointer comes with the length of what it points at, and the room and the answer are borrowed once.
        let number = unsafe {
            match case.routine {
                Routine::Admit => hiranthok_admit(table, t.len(), out),
                Routine::Finish => hiranthok_finish(table, t.len(), room, case.room, out),
                Routine::Evaluate => {
                    hiranthok_evaluate(table, t.len(), values, v.len(), cells, c.len(), allowance, room, case.room, out)
                }
                Routine::Judge => hiranthok_judge(
                    table,
                    t.len(),
                    sheet,
                    s.len(),
                    values,
                    v.len(),
                    cells,
                    c.len(),
                    allowance,
                    room,
                    case.room,
                    out,
                ),
                Routine::Print => hiranthok_print(table, t.len(), text, case.room, out),
                Routine::Parse => hiranthok_parse(typed.as_ptr(), typed.len(), room, case.room, out),
            }
        };
        lent.answer(number, rows.changed(case) || c != case.cells)
    }

    fn call_with_records(&self, case: &Case) -> Option<Answer> {
        if !matches!(case.routine, Routine::Evaluate | Routine::Judge) {
            return None;
        }
        let records = records(&case.cells)?;
        let (rows, c, allowance) = (Rows::new(case), records.clone(), case.allowance);
        let Rows { table: t, sheet: s, values: v, .. } = &rows;
        let mut lent = Rooms::new(case);
        let (room, out) = (lent.numbers.room(), &mut lent.answer);
        let (table, sheet, values, cells) = (t.as_ptr(), s.as_ptr(), v.as_ptr(), c.as_ptr());
        // SAFETY: as above.
        let number = unsafe {
            match case.routine {
                Routine::Judge => hiranthok_judge_records(
                    table,
                    t.len(),
                    sheet,
                    s.len(),
                    values,
                    v.len(),
                    cells,
                    c.len(),
                    allowance,
                    room,
                    case.room,
                    out,
                ),
                _ => hiranthok_evaluate_records(table, t.len(), values, v.len(), cells, c.len(), allowance, room, case.room, out),
            }
        };
        Some(lent.answer(number, rows.changed(case) || c != records))
    }
}

/// What is lent for reading, but for the cells.
struct Rows {
    table: Vec<u32>,
    sheet: Vec<u32>,
    values: Vec<u32>,
    text: Vec<u8>,
}

impl Rows {
    fn new(case: &Case) -> Rows {
        let (table, sheet) = (case.table.clone(), case.sheet.clone());
        Rows { table, sheet, values: case.values.clone(), text: case.text.clone() }
    }

    fn changed(&self, case: &Case) -> bool {
        self.table != case.table || self.sheet != case.sheet || self.values != case.values || self.text != case.text
    }
}

/// The cells as records, where the row has whole cells.
fn records(cells: &[u32]) -> Option<Vec<Cell>> {
    let (whole, rest) = cells.as_chunks::<3>();
    let record = |&[slot, index, value]: &[u32; 3]| Cell { slot, index, value };
    rest.is_empty().then(|| whole.iter().map(record).collect())
}
