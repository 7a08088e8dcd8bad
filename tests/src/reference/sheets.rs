//! Mark sheets, request 06 of paper 02: refusal 16, and the marks that hold.

use super::admission::Table;
use super::flaw::Flaw;
use super::term::VARIABLE;
use super::Refusal;
use std::collections::BTreeMap;

pub const KEEP: u32 = 0;
pub const MARK: u32 = 1;

/// What is wrong with a line, each by itself.
#[derive(Clone, Copy, PartialEq, Eq, Debug)]
pub enum Fault {
    Kind,
    Reversed,
    Slot,
    Cut,
}

/// The faults of a line; a line is the next three numbers of the sheet, or fewer where it is the last and cut short.
pub fn faults(line: &[u32]) -> Vec<Fault> {
    let &[kind, low, high] = line else { return vec![Fault::Cut] };
    let is = [(Fault::Kind, kind != KEEP && kind != MARK), (Fault::Reversed, low > high), (Fault::Slot, low > 255 || high > 255)];
    is.into_iter().filter(|(_, is)| *is).map(|(fault, _)| fault).collect()
}

/// The numbers of the faulty lines, ascending.
pub fn faulty(sheet: &[u32]) -> Vec<usize> {
    sheet.chunks(3).enumerate().filter(|(_, line)| !faults(line).is_empty()).map(|(number, _)| number).collect()
}

/// Refusal 16: the lowest faulty line. The table has a part in it only by a flaw.
pub fn check(table: Option<&Table>, sheet: &[u32], flaw: Flaw) -> Result<(), Refusal> {
    let mut faulty = faulty(sheet);
    match flaw {
        Flaw::CutUnseen => faulty.retain(|&line| 3 * line + 3 <= sheet.len()),
        Flaw::HighestLine => faulty.reverse(),
        Flaw::UsedLinesOnly => faulty.retain(|&line| table.is_none_or(|table| is_used(table, &sheet[3 * line..]))),
        _ => {}
    }
    match faulty.first() {
        Some(&line) => Err(Refusal { number: 16, place: line as u64 }),
        None => Ok(()),
    }
}

/// Whether a line names a slot of the table, or may.
fn is_used(table: &Table, line: &[u32]) -> bool {
    line.len() < 3 || table.inputs.keys().any(|slot| (line[1]..=line[2]).contains(slot))
}

/// Whether a line names the slot.
fn names(line: &[u32], slot: u32, flaw: Flaw) -> bool {
    let end = if flaw == Flaw::LastSlotLeftOut { line[2].saturating_sub(1).max(line[1]) } else { line[2] };
    (line[1]..=end).contains(&slot)
}

/// Whether a slot is marked under a sheet that is not refused, `own` being the table's mark: in any mark line it is; in keep
/// lines only it is not; in none it is as the table says.
pub fn is_marked(sheet: &[u32], slot: u32, own: u32, flaw: Flaw) -> bool {
    let kinds: Vec<u32> = sheet.chunks_exact(3).filter(|line| names(line, slot, flaw)).map(|line| line[0]).collect();
    match (kinds.contains(&MARK), kinds.contains(&KEEP)) {
        _ if flaw == Flaw::TableMarks => own == 1,
        (true, true) if flaw == Flaw::KeepWins => false,
        (true, true) if flaw == Flaw::FirstLine => kinds[0] == MARK,
        (true, _) => true,
        (false, true) => false,
        (false, false) => own == 1 && !(flaw == Flaw::UnnamedUnmarked && !sheet.is_empty()),
    }
}

/// The slots of a table's inputs, and which of them are marked under a sheet.
pub fn marks(table: &Table, sheet: &[u32], flaw: Flaw) -> BTreeMap<u32, bool> {
    table.inputs.iter().map(|(&slot, input)| (slot, is_marked(sheet, slot, input.mark, flaw))).collect()
}

/// The table's numbers with the marks that hold in the place of its own: what judging under the sheet is judging of. The table
/// has whole terms.
pub fn applied(numbers: &[u32], sheet: &[u32]) -> Vec<u32> {
    let mut applied = numbers.to_vec();
    for term in applied.chunks_exact_mut(6).filter(|term| term[0] == VARIABLE && term[4] <= 1) {
        term[4] = is_marked(sheet, term[3], term[4], Flaw::None).into();
    }
    applied
}
