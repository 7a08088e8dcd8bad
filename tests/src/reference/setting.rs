//! Settings: refusals 11 to 15, and what each input holds.

use super::admission::Table;
use super::flaw::Flaw;
use super::term::*;
use super::Refusal;
use std::collections::BTreeMap;

/// What a slot holds: its value, and for an array the cells that are listed; every other cell holds the value.
#[derive(Clone, Default, Debug)]
pub struct Content {
    pub value: u64,
    pub cells: BTreeMap<u64, u64>,
}

pub type Interpretation = BTreeMap<u32, Content>;

pub fn check(table: &Table, values: &[u32], cells: &[u32], flaw: Flaw) -> Result<(), Refusal> {
    if cells.len() % 3 != 0 {
        return Err(Refusal { number: 11, place: 0 });
    }
    let variables = || table.terms.iter().enumerate().filter(|(_, t)| t.op == VARIABLE);
    if flaw == Flaw::SlotsFirst {
        if let Some((place, _)) = variables().find(|(_, t)| values.get(t.p as usize).is_none()) {
            return Err(Refusal { number: 12, place: place as u64 });
        }
    }
    for (place, term) in variables() {
        let place = place as u64;
        let Some(&value) = values.get(term.p as usize) else { return Err(Refusal { number: 12, place }) };
        if table.inputs[&term.p].sort.too_wide(value) {
            return Err(Refusal { number: 13, place });
        }
    }
    for (place, cell) in cells.chunks(3).enumerate() {
        let place = place as u64;
        let sort = table.inputs.get(&cell[0]).map(|input| input.sort);
        let Some(Sort::Array(m, n)) = sort else { return Err(Refusal { number: 14, place }) };
        if u64::from(cell[1]) >= 1 << m || u64::from(cell[2]) >= 1 << n {
            return Err(Refusal { number: 15, place });
        }
    }
    Ok(())
}

/// What the setting gives to each input of the table.
pub fn interpret(table: &Table, values: &[u32], cells: &[u32], flaw: Flaw) -> Interpretation {
    let mut inputs = Interpretation::new();
    for &slot in table.inputs.keys() {
        inputs.insert(slot, Content { value: values[slot as usize].into(), cells: BTreeMap::new() });
    }
    for cell in cells.chunks(3) {
        let listed = &mut inputs.get_mut(&cell[0]).expect("an array's slot").cells;
        let (index, value) = (cell[1].into(), cell[2].into());
        if flaw == Flaw::LaterCell {
            listed.insert(index, value);
        } else {
            listed.entry(index).or_insert(value);
        }
    }
    inputs
}
