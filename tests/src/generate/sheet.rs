//! Mark sheets: whole ones around the inputs of a table, and damage to them.

use crate::random::Random;
use crate::reference::sheets::{KEEP, MARK};
use crate::reference::term::VARIABLE;

type Line = [u32; 3];

/// The slots of a table's variables and their marks. The table may be damaged.
fn inputs(table: &[u32]) -> Vec<(u32, u32)> {
    let variables = table.chunks_exact(6).filter(|t| t[0] == VARIABLE && t[3] <= 255);
    variables.map(|t| (t[3], t[4])).collect()
}

/// A sheet that is not refused: empty, of a few lines, of some hundreds, or one that leaves the marks as they are.
pub fn of_table(random: &mut Random, table: &[u32]) -> Vec<u32> {
    let inputs = inputs(table);
    let mut lines = vec![];
    let count = match random.below(20) {
        0..=4 => 0,
        5..=6 => return leaving(random, table),
        7 => random.pick(&[20, 64, 100, 400]),
        _ => random.between(1, 5),
    };
    for _ in 0..count {
        let line = line(random, &inputs);
        lines.push(line);
        if random.chance(25) {
            lines.push(overlapping(random, line));
        }
    }
    lines.concat()
}

/// A line: mostly of used slots and their neighbours, sometimes of all or of some that nobody uses.
fn line(random: &mut Random, inputs: &[(u32, u32)]) -> Line {
    let kind = random.pick(&[KEEP, MARK]);
    let slot = match inputs.is_empty() || random.chance(15) {
        true => random.below(256) as u32,
        false => random.pick(inputs).0,
    };
    let other = match random.below(6) {
        0..=2 => slot,
        3 => slot + random.below(4) as u32,
        4 => slot.saturating_sub(random.below(4) as u32),
        _ => random.pick(&[0, 255]),
    };
    [kind, slot.min(other), slot.max(other).min(255)]
}

/// A line of the other kind, or of the same, that shares slots with this one.
fn overlapping(random: &mut Random, [kind, low, high]: Line) -> Line {
    let kind = if random.chance(75) { MARK + KEEP - kind } else { kind };
    let ends = [low, high, low.saturating_sub(1), (high + 1).min(255), 0, 255];
    let (low, high) = (random.pick(&ends).min(high), random.pick(&ends).max(low));
    [kind, low, high.max(low)]
}

/// A sheet that leaves the table's marks as they are: marked inputs in mark lines, the others in keep lines only, or in none.
pub fn leaving(random: &mut Random, table: &[u32]) -> Vec<u32> {
    let inputs = inputs(table);
    let mark_of = |slot: u32| inputs.iter().find(|input| input.0 == slot).map(|input| input.1);
    let mut lines: Vec<Line> = vec![];
    for &(slot, mark) in &inputs {
        let mut end = slot;
        while end < 255 && random.chance(60) && mark_of(end + 1).is_none_or(|other| other == mark) {
            end += 1;
        }
        if random.chance(60) {
            lines.push([mark.min(1), slot, end]);
        }
    }
    let marks: Vec<u32> = lines.iter().filter(|line| line[0] == MARK).flat_map(|line| line[1]..=line[2]).collect();
    let kept = |slot: u32| mark_of(slot) != Some(1) || marks.contains(&slot);
    for _ in 0..random.below(3) {
        let (low, high) = (random.below(256) as u32, random.below(256) as u32);
        let (low, high) = (low.min(high), low.max(high));
        if (low..=high).all(kept) {
            lines.push([KEEP, low, high]);
        } else if (low..=high).all(|slot| mark_of(slot) != Some(0)) {
            lines.push([MARK, low, high]);
        }
    }
    random.shuffle(&mut lines);
    lines.concat()
}

/// Damages a sheet once, aiming at 16: another kind, its ends reversed, a slot over 255, a last line cut short; sometimes two of
/// them in one line.
pub fn damage(random: &mut Random, sheet: &mut Vec<u32>) {
    if sheet.is_empty() || random.chance(20) {
        let slot = random.below(256) as u32;
        let at = 3 * random.below(sheet.len() / 3 + 1);
        sheet.splice(at..at, [random.pick(&[KEEP, MARK]), slot, (slot + random.below(3) as u32).min(255)]);
    }
    if random.chance(25) {
        return sheet.truncate(sheet.len().saturating_sub(random.between(1, 2)));
    }
    let lines = sheet.len() / 3;
    if lines == 0 {
        return;
    }
    let at = 3 * if random.chance(40) { 0 } else { random.below(lines) };
    for _ in 0..random.between(1, 2) {
        match random.below(4) {
            0 => sheet[at] = random.pick(&[2, 3, 255, 256, 1 << 31, u32::MAX]),
            1 if sheet[at + 1] < sheet[at + 2] => sheet.swap(at + 1, at + 2),
            1 => sheet[at + 1] = sheet[at + 2].saturating_add(random.between(1, 3) as u32),
            2 => sheet[at + 2] = random.pick(&[256, 257, 511, 1 << 31, u32::MAX]),
            _ => sheet[at + 1] = random.pick(&[256, 257, u32::MAX]),
        }
    }
}
