//! Refusal 16, and the marks that hold.

use super::Refusal;

/// The slots that some keep line names, and those that some mark line names: by kind, a bit for each slot.
pub struct Named([[u64; 4]; 2]);

/// What the lines of a sheet name.
#[inline(always)]
pub fn named(sheet: &[u32]) -> Result<Named, Refusal> {
    let (lines, rest) = sheet.as_chunks::<3>();
    let mut named = Named([[0; 4]; 2]);
    for (place, &[kind, low, high]) in lines.iter().enumerate() {
        if kind > 1 || low > high || high > 255 {
            return Err((16, place as u64));
        }
        named.add(kind, low, high);
    }
    match rest {
        [] => Ok(named),
        _ => Err((16, lines.len() as u64)),
    }
}

impl Named {
    /// The slots of one line, word by word.
    #[inline(always)]
    fn add(&mut self, kind: u32, low: u32, high: u32) {
        let words = &mut self.0[kind as usize & 1];
        for (word, bits) in words.iter_mut().enumerate() {
            let start = 64 * word as u32;
            if low < start + 64 && high >= start {
                let from = u64::MAX << low.saturating_sub(start);
                let to = u64::MAX >> (63 - (high - start).min(63));
                *bits |= from & to;
            }
        }
    }

    #[inline(always)]
    fn by(&self, kind: usize, slot: u32) -> u32 {
        (self.0[kind][slot as usize / 64 & 3] >> (slot % 64)) as u32 & 1
    }

    /// 1 where the slot is not marked, 0 where it is; `own` is the table's mark.
    #[inline(always)]
    pub fn free(&self, slot: u32, own: u32) -> u32 {
        (self.by(1, slot) | own & (self.by(0, slot) ^ 1)) ^ 1
    }
}
