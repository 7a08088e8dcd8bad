//! Makes a call that fails smaller, as long as it still fails.

use crate::case::Case;
use crate::reference::flaw::Flaw;
use crate::reference::term::Term;
use crate::reference::words::{words, Word};
use std::ops::Range;
use std::time::{Duration, Instant};

/// The smallest call found for which `fails` still holds, within the time.
pub fn shrink(case: &Case, time: Duration, fails: &dyn Fn(&Case) -> bool) -> Case {
    let mut shrinker = Shrinker { best: case.clone(), fails, end: Instant::now() + time };
    loop {
        let before = shrinker.best.clone();
        shrinker.drop_lists();
        shrinker.lift_operands();
        shrinker.drop_words();
        shrinker.drop_bytes();
        shrinker.drop_terms();
        shrinker.drop_numbers();
        shrinker.drop_cells();
        shrinker.drop_lines();
        shrinker.narrow();
        shrinker.lower_numbers();
        shrinker.lower_limits();
        if shrinker.best == before || Instant::now() > shrinker.end {
            return shrinker.best;
        }
    }
}

struct Shrinker<'a> {
    best: Case,
    fails: &'a dyn Fn(&Case) -> bool,
    end: Instant,
}

impl Shrinker<'_> {
    /// Takes the changed call if it is another one and still fails.
    fn attempt(&mut self, change: impl FnOnce(&mut Case)) -> bool {
        let mut case = self.best.clone();
        change(&mut case);
        let better = case != self.best && Instant::now() < self.end && (self.fails)(&case);
        if better {
            self.best = case;
        }
        better
    }

    /// Drops whole lists, declarations and asserts among them, from the end.
    fn drop_lists(&mut self) {
        for at in (0..words(&self.best.text, Flaw::None).len()).rev() {
            self.attempt(|c| {
                if let Some((list, _)) = list_at(&c.text, at, 0) {
                    c.text.drain(list);
                }
            });
        }
    }

    /// Puts an operand in the place of its list, apart from the words beside it, from the end.
    fn lift_operands(&mut self) {
        for at in (0..words(&self.best.text, Flaw::None).len()).rev() {
            for part in 1..=3 {
                self.attempt(|c| {
                    if let Some((list, operand)) = list_at(&c.text, at, part) {
                        let operand = [b" ", &c.text[operand], b" "].concat();
                        c.text.splice(list, operand);
                    }
                });
            }
        }
    }

    /// Drops runs of words, long runs first, from the end.
    fn drop_words(&mut self) {
        let count = |case: &Case| words(&case.text, Flaw::None).len();
        let mut run = count(&self.best).next_power_of_two();
        while run > 0 {
            let mut from = count(&self.best);
            while from > 0 && Instant::now() < self.end {
                from -= 1;
                self.attempt(|c| {
                    let places: Vec<usize> = words(&c.text, Flaw::None).iter().map(|word| word.place).collect();
                    if let Some(&start) = places.get(from) {
                        let end = places.get(from + run).copied().unwrap_or(c.text.len());
                        c.text.drain(start..end);
                    }
                });
            }
            run /= 2;
        }
    }

    /// Drops bytes one by one, from the end.
    fn drop_bytes(&mut self) {
        for at in (0..self.best.text.len()).rev() {
            self.attempt(|c| c.text.truncate(at));
            self.attempt(|c| c.text = [&c.text[..at], c.text.get(at + 1..).unwrap_or(&[])].concat());
        }
    }

    /// Drops runs of terms, long runs first, from the end.
    fn drop_terms(&mut self) {
        let mut run = self.best.terms().next_power_of_two();
        while run > 0 {
            let mut from = self.best.terms();
            while from > 0 && Instant::now() < self.end {
                from = from.saturating_sub(run);
                let count = run.min(self.best.terms().saturating_sub(from));
                let _ = self.attempt(|c| c.table = without(&c.table, from, count, false))
                    || self.attempt(|c| c.table = without(&c.table, from, count, true));
            }
            run /= 2;
        }
    }

    /// Shortens the rows number by number, and the table to a length that is no multiple of six.
    fn drop_numbers(&mut self) {
        while self.attempt(|c| c.values.truncate(c.values.len() / 2)) {}
        while self.attempt(|c| c.values.truncate(c.values.len().saturating_sub(1))) {}
        while self.attempt(|c| c.cells.truncate(c.cells.len().saturating_sub(1))) {}
        while self.attempt(|c| c.sheet.truncate(c.sheet.len().saturating_sub(1))) {}
    }

    fn drop_cells(&mut self) {
        for cell in (0..self.best.cells.len() / 3).rev() {
            self.attempt(|c| drop(c.cells.drain(3 * cell..3 * cell + 3)));
        }
    }

    /// Drops runs of the sheet's lines, long runs first, from the end.
    fn drop_lines(&mut self) {
        let mut run = (self.best.sheet.len() / 3).next_power_of_two();
        while run > 0 {
            let mut from = self.best.sheet.len() / 3;
            while from > 0 && Instant::now() < self.end {
                from = from.saturating_sub(run);
                let end = (3 * (from + run)).min(self.best.sheet.len());
                self.attempt(|c| drop(c.sheet.drain(3 * from..end)));
            }
            run /= 2;
        }
    }

    /// Replaces a width everywhere by a smaller one.
    fn narrow(&mut self) {
        for width in (2..=32).rev() {
            for smaller in [1, 2, 8, width - 1] {
                let narrower = |x: &mut u32| {
                    if *x == width && smaller < width {
                        *x = smaller
                    }
                };
                self.attempt(|c| c.table.chunks_mut(6).for_each(|t| t.iter_mut().take(3).skip(1).for_each(narrower)));
            }
        }
    }

    /// Lowers each number of the rows: to 0, to 1, to its half, by one.
    fn lower_numbers(&mut self) {
        fn rows(c: &mut Case) -> [&mut Vec<u32>; 4] {
            [&mut c.table, &mut c.sheet, &mut c.values, &mut c.cells]
        }
        for row in 0..4 {
            for at in 0..rows(&mut self.best)[row].len() {
                let now = rows(&mut self.best)[row][at];
                for lower in [0, 1.min(now), now / 2, now.saturating_sub(1)] {
                    if Instant::now() > self.end || self.attempt(|c| rows(c)[row][at] = lower) {
                        break;
                    }
                }
            }
        }
    }

    fn lower_limits(&mut self) {
        let _ = self.attempt(|c| c.allowance = 0) || self.attempt(|c| c.allowance = c.allowance.min(100));
        while self.attempt(|c| c.allowance /= 2) || self.attempt(|c| c.allowance = c.allowance.saturating_sub(1)) {}
        let _ = self.attempt(|c| c.room = 0);
        while self.attempt(|c| c.room /= 2) || self.attempt(|c| c.room = c.room.saturating_sub(1)) {}
    }
}

/// The bytes of the list that begins at this word, and those of one of its parts: 0 is the operator.
fn list_at(text: &[u8], at: usize, part: usize) -> Option<(Range<usize>, Range<usize>)> {
    let words = words(text, Flaw::None);
    words.get(at).filter(|word| word.bytes == b"(")?;
    let mut from = at + 1;
    for _ in 0..part {
        from = last_word(&words, from)? + 1;
    }
    let (end, part_end) = (last_word(&words, at)?, last_word(&words, from)?);
    let bytes = |from: usize, to: usize| words[from].place..words[to].place + words[to].bytes.len();
    (part_end < end).then(|| (bytes(at, end), bytes(from, part_end)))
}

/// The last word of the list or word that begins here.
fn last_word(words: &[Word], at: usize) -> Option<usize> {
    let mut open = 0;
    let closes = |word: &Word| {
        open += i32::from(word.bytes == b"(") - i32::from(word.bytes == b")");
        open <= 0
    };
    words.get(at..)?.iter().position(closes).map(|behind| at + behind)
}

/// A table without some of its terms. Operands after them move up; an operand among them becomes the
/// first operand of the first one dropped, or the term before it.
fn without(table: &[u32], from: usize, count: usize, by_operand: bool) -> Vec<u32> {
    let (start, end) = (6 * from, (6 * (from + count)).min(table.len()));
    let first = table[start..end].chunks_exact(6).map(Term::of).next();
    let stand_in = match first {
        Some(term) if by_operand && term.operands() > 0 && (term.p as usize) < from => term.p,
        _ => from.saturating_sub(1) as u32,
    };
    let mut kept = [&table[..start], &table[end..]].concat();
    for numbers in kept.chunks_exact_mut(6) {
        let operands = Term::of(numbers).operands();
        for field in &mut numbers[3..3 + operands] {
            match *field as usize {
                x if x >= from + count => *field -= count as u32,
                x if x >= from => *field = stand_in,
                _ => {}
            }
        }
    }
    kept
}
