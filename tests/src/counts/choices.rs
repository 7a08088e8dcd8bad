//! What must occur of choices of arrays.

use super::{kind, Counts, Key};
use crate::case::Case;
use crate::reference::term::*;

const TEST: &str = "read of a choice: the test's value and whether it is free; the branches, free and equal";
const MET: &str = "read of arrays with a choice: variables met";
const SIZE: &str = "read of arrays with a choice: size";
const BRANCHES: &str = "choice of arrays: the branches' operators";
const WIDTHS: &str = "choice of arrays: width, of the index or of the value";
const SOURCE: &str = "read through a choice, from a store, a cell, the slot's value";
const TOO_LARGE: &str = "9: operator, size 17 or above";
const SORTS: &str = "6 at a choice of arrays: index widths differ, widths differ";
const ONCE: [&str; 9] = [
    "choice between an array and itself",
    "choice of arrays that no read reaches",
    "store over a choice, read",
    "read of arrays with a choice: a variable met again",
    "9 at an array that is read",
    "9 at an array that is not read",
    "9 at a store over a choice",
    "6 at a choice of arrays whose size is over 16",
    "6 at a choice of arrays whose size is not over 16",
];

/// The numbers of a table's array terms by reads, sizes and choices.
struct Arrays {
    terms: Vec<Term>,
    /// Of an array term: its size, and whether there is a choice in it.
    sizes: Vec<(u64, bool)>,
}

impl Arrays {
    /// Of a table whose terms up to some place have operands below them; the rest is not looked at.
    fn of(table: &[u32]) -> Arrays {
        let mut arrays = Arrays { terms: vec![], sizes: vec![] };
        for t in table.chunks_exact(6).map(Term::of) {
            let of = |operand: u32| arrays.sizes.get(operand as usize).copied().unwrap_or_default();
            let size = match t.op {
                STORE => (of(t.p).0.saturating_add(1), of(t.p).1),
                CHOICE if t.m != 0 => (of(t.q).0.saturating_add(of(t.r).0).saturating_add(1), true),
                _ => (0, false),
            };
            arrays.terms.push(t);
            arrays.sizes.push(size);
        }
        arrays
    }

    fn reads(&self) -> impl Iterator<Item = &Term> {
        self.terms.iter().filter(|t| t.op == READ)
    }

    /// The array terms that are met from this one on, each as often as it is met.
    fn met(&self, array: u32) -> Vec<u32> {
        let t = &self.terms[array as usize];
        let beneath = match t.op {
            STORE => self.met(t.p),
            CHOICE => [self.met(t.q), self.met(t.r)].concat(),
            _ => vec![],
        };
        [vec![array], beneath].concat()
    }
}

/// Counts a call that is refused 6 or 9 at a term.
pub fn observe_refused(counts: &mut Counts, case: &Case, number: u32, place: usize) {
    let arrays = Arrays::of(&case.table);
    let (t, (size, has_choice)) = (arrays.terms[place], arrays.sizes[place]);
    if number == 9 {
        counts.count((TOO_LARGE, t.op, size.min(18) as u32));
        let is_read = arrays.reads().any(|read| read.p as usize == place);
        counts.count((if is_read { ONCE[4] } else { ONCE[5] }, 0, 0));
        if t.op == STORE && has_choice {
            counts.count((ONCE[6], 0, 0));
        }
    } else if t.op == CHOICE {
        let [q, r] = [t.q, t.r].map(|branch| arrays.terms[branch as usize]);
        if q.m != 0 && r.m != 0 {
            counts.count((SORTS, (q.m != r.m).into(), (q.n != r.n).into()));
            counts.count((if size > 16 { ONCE[7] } else { ONCE[8] }, 0, 0));
        }
    }
}

/// Counts a judged call; `room` holds values and truths.
pub fn observe_judged(counts: &mut Counts, case: &Case, room: &[u32]) {
    let arrays = Arrays::of(&case.table);
    if !arrays.sizes.iter().any(|size| size.1) {
        return;
    }
    let reached: Vec<u32> = arrays.reads().flat_map(|read| arrays.met(read.p)).collect();
    for (number, t) in arrays.terms.iter().enumerate().filter(|(_, t)| t.op == CHOICE && t.m != 0) {
        counts.count((WIDTHS, t.m, 0));
        counts.count((WIDTHS, t.n, 1));
        counts.count((BRANCHES, arrays.terms[t.q as usize].op, arrays.terms[t.r as usize].op));
        if t.q == t.r {
            counts.count((ONCE[0], 0, 0));
        }
        if !reached.contains(&(number as u32)) {
            counts.count((ONCE[1], 0, 0));
        }
    }
    for read in arrays.reads().filter(|read| arrays.sizes[read.p as usize].1) {
        observe_read(counts, &arrays, read);
        Reading { case, arrays: &arrays, room, index: read.q }.read(counts, read.p);
    }
}

fn observe_read(counts: &mut Counts, arrays: &Arrays, read: &Term) {
    let met = arrays.met(read.p);
    let op = |array: u32| arrays.terms[array as usize].op;
    let mut variables: Vec<u32> = met.iter().copied().filter(|&array| op(array) == VARIABLE).collect();
    counts.count((SIZE, arrays.sizes[read.p as usize].0 as u32, 0));
    counts.count((MET, variables.len() as u32, 0));
    if met.iter().any(|&array| op(array) == STORE && op(arrays.terms[array as usize].p) == CHOICE) {
        counts.count((ONCE[2], 0, 0));
    }
    let all = variables.len();
    variables.sort();
    variables.dedup();
    if variables.len() < all {
        counts.count((ONCE[3], 0, 0));
    }
}

/// A read at the index that is a term.
struct Reading<'a> {
    case: &'a Case,
    arrays: &'a Arrays,
    room: &'a [u32],
    index: u32,
}

/// What is read, whether it is free, and where it comes from: a store (0), a cell (1), the slot's value (2).
type Found = (u32, bool, u32);

impl Reading<'_> {
    fn value(&self, term: u32) -> u32 {
        self.room[term as usize]
    }

    fn free(&self, term: u32) -> bool {
        self.room[self.case.terms() + term as usize] == 1
    }

    /// What is found at an array term, counting the choices on the way.
    fn read(&self, counts: &mut Counts, array: u32) -> Found {
        let t = self.arrays.terms[array as usize];
        match t.op {
            VARIABLE => self.held(array),
            STORE => {
                let beneath = self.read(counts, t.p);
                self.stored(&t, beneath)
            }
            _ => {
                let branches = [self.read(counts, t.q), self.read(counts, t.r)];
                self.chosen(counts, &t, branches)
            }
        }
    }

    fn held(&self, variable: u32) -> Found {
        let slot = self.arrays.terms[variable as usize].p;
        let cell = self.case.cells.chunks(3).find(|c| c[0] == slot && c[1] == self.value(self.index));
        let (value, source) = cell.map_or((self.case.values[slot as usize], 2), |cell| (cell[2], 1));
        (value, self.free(variable) && self.free(self.index), source)
    }

    fn stored(&self, store: &Term, (below, free, source): Found) -> Found {
        let (i, e) = (store.q, store.r);
        let here = self.value(i) == self.value(self.index);
        let picked = if here { self.free(e) } else { free };
        let sure = self.free(i) && self.free(self.index);
        let free = sure && picked || self.free(e) && free && self.value(e) == below;
        if here {
            (self.value(e), free, 0)
        } else {
            (below, free, source)
        }
    }

    fn chosen(&self, counts: &mut Counts, choice: &Term, [q, r]: [Found; 2]) -> Found {
        let (test, sure) = (self.value(choice.p), self.free(choice.p));
        let branches = u32::from(q.1) + 2 * u32::from(r.1) + 4 * u32::from(q.0 == r.0);
        counts.count((TEST, test + 2 * u32::from(sure), branches));
        let taken = if test == 1 { q } else { r };
        counts.count((SOURCE, taken.2, 0));
        (taken.0, sure && taken.1 || q.1 && r.1 && q.0 == r.0, taken.2)
    }
}

/// Counts a choice of arrays in a text that is printed or parsed.
pub fn observe_text(counts: &mut Counts, name: &'static str, table: &[u32]) {
    if table.chunks_exact(6).any(|t| t[0] == CHOICE && kind(t) == 2) {
        counts.count((name, 0, 0));
    }
}

pub fn wanted(keys: &mut Vec<Key>) {
    for test in 0..4 {
        keys.extend((0..8).map(|branches| (TEST, test, branches)));
    }
    for op in [VARIABLE, CHOICE, STORE] {
        keys.extend([VARIABLE, CHOICE, STORE].map(|other| (BRANCHES, op, other)));
    }
    for of in [0, 1] {
        keys.extend((1..=32).map(|width| (WIDTHS, width, of)));
    }
    keys.extend((1..=16).map(|size| (SIZE, size, 0)));
    keys.extend((2..=17).map(|variables| (MET, variables, 0)));
    keys.extend((0..3).map(|source| (SOURCE, source, 0)));
    keys.extend([(CHOICE, 17), (CHOICE, 18), (STORE, 17)].map(|(op, size)| (TOO_LARGE, op, size)));
    keys.extend([(0, 0), (0, 1), (1, 0), (1, 1)].map(|(index, width)| (SORTS, index, width)));
    keys.extend(ONCE.map(|name| (name, 0, 0)));
    keys.extend(["printed: a choice of arrays", "parsed: a choice of arrays"].map(|name| (name, 0, 0)));
    keys.extend([("parse refuses, operator", 9, CHOICE), ("parse refuses 6 at a choice of arrays of two sorts", 0, 0)]);
}
