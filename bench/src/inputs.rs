//! The tables, settings and sheets that are measured, and some that are compared only. The same at each run.

/// A table with a setting and a sheet, or a typed rule.
#[derive(Clone, Default)]
pub struct Input {
    pub table: Vec<u32>,
    pub sheet: Vec<u32>,
    pub values: Vec<u32>,
    pub cells: Vec<u32>,
    pub typed: Vec<u8>,
}

impl Input {
    pub fn terms(&self) -> usize {
        self.table.len() / 6
    }
}

/// SplitMix64.
pub struct Random(pub u64);

impl Random {
    pub fn below(&mut self, limit: usize) -> usize {
        self.0 = self.0.wrapping_add(0x9e37_79b9_7f4a_7c15);
        let mut z = self.0;
        z = (z ^ z >> 30).wrapping_mul(0xbf58_476d_1ce4_e5b9);
        z = (z ^ z >> 27).wrapping_mul(0x94d0_49bb_1331_11eb);
        ((z ^ z >> 31) % limit as u64) as usize
    }
}

/// What follows the first variables, over and over. Between them the first two have every operator of paper 01; the third, which
/// is not timed, has those of request 05; the fourth has choices of arrays.
const PLAIN: [u32; 20] = [12, 11, 14, 3, 8, 6, 7, 9, 4, 10, 13, 1, 2, 11, 5, 0, 14, 9, 3, 12];
const WITH_ARRAYS: [u32; 20] = [16, 15, 16, 14, 11, 15, 3, 16, 12, 15, 6, 16, 4, 7, 15, 0, 16, 1, 13, 15];
const SIGNED: [u32; 10] = [18, 19, 17, 20, 3, 18, 20, 19, 6, 4];
const CHOOSING: [u32; 20] = [ITE, 15, 16, 14, ITE, 15, 11, 16, ITE, 15, 12, 6, ITE, 16, 15, 4, 7, 15, ITE, 15];

/// Stands for a choice of arrays.
const ITE: u32 = 107;

/// A table being written. Vectors are 8 bits wide, arrays 8 bits from 8 bits.
struct Writer {
    random: Random,
    table: Vec<u32>,
    values: Vec<u32>,
    array_slots: Vec<u32>,
    /// Term numbers by sort; an array with its size.
    booleans: Vec<u32>,
    vectors: Vec<u32>,
    arrays: Vec<(u32, u32)>,
}

impl Writer {
    fn new(seed: u64) -> Self {
        Writer {
            random: Random(seed),
            table: vec![],
            values: vec![],
            array_slots: vec![],
            booleans: vec![],
            vectors: vec![],
            arrays: vec![],
        }
    }

    fn push(&mut self, term: [u32; 6]) -> u32 {
        self.table.extend(term);
        self.table.len() as u32 / 6 - 1
    }

    /// A variable in a slot of its own; every other slot is marked.
    fn variable(&mut self, m: u32, n: u32) {
        let slot = self.values.len() as u32;
        let value = self.random.below(if n == 0 { 2 } else { 20 }) as u32;
        self.values.push(value);
        let t = self.push([1, m, n, slot, slot & 1, 0]);
        match (m, n) {
            (0, 0) => self.booleans.push(t),
            (0, _) => self.vectors.push(t),
            _ => {
                self.array_slots.push(slot);
                self.arrays.push((t, 0));
            }
        }
    }

    fn boolean(&mut self) -> u32 {
        self.booleans[self.random.below(self.booleans.len())]
    }

    fn vector(&mut self) -> u32 {
        self.vectors[self.random.below(self.vectors.len())]
    }

    fn operator(&mut self, op: u32) {
        let (p, q, c) = (self.vector(), self.vector(), self.boolean());
        match op {
            0 => {
                let value = self.random.below(20) as u32;
                self.number([0, 0, 8, value, 0, 0]);
            }
            1 => self.variable(0, 8),
            2 => self.truth([2, 0, 0, c, 0, 0]),
            3..=5 => {
                let d = self.boolean();
                self.truth([op, 0, 0, c, d, 0]);
            }
            6 | 14 | 19 => self.truth([op, 0, 0, p, q, 0]),
            15 | 16 => self.array_operator(op, p, q),
            ITE => self.array_choice(c),
            7 => self.number([7, 0, 8, c, p, q]),
            8 | 17 => self.number([op, 0, 8, p, 0, 0]),
            _ => self.number([op, 0, 8, p, q, 0]),
        }
    }

    fn number(&mut self, term: [u32; 6]) {
        let t = self.push(term);
        self.vectors.push(t);
    }

    fn truth(&mut self, term: [u32; 6]) {
        let t = self.push(term);
        self.booleans.push(t);
    }

    /// A choice between the newest array and any; where they are too large, between the first two.
    fn array_choice(&mut self, test: u32) {
        let (newest, any) = (self.arrays[self.arrays.len() - 1], self.arrays[self.random.below(self.arrays.len())]);
        let fit = newest.1 + any.1 < 16;
        let [(q, of_q), (r, of_r)] = if fit { [newest, any] } else { [self.arrays[0], self.arrays[1]] };
        let t = self.push([7, 8, 8, test, q, r]);
        self.arrays.push((t, 1 + of_q + of_r));
    }

    /// A read anywhere, or a store upon the newest array; where that is too large upon the first.
    fn array_operator(&mut self, op: u32, p: u32, q: u32) {
        if op == 15 {
            let (array, _) = self.arrays[self.random.below(self.arrays.len())];
            self.number([15, 0, 8, array, p, 0]);
        } else {
            let newest = self.arrays[self.arrays.len() - 1];
            let (array, size) = if newest.1 < 16 { newest } else { self.arrays[0] };
            let t = self.push([16, 8, 8, array, p, q]);
            self.arrays.push((t, size + 1));
        }
    }

    fn input(mut self, cells: usize) -> Input {
        let mut row = vec![];
        for _ in 0..cells {
            let slot = self.array_slots[self.random.below(self.array_slots.len())];
            row.extend([slot, self.random.below(32) as u32, self.random.below(20) as u32]);
        }
        Input { table: self.table, values: self.values, cells: row, ..Input::default() }
    }
}

/// Operators in turn, with or without arrays and 16 cells.
pub fn mixed(terms: usize, arrays: bool) -> Input {
    in_turn(terms, arrays.into(), if arrays { &WITH_ARRAYS } else { &PLAIN })
}

/// The signed operators in turn, with some others.
pub fn signed(terms: usize) -> Input {
    in_turn(terms, 0, &SIGNED)
}

/// Choices between arrays, with reads, stores and some others, and 16 cells.
pub fn choosing(terms: usize) -> Input {
    in_turn(terms, 2, &CHOOSING)
}

/// Operators in turn after so many array variables and some others.
fn in_turn(terms: usize, arrays: usize, cycle: &[u32]) -> Input {
    let mut writer = Writer::new(terms as u64);
    (0..arrays).for_each(|_| writer.variable(8, 8));
    writer.variable(0, 8);
    writer.variable(0, 8);
    writer.variable(0, 0);
    for &op in cycle.iter().cycle().take(terms - 1 - writer.table.len() / 6) {
        writer.operator(op);
    }
    let (p, q) = (writer.vector(), writer.vectors[writer.vectors.len() - 1]);
    writer.truth([14, 0, 0, p, q, 0]);
    writer.input(if arrays > 0 { 16 } else { 0 })
}

/// 16 reads of an array variable among so many cells: 8 find theirs, evenly spread, and 8 do not.
pub fn reads_among(cells: u32) -> Input {
    let mut table = vec![1, 16, 32, 0, 0, 0];
    for k in 0..16 {
        let index = if k < 8 { k * cells / 8 } else { 10_000 + k };
        table.extend([0, 0, 16, index, 0, 0]);
    }
    for k in 0..16 {
        table.extend([15, 0, 32, 0, 1 + k, 0]);
    }
    for k in 0..15 {
        table.extend([11, 0, 32, 17 + k, if k == 0 { 32 } else { 32 + k }, 0]);
    }
    table.extend([14, 0, 0, 17, 47, 0]);
    let cells = (0..cells).flat_map(|k| [0, k, k * 7]).collect();
    Input { table, values: vec![5], cells, ..Input::default() }
}

/// So many reads of an array variable under 16 stores: finished, it is far longer.
pub fn chained(reads: u32) -> Input {
    let mut table = vec![1, 8, 8, 0, 1, 0, 1, 0, 8, 1, 0, 0, 1, 0, 8, 2, 1, 0];
    for k in 0..16 {
        table.extend([16, 8, 8, if k == 0 { 0 } else { 2 + k }, 1 + k % 2, 2]);
    }
    for k in 0..reads {
        table.extend([15, 0, 8, 18, 1 + k % 2, 0]);
    }
    table.extend([14, 0, 0, 1, 18 + reads, 0]);
    Input { table, values: vec![5, 7, 9], ..Input::default() }
}

/// So many reads of an array of size 16 by marked tests: of two array variables that agree, each choice between what is before it and
/// that again. A read's condition asks all 17 variables that it meets.
pub fn branched(reads: u32) -> Input {
    let mut table = vec![1, 8, 8, 0, 0, 0, 1, 8, 8, 1, 0, 0, 1, 0, 0, 2, 1, 0, 1, 0, 8, 3, 0, 0, 7, 8, 8, 2, 0, 1];
    for k in 4..7 {
        table.extend([7, 8, 8, 2, k, k]);
    }
    table.extend([7, 8, 8, 2, 7, 0]);
    for _ in 0..reads {
        table.extend([15, 0, 8, 8, 3, 0]);
    }
    table.extend([14, 0, 0, 3, 8 + reads, 0]);
    Input { table, values: vec![5, 5, 1, 7], ..Input::default() }
}

/// So many variables, each in a slot of its own, and as many sums of them.
pub fn variables(slots: u32) -> Input {
    let mut table = vec![];
    for slot in 0..slots {
        table.extend([1, 0, 32, slot, slot & 1, 0]);
    }
    for k in 0..slots - 1 {
        table.extend([11, 0, 32, k, if k == 0 { 1 } else { slots + k - 1 }, 0]);
    }
    table.extend([14, 0, 0, 0, 2 * slots - 2, 0]);
    Input { table, values: (0..slots).map(|slot| slot * 3).collect(), ..Input::default() }
}

/// A table of 64 terms without arrays under so many lines, of both kinds in turn, of one slot to a hundred.
pub fn sheeted(lines: u32) -> Input {
    let line = |k: u32| [k & 1, k * 37 % 156, k * 37 % 156 + k * 11 % 100];
    Input { sheet: (0..lines).flat_map(line).collect(), ..mixed(64, false) }
}
