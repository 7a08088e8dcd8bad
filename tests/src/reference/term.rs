//! Terms and sorts.

#[derive(Clone, Copy, PartialEq, Eq, PartialOrd, Ord, Debug)]
pub enum Sort {
    Boolean,
    Vector(u32),
    Array(u32, u32),
}

#[derive(Clone, Copy, Debug)]
pub struct Term {
    pub op: u32,
    pub m: u32,
    pub n: u32,
    pub p: u32,
    pub q: u32,
    pub r: u32,
}

pub const CONSTANT: u32 = 0;
pub const VARIABLE: u32 = 1;
pub const NOT: u32 = 2;
pub const AND: u32 = 3;
pub const OR: u32 = 4;
pub const IMPLIES: u32 = 5;
pub const EQUAL: u32 = 6;
pub const CHOICE: u32 = 7;
pub const VECTOR_NOT: u32 = 8;
pub const VECTOR_AND: u32 = 9;
pub const VECTOR_OR: u32 = 10;
pub const SUM: u32 = 11;
pub const PRODUCT: u32 = 12;
pub const SHIFT: u32 = 13;
pub const LESS: u32 = 14;
pub const READ: u32 = 15;
pub const STORE: u32 = 16;
pub const NEGATE: u32 = 17;
pub const SUBTRACT: u32 = 18;
pub const SIGNED_LESS: u32 = 19;
pub const SHIFT_RIGHT: u32 = 20;

/// The last operator.
pub const LAST: u32 = SHIFT_RIGHT;

/// The operators with operands that are Booleans and vectors.
pub const SCALAR: [u32; 17] = [2, 3, 4, 5, 6, 7, 8, 9, 10, 11, 12, 13, 14, 17, 18, 19, 20];

/// Whether an operator compares: its term is Boolean, whatever the operands are.
pub fn compares(op: u32) -> bool {
    matches!(op, EQUAL | LESS | SIGNED_LESS)
}

impl Term {
    pub fn of(numbers: &[u32]) -> Term {
        let &[op, m, n, p, q, r] = numbers else { panic!("a term is six numbers") };
        Term { op, m, n, p, q, r }
    }

    pub fn sort(&self) -> Option<Sort> {
        let width = 1..=32;
        match (self.m, self.n) {
            (0, 0) => Some(Sort::Boolean),
            (0, n) if width.contains(&n) => Some(Sort::Vector(n)),
            (m, n) if width.contains(&m) && width.contains(&n) => Some(Sort::Array(m, n)),
            _ => None,
        }
    }

    /// How many of p, q, r are operands: the first so many. Constants and variables have none.
    pub fn operands(&self) -> usize {
        match self.op {
            CONSTANT | VARIABLE => 0,
            NOT | VECTOR_NOT | NEGATE => 1,
            CHOICE | STORE => 3,
            _ => 2,
        }
    }

    /// How many of p, q, r are used at all: the first so many.
    pub fn used(&self) -> usize {
        match self.op {
            CONSTANT => 1,
            VARIABLE => 2,
            _ => self.operands(),
        }
    }

    pub fn fields(&self) -> [u32; 3] {
        [self.p, self.q, self.r]
    }
}

impl Sort {
    /// What is wide: a number that is not of this sort (for an array: not one that it may hold).
    pub fn too_wide(&self, value: u32) -> bool {
        match *self {
            Sort::Boolean => value > 1,
            Sort::Vector(n) | Sort::Array(_, n) => u64::from(value) >= 1 << n,
        }
    }
}
