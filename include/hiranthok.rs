// The C interface for Rust, to be included in a module. hiranthok.h says what each function does, and what it asks of its pointers.

/// The version of the interface: hiranthok.h says what its numbers mean.
#[allow(dead_code)]
pub const VERSION: &str = "0.16.0";

/// The limits, and the rooms' sizes in numbers: the macros of hiranthok.h.
#[allow(dead_code)]
pub mod sizes {
    /// The numbers of a term, of a cell and of a sheet's line.
    pub const TERM_WORDS: usize = 6;
    pub const CELL_WORDS: usize = 3;
    pub const LINE_WORDS: usize = 3;

    /// The terms that a table may have: for admit, finish and judge; for evaluate and print.
    pub const MAX_TERMS: usize = 512;
    pub const MAX_EVALUATED_TERMS: usize = 80_000;

    /// What a work room needs, of a table of so many terms.
    pub const fn evaluate_work(terms: usize) -> usize {
        terms
    }

    pub const fn judge_work(terms: usize) -> usize {
        2 * terms
    }

    /// The terms that a finished table has at the most, and a room that is long enough for it: of a table of so many terms, and of
    /// any table.
    pub const fn finished_terms(terms: usize) -> usize {
        146 * terms + 3
    }

    pub const fn finish_room(terms: usize) -> usize {
        TERM_WORDS * finished_terms(terms)
    }

    pub const MAX_FINISH_ROOM: usize = finish_room(MAX_TERMS);

    /// A text room that is long enough, in bytes: of a table of so many terms, and of any table.
    pub const fn print_room(terms: usize) -> usize {
        88 * terms + 14_639
    }

    pub const MAX_PRINT_ROOM: usize = print_room(MAX_EVALUATED_TERMS);

    /// A room that is long enough for every rule's table.
    pub const PARSE_ROOM: usize = TERM_WORDS * MAX_TERMS;
}

/// The kinds of a sheet's line.
#[allow(dead_code)]
pub const KEEP: u32 = 0;
#[allow(dead_code)]
pub const MARK: u32 = 1;

/// A cell, as the record entrance takes it.
#[repr(C)]
#[derive(Clone, Copy, PartialEq, Eq, Debug)]
pub struct Cell {
    pub slot: u32,
    pub index: u32,
    pub value: u32,
}

unsafe extern "C" {
    pub fn hiranthok_admit(table: *const u32, table_len: usize, answer: *mut [u64; 4]) -> u32;
    pub fn hiranthok_finish(
        table: *const u32,
        table_len: usize,
        room: *mut u32,
        room_len: usize,
        answer: *mut [u64; 4],
    ) -> u32;
    pub fn hiranthok_evaluate(
        table: *const u32,
        table_len: usize,
        values: *const u32,
        values_len: usize,
        cells: *const u32,
        cells_len: usize,
        allowance: u64,
        work: *mut u32,
        work_len: usize,
        answer: *mut [u64; 4],
    ) -> u32;
    pub fn hiranthok_judge(
        table: *const u32,
        table_len: usize,
        sheet: *const u32,
        sheet_len: usize,
        values: *const u32,
        values_len: usize,
        cells: *const u32,
        cells_len: usize,
        allowance: u64,
        work: *mut u32,
        work_len: usize,
        answer: *mut [u64; 4],
    ) -> u32;
    pub fn hiranthok_evaluate_records(
        table: *const u32,
        table_len: usize,
        values: *const u32,
        values_len: usize,
        cells: *const Cell,
        cells_count: usize,
        allowance: u64,
        work: *mut u32,
        work_len: usize,
        answer: *mut [u64; 4],
    ) -> u32;
    pub fn hiranthok_judge_records(
        table: *const u32,
        table_len: usize,
        sheet: *const u32,
        sheet_len: usize,
        values: *const u32,
        values_len: usize,
        cells: *const Cell,
        cells_count: usize,
        allowance: u64,
        work: *mut u32,
        work_len: usize,
        answer: *mut [u64; 4],
    ) -> u32;
    pub fn hiranthok_print(
        table: *const u32,
        table_len: usize,
        text: *mut u8,
        text_len: usize,
        answer: *mut [u64; 4],
    ) -> u32;
    pub fn hiranthok_parse(
        text: *const u8,
        text_len: usize,
        room: *mut u32,
        room_len: usize,
        answer: *mut [u64; 4],
    ) -> u32;
}
