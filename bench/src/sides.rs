//! The two sides, called alike.

use crate::inputs::Input;
use crate::{fast, library};

#[derive(Clone, Copy, PartialEq, Debug)]
pub enum Routine {
    Admit,
    Finish,
    Evaluate,
    Judge,
    Print,
    Parse,
}

/// The routines that take a table.
pub const ROUTINES: [Routine; 5] = [Routine::Admit, Routine::Finish, Routine::Evaluate, Routine::Judge, Routine::Print];

impl Routine {
    pub fn name(self) -> &'static str {
        ["admit", "finish", "evaluate", "judge", "print", "parse"][self as usize]
    }

    /// Numbers of room that any input of so many terms has enough of; for print bytes.
    pub fn enough(self, terms: usize) -> usize {
        match self {
            Routine::Admit => 0,
            Routine::Finish => library::sizes::finish_room(terms),
            Routine::Evaluate => library::sizes::evaluate_work(terms),
            Routine::Judge => library::sizes::judge_work(terms),
            Routine::Print => library::sizes::print_room(terms),
            Routine::Parse => library::sizes::PARSE_ROOM,
        }
    }

    /// A room of so many numbers, or bytes.
    pub fn room(self, length: usize) -> Room {
        match self {
            Routine::Print => Room { numbers: vec![], text: vec![0xa5; length] },
            _ => Room { numbers: vec![0xa5a5_a5a5; length], text: vec![] },
        }
    }
}

/// What is lent for writing: numbers, or text.
#[derive(PartialEq)]
pub struct Room {
    pub numbers: Vec<u32>,
    pub text: Vec<u8>,
}

/// A side: the library, or the implementation in Rust.
pub trait Side {
    fn call(routine: Routine, input: &Input, allowance: u64, room: &mut Room, answer: &mut [u64; 4]) -> u32;
}

macro_rules! side {
    ($name:ident, $module:ident) => {
        pub struct $name;

        impl Side for $name {
            #[inline(always)]
            fn call(routine: Routine, input: &Input, allowance: u64, room: &mut Room, answer: &mut [u64; 4]) -> u32 {
                let Input { table, sheet, values, cells, typed } = input;
                let Room { numbers, text } = room;
                match routine {
                    Routine::Admit => $module::admit(table, answer),
                    Routine::Finish => $module::finish(table, numbers, answer),
                    Routine::Evaluate => $module::evaluate(table, values, cells, allowance, numbers, answer),
                    Routine::Judge => $module::judge(table, sheet, values, cells, allowance, numbers, answer),
                    Routine::Print => $module::print(table, text, answer),
                    Routine::Parse => $module::parse(typed, numbers, answer),
                }
            }
        }
    };
}

side!(Library, library);
side!(Rust, fast);
