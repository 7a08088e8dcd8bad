//! Times the library beside an implementation in Rust, in one run, and prints Markdown.
//!
//! `calls SIDE ROUTINE KIND SIZE N` instead makes N calls and prints nothing: a driver for a profiler.
//! The size is a count of terms, of cells, of variables, of lines of a sheet, of reads or of names.
//! `solvers` times z3 and cvc5 reading the typed rules.

mod compare;
mod fast;
mod inputs;
mod library;
mod measure;
mod report;
mod sides;
mod solvers;
mod typed;

use inputs::{Input, Random, branched, chained, choosing, mixed, reads_among, sheeted, variables};
use sides::{Library, ROUTINES, Routine, Rust, Side};
use std::hint::black_box;

/// The finished table of an input, with the input's setting.
pub fn finished(input: &Input) -> Input {
    let (mut room, mut answer) = (Routine::Finish.room(Routine::Finish.enough(input.terms())), [0; 4]);
    assert_eq!(Rust::call(Routine::Finish, input, 0, &mut room, &mut answer), 0);
    room.numbers.truncate(6 * answer[0] as usize);
    Input { table: room.numbers, ..input.clone() }
}

fn calls(words: &[String]) -> Option<()> {
    let [_, side, routine, kind, size, count] = words else { return None };
    let routine = ROUTINES.into_iter().chain([Routine::Parse]).find(|known| known.name() == routine)?;
    let size: u32 = size.parse().ok()?;
    let input = match kind.as_str() {
        "plain" => mixed(size as usize, false),
        "arrays" => mixed(size as usize, true),
        "finished" => finished(&mixed(size as usize, true)),
        "cells" => reads_among(size),
        "variables" => variables(size),
        "sheet" => sheeted(size),
        "chained" => finished(&chained(size)),
        "choices" => choosing(size as usize),
        "branched" => branched(size),
        "typed" => typed::rule(size as usize),
        "names" => typed::names(size as usize),
        _ => return None,
    };
    let (mut room, mut answer) = (routine.room(routine.enough(input.terms())), [0; 4]);
    let call = if side == "library" { Library::call } else { Rust::call };
    for _ in 0..count.parse::<usize>().ok()? {
        black_box(call(routine, black_box(&input), u64::MAX, &mut room, &mut answer));
    }
    Some(())
}

fn main() {
    let words: Vec<String> = std::env::args().skip(1).collect();
    match words.first().map(String::as_str) {
        None => report::print(&mut Random(1)),
        Some("solvers") => solvers::print(),
        Some("calls") if calls(&words).is_some() => {}
        Some(_) => {
            eprintln!(
                "usage: hiranthok-bench [solvers | calls library|rust ROUTINE KIND SIZE N]\n\
                 KIND: plain, arrays, finished, cells, variables, sheet, chained, choices, branched; typed, names"
            );
            std::process::exit(2);
        }
    }
}
