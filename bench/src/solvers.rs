//! How long z3 and cvc5 take to read the typed rules.

use crate::inputs::Input;
use crate::sides::{Library, Routine, Side};
use crate::typed;
use std::fs;
use std::io::Write;
use std::process::{Command, Stdio};
use std::time::Instant;

const SOLVERS: [(&str, &[&str]); 2] =
    [("z3", &["-in", "-smt2"]), ("cvc5", &["--force-logic=QF_ABV", "--lang", "smt2"])];

/// The bytes that one process reads: copies of a text, each with names of its own.
const BYTES: usize = 1_000_000;
const ROUNDS: usize = 5;

/// The processor's time that ended children took so far, in seconds. Linux counts it in hundredths.
fn of_children() -> f64 {
    let line = fs::read_to_string("/proc/self/stat").expect("Linux");
    let fields: Vec<&str> = line.rsplit(')').next().unwrap_or("").split_whitespace().collect();
    fields[13..15].iter().map(|ticks| ticks.parse::<f64>().expect("a count")).sum::<f64>() / 100.0
}

/// The processor's time for a process with this input, the best of some rounds; none where there is no such program.
fn seconds(program: &str, arguments: &[&str], input: &[u8]) -> Option<f64> {
    let mut best = f64::INFINITY;
    for _ in 0..ROUNDS {
        let start = of_children();
        let mut command = Command::new(program);
        let mut process = command.args(arguments).stdin(Stdio::piped()).stdout(Stdio::piped()).spawn().ok()?;
        let mut stdin = process.stdin.take().expect("a pipe");
        stdin.write_all(input).expect("it reads");
        drop(stdin);
        let output = process.wait_with_output().expect("it ends");
        assert!(!output.stdout.windows(5).any(|word| word == b"error"), "{}", String::from_utf8_lossy(&output.stdout));
        best = best.min(of_children() - start);
    }
    Some(best)
}

/// Microseconds to read a text without its question: many copies in one process, less a process that reads nothing.
fn reading(program: &str, arguments: &[&str], text: &[u8]) -> Option<f64> {
    let text = std::str::from_utf8(text).expect("ASCII");
    let unasked = text.strip_suffix("(check-sat)\n").expect("a rule");
    let copy = |k: usize| unasked.replace(" offset", &format!(" offset{k}_")).replace(" x", &format!(" x{k}_"));
    let count = BYTES / text.len();
    let copies: String = (0..count).map(copy).collect();
    Some((seconds(program, arguments, copies.as_bytes())? - seconds(program, arguments, b"")?) * 1e6 / count as f64)
}

/// Microseconds for a call of parse.
fn parsing(input: &Input) -> f64 {
    let (mut room, mut answer) = (Routine::Parse.room(Routine::Parse.enough(0)), [0; 4]);
    let mut best = f64::INFINITY;
    for _ in 0..1000 {
        let start = Instant::now();
        Library::call(Routine::Parse, input, 0, &mut room, &mut answer);
        best = best.min(start.elapsed().as_nanos() as f64 / 1000.0);
    }
    best
}

pub fn print() {
    println!("| text | bytes | library, µs | z3, µs | cvc5, µs | z3 / library | cvc5 / library |");
    println!("|---|---:|---:|---:|---:|---:|---:|");
    let rules = [8, 64, 512].map(|terms| (format!("{terms} terms"), typed::rule(terms)));
    let names = [64, 256].map(|names| (format!("{names} names"), typed::names(names)));
    for (name, input) in rules.into_iter().chain(names) {
        let library = parsing(&input);
        let times = SOLVERS.map(|(program, arguments)| reading(program, arguments, &input.typed));
        let cells = times.map(|time| time.map_or("".into(), |time| format!("{time:.0}")));
        let ratios = times.map(|time| time.map_or("".into(), |time| format!("{:.1}", time / library)));
        println!("| {name} | {} | {library:.1} | {} | {} |", input.typed.len(), cells.join(" | "), ratios.join(" | "));
    }
}
