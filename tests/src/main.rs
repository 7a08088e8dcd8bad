//! Compares the library with a second evaluator on random tables, settings and texts.
//!
//!     cargo run --release                        # 60 seconds
//!     cargo run --release -- --calls 1000000     # so many calls of the library
//!     cargo run --release -- --seed 5            # the rounds of seed 5 again; --from 100 begins at round 100
//!     cargo run --release -- --break NAME        # against a reference with a deliberate error: must fail
//!     cargo run --release -- --texts FOLDER      # writes typed rules there, and compares nothing; --count 500 so many
//!
//! Fails on the first difference, with the smallest call found that still differs, and
//! when something that should occur did not (`counts.rs` has the list).

mod case;
mod compare;
mod counts;
mod examples;
mod finished;
mod generate;
mod library;
mod pairs;
mod parsed;
mod places;
mod printed;
mod random;
mod reference;
mod sheeted;
mod shrink;
#[cfg(test)]
mod tests;

use compare::{Comparison, Difference};
use random::Random;
use reference::flaw::{Flaw, FLAWS};
use reference::Reference;
use std::path::{Path, PathBuf};
use std::process::ExitCode;
use std::time::{Duration, Instant, SystemTime, UNIX_EPOCH};
use std::{fs, io};

struct Options {
    seconds: Option<u64>,
    calls: Option<u64>,
    seed: u64,
    from: u64,
    flaw: Flaw,
    counts: bool,
    texts: Option<PathBuf>,
    count: u64,
}

fn options() -> Result<Options, String> {
    let now = SystemTime::now().duration_since(UNIX_EPOCH).map_or(0, |d| d.as_millis() as u64);
    let (texts, count) = (None, 1000);
    let mut options = Options { seconds: None, calls: None, seed: now, from: 0, flaw: Flaw::None, counts: false, texts, count };
    let mut arguments = std::env::args().skip(1);
    while let Some(name) = arguments.next() {
        if name == "--counts" {
            options.counts = true;
            continue;
        }
        let value = arguments.next().ok_or(format!("{name} needs a value"))?;
        let number = || value.parse::<u64>().map_err(|_| format!("{name} {value}: no number"));
        match name.as_str() {
            "--seconds" => options.seconds = Some(number()?),
            "--calls" => options.calls = Some(number()?),
            "--seed" => options.seed = number()?,
            "--from" => options.from = number()?,
            "--break" => options.flaw = flaw(&value)?,
            "--texts" => options.texts = Some(value.into()),
            "--count" => options.count = number()?,
            _ => {
                let known = "--seconds, --calls, --seed, --from, --break, --counts, --texts, --count";
                return Err(format!("{name}: not known; {known} are"));
            }
        }
    }
    Ok(options)
}

fn flaw(name: &str) -> Result<Flaw, String> {
    let names: Vec<&str> = FLAWS.iter().map(|f| f.0).collect();
    let found = FLAWS.iter().find(|f| f.0 == name);
    found.map(|f| f.1).ok_or(format!("--break {name}: not one of {}", names.join(", ")))
}

fn main() -> ExitCode {
    let done = options().and_then(|options| match &options.texts {
        Some(folder) => write_texts(folder, &options).map_err(|e| format!("{}: {e}", folder.display())),
        None => run(&options),
    });
    match done {
        Ok(()) => ExitCode::SUCCESS,
        Err(message) => {
            eprintln!("{message}");
            ExitCode::FAILURE
        }
    }
}

fn run(options: &Options) -> Result<(), String> {
    let library = library::Library;
    let reference = Reference { flaw: options.flaw };
    examples::check(&library).map_err(|e| format!("an example fails: {e}"))?;
    let mut comparison = Comparison::new(&library, &reference);
    let places = places::compare(&library, &reference);
    let texts = places.map_err(|difference| describe(&comparison, &difference, options.seed, options.from))?;
    let (start, mut number) = (Instant::now(), options.from);
    let seconds = options.seconds.or(if options.calls.is_none() { Some(60) } else { None });
    let goes_on =
        |calls: u64, elapsed: Duration| seconds.is_none_or(|s| elapsed.as_secs() < s) && options.calls.is_none_or(|c| calls < c);
    while goes_on(comparison.counts.calls, start.elapsed()) {
        if let Err(difference) = comparison.round(options.seed, number) {
            return Err(describe(&comparison, &difference, options.seed, number));
        }
        number += 1;
    }
    let counts = &comparison.counts;
    if options.counts {
        println!("{}", counts.lines().join("\n"));
    }
    println!(
        "{} calls in {:.1} s, {} refusals, {} pairs, {} finished tables, {} sheets, \
         {} printed and {} parsed texts by the laws, and {texts} with every word at every place, no difference; seed {}",
        counts.calls,
        start.elapsed().as_secs_f64(),
        counts.refusals(),
        counts.pairs,
        counts.finished,
        counts.sheeted,
        counts.printed,
        counts.parsed,
        options.seed
    );
    match counts.missing() {
        missing if missing.is_empty() => Ok(()),
        missing => Err(format!("did not occur and should have (a longer run may be needed): {missing:?}")),
    }
}

/// Whole rules, each in a file named by its number; every hundredth is a large one.
fn write_texts(folder: &Path, options: &Options) -> io::Result<()> {
    fs::create_dir_all(folder)?;
    for number in options.from..options.from + options.count {
        let mut random = Random::new(options.seed ^ Random::new(number).next());
        let rule = match number % 100 {
            99 => generate::typed::large(&mut random, number / 100 % generate::typed::TURNS),
            _ => generate::typed::small(&mut random, number),
        };
        let text = generate::typed::lay_out(&mut random, &rule.words());
        fs::write(folder.join(format!("{number:06}.smt2")), text)?;
    }
    Ok(())
}

/// The report of a difference: the smallest call found, and both answers.
fn describe(comparison: &Comparison, difference: &Difference, seed: u64, number: u64) -> String {
    let fault = |case: &case::Case| difference.check.fault(comparison.subject, comparison.reference, case);
    let case = shrink::shrink(&difference.case, Duration::from_secs(10), &|case| fault(case).is_some());
    let what = fault(&case).unwrap_or("it does not fail a second time".into());
    let place = format!("seed {seed}, round {number} (--seed {seed} --from {number})");
    format!("DIFFERENCE ({:?}): {place}\n{case}\n{what}", difference.check)
}
