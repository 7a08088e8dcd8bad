//! The whole table: ratios, then growth.

use crate::compare::{compare, compare_altered, compare_misprinted};
use crate::finished;
use crate::inputs::{Input, Random, branched, chained, choosing, mixed, reads_among, sheeted, signed, variables};
use crate::measure::improve;
use crate::sides::{Library, ROUTINES, Routine, Rust, Side};
use crate::typed;
use std::hint::black_box;

/// All lines are measured so many times, one after the other: what slows a machine down for a while
/// then spoils no line.
const SWEEPS: usize = 4;

/// Lines of the sheets under which a table is judged.
const SHEETS: [u32; 3] = [0, 4, 100];

/// Altered copies of an input on which the sides are compared.
const ALTERED: usize = 2000;

/// One line: a routine on an input, and nanoseconds for a call of the library and of the Rust side.
struct Line {
    routine: Routine,
    input: Input,
    units: usize,
    best: [f64; 2],
}

impl Line {
    /// A text; those of too many names are refused, and are measured all the same.
    fn typed(input: Input, units: usize) -> Line {
        Line { routine: Routine::Parse, input, units, best: [f64::INFINITY; 2] }
    }

    /// Compares the results first.
    fn new(routine: Routine, input: Input, units: usize) -> Line {
        compare(routine, &input);
        Line { routine, input, units, best: [f64::INFINITY; 2] }
    }

    fn measure(&mut self) {
        let Line { routine, input, best, .. } = self;
        let mut rooms = [(); 2].map(|_| (routine.room(routine.enough(input.terms())), [0; 4]));
        let [(room, answer), (other_room, other_answer)] = &mut rooms;
        improve(
            best,
            || {
                black_box(Library::call(*routine, black_box(input), u64::MAX, room, answer));
            },
            || {
                black_box(Rust::call(*routine, black_box(input), u64::MAX, other_room, other_answer));
            },
        );
    }
}

/// Lines under one heading, and the unit by which they grow.
struct Section {
    heading: &'static str,
    unit: &'static str,
    lines: Vec<Line>,
}

fn section(heading: &'static str, unit: &'static str, routines: &[Routine], inputs: &[(usize, Input)]) -> Section {
    let line = |routine| inputs.iter().map(move |(units, input)| Line::new(routine, input.clone(), *units));
    Section { heading, unit, lines: routines.iter().flat_map(|&routine| line(routine)).collect() }
}

/// Tables without and with arrays: each routine, and evaluating and printing the finished table; then a long one; then choices of
/// arrays, in turn with others and read 64 times at the largest size.
fn ratio_sections() -> [Section; 4] {
    let of_finished = |input: &Input| {
        let line = |routine| Line::new(routine, finished(input), input.terms());
        [Routine::Evaluate, Routine::Print].map(line)
    };
    let section = |heading, arrays| {
        let mut lines = vec![];
        for terms in [8, 64, 512] {
            let input = mixed(terms, arrays);
            lines.extend(ROUTINES.map(|routine| Line::new(routine, input.clone(), terms)));
            lines.extend(of_finished(&input));
        }
        Section { heading, unit: "term", lines }
    };
    let long = Section { heading: "A long table", unit: "term", lines: of_finished(&chained(479)).into() };
    let choices = [choosing(64), choosing(512), branched(64)];
    let lines = choices.iter().flat_map(|input| {
        let line = |routine| Line::new(routine, input.clone(), input.terms());
        [Routine::Finish, Routine::Evaluate, Routine::Judge].map(line)
    });
    let choices = Section { heading: "Choices of arrays", unit: "term", lines: lines.collect() };
    [section("No arrays", false), section("With arrays", true), long, choices]
}

fn growth_sections() -> [Section; 5] {
    let terms = |arrays| [64, 128, 256, 512].map(|terms| (terms, mixed(terms, arrays)));
    let cells = [0, 16, 64, 256, 1024].map(|cells| (cells as usize, reads_among(cells)));
    let slots = [8, 64, 200].map(|slots| (slots as usize, variables(slots)));
    let lines = SHEETS.map(|lines| (lines as usize, sheeted(lines)));
    [
        section("Terms, no arrays", "term", &ROUTINES, &terms(false)),
        section("Terms, with arrays", "term", &ROUTINES, &terms(true)),
        section(
            "Cells, a table of 49 terms with 16 reads; the time beyond that of no cells",
            "cell",
            &[Routine::Evaluate, Routine::Judge],
            &cells,
        ),
        section("Variables, each in its slot, and as many sums", "variable", &ROUTINES, &slots),
        section(
            "Lines of the sheet, a table of 64 terms; the time beyond that of no sheet",
            "line",
            &[Routine::Judge],
            &lines,
        ),
    ]
}

/// Texts by the count of terms, and by the count of names.
fn typed_sections() -> [Section; 2] {
    let rules = [8, 64, 512].map(|terms| Line::typed(typed::rule(terms), terms));
    let names = [2, 16, 64, 128, 256, 512, 1024].map(|names| Line::typed(typed::names(names), names));
    [
        Section { heading: "Rules", unit: "terms", lines: rules.into() },
        Section { heading: "Names, each declared and used once", unit: "names", lines: names.into() },
    ]
}

/// Time for a text, and bytes a second.
fn print_typed(Section { heading, unit, lines }: &Section) {
    println!("\n{heading}:\n");
    println!(
        "| {unit} | bytes | library, ns | Rust, ns | library / Rust | library, MB/s | Rust, MB/s | library, ns a byte |"
    );
    println!("|---:|---:|---:|---:|---:|---:|---:|---:|");
    for Line { input, units, best: [library, rust], .. } in lines {
        let bytes = input.typed.len() as f64;
        let [fast, slow] = [library, rust].map(|ns| 1000.0 * bytes / ns);
        let ratio = library / rust;
        println!(
            "| {units} | {bytes} | {library:.0} | {rust:.0} | {ratio:.2} | {fast:.0} | {slow:.0} | {:.2} |",
            library / bytes
        );
    }
}

fn print_ratios(section: &Section) {
    println!("\n{}:\n", section.heading);
    println!("| routine | terms | library, ns | Rust, ns | library / Rust |");
    println!("|---|---:|---:|---:|---:|");
    for Line { routine, input, units, best: [library, rust] } in &section.lines {
        let finished = if input.terms() == *units { "" } else { ", finished" };
        let (name, terms) = (routine.name(), input.terms());
        println!("| {name}{finished} | {terms} | {library:.0} | {rust:.0} | {:.2} |", library / rust);
    }
}

/// Time for a call, and for each unit. An input of no units is subtracted from those after it.
fn print_growth(Section { heading, unit, lines }: &Section) {
    println!("\n{heading}:\n");
    println!("| routine | {unit}s | library, ns | Rust, ns | library, ns a {unit} | Rust, ns a {unit} |");
    println!("|---|---:|---:|---:|---:|---:|");
    let mut start = [0.0; 2];
    for Line { routine, units, best: [library, rust], .. } in lines {
        let name = routine.name();
        if *units == 0 {
            start = [*library, *rust];
            println!("| {name} | 0 | {library:.0} | {rust:.0} | | |");
            continue;
        }
        let each = [library - start[0], rust - start[1]].map(|ns| ns / *units as f64);
        println!("| {name} | {units} | {library:.0} | {rust:.0} | {:.2} | {:.2} |", each[0], each[1]);
    }
}

fn print_altered(random: &mut Random) {
    let sizes = [8, 64, 512];
    let (plain, arrays) = (sizes.map(|terms| mixed(terms, false)), sizes.map(|terms| mixed(terms, true)));
    let choices = [choosing(8), choosing(64), choosing(512), branched(8)];
    let inputs = [&plain[..], &arrays, &sizes.map(signed), &SHEETS.map(sheeted), &choices].concat();
    let refused: usize = inputs.iter().map(|input| compare_altered(input, ALTERED, random)).sum();
    let calls = inputs.len() * ALTERED * ROUTINES.len();
    println!("Both sides gave equal results on each input below before it was timed, and on {calls} calls with one");
    println!("number altered, of which {refused} were refused.");
    let measured = typed_sections().into_iter().flat_map(|section| section.lines).map(|line| line.input);
    let texts: Vec<Input> = measured.chain([typed::signed(), typed::choices()]).collect();
    let refused: usize = texts.iter().map(|text| compare_misprinted(text, ALTERED, random)).sum();
    println!("So they did on {} misprinted texts, of which {refused} were refused.", texts.len() * ALTERED);
}

pub fn print(random: &mut Random) {
    let (mut ratios, mut growth, mut texts) = (ratio_sections(), growth_sections(), typed_sections());
    print_altered(random);
    for _ in 0..SWEEPS {
        ratios
            .iter_mut()
            .chain(&mut growth)
            .chain(&mut texts)
            .flat_map(|section| &mut section.lines)
            .for_each(Line::measure);
    }
    println!("\n## Beside Rust");
    ratios.iter().for_each(print_ratios);
    println!("\n## Growth");
    growth.iter().for_each(print_growth);
    println!("\n## Typed rules");
    texts.iter().for_each(print_typed);
}
