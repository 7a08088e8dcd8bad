//! Both sides on one input: the number, the answer and the whole room must be equal.

use crate::inputs::{Input, Random};
use crate::sides::{Library, ROUTINES, Room, Routine, Rust, Side};

type Outcome = (u32, [u64; 4], Room);

fn outcome<S: Side>(routine: Routine, input: &Input, allowance: u64, room: usize) -> Outcome {
    let (mut room, mut answer) = (routine.room(room), [u64::MAX; 4]);
    let number = S::call(routine, input, allowance, &mut room, &mut answer);
    (number, answer, room)
}

/// What both sides answer. Ends the program where they differ.
fn agreed(routine: Routine, input: &Input, allowance: u64, room: usize) -> Outcome {
    let one = outcome::<Library>(routine, input, allowance, room);
    let other = outcome::<Rust>(routine, input, allowance, room);
    if one != other {
        let Input { table, sheet, values, cells, typed } = input;
        eprintln!("{}: the sides differ", routine.name());
        eprintln!(
            "table {table:?}\nsheet {sheet:?}\nvalues {values:?}\ncells {cells:?}\nallowance {allowance}, room {room}"
        );
        eprintln!("text {}", typed.escape_ascii());
        eprintln!("library {:?} {:?}\nRust    {:?} {:?}", one.0, one.1, other.0, other.1);
        let place = one.2.numbers.iter().zip(&other.2.numbers).position(|(a, b)| a != b);
        let byte = one.2.text.iter().zip(&other.2.text).position(|(a, b)| a != b);
        eprintln!("the first number of the room that differs: {place:?}; the first byte: {byte:?}");
        std::process::exit(1);
    }
    one
}

/// Compares on an input: with more room than is needed, with just enough, with one number or byte less,
/// and with no allowance. The input must not be refused with room and allowance enough. The room it needs.
pub fn compare(routine: Routine, input: &Input) -> usize {
    let enough = routine.enough(input.terms());
    let (number, answer, _) = agreed(routine, input, u64::MAX, enough + 5);
    assert_eq!(number, 0, "{}: refused at {}", routine.name(), answer[0]);
    let needed = match routine {
        Routine::Finish => 6 * answer[0] as usize,
        Routine::Print | Routine::Parse => answer[0] as usize,
        _ => enough,
    };
    agreed(routine, input, u64::MAX, needed);
    agreed(routine, input, u64::MAX, needed.saturating_sub(1));
    agreed(routine, input, 0, needed);
    needed
}

/// Compares every routine on copies of an input with one number altered, in the rooms that the input
/// needs; how many were refused.
pub fn compare_altered(input: &Input, copies: usize, random: &mut Random) -> usize {
    let rooms = ROUTINES.map(|routine| compare(routine, input));
    let mut refused = 0;
    for _ in 0..copies {
        let altered = altered(input, random);
        for (routine, room) in ROUTINES.into_iter().zip(rooms) {
            refused += usize::from(agreed(routine, &altered, u64::MAX, room).0 != 0);
        }
    }
    refused
}

/// Compares parse on a text, which may be refused, and on copies with some bytes altered; how many of these were refused.
pub fn compare_misprinted(input: &Input, copies: usize, random: &mut Random) -> usize {
    let enough = Routine::Parse.enough(0);
    agreed(Routine::Parse, input, 0, enough);
    let mut refused = 0;
    for _ in 0..copies {
        let mut other = input.clone();
        for _ in 0..=random.below(2) {
            misprint(&mut other.typed, random);
        }
        refused += usize::from(agreed(Routine::Parse, &other, 0, enough).0 != 0);
    }
    refused
}

const BYTES: &[u8] = b"() \t\n\r\x0b#b01|;x@.av_=\x80";

fn misprint(text: &mut Vec<u8>, random: &mut Random) {
    let (place, byte) = (random.below(text.len()), BYTES[random.below(BYTES.len())]);
    match random.below(4) {
        0 => text[place] = byte,
        1 => text.insert(place, byte),
        2 => drop(text.drain(place..(place + 1 + random.below(8)).min(text.len()))),
        _ => {
            let again = text[place..(place + 12).min(text.len())].to_vec();
            text.splice(place..place, again);
        }
    }
}

fn altered(input: &Input, random: &mut Random) -> Input {
    let mut altered = input.clone();
    let row = match random.below(8) {
        0 if !altered.cells.is_empty() => &mut altered.cells,
        1 => &mut altered.values,
        2..=4 if !altered.sheet.is_empty() => &mut altered.sheet,
        5 if !altered.sheet.is_empty() => {
            altered.sheet.truncate(altered.sheet.len() - 1 - random.below(2));
            return altered;
        }
        _ => &mut altered.table,
    };
    let place = random.below(row.len());
    row[place] = match random.below(4) {
        0 => row[place].wrapping_add(1),
        1 => row[place].wrapping_sub(1),
        2 => random.below(22) as u32,
        _ => 1 << random.below(32),
    };
    altered
}
