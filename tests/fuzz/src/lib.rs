//! What libFuzzer calls: one text, read by the library and by the independent reader. Any difference ends the program.

#![allow(dead_code)]

#[path = "../../src/case.rs"]
mod case;
#[path = "../../src/library.rs"]
mod library;
#[path = "../../src/reference/mod.rs"]
mod reference;

use case::{Answer, Case, Checker};
use library::Library;
use reference::flaw::{Flaw, FLAWS};
use reference::Reference;
use std::sync::OnceLock;

/// The reader; with the deliberate error that HIRANTHOK_BREAK names, if any, to see that it is found.
fn reference() -> &'static Reference {
    static REFERENCE: OnceLock<Reference> = OnceLock::new();
    REFERENCE.get_or_init(|| {
        let name = std::env::var("HIRANTHOK_BREAK").unwrap_or_default();
        let flaw = FLAWS.iter().find(|flaw| flaw.0 == name).map_or(Flaw::None, |flaw| flaw.1);
        assert!(name.is_empty() || flaw != Flaw::None, "HIRANTHOK_BREAK={name}: no such error");
        Reference { flaw }
    })
}

/// More room than a table can need.
const ROOM: usize = 6 * 512 + 5;

/// The answer of both. Numbers, places, the room's front and rest, and what lies around it must be equal.
fn agreed(text: &[u8], room: usize) -> Answer {
    let case = Case::parse(text.to_vec(), room);
    let (one, other) = (Library.call(&case), reference().call(&case));
    if one != other {
        eprintln!("DIFFERENCE:\n{case}\nlibrary:   {one}\nreference: {other}");
        std::process::abort();
    }
    one
}

/// With room enough; where there is a table, also with just enough and with one number less.
///
/// # Safety
/// `text` points at `length` bytes.
#[no_mangle]
pub unsafe extern "C" fn LLVMFuzzerTestOneInput(text: *const u8, length: usize) -> i32 {
    let text = if length == 0 { &[] } else { std::slice::from_raw_parts(text, length) };
    let answer = agreed(text, ROOM);
    if answer.number == 0 {
        let needed = answer.numbers[0] as usize;
        agreed(text, needed);
        agreed(text, needed - 1);
    }
    0
}
