//! The laws of parsing, by sampling: white space between words does not matter, and neither do the names.

use crate::case::{Case, Checker, Routine};
use crate::generate::{rule, typed};
use crate::random::Random;
use crate::reference::flaw::Flaw;
use crate::reference::words::{is_marked, is_name, words};
use std::collections::BTreeMap;

/// The same words with other white space between them.
pub fn laid_out_otherwise(case: &Case, seed: u64) -> Case {
    let words: Vec<&[u8]> = words(&case.text, Flaw::None).iter().map(|word| word.bytes).collect();
    Case { text: typed::lay_out(&mut Random::new(seed), &words), ..case.clone() }
}

/// The place of the same word in the other text; of the end the end.
fn moved(place: u64, from: &[u8], to: &[u8]) -> u64 {
    let at = words(from, Flaw::None).iter().position(|word| word.place as u64 == place);
    at.map_or(to.len(), |at| words(to, Flaw::None)[at].place) as u64
}

/// The same text with other names, marked where they were. The case is one whose words are not refused.
pub fn renamed(case: &Case, seed: u64) -> Case {
    let random = &mut Random::new(seed);
    let words = words(&case.text, Flaw::None);
    let asserts = words.iter().position(|word| word.bytes == b"assert").unwrap_or(words.len());
    let declared = |at: usize| at > 0 && at < asserts && words[at - 1].bytes == b"declare-const";
    let mut names: BTreeMap<&[u8], String> = BTreeMap::new();
    for (at, word) in words.iter().enumerate().filter(|(at, _)| declared(*at)) {
        names.insert(word.bytes, another(random, is_marked(word.bytes, Flaw::None), at));
    }
    let mut text = vec![];
    let mut end = 0;
    for (at, word) in words.iter().enumerate() {
        text.extend(&case.text[end..word.place]);
        end = word.place + word.bytes.len();
        let new = names.get(word.bytes).filter(|_| declared(at) || at > asserts);
        text.extend(new.map_or(word.bytes, |name| name.as_bytes()));
    }
    text.extend(&case.text[end..]);
    Case { text, ..case.clone() }
}

/// A name with this mark that no other place has.
fn another(random: &mut Random, marked: bool, at: usize) -> String {
    let name = rule::name(random);
    let own = if marked { format!("x{at}") } else { format!("{name}!{at}") };
    assert!(is_name(own.as_bytes(), Flaw::None) && is_marked(own.as_bytes(), Flaw::None) == marked);
    own
}

/// What of the laws the answers break, if anything.
pub fn fault(checker: &dyn Checker, case: &Case, seed: u64) -> Option<String> {
    if case.routine != Routine::Parse {
        return None;
    }
    let own = checker.call(case);
    let other_case = laid_out_otherwise(case, seed);
    let mut other = checker.call(&other_case);
    if (31..=35).contains(&own.number) {
        let place = moved(own.numbers[0], &case.text, &other_case.text);
        if other.numbers[0] == place {
            other.numbers[0] = own.numbers[0];
        }
    }
    if own != other {
        return Some(format!(
            "white space matters\nfirst: {own}\nsecond: {other}\nof {:?}",
            other_case.text.escape_ascii().to_string()
        ));
    }
    if (31..=35).contains(&own.number) {
        return None;
    }
    let renamed = renamed(case, seed);
    let other = checker.call(&renamed);
    (own != other)
        .then(|| format!("names matter\nfirst: {own}\nsecond: {other}\nof {:?}", renamed.text.escape_ascii().to_string()))
}
