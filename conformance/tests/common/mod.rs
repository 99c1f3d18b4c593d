//! What the tests share: who is compared with the reference, the settings by environment variable, and words.
#![allow(dead_code)]

pub mod program;

use conformance::calls::Calls;
use conformance::plain::Plain;
use conformance::reference::calls::Reference;

/// Everyone who must answer as the documents say. The reference itself is among them, where answers are written from the documents.
pub fn everyone() -> Vec<&'static dyn Calls> {
    vec![
        &Reference,
        &Plain,
        #[cfg(feature = "library")]
        &conformance::library::Library { null_if_empty: false },
        #[cfg(feature = "library")]
        &conformance::library::Library { null_if_empty: true },
    ]
}

pub fn number(name: &str, default: u64) -> u64 {
    match std::env::var(name) {
        Ok(text) => text.parse().unwrap_or_else(|_| panic!("{name} is not a number: {text}")),
        Err(_) => default,
    }
}

/// GAWHERINO_SEED
pub fn seed() -> u64 {
    number("GAWHERINO_SEED", 20_070_003)
}

/// GAWHERINO_SECONDS: how long the random comparisons take, each.
pub fn seconds() -> u64 {
    number("GAWHERINO_SECONDS", 25)
}

/// All words of a length.
pub fn words(m: usize, length: usize) -> Vec<Vec<u8>> {
    let mut list = vec![Vec::new()];
    for _ in 0..length {
        list = list.iter().flat_map(|word| (0..m as u8).map(move |code| [word.as_slice(), &[code]].concat())).collect();
    }
    list
}
