//! What the report program should write: the reference's report on standard input (plan bytes, then one byte a leg). With the argument
//! `page`, what the page program should.

use conformance::reference::page::page_text;
use conformance::reference::report::report;
use std::io::{Read, Write};

fn main() -> std::io::Result<()> {
    let mut input = Vec::new();
    std::io::stdin().read_to_end(&mut input)?;
    let text = match std::env::args().nth(1).as_deref() {
        None => report(&input),
        Some("page") => page_text(&input),
        Some(other) => panic!("there is no program {other}"),
    };
    std::io::stdout().write_all(text.as_bytes())
}
