//! W-206, the page for the hut wall: a line is 40 blanks, into which words and numbers are put by their columns, counted from 1 as the
//! sentence counts them. And what the page program writes.

use super::forms::{HAS_NONE, NOT_COUNTED, STARTS};
use super::lookahead::needs;
use super::plan::{Name, Plan};
use super::report::{begun_with, refused};
use super::size;

/// "Each page line has 40 characters and a line feed".
const CHARACTERS: usize = 40;

/// A line without its line feed.
struct Line([char; CHARACTERS]);

impl Line {
    /// "unused columns are blanks"
    fn blank() -> Line {
        Line([' '; CHARACTERS])
    }

    /// What begins in this column.
    fn at(&mut self, column: usize, text: &str) {
        for (place, character) in text.chars().enumerate() {
            self.0[column + place - 1] = character;
        }
    }

    /// "right-aligned": what ends in this column.
    fn up_to(&mut self, column: usize, text: &str) {
        self.at(column + 1 - text.len(), text);
    }
}

/// One set's line.
fn line(name: Name, need: u16, stakes: usize) -> Line {
    let mut line = Line::blank();
    if name == STARTS {
        // "The starts' line has the word `from` in columns 1 to 4 and a blank code."
        line.at(1, "from");
    } else {
        // "right-aligned, stake in columns 1 to 4, code in 6 to 9"
        line.up_to(4, &name.0.to_string());
        line.up_to(9, &name.1.to_string());
    }
    // "need in 11 to 16, a dash in column 16 for 65,535"
    if need == HAS_NONE {
        line.at(16, "-");
    } else {
        line.up_to(16, &need.to_string());
    }
    // "then the fork's stakes as a bar from column 18 of up to 23 hash signs, one for each stake, cut at 23"
    line.at(18, &"#".repeat(stakes.min(23)));
    line
}

/// The page of a plan, its lines "in the order of W-205".
pub fn page(plan: &Plan) -> String {
    let mut names = vec![STARTS];
    for stake in 0..plan.n as u32 {
        names.extend((0..plan.m as u32).map(|code| (stake, code)));
    }
    let mut page = String::new();
    for (name, need) in names.into_iter().zip(needs(plan)) {
        // "Sets marked 65,534 have no line."
        if need == NOT_COUNTED {
            continue;
        }
        let set = plan.named(name.0, name.1).expect("a set with a number is on the plan");
        page.extend(line(name, need, size(&set)).0);
        page += "\n";
    }
    page
}

/// What the page program writes: the page of the plan that its input begins with, for party 0 as in the report, or the refusal's line alone,
/// as the report has it.
pub fn page_text(input: &[u8]) -> String {
    match begun_with(input) {
        Ok((_, plan, _)) => page(&plan),
        Err(number) => refused(number),
    }
}
