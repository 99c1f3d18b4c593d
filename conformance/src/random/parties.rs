//! Parties: lines of others beside a plan's own, and numbers to name.

use super::{plans, Random};
use crate::families::{Draft, PartyLine};
use crate::forms::{MAX_LINES, PARTIES};
use std::collections::HashSet;

/// A party, 0 more often than any other, since the drawing entry and the programs name it.
pub fn party(r: &mut Random) -> u32 {
    if r.percent(45) {
        return 0;
    }
    r.below(PARTIES as usize) as u32
}

/// The plan as that of a party in edition 2, and the party: its lines are the party's, and others have lines of theirs, the same, other
/// plans' or any, or none. However they are mixed, the plan is this party's alone.
pub fn among_others(r: &mut Random, plan: &Draft) -> (Draft<PartyLine>, u32) {
    let party = party(r);
    let mut mixed = plan.of_party(party as u8);
    let mut others: Vec<u8> = (0..PARTIES as u8).filter(|&other| other as u32 != party).collect();
    r.shuffle(&mut others);
    others.truncate(r.pick(&[0, 0, 1, 1, 1, 2, 3, PARTIES as usize - 1]));
    let mut seen: HashSet<PartyLine> = mixed.lines.iter().copied().collect();
    for other in others {
        let lines = match r.below(4) {
            0 => plan.lines.clone(),
            1 => plan.lines.iter().copied().filter(|_| r.percent(60)).collect(),
            2 => plans::plan(r).lines,
            _ => (0..r.below(30)).map(|_| (r.below(plan.n) as u8, r.below(plan.m) as u8, r.below(plan.n) as u8)).collect(),
        };
        let is_on_plan = |&(from, code, to, _): &PartyLine| from.max(to) < plan.n as u8 && code < plan.m as u8;
        let theirs = lines.into_iter().map(|(from, code, to)| (from, code, to, other)).filter(is_on_plan);
        mixed.lines.extend(theirs.filter(|&line| seen.insert(line)));
    }
    // now and then as many as there may be
    for _ in 0..if r.percent(3) { 2 * MAX_LINES } else { 0 } {
        let line = (r.below(plan.n) as u8, r.below(plan.m) as u8, r.below(plan.n) as u8, r.below(PARTIES as usize) as u8);
        if line.3 as u32 != party && seen.insert(line) {
            mixed.lines.push(line);
        }
    }
    mixed.lines.truncate(MAX_LINES);
    match r.below(10) {
        0..=6 => r.shuffle(&mut mixed.lines),
        7 => mixed.lines.sort(),
        8 => mixed.lines.sort_by_key(|line| (line.3, *line)),
        _ => {}
    }
    (mixed, party)
}

/// As a line's party: none of 0 to 7, such too of which a part of the bits would be one.
pub fn too_high(r: &mut Random) -> u8 {
    let any = r.among(PARTIES as usize, 255) as u8;
    r.pick(&[8, 9, 16, 17, 128, 200, 255, any])
}

/// A number to name in a call: another party's, which edition 1 has not, or none's, such too of which a part of the bits would be one.
pub fn other(r: &mut Random) -> u32 {
    let low = r.below(PARTIES as usize) as u32;
    match r.below(10) {
        0..=2 => low,
        3 => 3,
        4..=5 => PARTIES,
        6 => r.among(PARTIES as usize + 1, 255) as u32,
        7 => u32::MAX,
        _ => r.pick(&[256, 256 + low, 65_536, 65_536 + low, 1 << 24, (1 << 31) + low]),
    }
}
