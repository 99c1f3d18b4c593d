//! Words and legs over a plan, and sets to step from.

use super::Random;
use crate::forms::MAX_STAKES;
use crate::reference::plan::Plan;
use crate::reference::walk::{reach, step};
use crate::reference::{size, to_number};

/// The codes that can be walked from a set.
pub fn ways(plan: &Plan, set: &[bool]) -> Vec<u8> {
    (0..plan.m as u8).filter(|&code| size(&step(plan, set, code)) > 0).collect()
}

/// A word over the plan: mostly codes that can be walked on from where it is, rarely others.
pub fn word(r: &mut Random, plan: &Plan, from: &[bool], length: usize) -> Vec<u8> {
    let stray = r.pick(&[0, 0, 2, 10]);
    let beyond = r.pick(&[0, 0, 0, 1]);
    let mut word = Vec::new();
    let mut set = from.to_vec();
    for _ in 0..length {
        let mut code = r.below(plan.m) as u8;
        if r.percent(beyond) {
            word.push(r.pick(&[plan.m as u8, 255, 200]));
            continue;
        }
        if !r.percent(stray) {
            let ways = ways(plan, &set);
            if !ways.is_empty() {
                code = r.pick(&ways);
            }
        }
        word.push(code);
        let next = step(plan, &set, code);
        if size(&next) == 0 && r.percent(50) {
            break;
        }
        set = next;
    }
    word
}

/// A walk on the plan, with up to so many legs more that can be walked too.
pub fn further(r: &mut Random, plan: &Plan, walk: &[u8], legs: usize) -> Vec<u8> {
    let mut walk = walk.to_vec();
    let mut set = reach(plan, &plan.starts, &walk);
    for _ in 0..legs {
        let ways = ways(plan, &set);
        if ways.is_empty() {
            break;
        }
        let code = r.pick(&ways);
        set = step(plan, &set, code);
        walk.push(code);
    }
    walk
}

/// Legs offered one after the other: refused ones (a stray code, a code off the plan) among those that can be walked.
pub fn legs(r: &mut Random, plan: &Plan, length: usize) -> Vec<u8> {
    let stray = r.pick(&[0, 3, 15]);
    let beyond = r.pick(&[0, 1, 5]);
    let mut legs = Vec::new();
    let mut set = plan.starts.clone();
    let mut dead_ends = 0;
    while legs.len() < length && dead_ends < 4 {
        let ways = ways(plan, &set);
        let code = if r.percent(beyond) {
            r.pick(&[plan.m as u8, 255, MAX_STAKES as u8])
        } else if ways.is_empty() || r.percent(stray) {
            r.below(plan.m) as u8
        } else {
            r.pick(&ways)
        };
        dead_ends += ways.is_empty() as usize;
        legs.push(code);
        if ways.contains(&code) {
            set = step(plan, &set, code);
        }
    }
    legs
}

/// A set to step from: what a walk leads to, one stake, any, all or none; now and then with a bit that is no stake's.
pub fn set(r: &mut Random, plan: &Plan) -> u64 {
    let length = r.below(6);
    let walk = further(r, plan, &[], length);
    let reached = to_number(&reach(plan, &plan.starts, &walk));
    let all = u64::MAX >> (MAX_STAKES - plan.n);
    let (one, last) = (1 << r.below(plan.n), 1 << (plan.n - 1));
    let any = r.next() & all;
    let few = any & r.next() & r.next();
    let set = r.pick(&[reached, reached, any, few, one, last, all, 0]);
    if plan.n == MAX_STAKES || !r.percent(10) {
        return set;
    }
    let (first, other) = (1 << plan.n, 1 << r.among(plan.n, MAX_STAKES - 1));
    r.pick(&[first, set | first, set | other, 1 << (MAX_STAKES - 1), u64::MAX])
}

/// A code that is none of the plan's: from m on, and those of which a part of the bits would be one.
pub fn stray_code(r: &mut Random, m: usize) -> u32 {
    let low = r.below(m) as u32;
    r.pick(&[m as u32, MAX_STAKES as u32, 255, 256, 257, 256 + low, 65_535, 65_536, 65_536 + low, 1 << 24, (1 << 31) + low, u32::MAX])
}

/// The legs as a caller offers them, 32-bit numbers, with codes that are none of the plan's among them.
pub fn offered(r: &mut Random, legs: &[u8], m: usize) -> Vec<u32> {
    let strays = r.pick(&[0, 1, 4]);
    legs.iter().flat_map(|&leg| [r.percent(strays).then(|| stray_code(r, m)), Some(leg as u32)]).flatten().collect()
}
