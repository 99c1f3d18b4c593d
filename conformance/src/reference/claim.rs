//! Evidence under 15: the check of a claim, and true claims to try it on (which evidence is given is free, so these are only examples).

use super::forms::{evidence_length, EVIDENCE};
use super::lookahead::{Pairs, Shared};
use super::plan::{Name, Plan};
use super::walk::reach;
use super::{members, only, Stakes};

/// The check of a claim: six numbers (the critical set's stake and code, stakes s and t, the lengths of lead-in and loop) and codes.
pub fn holds(plan: &Plan, claim: &[u32], letters: &[u8]) -> bool {
    // W-202: the set must count under the name that is claimed; "the same set named by an unreachable stake doesn't count"
    let is_claimed = |&(stake, code): &Name| claim.starts_with(&[stake, code]);
    holds_of_any_set(plan, claim, letters) && plan.critical_sets().iter().any(|(name, _)| is_claimed(name))
}

/// All that is asked of a claim but that its set counts.
pub fn holds_of_any_set(plan: &Plan, claim: &[u32], letters: &[u8]) -> bool {
    // numbers past the sixth are not read
    let &[stake, code, s, t, lead, turn, ..] = claim else {
        return false;
    };
    // the critical set, and stakes s < t of it
    let Some(set) = plan.named(stake, code) else {
        return false;
    };
    let is_member = |stake: u32| (stake as usize) < plan.n && set[stake as usize];
    if !(s < t && is_member(s) && is_member(t)) {
        return false;
    }
    // the loop has at least one code, and both lengths together are at most n × n
    let (lead, turn) = (lead as u128, turn as u128);
    if turn < 1 || lead + turn > evidence_length(plan.n) as u128 {
        return false;
    }
    // the claim's codes must not end before its lengths do; codes past the lengths are not read
    let (lead, turn) = (lead as usize, turn as usize);
    if letters.len() < lead + turn {
        return false;
    }
    let word = &letters[..lead + turn];
    if word.iter().any(|&code| code as usize >= plan.m) {
        return false;
    }
    // some stake is reached from s by the lead-in and led back to itself by the loop, and the same holds for t
    let (lead_in, round) = word.split_at(lead);
    let goes_round = |from: u32| {
        let reached = members(&reach(plan, &only(plan.n, from as usize), lead_in));
        reached.into_iter().any(|x| reach(plan, &only(plan.n, x), round)[x])
    };
    goes_round(s) && goes_round(t)
}

/// The six numbers and the codes of lead-in and loop.
pub type Example = ([u32; EVIDENCE], Vec<u8>);

/// A true claim for a plan without k; `choose` picks one of so many ways to go on.
pub fn example(plan: &Plan, choose: &mut dyn FnMut(usize) -> usize) -> Option<Example> {
    example_of(plan, &plan.critical_sets(), choose)
}

/// A claim about one of these sets that is true if it counts, by a walk over pairs that share endless words until one pair comes again.
pub fn example_of(plan: &Plan, sets: &[(Name, Stakes)], choose: &mut dyn FnMut(usize) -> usize) -> Option<Example> {
    let mut pairs = Pairs::new(plan);
    let mut rivals = Vec::new();
    for (name, set) in sets {
        for &s in &members(set) {
            for &t in &members(set) {
                if s < t && pairs.longest(s, t) == Shared::Endless {
                    rivals.push((*name, s, t));
                }
            }
        }
    }
    if rivals.is_empty() {
        return None;
    }
    let (name, s, t) = rivals[choose(rivals.len())];
    let mut seen = vec![(s, t)];
    let mut codes = Vec::new();
    loop {
        let (x, y) = *seen.last().expect("begins with a pair");
        let edges = pairs.edges(x, y);
        let ways: Vec<_> = edges.into_iter().filter(|&(_, x, y)| pairs.longest(x, y) == Shared::Endless).collect();
        let (code, x, y) = ways[choose(ways.len())];
        codes.push(code as u8);
        if let Some(lead) = seen.iter().position(|&pair| pair == (x, y)) {
            let claim = [name.0, name.1, s as u32, t as u32, lead as u32, (codes.len() - lead) as u32];
            return Some((claim, codes));
        }
        seen.push((x, y));
    }
}
