//! Claims: near to a true one, and any at all.

use super::walks::word;
use super::Random;
use crate::forms::{evidence, letters, STARTS};
use crate::reference::members;
use crate::reference::plan::Plan;

/// The numbers, and the codes of lead-in and loop.
pub type Claim = (Vec<u32>, Vec<u8>);

/// Claims near to one, itself first: each number and each code moved, the codes cut, the loop turned, doubled or lengthened.
pub fn near(r: &mut Random, claim: &[u32; evidence::NUMBERS], codes: &[u8], n: usize, m: usize, most: usize) -> Vec<Claim> {
    let [stake, code, s, t, a, b] = *claim;
    let (lead, turn) = (a as usize, b as usize);
    let mut others = vec![
        vec![stake, code, t, s, a, b],
        vec![stake, code, s, s, a, b],
        vec![STARTS, code.max(1), s, t, a, b],
        claim[..evidence::LOOP].to_vec(),
        vec![],
        [claim.as_slice(), &[7]].concat(),
        vec![stake, code, s, t, u32::MAX, 1],
        vec![stake, code, s, t, u32::MAX, u32::MAX],
        vec![stake, code, s, t, 0, u32::MAX],
        vec![stake, code, s, t, a + b, 0],
    ];
    for (place, &number) in claim.iter().enumerate() {
        for wrong in [number.wrapping_add(1), number.wrapping_sub(1), 0, 255, 256 + number, u32::MAX, n as u32, m as u32] {
            let mut other = claim.to_vec();
            other[place] = wrong;
            others.push(other);
        }
    }
    let word = &codes[..lead + turn];
    let mut words = vec![word[..lead + turn - 1].to_vec(), vec![], [word, &[255, 255]].concat()];
    for (place, &code) in word.iter().enumerate() {
        for wrong in [code.wrapping_add(1), code.wrapping_sub(1), m as u8, 255, r.below(m) as u8] {
            let mut other = codes.to_vec();
            other[place] = wrong;
            words.push(other);
        }
    }
    let mut near: Vec<Claim> = others.into_iter().map(|other| (other, codes.to_vec())).collect();
    near.extend(words.into_iter().map(|word| (claim.to_vec(), word)));
    // the loop round more often, or walked once more in the lead-in: true as long as both together are at most n × n
    let (head, ring) = word.split_at(lead);
    let times = letters(n).saturating_sub(lead) / turn;
    for times in [2, times, times + 1] {
        near.push((vec![stake, code, s, t, a, b * times as u32], [head, &ring.repeat(times)].concat()));
    }
    near.push((vec![stake, code, s, t, a + b, b], [head, ring, ring].concat()));
    near.push((vec![stake, code, s, t, a + 1, b], [head, ring, &ring[..1]].concat()));
    // too many to try them all
    r.shuffle(&mut near);
    near.truncate(most - 1);
    near.insert(0, (claim.to_vec(), codes.to_vec()));
    near
}

/// The claim under a few of the names that its set has, whether it counts under them or not.
pub fn renamed(r: &mut Random, plan: &Plan, claim: &[u32; evidence::NUMBERS], codes: &[u8]) -> Vec<Claim> {
    let set = plan.named(claim[0], claim[1]);
    let mut names: Vec<_> = plan.every_set().into_iter().filter(|(_, other)| Some(other) == set.as_ref()).map(|(name, _)| name).collect();
    r.shuffle(&mut names);
    names.truncate(4);
    names.into_iter().map(|(stake, code)| ([[stake, code].as_slice(), &claim[2..]].concat(), codes.to_vec())).collect()
}

/// Any claim at all, in range more often than not.
pub fn any(r: &mut Random, plan: &Plan) -> Claim {
    let sets = plan.every_set();
    let (name, set) = r.pick(&sets);
    let stakes = members(&set);
    let (mut s, mut t) = (r.below(plan.n), r.below(plan.n));
    if !stakes.is_empty() {
        (s, t) = (r.pick(&stakes), r.pick(&stakes));
    }
    let (lead, turn) = (r.below(4), r.below(5));
    let codes = word(r, plan, &set, lead + turn);
    (vec![name.0, name.1, s.min(t) as u32, s.max(t) as u32, lead as u32, turn as u32], codes)
}
