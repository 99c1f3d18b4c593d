//! Records in form but from no walk, and damage for refusal 10.

use super::walks::ways;
use super::Random;
use crate::forms::record::{held, legs, length, set_held, set_legs, BOOKED, CODES, NONE, ZERO};
use crate::forms::MAX_LEGS;
use crate::reference::only;
use crate::reference::plan::Plan;
use crate::reference::walk::step;

/// A record for a table: legs near k or near the last one, held codes that mostly can be walked, often from a base that no walk reaches.
pub fn record(r: &mut Random, plan: &Plan, k: usize) -> Vec<u8> {
    let most = MAX_LEGS as usize;
    let legs = match r.below(8) {
        0 => 0,
        1 => k.saturating_sub(1),
        2 => k,
        3 => k + r.below(5),
        4 => r.below(k + 2),
        5 => most,
        6 => most - 1,
        _ => r.below(most + 1),
    };
    let held = legs.min(k);
    let reached = plan.reached();
    let abandoned: Vec<u8> = (0..plan.n as u8).filter(|&stake| !reached[stake as usize]).collect();
    let booked = if legs < k {
        NONE
    } else if !abandoned.is_empty() && r.percent(30) {
        r.pick(&abandoned)
    } else {
        r.below(plan.n) as u8
    };
    let mut set = if legs < k { plan.starts.clone() } else { only(plan.n, booked as usize) };
    let mut codes = Vec::new();
    for _ in 0..held {
        let ways = ways(plan, &set);
        let code = if ways.is_empty() { r.below(plan.m) as u8 } else { r.pick(&ways) };
        set = step(plan, &set, code);
        codes.push(code);
    }
    let mut rec = vec![0; length(k)];
    set_legs(&mut rec, legs as u32);
    set_held(&mut rec, held);
    rec[BOOKED] = booked;
    rec[CODES..][..held].copy_from_slice(&codes);
    rec
}

/// Damages one part of a record that has 8 + k bytes or more.
pub fn damage(r: &mut Random, rec: &mut [u8], k: usize, n: usize, m: usize) {
    let (legs, held) = (legs(rec), held(rec));
    match r.below(11) {
        0 => set_legs(rec, r.pick(&[legs.wrapping_add(1), legs.wrapping_sub(1), 0, k as u32, (k as u32).wrapping_sub(1)])),
        1 => set_legs(rec, r.pick(&[MAX_LEGS, MAX_LEGS - 1, MAX_LEGS + 1, u32::MAX, MAX_LEGS + 256, 1 << 24])),
        2 => rec[BOOKED] = r.pick(&[NONE, 254, n as u8, n as u8 - 1, 0, rec[BOOKED].wrapping_add(1)]),
        3 => rec[ZERO] = r.pick(&[1, 255, 128]),
        4 => set_held(rec, r.pick(&[held + 1, held.wrapping_sub(1), 0, k, k + 1, 256 + held, 65535])),
        5 if held > 0 => rec[CODES + r.below(held)] = r.pick(&[m as u8, m as u8 + 1, 255]),
        6 if held > 0 => rec[CODES + r.below(held)] = r.below(m) as u8,
        7 if held < k && held < rec.len() - CODES => rec[CODES + r.among(held, k - 1)] = r.pick(&[1, 255]),
        8 if held < k && k > 0 => rec[length(k) - 1] = 1,
        9 => rec[BOOKED] = r.below(n) as u8,
        _ => {
            let place = r.below(rec.len().min(length(k)));
            rec[place] = r.next() as u8;
        }
    }
}
