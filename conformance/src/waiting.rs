//! Waiting (W-203, "No leg held for nothing"): the k that preparing answers is the least. The reference finds a walk with a position in
//! doubt and exactly k-1 legs behind it, and none with k; the subject's whole walks, by the table that it made itself (under 15, where it
//! makes none, by the reference's), must show the same.

use crate::calls::Calls;
use crate::cases::show_reply;
use crate::classes::count_class;
use crate::forms::{evidence, letters, max_look_ahead, table, LENGTH, REFUSED};
use crate::lent::{hex, pattern};
use crate::random::walks::further;
use crate::random::Random;
use crate::reference::doubt::{in_doubt, Doubt};
use crate::reference::lookahead::least;
use crate::reference::plan::{read_for, Plan};
use crate::reference::size;
use crate::reference::table::table_of;

#[derive(Clone)]
pub struct Waiting {
    pub plan: Vec<u8>,
    pub party: u32,
    /// What the walks are drawn with.
    pub seed: u64,
    /// By how many legs more than k the long walks go on, where they can be walked.
    pub beyond: usize,
}

/// The possible stakes along a walk that is on the plan, by the subject.
fn walked(subject: &dyn Calls, table: &[u64], walk: &[u8]) -> Result<Vec<u64>, String> {
    let (mut sets, mut length) = (pattern(walk.len() + 1), [0; LENGTH]);
    let reply = subject.walk(table, walk, &mut sets, &mut length);
    if (reply, length[0]) != (0, walk.len() as u64) {
        return Err(format!("walk {}: does not go to its end, reply {reply}, length {}", hex(walk), length[0]));
    }
    Ok(sets)
}

/// A walk with a position in doubt and so many legs behind it, by the reference, and the possible stakes along it, by the subject.
fn doubted(subject: &dyn Calls, table: &[u64], plan: &Plan, legs: usize, r: &mut Random) -> Result<(Doubt, Vec<u64>), String> {
    let Some((walk, position)) = in_doubt(plan, legs, &mut |ways| r.below(ways)) else {
        return Err(format!("no walk has a position in doubt with exactly {legs} legs behind it"));
    };
    if walk.len() != position + legs {
        return Err(format!("walk {}: position {position} has not {legs} legs behind it", hex(&walk)));
    }
    let sets = walked(subject, table, &walk)?;
    if sets[position].count_ones() < 2 {
        return Err(format!("walk {}: position {position} is not in doubt, {}", hex(&walk), hex(&sets)));
    }
    Ok(((walk, position), sets))
}

/// That each position followed by k or more legs has one possible stake, by the subject.
fn certain(subject: &dyn Calls, table: &[u64], k: usize, walk: &[u8]) -> Result<(), String> {
    for (position, set) in walked(subject, table, walk)?.into_iter().enumerate() {
        if position + k <= walk.len() && set.count_ones() != 1 {
            let stakes = hex(&[set]);
            return Err(format!("walk {}: position {position} has {k} or more legs behind it and not one stake, {stakes}", hex(walk)));
        }
    }
    Ok(())
}

impl Waiting {
    pub fn show(&self) -> String {
        let Waiting { plan, party, seed, beyond } = self;
        let plan = hex(plan);
        format!("waiting (prepare, walks in doubt, long walks of k + {beyond} legs): plan {plan}, party {party}, walks drawn with {seed:x}")
    }

    /// Answers the classes that were met, or what does not fit the k or the 15 that the subject gave. A plan that the reference refuses
    /// otherwise gives no walks.
    pub fn compare(&self, subject: &dyn Calls) -> Result<Vec<String>, String> {
        let Ok(plan) = read_for(&self.plan, self.party) else { return Ok(vec![]) };
        let mut table = pattern(table::length(plan.n, plan.m));
        let reply = subject.prepare(&self.plan, self.party, &mut table, &mut pattern::<u8>(letters(plan.n)), &mut [0; evidence::NUMBERS]);
        let met = match reply.checked_sub(REFUSED) {
            None => self.with_count(subject, &table, &plan, reply as usize),
            Some(15) => self.without_count(subject, &plan),
            Some(_) => Err("the plan passes 1 to 7 and 16, and as much is lent as is needed".to_string()),
        };
        let gave = |found| format!("preparing by {} gave {}; {found}", subject.name(), show_reply(reply));
        met.map_err(gave).map(|met| met.iter().map(|class| format!("waiting {class}")).collect())
    }

    fn with_count(&self, subject: &dyn Calls, table: &[u64], plan: &Plan, k: usize) -> Result<Vec<String>, String> {
        let mut r = Random::new(self.seed, 0);
        let class = count_class(k as u32);
        let mut met = vec![class.to_string()];
        let mut note = |class: &str, is_met: bool| met.extend(is_met.then(|| class.to_string()));
        let all = least(plan, &plan.every_set());
        note("k 0, 15 if every set counted", k == 0 && all.is_none());
        if k > 0 {
            let ((walk, position), sets) = doubted(subject, table, plan, k - 1, &mut r)?;
            note("in doubt at position 0", position == 0);
            note("in doubt at a later position", position > 0);
            note("in doubt between three or more stakes", sets[position].count_ones() > 2);
            note("in doubt, though a later position has one stake", sets[position..].iter().any(|set| set.count_ones() == 1));
            note("in doubt, a larger k if every set counted", all > Some(k));
            note("in doubt, 15 if every set counted", all.is_none());
            // with one leg more the doubt is gone
            let longer = further(&mut r, plan, &walk, k + self.beyond);
            certain(subject, table, k, &longer)?;
            note("in doubt until the next leg", longer.len() > walk.len());
        }
        // over all walks; a plan without starts has none
        if let Some((walk, position)) = in_doubt(plan, k, &mut |ways| r.below(ways)) {
            return Err(format!("walk {}: position {position} is in doubt with {k} legs behind it", hex(&walk)));
        }
        if size(&plan.starts) == 0 {
            note("no starts", true);
            return Ok(met);
        }
        let walk = further(&mut r, plan, &[], k + self.beyond);
        certain(subject, table, k, &walk)?;
        note(&format!("with a position certain, {class}"), walk.len() >= k);
        Ok(met)
    }

    /// 15: whatever the number of legs is, some position is in doubt with so many behind it. Two numbers are tried: a small one, and one at
    /// least as large as any k can be.
    fn without_count(&self, subject: &dyn Calls, plan: &Plan) -> Result<Vec<String>, String> {
        let mut r = Random::new(self.seed, 0);
        // preparing made no table, and a whole walk does not depend on the table's k
        let table = table_of(plan, 0);
        for legs in [r.below(3), r.among(max_look_ahead(plan.n), letters(plan.n))] {
            doubted(subject, &table, plan, legs, &mut r)?;
        }
        Ok(vec!["15".to_string()])
    }
}
