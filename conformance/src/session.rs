//! A session (demand 3): preparing for a party, opening, every leg, the whole walk and ending, held to the plain walk of document 01 on the
//! party's lines. Each call is run on what the one before left, and all that it must leave is foretold.

use crate::calls::Calls;
use crate::cases::{Call, Case, Outcome};
use crate::classes::count_class;
use crate::forms::{evidence, letters, record, LENGTH, MAX_LEGS, NOTHING, POSITION, REFUSED};
use crate::lent::hex;
use crate::reference::lookahead::{least, look_ahead};
use crate::reference::plan::read_for;
use crate::reference::table::table_of;
use crate::reference::walk::{plain_walk, possible, Reply};
use crate::reference::{size, to_number};

#[derive(Clone)]
pub struct Session {
    pub plan: Vec<u8>,
    pub party: u32,
    /// The codes that are offered.
    pub legs: Vec<u32>,
    /// How much longer than needed each buffer is.
    pub extra: usize,
}

/// Runs a call that must give this reply, and must leave what it was lent but for what `write` puts there. Answers what is left.
fn expect(subject: &dyn Calls, case: Case, reply: u32, write: impl FnOnce(&mut Call)) -> Result<Call, String> {
    let call = case.call();
    let mut expected = Outcome { reply, left: call.lent() };
    write(&mut expected.left);
    expected.agree(&call.on(subject), subject).map_err(|found| format!("{}\n  {found}", call.show()))?;
    Ok(expected.left)
}

fn number(reply: Reply) -> u32 {
    match reply {
        Reply::Refused(number) => REFUSED + number,
        Reply::Booked { stake, .. } => stake as u32,
        Reply::Nothing => NOTHING,
    }
}

impl Session {
    pub fn show(&self) -> String {
        let Session { plan, party, legs, extra } = self;
        let (plan, legs) = (hex(plan), hex(legs));
        format!("session (prepare, open, feed each leg, walk, finish): plan {plan}, party {party}, legs {legs}, buffers {extra} longer than needed")
    }

    /// Answers the classes that were met, or where the subject disagrees. A plan that is refused gives an empty session.
    pub fn compare(&self, subject: &dyn Calls) -> Result<Vec<String>, String> {
        let Ok(plan) = read_for(&self.plan, self.party) else { return Ok(vec![]) };
        let Some(k) = look_ahead(&plan) else { return Ok(vec![]) };
        let room = |needed: usize| needed + self.extra;
        let made = table_of(&plan, k);
        let case = Case::prepare(&self.plan, self.party, room(made.len()), letters(plan.n), evidence::NUMBERS);
        let left = expect(subject, case, k as u32, |left| left.write("table", &made))?;
        let table: &[u64] = left.slice("table");

        let opening = Case::open(table, room(record::length(k)), POSITION);
        if size(&plan.starts) == 0 {
            expect(subject, opening, REFUSED + 13, |_| {})?;
            return Ok(vec!["session 13 at opening".to_string()]);
        }
        let (opened, replies, taken) = plain_walk(&plan, k, &self.legs);
        // the record is fixed by the codes taken so far and the last booked stake
        let mut booked = record::NONE;
        let mut write = |left: &mut Call, reply: Reply, so_far: usize| {
            if let Reply::Booked { position, stake } = reply {
                booked = stake as u8;
                left.write("position", &[position as u32]);
            }
            let held = &taken[so_far.saturating_sub(k)..so_far];
            let mut rec = vec![0; record::length(k)];
            record::set_legs(&mut rec, so_far as u32);
            record::set_held(&mut rec, held.len());
            rec[record::BOOKED] = booked;
            rec[record::CODES..][..held.len()].copy_from_slice(held);
            left.write("rec", &rec);
        };
        let mut walk = expect(subject, opening, number(opened), |left| write(left, opened, 0))?;
        let mut so_far = 0;
        for (&leg, &reply) in self.legs.iter().zip(&replies) {
            so_far += !matches!(reply, Reply::Refused(_)) as usize;
            let case = Case::feed(table, walk.slice::<u8>("rec"), leg, POSITION);
            walk = expect(subject, case, number(reply), |left| write(left, reply, so_far))?;
        }

        // the whole walk that the legs taken make, from the definition, and of it what is not booked
        let sets: Vec<u64> = possible(&plan, &plan.starts, &taken).iter().map(|set| to_number(set)).collect();
        expect(subject, Case::walk(table, &taken, room(sets.len()), LENGTH), 0, |left| {
            left.write("length", &[taken.len() as u64]);
            left.write("sets", &sets);
        })?;
        let open = &sets[(taken.len() + 1).saturating_sub(k)..];
        let case = Case::finish(table, walk.slice::<u8>("rec"), room(k));
        expect(subject, case, open.len() as u32, |left| left.write("sets", open))?;

        let mut met = vec![format!("session {}", count_class(k as u32))];
        if replies.iter().any(|reply| matches!(reply, Reply::Booked { .. })) {
            met.push(format!("session with bookings, {}", count_class(k as u32)));
            // W-202
            if least(&plan, &plan.every_set()).is_none() {
                met.push("session with bookings, 15 if every set counted".to_string());
            }
        }
        let refused = (11..=13).filter(|&number| replies.contains(&Reply::Refused(number)));
        met.extend(refused.map(|number| format!("session with refused legs {number}")));
        if self.legs.iter().zip(&replies).any(|(&leg, &reply)| leg > u8::MAX as u32 && reply == Reply::Refused(12)) {
            met.push("session with refused legs above 255".to_string());
        }
        if taken.len() == MAX_LEGS as usize {
            met.push("session of 1,000,000 legs".to_string());
        }
        Ok(met)
    }
}
