//! All sets together (W-205): the numbers of the critical sets say what the count call says, by one and the same subject. "If no entry is
//! 65,535, the plan's k is the largest of the entries other than 65,534, or 0 if there is no such entry"; if one is, the count call refuses
//! with 15, and the set that its evidence names is such a one.

use crate::calls::Calls;
use crate::cases::show_reply;
use crate::classes::count_class;
use crate::forms::{evidence, letters, needs, REFUSED, STARTS};
use crate::lent::{hex, pattern};
use crate::reference::lookahead::{entry, largest};
use crate::reference::plan::{read_for, Plan};

#[derive(Clone)]
pub struct Together {
    pub plan: Vec<u8>,
    pub party: u32,
}

impl Together {
    pub fn show(&self) -> String {
        format!("together (needs and the count call): plan {}, party {}", hex(&self.plan), self.party)
    }

    /// Answers the classes that were met, or what does not fit together. A plan that the reference refuses with 1 to 7 or 16 has no
    /// numbers.
    pub fn compare(&self, subject: &dyn Calls) -> Result<Vec<String>, String> {
        let Ok(plan) = read_for(&self.plan, self.party) else { return Ok(vec![]) };
        let mut numbers: Vec<u16> = pattern(needs::length(plan.n, plan.m));
        let written = subject.needs(&self.plan, self.party, &mut numbers);
        if written as usize != numbers.len() {
            return Err(format!("needs by {} gave {} for {} numbers", subject.name(), show_reply(written), numbers.len()));
        }
        let mut claim = [0; evidence::NUMBERS];
        let count = subject.look_ahead(&self.plan, self.party, &mut pattern(letters(plan.n)), &mut claim);
        let met = match (largest(&numbers), count.checked_sub(REFUSED)) {
            (Some(k), None) if k == count as usize => {
                let is_none = numbers.iter().all(|&number| number == needs::UNMEASURED);
                Ok(vec![if is_none { "k 0, no number" } else { count_class(count) }])
            }
            (None, Some(15)) => without_count(&plan, &numbers, (claim[0], claim[1])),
            (k, _) => Err(format!("the numbers give {}", k.map_or("none".to_string(), |k| format!("k {k}")))),
        };
        let gave = |found| format!("the count call by {} gave {}; {found}: {}", subject.name(), show_reply(count), hex(&numbers));
        met.map_err(gave).map(|met| met.iter().map(|class| format!("together {class}")).collect())
    }
}

/// 15: the number of the set that the evidence names.
fn without_count(plan: &Plan, numbers: &[u16], name: (u32, u32)) -> Result<Vec<&'static str>, String> {
    if plan.named(name.0, name.1).is_none() {
        return Err(format!("the evidence names {name:?}, which is off the plan"));
    }
    if numbers.get(entry(name, plan.m)) != Some(&needs::ENDLESS) {
        return Err(format!("the evidence names {name:?}, whose number is not 65,535"));
    }
    let endless = numbers.iter().filter(|&&number| number == needs::ENDLESS).count();
    let named = if name.0 == STARTS { "15, the starts named" } else { "15, a fork named" };
    Ok(vec![named, if endless == 1 { "15 by one set alone" } else { "15 by several sets" }])
}
