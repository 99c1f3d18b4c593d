//! A party alone (W-207): "One party's count is that of an edition 1 plan with those lines alone." By one and the same subject: what
//! preparing, the count call, needs and page give for a party, and for an edition 1 plan with the same n, m and starts and that party's
//! lines in any order. Under 15 the choice of evidence is free, and the evidence for each of the two must pass the check on the other.

use crate::calls::Calls;
use crate::cases::{show_reply, Call, Case, Outcome};
use crate::classes::count_class;
use crate::families::Draft;
use crate::forms::{evidence, letters, needs, page, table, LENGTH, REFUSED};
use crate::lent::hex;
use crate::random::{bytes, Random};
use crate::reference::members;
use crate::reference::plan::{read, Read};

#[derive(Clone)]
pub struct Alone {
    pub plan: Vec<u8>,
    pub party: u32,
    /// What the order of the other plan's starts and lines, and its layout, are drawn with.
    pub seed: u64,
}

/// Calls that name a party, each with room for what it writes and more.
fn calls(plan: &[u8], party: u32, n: usize, m: usize) -> [Case; 4] {
    [
        Case::prepare(plan, party, table::length(n, m) + 1, letters(n), evidence::NUMBERS),
        Case::look_ahead(plan, party, letters(n), evidence::NUMBERS),
        Case::needs(plan, party, needs::length(n, m) + 1),
        Case::page(plan, party, page::most(n, m), LENGTH),
    ]
}

/// Whether both gave the same into all that was lent behind the plan and the party.
fn are_equal(its: &Outcome, others: &Outcome) -> bool {
    its.reply == others.reply && its.left.given[2..] == others.left.given[2..]
}

impl Alone {
    pub fn show(&self) -> String {
        let Alone { plan, party, seed } = self;
        format!("alone (prepare, look_ahead, needs, page): plan {}, party {party}, the other plan drawn with {seed:x}", hex(plan))
    }

    /// "an edition 1 plan with those lines alone"
    fn other(&self, read: &Read) -> Vec<u8> {
        let mut r = Random::new(self.seed, 0);
        let mut starts: Vec<u8> = members(&read.starts).iter().map(|&stake| stake as u8).collect();
        let its = read.lines.iter().filter(|line| line[3] as u32 == self.party);
        let mut lines: Vec<_> = its.map(|&[from, code, to, _]| (from, code, to)).collect();
        r.shuffle(&mut starts);
        r.shuffle(&mut lines);
        bytes::layout(&mut r, &Draft { n: read.n, m: read.m, starts, lines })
    }

    /// Answers the classes that were met, or where the two plans differ. A plan that the reference refuses with 1 to 7 or 16 has no other.
    pub fn compare(&self, subject: &dyn Calls) -> Result<Vec<String>, String> {
        let Ok(read) = read(&self.plan) else { return Ok(vec![]) };
        let Ok(plan) = read.of(self.party) else { return Ok(vec![]) };
        let other = self.other(&read);
        let both = calls(&self.plan, self.party, read.n, read.m).into_iter().zip(calls(&other, 0, read.n, read.m));
        let mut replies = Vec::new();
        for (one, of_other) in both {
            let [its, others] = [one, of_other].map(|case| case.call().on(subject));
            let name = its.left.what.name;
            if its.reply == REFUSED + 15 && others.reply == its.reply {
                self.each_by_the_other(&its.left, &others.left, subject).map_err(|found| format!("{name}: {found}"))?;
            } else if !are_equal(&its, &others) {
                let found = others.agree(&its, subject).expect_err("they differ");
                return Err(format!("{name}, the plan of these lines alone {}: {found}", hex(&other)));
            }
            replies.push(its.reply);
        }
        // the drawing entry names 0
        if self.party == 0 && (subject.count(&self.plan), subject.count(&other)) != (replies[0], replies[0]) {
            return Err(format!("the drawing entry gave other than {} for one of the two", show_reply(replies[0])));
        }
        let own = plan.lines.iter().map(Vec::len).sum::<usize>();
        let kind = match own {
            0 if read.e > 0 => "without lines, others with lines",
            _ if own == read.e => "with all lines",
            _ => "with some of the lines",
        };
        let count = if replies[0] == REFUSED + 15 { "15" } else { count_class(replies[0]) };
        Ok(vec![format!("alone {kind}"), format!("alone {count}")])
    }

    /// 15: the evidence for each plan by the check on the other one.
    fn each_by_the_other(&self, its: &Call, others: &Call, subject: &dyn Calls) -> Result<(), String> {
        for (evidence, on) in [(its, others), (others, its)] {
            let (claim, codes): (&[u32], &[u8]) = (evidence.slice("evidence"), evidence.slice("letters"));
            if subject.check(on.slice("plan"), on.party(), claim, codes) != 1 {
                return Err(format!("evidence {} with {} does not pass on {}", hex(claim), hex(codes), hex(on.slice::<u8>("plan"))));
            }
        }
        Ok(())
    }
}
