//! Codes and words over a plan: what they reach, from where they can be walked, whole walks, verdicts, and the plain walk of document 01.

use super::forms::{MOST_LEGS, MOST_STAKES, STARTS};
use super::plan::Plan;
use super::{from_number, members, only, refuse, size, Refusal, Stakes};

/// The stakes that a code leads to from a set.
pub fn step(plan: &Plan, from: &[bool], code: u8) -> Stakes {
    let mut led_to = vec![false; plan.n];
    for &(begin, end) in &plan.lines[code as usize] {
        if from[begin] {
            led_to[end] = true;
        }
    }
    led_to
}

/// W-204, the step from any set: the stakes led to, and the rounds, "exactly as many as the set has members".
pub fn step_from(plan: &Plan, set: u64, code: u32) -> Result<(Stakes, usize), Refusal> {
    if code as usize >= plan.m {
        return refuse(12, if code > 255 { "the code above 255" } else { "the code not below m" });
    }
    if (plan.n..MOST_STAKES).any(|bit| set >> bit & 1 == 1) {
        return refuse(12, "the set's bit n or higher");
    }
    let from = from_number(set, plan.n);
    let led_to = step(plan, &from, code as u8);
    let rounds = size(&from);
    Ok((led_to, rounds))
}

/// The stakes that a word leads to from a set.
pub fn reach(plan: &Plan, from: &[bool], word: &[u8]) -> Stakes {
    word.iter().fold(from.to_vec(), |set, &code| step(plan, &set, code))
}

/// The stakes from which a code can be walked into a set.
fn back(plan: &Plan, into: &[bool], code: u8) -> Stakes {
    let mut from = vec![false; plan.n];
    for &(begin, end) in &plan.lines[code as usize] {
        if into[end] {
            from[begin] = true;
        }
    }
    from
}

/// At each position of a word: the stakes reached from the base by the codes up to there, from which the other codes can be walked.
pub fn possible(plan: &Plan, base: &[bool], word: &[u8]) -> Vec<Stakes> {
    let mut reached = vec![base.to_vec()];
    for &code in word {
        reached.push(step(plan, reached.last().expect("has the base"), code));
    }
    let mut can_go_on = vec![vec![true; plan.n]];
    for &code in word.iter().rev() {
        can_go_on.push(back(plan, can_go_on.last().expect("has all stakes"), code));
    }
    can_go_on.reverse();
    let both = |(reached, can): (Stakes, Stakes)| reached.iter().zip(can).map(|(&is_in, can)| is_in && can).collect();
    reached.into_iter().zip(can_go_on).map(both).collect()
}

/// g: the length of the longest beginning of a word that is on the plan, from a set that is not empty.
pub fn longest_beginning(plan: &Plan, from: &[bool], word: &[u8]) -> usize {
    let mut set = from.to_vec();
    for (g, &code) in word.iter().enumerate() {
        set = step(plan, &set, code);
        if size(&set) == 0 {
            return g;
        }
    }
    word.len()
}

/// A whole walk: g and the possible stakes at 0 to g.
pub fn whole_walk(plan: &Plan, word: &[u8]) -> Result<Vec<Stakes>, Refusal> {
    if word.iter().any(|&code| code as usize >= plan.m) {
        return refuse(12, "a code of the walk not below m");
    }
    if size(&plan.starts) == 0 {
        return refuse(13, "no starts");
    }
    let g = longest_beginning(plan, &plan.starts, word);
    Ok(possible(plan, &plan.starts, &word[..g]))
}

/// A verdict: the stakes of the set that can walk the word, whether it is a minimal selector, and for which stakes it is a maximal
/// nonselector.
#[derive(Debug, PartialEq, Eq)]
pub struct Verdict {
    pub can_walk: Stakes,
    pub is_minimal_selector: bool,
    pub maximal_nonselector: Stakes,
}

pub fn verdict(plan: &Plan, stake: u32, code: u32, word: &[u8]) -> Result<Verdict, Refusal> {
    // W-202: "Verdicts may still name any set."
    let Some(set) = plan.named(stake, code) else {
        return refuse(12, if stake == STARTS.0 { "255 with a code other than 0" } else { "the set's name off the plan" });
    };
    if word.iter().any(|&code| code as usize >= plan.m) {
        return refuse(12, "a code of the word not below m");
    }
    // the set of t in T with w in R(t)
    let walkers =
        |word: &[u8]| -> Stakes { (0..plan.n).map(|t| set[t] && longest_beginning(plan, &only(plan.n, t), word) == word.len()).collect() };
    let can_walk = walkers(word);
    // that set has one member and no shorter prefix of w has that
    let is_minimal_selector = size(&can_walk) == 1 && (0..word.len()).all(|length| size(&walkers(&word[..length])) != 1);
    // w in R(t) and in another R of T, and no longer word beginning with w in R(t)
    let goes_no_further = |t: usize| {
        let ends = reach(plan, &only(plan.n, t), word);
        (0..plan.m).all(|code| size(&step(plan, &ends, code as u8)) == 0)
    };
    let maximal_nonselector = (0..plan.n).map(|t| can_walk[t] && size(&can_walk) >= 2 && goes_no_further(t)).collect();
    Ok(Verdict { can_walk, is_minimal_selector, maximal_nonselector })
}

/// What opening or a leg replies.
#[derive(Clone, Copy, Debug, PartialEq, Eq)]
pub enum Reply {
    Refused(u32),
    Booked { position: usize, stake: usize },
    Nothing,
}

/// Walks of up to so many legs are walked again at each leg.
const SHORT_WALK: usize = 40;

/// The plain walk of document 01 on a plan with starts, its k and the codes offered: what opening and each leg reply, and the codes taken.
pub fn plain_walk(plan: &Plan, k: usize, offered: &[u32]) -> (Reply, Vec<Reply>, Vec<u8>) {
    let opening = if k == 0 { Reply::Booked { position: 0, stake: members(&plan.starts)[0] } } else { Reply::Nothing };
    let mut taken: Vec<u8> = Vec::new();
    let mut reached = plan.starts.clone();
    let mut replies = Vec::new();
    let mut bookings = Vec::new();
    for &code in offered {
        if taken.len() == MOST_LEGS {
            replies.push(Reply::Refused(11));
            continue;
        }
        if code as usize >= plan.m {
            replies.push(Reply::Refused(12));
            continue;
        }
        // no start can walk the codes taken and then this one
        let code = code as u8;
        let further = step(plan, &reached, code);
        if size(&further) == 0 {
            replies.push(Reply::Refused(13));
            continue;
        }
        reached = further;
        taken.push(code);
        if taken.len() < k {
            replies.push(Reply::Nothing);
            continue;
        }
        let position = taken.len() - k;
        // Its one possible stake in the walk of the codes taken so far. For long walks it is filled in below from all codes taken, since
        // "later legs never change that stake".
        let stake = if taken.len() <= SHORT_WALK { the_one(&possible(plan, &plan.starts, &taken)[position]) } else { usize::MAX };
        bookings.push(replies.len());
        replies.push(Reply::Booked { position, stake });
    }
    if !bookings.is_empty() {
        let sets = possible(plan, &plan.starts, &taken);
        for place in bookings {
            if let Reply::Booked { position, stake } = &mut replies[place] {
                let one = the_one(&sets[*position]);
                assert!(*stake == usize::MAX || *stake == one, "a later leg changed the stake at {position}");
                *stake = one;
            }
        }
    }
    (opening, replies, taken)
}

fn the_one(set: &[bool]) -> usize {
    assert_eq!(size(set), 1, "a position that is followed by k legs has one possible stake");
    members(set)[0]
}
