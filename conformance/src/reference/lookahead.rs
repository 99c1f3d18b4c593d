//! The count, of a plan and of each critical set by itself: the longest word that two stakes share is a longest path over the graph of
//! pairs, and endless if a loop can be reached.

use super::forms::{HAS_NONE, NOT_COUNTED, STARTS};
use super::plan::{Name, Plan};
use super::{members, size, Stakes};

/// How long the longest word is that two stakes share.
#[derive(Clone, Copy, Debug, PartialEq, Eq)]
pub enum Shared {
    Codes(usize),
    Endless,
}

#[derive(Clone, Copy)]
enum Mark {
    New,
    Begun,
    Known(Shared),
}

/// The graph of ordered pairs of stakes: an edge for each code that leads both on. The two stakes may meet and then go on as one.
pub struct Pairs {
    n: usize,
    m: usize,
    /// at stake × m + code: the stakes led to
    next: Vec<Vec<usize>>,
    marks: Vec<Mark>,
}

impl Pairs {
    pub fn new(plan: &Plan) -> Pairs {
        let mut next = vec![Vec::new(); plan.n * plan.m];
        for code in 0..plan.m {
            for &(from, to) in &plan.lines[code] {
                next[from * plan.m + code].push(to);
            }
        }
        Pairs { n: plan.n, m: plan.m, next, marks: vec![Mark::New; plan.n * plan.n] }
    }

    /// The edges out of a pair: code and next pair.
    pub fn edges(&self, s: usize, t: usize) -> Vec<(usize, usize, usize)> {
        let mut edges = Vec::new();
        for code in 0..self.m {
            for &x in &self.next[s * self.m + code] {
                for &y in &self.next[t * self.m + code] {
                    edges.push((code, x, y));
                }
            }
        }
        edges
    }

    /// The longest word that both stakes can walk. A pair that is met again while it is being looked at lies on a loop.
    pub fn longest(&mut self, s: usize, t: usize) -> Shared {
        match self.marks[s * self.n + t] {
            Mark::Known(shared) => return shared,
            Mark::Begun => return Shared::Endless,
            Mark::New => self.marks[s * self.n + t] = Mark::Begun,
        }
        let mut longest = Shared::Codes(0);
        'codes: for code in 0..self.m {
            for i in 0..self.next[s * self.m + code].len() {
                for j in 0..self.next[t * self.m + code].len() {
                    let (x, y) = (self.next[s * self.m + code][i], self.next[t * self.m + code][j]);
                    match (longest, self.longest(x, y)) {
                        (_, Shared::Endless) => {
                            longest = Shared::Endless;
                            break 'codes;
                        }
                        (Shared::Codes(known), Shared::Codes(rest)) => longest = Shared::Codes(known.max(rest + 1)),
                        (Shared::Endless, _) => unreachable!("left above"),
                    }
                }
            }
        }
        self.marks[s * self.n + t] = Mark::Known(longest);
        longest
    }

    /// Whether both stakes can walk one word of so many codes: the beginnings of a shared word are shared.
    pub fn share(&mut self, s: usize, t: usize, codes: usize) -> bool {
        match self.longest(s, t) {
            Shared::Endless => true,
            Shared::Codes(longest) => longest >= codes,
        }
    }
}

/// k: the least number for which no two different stakes of one critical set share a word of k codes; none if there is no such number.
/// W-202: "The count and refusal 15, with its evidence, use the critical sets so narrowed".
pub fn look_ahead(plan: &Plan) -> Option<usize> {
    least(plan, &plan.critical_sets())
}

/// The same with any sets in the place of the critical sets that count.
pub fn least(plan: &Plan, sets: &[(Name, Stakes)]) -> Option<usize> {
    let mut pairs = Pairs::new(plan);
    let mut k = 0;
    for (_, set) in sets {
        k = k.max(need(&mut pairs, set)?);
    }
    Some(k)
}

/// W-205: "A set's number is the least k for which no two of its different stakes share a word of k codes"; none if there is no such k.
fn need(pairs: &mut Pairs, set: &[bool]) -> Option<usize> {
    let stakes = members(set);
    let mut k = 0;
    for &s in &stakes {
        for &t in &stakes {
            if s < t {
                match pairs.longest(s, t) {
                    Shared::Endless => return None,
                    // the longest shared word has k-1 codes
                    Shared::Codes(longest) => k = k.max(longest + 1),
                }
            }
        }
    }
    Some(k)
}

/// W-205: "the look-ahead of each critical set by itself: first the starts, then stake by stake and code by code, n × m + 1 numbers".
pub fn needs(plan: &Plan) -> Vec<u16> {
    let reached = plan.reached();
    // each set, and whether it counts by W-202
    let mut sets = vec![(plan.starts.clone(), true)];
    for stake in 0..plan.n {
        for code in 0..plan.m {
            sets.push((plan.fork(stake, code), reached[stake]));
        }
    }
    let mut pairs = Pairs::new(plan);
    let mut numbers = Vec::new();
    for (set, counts) in sets {
        // "65,535 means that this set has none, 65,534 that it is empty or doesn't count by W-202"
        if size(&set) == 0 || !counts {
            numbers.push(NOT_COUNTED);
            continue;
        }
        numbers.push(match need(&mut pairs, &set) {
            Some(k) => k as u16,
            None => HAS_NONE,
        });
    }
    numbers
}

/// Where the number of the set of this name stands, if the plan has m codes: first the starts', then stake by stake and code by code.
pub fn entry((stake, code): Name, m: usize) -> usize {
    if (stake, code) == STARTS {
        return 0;
    }
    1 + stake as usize * m + code as usize
}

/// W-205: "If no entry is 65,535, the plan's k is the largest of the entries other than 65,534, or 0 if there is no such entry"; else none.
pub fn largest(numbers: &[u16]) -> Option<usize> {
    if numbers.contains(&HAS_NONE) {
        return None;
    }
    let others = numbers.iter().filter(|&&number| number != NOT_COUNTED);
    Some(others.max().map_or(0, |&k| k as usize))
}
