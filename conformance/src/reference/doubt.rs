//! W-203: positions in doubt, found by a search over pairs of stakes. No critical set is named here and no k, so that what is found says
//! of a k, worked out from the critical sets that count, whether it is the least. How long a word is that two stakes share is asked as the
//! count asks it; that it is right is seen by whole walks, and word by word on tiny plans (tests/definitions.rs).

use super::lookahead::Pairs;
use super::members;
use super::plan::Plan;

/// A walk and a position of it.
pub type Doubt = (Vec<u8>, usize);

/// "A walk from a start with a position followed by exactly" so many "legs, all on the plan, and at least two possible stakes there"; none
/// if no walk has such a position. Two stakes are possible there exactly if one word leads to both from starts, and one word of so many
/// codes can be walked from both. `choose` picks one of so many ways to go on.
pub fn in_doubt(plan: &Plan, legs: usize, choose: &mut dyn FnMut(usize) -> usize) -> Option<Doubt> {
    let mut pairs = Pairs::new(plan);
    let mut doubts = led_to(plan, &pairs, choose);
    doubts.retain(|&(x, y, _)| x != y && pairs.share(x, y, legs));
    if doubts.is_empty() {
        return None;
    }
    let (mut x, mut y, mut walk) = doubts.swap_remove(choose(doubts.len()));
    let position = walk.len();
    for left in (0..legs).rev() {
        let mut ways = pairs.edges(x, y);
        ways.retain(|&(_, x, y)| pairs.share(x, y, left));
        let code;
        (code, x, y) = ways[choose(ways.len())];
        walk.push(code as u8);
    }
    Some((walk, position))
}

/// Every pair of stakes that one word leads to from starts, the lower stake first, each with such a word: the pairs of starts by the empty
/// word, a start with itself too, and then what a code leads both stakes of a pair on to.
fn led_to(plan: &Plan, pairs: &Pairs, choose: &mut dyn FnMut(usize) -> usize) -> Vec<(usize, usize, Vec<u8>)> {
    let starts = members(&plan.starts);
    let mut seen = vec![false; plan.n * plan.n];
    let mut to_do = Vec::new();
    for &s in &starts {
        for &t in &starts {
            if s <= t {
                seen[s * plan.n + t] = true;
                to_do.push((s, t, vec![]));
            }
        }
    }
    let mut done = Vec::new();
    while !to_do.is_empty() {
        let (s, t, word) = to_do.swap_remove(choose(to_do.len()));
        for (code, x, y) in pairs.edges(s, t) {
            let (x, y) = (x.min(y), x.max(y));
            if !seen[x * plan.n + y] {
                seen[x * plan.n + y] = true;
                to_do.push((x, y, [word.as_slice(), &[code as u8]].concat()));
            }
        }
        done.push((s, t, word));
    }
    done
}
