//! The prepared plan: its numbers from a plan, refusal 8, and the plan that its numbers mean.

use super::forms::{bound, table_length, MOST_CODES, MOST_STAKES, SETS};
use super::plan::Plan;
use super::{from_number, refuse, to_number, Refusal};

/// "n, m, k, the starts, then at 4 + stake × m + code the set of stakes led to."
pub fn table_of(plan: &Plan, k: usize) -> Vec<u64> {
    let mut table = vec![plan.n as u64, plan.m as u64, k as u64, to_number(&plan.starts)];
    for stake in 0..plan.n {
        for code in 0..plan.m {
            table.push(to_number(&plan.fork(stake, code)));
        }
    }
    table
}

/// The plan and the k that a table holds, or 8. Numbers past its form are not read.
pub fn plan_of(table: &[u64]) -> Result<(Plan, usize), Refusal> {
    let &[n, m, k, starts, ..] = table else {
        return refuse(8, "fewer than 4 numbers");
    };
    if !(1..=MOST_STAKES as u64).contains(&n) {
        return refuse(8, "n out of range");
    }
    if !(1..=MOST_CODES as u64).contains(&m) {
        return refuse(8, "m out of range");
    }
    let (n, m) = (n as usize, m as usize);
    if table.len() < table_length(n, m) {
        return refuse(8, "shorter than its form needs");
    }
    if k > bound(n) as u64 {
        return refuse(8, "k above n(n-1)/2");
    }
    let has_high_bit = |set: u64| n < MOST_STAKES && set >> n != 0;
    if has_high_bit(starts) {
        return refuse(8, "a start's bit n or higher");
    }
    if table[SETS..table_length(n, m)].iter().any(|&set| has_high_bit(set)) {
        return refuse(8, "a set's bit n or higher");
    }
    let mut lines = vec![Vec::new(); m];
    for from in 0..n {
        for (code, list) in lines.iter_mut().enumerate() {
            let set = table[SETS + from * m + code];
            if set != 0 {
                let led_to = from_number(set, n);
                list.extend((0..n).filter(|&to| led_to[to]).map(|to| (from, to)));
            }
        }
    }
    Ok((Plan { n, m, starts: from_number(starts, n), lines }, k as usize))
}
