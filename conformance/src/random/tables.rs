//! Tables that preparing need not have made, and damage for refusal 8.

use super::plans::{codes, stakes};
use super::Random;
use crate::forms::table::{K, M, N, SETS, STARTS};
use crate::forms::{max_look_ahead, MAX_CODES, MAX_STAKES};

/// Any sets below n, any k up to its bound.
pub fn table(r: &mut Random) -> Vec<u64> {
    let (n, m) = (stakes(r), codes(r));
    let mask = u64::MAX >> (MAX_STAKES - n);
    let bound = max_look_ahead(n);
    let k = match r.below(6) {
        0 => 0,
        1..=3 => r.below(6).min(bound),
        4 => r.below(bound + 1),
        _ => bound,
    };
    let thin = r.pick(&[0, 1, 2, 3, 4, 6]);
    let set = |r: &mut Random| (0..thin).fold(r.next() & mask, |set, _| set & r.next());
    let starts = if r.percent(8) { 0 } else { r.next() & mask };
    let mut table = vec![n as u64, m as u64, k as u64, starts];
    table.extend((0..n * m).map(|_| set(r)));
    table
}

/// Damages a table for 8, or lengthens it by numbers that are not read.
pub fn damage(r: &mut Random, table: &mut Vec<u64>) {
    let n = table[N].clamp(1, MAX_STAKES as u64) as usize;
    // with 64 stakes no bit is too high
    let high_bit = |r: &mut Random| if n < MAX_STAKES { 1u64 << r.among(n, MAX_STAKES - 1) } else { 0 };
    match r.below(12) {
        0 => table.truncate(table.len() - 1),
        1 => table.truncate(r.below(SETS + 1).min(table.len())),
        2 => table[N] = r.pick(&[0, MAX_STAKES as u64 + 1, MAX_STAKES as u64 + 2, 128, u64::MAX, 1 << 32, (1 << 32) + 1, 256]),
        3 => table[M] = r.pick(&[0, MAX_CODES as u64 + 1, 64, u64::MAX, 1 << 32, (1 << 32) + 1, 256]),
        4..=5 => {
            let bound = max_look_ahead(n) as u64;
            table[K] = r.pick(&[bound + 1, bound + 2, (n * n) as u64, 4096, u64::MAX, 1 << 16, 1 << 32]);
        }
        6 => table[STARTS] |= high_bit(r),
        7 => {
            let place = if table.len() > SETS { r.among(SETS, table.len() - 1) } else { STARTS };
            table[place] |= high_bit(r);
        }
        8 => *table.last_mut().expect("has numbers") |= high_bit(r),
        9 => table[N] += (n < MAX_STAKES) as u64,
        10 => table.extend([u64::MAX, 1, 0]),
        _ => {
            let place = r.below(table.len());
            table[place] = r.next();
        }
    }
}
