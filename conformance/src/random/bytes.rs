//! Plan bytes: layouts of a plan in either edition, and damage for each of the refusals 1 to 7 and 16.

use super::{parties, Random};
use crate::families::{AnyLine, Draft};
use crate::forms::plan::{header, length, line, number, set_number, E, EDITION, HEADER, LINES_AT, M, N, P, STARTS_AT, TOTAL};
use crate::forms::{MAX_CODES, MAX_LINES, MAX_STAKES, PARTIES};

/// The plan's bytes, and the party for which they mean it: in edition 1, more often than not, or in edition 2 with lines of others among
/// its own.
pub fn in_an_edition(r: &mut Random, plan: &Draft) -> (Vec<u8>, u32) {
    if r.percent(52) {
        return (layout(r, plan), 0);
    }
    let (plan, party) = parties::among_others(r, plan);
    (layout(r, &plan), party)
}

/// Plan bytes in a random layout: the parts in either order, with gaps of any bytes, an empty part anywhere.
pub fn layout<L: AnyLine>(r: &mut Random, plan: &Draft<L>) -> Vec<u8> {
    if r.percent(30) {
        return plan.bytes();
    }
    let (p, e) = (plan.starts.len(), plan.lines.len());
    let mut gaps = [0; 3];
    for gap in &mut gaps {
        *gap = if r.percent(50) { 0 } else { r.below(9) };
    }
    let total = length(L::EDITION, p, e) + gaps.iter().sum::<usize>();
    let (first, all_lines) = (HEADER + gaps[0], line(L::EDITION) * e);
    let (mut starts_at, mut lines_at) = if r.percent(50) { (first, first + p + gaps[1]) } else { (first + all_lines + gaps[1], first) };
    if p == 0 && r.percent(60) {
        starts_at = r.among(HEADER, total);
    }
    if e == 0 && r.percent(60) {
        lines_at = r.among(HEADER, total);
    }
    let mut bytes = r.bytes(total);
    bytes[..HEADER].copy_from_slice(&header([L::EDITION, plan.n, plan.m, p, e, starts_at, lines_at, total]));
    plan.put_parts(&mut bytes, starts_at, lines_at);
    bytes
}

/// Damages plan bytes, which may be damaged already, so that one of the refusals from `first` to 7, or 16, is likely, or in any place.
pub fn damage(r: &mut Random, bytes: &mut Vec<u8>, first: usize) {
    if bytes.len() < HEADER {
        return;
    }
    let [edition, n, m, p, e, starts_at, lines_at, total] =
        [EDITION, N, M, P, E, STARTS_AT, LINES_AT, TOTAL].map(|place| number(bytes, place));
    let width = line(edition);
    let (starts_end, lines_end) = (starts_at + p, lines_at + width * e);
    // two lines of those that there are: the first and the last, neighbours, or any
    let two = |r: &mut Random| match r.below(3) {
        0 => (0, e - 1),
        1 => {
            let a = r.below(e - 1);
            (a, a + 1)
        }
        _ => (r.below(e), r.below(e)),
    };
    match r.among(first, 10) {
        1 => match r.below(5) {
            0 => bytes.truncate(r.below(HEADER)),
            1 => bytes.truncate(bytes.len() - 1),
            2 => bytes.push(r.next() as u8),
            3 => bytes.truncate(r.among(HEADER, bytes.len())),
            _ => set_number(bytes, TOTAL, r.pick(&[total + 1, total.wrapping_sub(1), 0, HEADER, total + 256, r.clone().below(65536)])),
        },
        // of another edition, too: then the lines have another width
        2 => set_number(bytes, EDITION, r.pick(&[0, 0, 3, 3, 256, 257, 258, 512, 65535, 1, 2])),
        3 => {
            let (place, wrong) = match r.below(4) {
                0 => (N, r.pick(&[0, MAX_STAKES + 1, MAX_STAKES + 2, 256, 256 + MAX_STAKES, 65535])),
                1 => (M, r.pick(&[0, MAX_CODES + 1, MAX_CODES + 2, 256, 256 + MAX_CODES, 65535])),
                2 => (P, r.pick(&[n + 1, n + 2, MAX_STAKES + 1, 256, 65535])),
                _ => (E, r.pick(&[MAX_LINES + 1, MAX_LINES + 2, 2 * MAX_LINES, 65535])),
            };
            set_number(bytes, place, wrong);
        }
        4 => {
            let before = HEADER - 1;
            let (place, wrong) = match r.below(5) {
                0 => {
                    let across = [lines_end.wrapping_sub(1), lines_at.wrapping_sub(p.saturating_sub(1))];
                    (STARTS_AT, r.pick(&[before, 0, before - 1, lines_at, across[0], across[1], lines_end]))
                }
                1 => {
                    let across = [starts_end.wrapping_sub(1), starts_at.wrapping_sub((width * e).saturating_sub(1))];
                    (LINES_AT, r.pick(&[before, 0, before - 1, starts_at, across[0], across[1]]))
                }
                2 => (STARTS_AT, r.pick(&[total + 1, (total + 1).wrapping_sub(p), total, 65535, 65535 - p + 1])),
                3 => (LINES_AT, r.pick(&[total + 1, (total + 1).wrapping_sub(width * e), total, 65535, 65536 - (width * e).min(65535)])),
                // where it would be right if a line had three bytes
                _ => r.pick(&[
                    (LINES_AT, total.wrapping_sub(3 * e)),
                    (LINES_AT, starts_at.wrapping_sub(3 * e)),
                    (STARTS_AT, lines_at + 3 * e),
                    (STARTS_AT, lines_end.wrapping_sub(p)),
                ]),
            };
            set_number(bytes, place, wrong);
        }
        5 if p > 0 && starts_end <= bytes.len() => {
            let place = starts_at + r.below(p);
            bytes[place] = match r.below(4) {
                0 => n as u8,
                1 => r.pick(&[n as u8, (n + 1) as u8, MAX_STAKES as u8, 128, 255]),
                _ => bytes[starts_at + r.below(p)],
            };
        }
        6 if e > 0 && lines_end <= bytes.len() => {
            let part = r.below(3);
            let place = lines_at + width * r.below(e) + part;
            let limit = if part == 1 { m } else { n };
            bytes[place] = r.pick(&[limit as u8, (limit + 1) as u8, MAX_STAKES as u8, 255]);
        }
        7 if e > 1 && lines_end <= bytes.len() => {
            let (a, b) = two(r);
            let from = lines_at + width * a;
            bytes.copy_within(from..from + width, lines_at + width * b);
        }
        // the party of a line
        8 if e > 0 && edition == 2 && lines_end <= bytes.len() => {
            let line = r.pick(&[0, e - 1, r.clone().below(e)]);
            bytes[lines_at + width * line + 3] = parties::too_high(r);
        }
        // a line again, with another party or the same, that are none or one of them is: 7 is for equal lines alone
        9 if e > 1 && edition == 2 && lines_end <= bytes.len() => {
            let (a, b) = two(r);
            let from = lines_at + width * a;
            if r.percent(80) {
                bytes[from + 3] = parties::too_high(r);
            }
            bytes.copy_within(from..from + width, lines_at + width * b);
            let party = bytes[from + 3];
            let low = r.below(PARTIES as usize) as u8;
            bytes[lines_at + width * b + 3] = r.pick(&[party, party, party.wrapping_add(8), party ^ 16, party % 8, low]);
        }
        _ => {
            let place = r.below(bytes.len());
            bytes[place] = r.pick(&[0, 1, 255, r.clone().next() as u8, bytes[place].wrapping_add(1), bytes[place].wrapping_sub(1)]);
        }
    }
}
