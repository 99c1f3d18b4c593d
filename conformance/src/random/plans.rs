//! Plans that pass 1 to 7, of many sizes and densities, as drafts.

use super::Random;
use crate::families::{all_pairs, draft, ladder, odometer, odometer_from, theorem_5, unary_chain, Draft, Line};
use crate::forms::{MAX_CODES, MAX_LINES, MAX_STAKES};

/// How many stakes: mostly few, so that every shape is met, and sometimes all 64.
pub fn stakes(r: &mut Random) -> usize {
    match r.below(20) {
        0..=7 => r.among(1, 5),
        8..=14 => r.among(4, 12),
        15..=17 => r.among(10, 40),
        18 => r.among(33, MAX_STAKES),
        _ => MAX_STAKES,
    }
}

pub fn codes(r: &mut Random) -> usize {
    match r.below(10) {
        0..=1 => 1,
        2..=4 => 2,
        5..=7 => r.among(2, 6),
        8 => r.among(5, 20),
        _ => r.among(20, MAX_CODES),
    }
}

fn some_starts(r: &mut Random, n: usize, most: usize) -> Vec<u8> {
    let mut all: Vec<u8> = (0..n as u8).collect();
    r.shuffle(&mut all);
    all.truncate(most.min(n));
    all
}

/// Up to `wanted` different lines, each made by `make`.
fn different(r: &mut Random, wanted: usize, mut make: impl FnMut(&mut Random) -> Option<Line>) -> Vec<Line> {
    let mut seen = std::collections::HashSet::new();
    let mut lines = Vec::new();
    for _ in 0..2 * wanted {
        if lines.len() == wanted.min(MAX_LINES) {
            break;
        }
        if let Some(line) = make(r) {
            if seen.insert(line) {
                lines.push(line);
            }
        }
    }
    lines
}

/// Any lines at all, from none to many out of each stake by each code.
fn anything(r: &mut Random) -> Draft {
    let (n, m) = (stakes(r), codes(r));
    let per_cent = r.pick(&[10, 30, 50, 70, 90, 110, 130, 200, 400]);
    let wanted = (n * m * per_cent / 100).max(r.below(3)).min(n * m * n);
    let lines = different(r, wanted, |r| Some((r.below(n) as u8, r.below(m) as u8, r.below(n) as u8)));
    let starts = r.pick(&[0, 1, 1, 1, 1, 2, 2, 3, 5, MAX_STAKES]);
    let starts = some_starts(r, n, starts);
    Draft { n, m, starts, lines }
}

/// Lines lead on to later stakes only, so that a k always exists.
fn downhill(r: &mut Random) -> Draft {
    let (n, m) = (stakes(r).max(2), codes(r));
    let reach = r.pick(&[1, 2, 3, 5, 10, MAX_STAKES - 1]);
    let wanted = n * r.among(1, m.min(6)) * r.pick(&[1, 1, 2, 3]);
    let lines = different(r, wanted, |r| {
        let from = r.below(n - 1);
        Some((from as u8, r.below(m) as u8, r.among(from + 1, (from + reach).min(n - 1)) as u8))
    });
    let starts = r.among(1, 4);
    let starts = some_starts(r, n.min(4), starts);
    Draft { n, m, starts, lines }
}

/// One line out of each stake by each code at most, then a few forks whose other branch dies out.
fn forks_that_die(r: &mut Random) -> Draft {
    let (n, m) = (stakes(r).max(4), codes(r));
    let body = r.among(2, n - 1);
    let mut lines = Vec::new();
    for from in 0..body {
        for code in 0..m {
            if r.percent(70) {
                lines.push((from as u8, code as u8, r.below(body) as u8));
            }
        }
    }
    // stakes from `body` on form chains that lead to later ones
    for from in body..n - 1 {
        for code in 0..m {
            if r.percent(50) {
                lines.push((from as u8, code as u8, r.among(from + 1, n - 1) as u8));
            }
        }
    }
    for _ in 0..r.below(4) {
        let line = (r.below(body) as u8, r.below(m) as u8, r.among(body, n - 1) as u8);
        if !lines.contains(&line) {
            lines.push(line);
        }
    }
    lines.truncate(MAX_LINES);
    Draft { n, m, starts: some_starts(r, body, 1), lines }
}

/// Theorem 5's construction over a random sequence of pairs, whole or cut short, sometimes with a chain of stakes behind it.
fn pair_sequence(r: &mut Random) -> Draft {
    let n = r.among(1, 8);
    let mut pairs = all_pairs(n as u8);
    r.shuffle(&mut pairs);
    for pair in &mut pairs {
        if r.percent(50) {
            *pair = (pair.1, pair.0);
        }
    }
    if r.percent(40) && !pairs.is_empty() {
        pairs.truncate(r.among(1, pairs.len()));
    }
    theorem_5(n, &pairs)
}

fn counters(r: &mut Random) -> Draft {
    match r.below(12) {
        0..=5 => odometer(r.among(1, 5), r.among(1, 5)),
        6..=10 => odometer(r.among(2, 12), r.among(4, 14)),
        _ => odometer(r.among(2, 32), r.among(2, 32)),
    }
}

/// Codes that permute the stakes: shared words never end, and loops may exchange the two stakes.
fn permutations(r: &mut Random) -> Draft {
    let (n, m) = (r.among(2, 9), r.among(1, 3));
    let mut lines = Vec::new();
    for code in 0..m {
        let mut to: Vec<u8> = (0..n as u8).collect();
        r.shuffle(&mut to);
        lines.extend((0..n).map(|from| (from as u8, code as u8, to[from])).filter(|_| r.percent(92)));
    }
    let count = r.among(1, 3);
    Draft { n, m, starts: some_starts(r, n, count), lines }
}

/// Every plan of up to 3 stakes and 2 codes is likely to come up.
fn tiny(r: &mut Random) -> Draft {
    let (n, m) = (r.among(1, 3), r.among(1, 2));
    let mut lines = Vec::new();
    let chance = r.pick(&[15, 30, 50, 50, 90]);
    for from in 0..n {
        for code in 0..m {
            for to in 0..n {
                if r.percent(chance) {
                    lines.push((from as u8, code as u8, to as u8));
                }
            }
        }
    }
    let starts = (0..n as u8).filter(|_| r.percent(chance.max(50))).collect();
    Draft { n, m, starts, lines }
}

/// Full size: 64 stakes, many codes, up to 4,096 lines.
fn large(r: &mut Random) -> Draft {
    let m = r.among(1, MAX_CODES);
    let wanted = r.pick(&[64, 500, 2000, MAX_LINES]);
    let downhill = r.percent(60);
    let lines = different(r, wanted, |r| {
        let (a, b) = (r.below(MAX_STAKES), r.below(MAX_STAKES));
        if downhill && a >= b {
            return None;
        }
        Some((a as u8, r.below(m) as u8, b as u8))
    });
    let starts = r.pick(&[0, 1, 2, MAX_STAKES]);
    Draft { n: MAX_STAKES, m, starts: some_starts(r, MAX_STAKES, starts), lines }
}

/// A plan of the greatest size: 64 starts and 4,096 lines.
pub fn full(r: &mut Random) -> Draft {
    let m = r.among(1, MAX_CODES);
    let mut lines: Vec<Line> = Vec::new();
    for from in 0..MAX_STAKES as u8 {
        for code in 0..m as u8 {
            lines.extend((0..MAX_STAKES as u8).map(|to| (from, code, to)));
        }
    }
    r.shuffle(&mut lines);
    lines.truncate(MAX_LINES);
    Draft { n: MAX_STAKES, m, starts: some_starts(r, MAX_STAKES, MAX_STAKES), lines }
}

/// The plan among 64 stakes and 32 codes, with the last fork, if there is room, behind one of its starts.
pub fn widened(r: &mut Random, plan: &Draft) -> Draft {
    let mut plan = Draft { n: MAX_STAKES, m: MAX_CODES, ..plan.clone() };
    let (last, code) = (MAX_STAKES as u8 - 1, MAX_CODES as u8 - 1);
    if !plan.starts.is_empty() {
        let start = r.pick(&plan.starts);
        add(&mut plan, (start, r.below(MAX_CODES) as u8, last));
    }
    for _ in 0..r.among(1, 3) {
        add(&mut plan, (last, code, r.below(MAX_STAKES) as u8));
    }
    plan
}

/// A plan for a page: mostly the one that was drawn, or that with sets as wide as a bar or wider; counters with needs of any length; one
/// among 64 stakes and 32 codes, or one of that size with a line for every set.
pub fn to_page(r: &mut Random, plan: &Draft) -> Draft {
    match r.below(100) {
        0..=1 => every_set(r),
        2..=3 => widened(r, plan),
        4..=6 => counting(r),
        7..=30 => with_wide_sets(r, plan),
        _ => plan.clone(),
    }
}

/// The plan with a few sets, forks of starts mostly or the starts themselves, that have about as many stakes as a bar has hash signs.
fn with_wide_sets(r: &mut Random, plan: &Draft) -> Draft {
    let mut plan = plan.clone();
    for _ in 0..r.among(1, 3) {
        let size = r.pick(&[1, 2, 21, 22, 22, 23, 23, 24, 24, 25, 40, MAX_STAKES - 1, MAX_STAKES]);
        plan.n = plan.n.max(size);
        let stakes = some_starts(r, plan.n, size);
        if r.percent(30) {
            plan.starts = stakes;
            continue;
        }
        let any = r.below(plan.n) as u8;
        let from = if plan.starts.is_empty() || r.percent(20) { any } else { r.pick(&plan.starts) };
        let code = r.below(plan.m) as u8;
        plan.lines.retain(|line| (line.0, line.1) != (from, code));
        stakes.into_iter().for_each(|to| add(&mut plan, (from, code, to)));
    }
    plan
}

/// Two counters with forks to anywhere in their count, its beginning above all, so that needs of one to four digits stand side by side.
fn counting(r: &mut Random) -> Draft {
    let (i, j) = r.pick(&[(32, 32), (32, 32), (11, 12), (4, 9)]);
    let places: Vec<(usize, usize)> = (0..i).map(|_| (if r.percent(30) { 0 } else { r.below(i) }, r.below(j))).collect();
    odometer_from(i, j, &places)
}

/// 64 stakes and 32 codes, lines from each stake by each code, and all are reached: no set is without a line on the page.
fn every_set(r: &mut Random) -> Draft {
    let mut plan = draft(MAX_STAKES, MAX_CODES, &[0], &[]);
    for from in 0..MAX_STAKES {
        for code in 0..MAX_CODES {
            let to = if code == 0 { (from + 1) % MAX_STAKES } else { r.below(MAX_STAKES) };
            plan.lines.push((from as u8, code as u8, to as u8));
        }
    }
    for _ in 0..r.pick(&[0, 1, 20, 500]) {
        add(&mut plan, (r.below(MAX_STAKES) as u8, r.below(MAX_CODES) as u8, r.below(MAX_STAKES) as u8));
    }
    plan
}

/// Adds a line if it is a new one and there is room.
fn add(plan: &mut Draft, line: Line) {
    if plan.lines.len() < MAX_LINES && !plan.lines.contains(&line) {
        plan.lines.push(line);
    }
}

/// Abandoned stakes beside the plan: lines among themselves and into it, none back. Some of their forks go on for ever, and some lead to
/// the very stakes of a fork of the plan, or to its starts.
fn abandon(r: &mut Random, plan: &mut Draft) {
    let (old, lines) = (plan.n, plan.lines.clone());
    let most = r.pick(&[1, 2, 3, 6, MAX_STAKES]).min(MAX_STAKES - old);
    plan.n += r.among(most.min(1), most);
    for from in old..plan.n {
        for _ in 0..r.among(1, 3) {
            let code = r.below(plan.m) as u8;
            let (from, to) = (from as u8, r.below(plan.n) as u8);
            match r.below(5) {
                0 if !lines.is_empty() => {
                    let of = r.pick(&lines);
                    let fork = lines.iter().filter(|line| (line.0, line.1) == (of.0, of.1));
                    fork.for_each(|line| add(plan, (from, code, line.2)));
                }
                1 => plan.starts.clone().into_iter().for_each(|start| add(plan, (from, code, start))),
                2 => {
                    let other = r.among(old, plan.n - 1) as u8;
                    [(from, code, from), (from, code, other), (other, code, other)].into_iter().for_each(|line| add(plan, line));
                }
                _ => add(plan, (from, code, to)),
            }
        }
    }
}

/// A chain of stakes before the plan: it begins at the only start, and its last one forks to what were the plan's starts. Mostly whole,
/// else without one of its lines, so that all behind the gap is abandoned.
fn behind_a_chain(r: &mut Random, plan: &mut Draft) {
    let room = MAX_STAKES - plan.n;
    if room == 0 {
        return;
    }
    let length = r.pick(&[1, 2, 4, room / 2, room]).clamp(1, room);
    let gap = r.percent(40).then(|| r.below(length));
    for step in (0..length).filter(|&step| Some(step) != gap) {
        let (from, code) = ((plan.n + step) as u8, r.below(plan.m) as u8);
        let led_to = if step + 1 < length { vec![from + 1] } else { plan.starts.clone() };
        led_to.into_iter().for_each(|to| add(plan, (from, code, to)));
    }
    plan.starts = vec![plan.n as u8];
    plan.n += length;
}

/// The stakes under other numbers, and the lines in another order.
fn renumber(r: &mut Random, plan: &mut Draft) {
    let mut name: Vec<u8> = (0..plan.n as u8).collect();
    r.shuffle(&mut name);
    plan.starts.iter_mut().for_each(|s| *s = name[*s as usize]);
    plan.lines.iter_mut().for_each(|line| *line = (name[line.0 as usize], line.1, name[line.2 as usize]));
    r.shuffle(&mut plan.starts);
    r.shuffle(&mut plan.lines);
}

/// A plan that passes 1 to 7.
pub fn plan(r: &mut Random) -> Draft {
    let mut plan = match r.below(100) {
        0..=19 => anything(r),
        20..=39 => downhill(r),
        40..=54 => forks_that_die(r),
        55..=62 => pair_sequence(r),
        63..=74 => counters(r),
        75..=80 => permutations(r),
        81..=92 => tiny(r),
        93..=94 => unary_chain(r.among(2, MAX_STAKES)),
        95..=97 => ladder(r.among(1, 31), r.among(1, 3)),
        98 => large(r),
        _ => draft(r.among(1, MAX_STAKES), r.among(1, MAX_CODES), &[], &[]),
    };
    // stakes that no walk from a start reaches, or only a long one; sometimes by other starts, or none
    match r.below(100) {
        0..=19 => abandon(r, &mut plan),
        20..=27 => behind_a_chain(r, &mut plan),
        28..=29 => {
            abandon(r, &mut plan);
            behind_a_chain(r, &mut plan);
        }
        30..=36 => {
            let starts = r.pick(&[0, 1, 1, 1, 2]);
            plan.starts = some_starts(r, plan.n, starts);
        }
        _ => {}
    }
    // near the border: a line more or less, another start, room for more stakes and codes
    if r.percent(25) && plan.lines.len() < MAX_LINES {
        let line = (r.below(plan.n) as u8, r.below(plan.m) as u8, r.below(plan.n) as u8);
        if !plan.lines.contains(&line) {
            plan.lines.push(line);
        }
    }
    if r.percent(15) && !plan.lines.is_empty() {
        plan.lines.swap_remove(r.below(plan.lines.len()));
    }
    if r.percent(8) {
        let s = r.below(plan.n) as u8;
        if !plan.starts.contains(&s) {
            plan.starts.push(s);
        }
    }
    if r.percent(15) {
        plan.n = r.pick(&[plan.n + 1, plan.n + 2, MAX_STAKES]).min(MAX_STAKES);
    }
    if r.percent(15) {
        plan.m = r.pick(&[plan.m + 1, MAX_CODES]).min(MAX_CODES);
    }
    if r.percent(70) {
        renumber(r, &mut plan);
    }
    plan
}
