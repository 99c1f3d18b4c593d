//! The cases that come from one seed: a plan, and for it every call on sound and on damaged input, with buffers that fit, are longer
//! than needed, or are short by one.

use crate::alone::Alone;
use crate::cases::Case;
use crate::families::{AnyLine, Draft};
use crate::forms::plan::{form_length, length, number, M, N};
use crate::forms::{evidence, letters, max_look_ahead, needs, page, record, table};
use crate::forms::{COUNTS, LENGTH, NEXT, POSITION, REFUSED, STARTS, VERDICT};
use crate::random::{bytes, claims, parties, plans, records, tables, walks, Random};
use crate::reference::lookahead::look_ahead;
use crate::reference::page::page as page_of;
use crate::reference::plan::{read_for, Plan};
use crate::reference::record::{feed, Record};
use crate::reference::table::{plan_of, table_of};
use crate::reference::{claim, size};
use crate::session::Session;
use crate::together::Together;
use crate::waiting::Waiting;

/// A length to lend where `needed` would do: mostly that or more, sometimes one less, rarely none.
fn lend(r: &mut Random, needed: usize) -> usize {
    match r.below(24) {
        0 => needed.saturating_sub(1),
        1 if needed > 0 => r.below(needed),
        2..=12 => needed,
        _ => needed + r.below(5),
    }
}

/// Every call on plan bytes for a party, with room for the plan that was drawn, whose bytes may have been damaged since; rarely with none.
fn plan_calls(r: &mut Random, plan: &[u8], party: u32, drawn: &[u8]) -> Vec<Case> {
    let [n, m] = [N, M].map(|place| number(drawn, place));
    let is_lent = !r.percent(10);
    let mut lend = |needed| if is_lent { lend(r, needed) } else { 0 };
    vec![
        Case::read(plan, lend(COUNTS)),
        Case::prepare(plan, party, lend(table::length(n, m)), lend(letters(n)), lend(evidence::NUMBERS)),
        Case::look_ahead(plan, party, lend(letters(n)), lend(evidence::NUMBERS)),
        Case::count(plan),
        Case::check(plan, party, [STARTS, 0, 0, 1, 0, 1].as_slice(), [0u8].as_slice()),
        Case::write(plan, lend(form_length(drawn))),
        Case::needs(plan, party, lend(needs::length(n, m))),
        Case::page(plan, party, lend(page::most(n, m)), lend(LENGTH)),
    ]
}

/// Writing the plan that was drawn, now and then a full one, in either edition.
fn written(r: &mut Random, drawn: &Draft) -> Vec<Case> {
    let plan = if r.percent(2) { plans::full(r) } else { drawn.clone() };
    if r.percent(50) {
        return written_of(r, plan);
    }
    let (plan, _) = parties::among_others(r, &plan);
    written_of(r, plan)
}

/// In any order and layout, into buffers around the written form's length and the plan's own.
fn written_of<L: AnyLine>(r: &mut Random, mut plan: Draft<L>) -> Vec<Case> {
    let needed = length(L::EDITION, plan.starts.len(), plan.lines.len());
    let mut cases = Vec::new();
    for _ in 0..3 {
        match r.below(4) {
            0 => plan.starts.sort(),
            1 => r.shuffle(&mut plan.starts),
            _ => {}
        }
        match r.below(6) {
            0 => plan.lines.sort(),
            1 => r.shuffle(&mut plan.lines),
            // the party first, or left out
            2 => plan.lines.sort_by_key(|line| (line.to_bytes().get(3).copied(), *line)),
            3 => {
                r.shuffle(&mut plan.lines);
                plan.lines.sort_by_key(|line| line.walked());
            }
            _ => {}
        }
        let bytes = bytes::layout(r, &plan);
        let any = r.below(needed + 20);
        let more = needed + r.below(20);
        cases.push(Case::write(&bytes, r.pick(&[needed - 1, needed, needed, more, more, bytes.len(), bytes.len() - 1, any, 0])));
    }
    cases
}

/// The numbers of the sets of the plan that was drawn, now and then among 64 stakes and 32 codes, into buffers around what they need.
fn needed(r: &mut Random, drawn: &Draft) -> Vec<Case> {
    let plan = if r.percent(3) { plans::widened(r, drawn) } else { drawn.clone() };
    let needed = needs::length(plan.n, plan.m);
    let (bytes, party) = bytes::in_an_edition(r, &plan);
    let mut cases = Vec::new();
    for _ in 0..2 {
        let any = r.below(needed);
        let more = needed + r.among(1, 20);
        cases.push(Case::needs(&bytes, party, r.pick(&[needed - 1, needed, needed, more, more, any, 0])));
    }
    cases
}

/// A page, into buffers around what it needs; an empty one needs nothing. If the reference refuses the plan, let the comparison tell.
fn paged(r: &mut Random, drawn: &Draft) -> Vec<Case> {
    let plan = plans::to_page(r, drawn);
    let (bytes, party) = bytes::in_an_edition(r, &plan);
    let needed = read_for(&bytes, party).map_or(0, |plan| page_of(&plan).len());
    let mut cases = Vec::new();
    for _ in 0..2 {
        let any = r.below(needed + 1);
        let more = needed + r.among(1, 100);
        let room = r.pick(&[needed.saturating_sub(1), needed, needed, more, more, any, 0]);
        cases.push(Case::page(&bytes, party, room, lend(r, LENGTH)));
    }
    cases
}

/// The name of a critical set, whether it counts or not, mostly one of several stakes, sometimes off the plan.
fn set_name(r: &mut Random, plan: &Plan) -> (u32, u32) {
    let (stake, code) = (r.below(plan.n) as u32, r.below(plan.m) as u32);
    let (n, m) = (plan.n as u32, plan.m as u32);
    if r.percent(10) {
        let stray = [(STARTS, 0), (STARTS, 1), (n, code), (stake, m), (256, 0), (511, 0), (u32::MAX, 0), (stake, 256)];
        return r.pick(&[stray.as_slice(), &[(STARTS, u32::MAX), (STARTS, 256)]].concat());
    }
    if r.percent(20) {
        return (stake, code);
    }
    let mut sets = plan.every_set();
    if r.percent(85) && sets.iter().any(|(_, set)| size(set) > 1) {
        sets.retain(|(_, set)| size(set) > 1);
    }
    r.pick(&sets).0
}

/// Every call on a table, with words that can mostly be walked, and a record that may be damaged or lent longer or short.
fn table_calls(r: &mut Random, table: &[u64], plan: &Plan, k: usize) -> Vec<Case> {
    let length = r.pick(&[0, 1, 2, 5, 10, 20, 40]);
    let word = walks::word(r, plan, &plan.starts, length);
    let mut cases = vec![
        Case::walk(table, &word, lend(r, word.len() + 1), lend(r, LENGTH)),
        Case::open(table, lend(r, record::length(k)), lend(r, POSITION)),
    ];
    for _ in 0..2 {
        let set = walks::set(r, plan);
        let code = if r.percent(10) { walks::stray_code(r, plan.m) } else { r.below(plan.m) as u32 };
        cases.push(Case::step(table, set, code, lend(r, NEXT)));
    }
    for _ in 0..2 {
        let (state, letter) = set_name(r, plan);
        let set = plan.named(state, letter).unwrap_or(plan.starts.clone());
        let length = r.pick(&[0, 0, 1, 1, 2, 2, 3, 4, k.min(12), k.saturating_sub(1).min(12), 20]);
        let mut word = walks::word(r, plan, &set, length);
        if r.percent(5) {
            word.push(r.pick(&[plan.m as u8, 255]));
        }
        cases.push(Case::judge(table, state, letter, &word, lend(r, VERDICT)));
    }
    cases.extend(record_calls(r, table, plan, k));
    cases
}

/// Legs and an ending on one record.
fn record_calls(r: &mut Random, table: &[u64], plan: &Plan, k: usize) -> Vec<Case> {
    let mut rec = records::record(r, plan, k);
    if r.percent(35) {
        records::damage(r, &mut rec, k, plan.n, plan.m);
    }
    let length = lend(r, rec.len());
    rec.extend(r.bytes(8));
    rec.truncate(length);
    let (any, last) = (r.below(plan.m), plan.m - 1);
    let mut legs = vec![if r.percent(15) { walks::stray_code(r, plan.m) } else { r.pick(&[any, last]) as u32 }];
    // the leg that can be walked behind the held codes, if the record is sound, and one that is refused with 14
    if rec.len() >= record::length(k) {
        let held = Record::from_bytes(&rec, k);
        legs.extend((0..plan.m as u32).find(|&code| feed(plan, k, &held, code).is_ok()));
        legs.extend((0..plan.m as u32).find(|&code| feed(plan, k, &held, code).is_err_and(|refusal| refusal.number == 14)));
    }
    let mut cases = vec![Case::finish(table, &rec, lend(r, k))];
    cases.extend(legs.into_iter().map(|leg| Case::feed(table, &rec, leg, lend(r, POSITION))));
    cases
}

/// Demand 3 with legs around k, so that some are booked; long counts are costly and come less often.
fn session(r: &mut Random, bytes: &[u8], party: u32, plan: &Plan, k: usize) -> Case {
    let length = match r.below(6) {
        _ if k > 100 && r.percent(70) => r.below(40),
        0 => r.below(8),
        1..=4 => k + r.below(30),
        _ => 2 * k + r.below(120),
    };
    let legs = walks::legs(r, plan, length);
    Case::Session(Session { plan: bytes.to_vec(), party, legs: walks::offered(r, &legs, plan.m), extra: r.below(4) })
}

/// How long the plan lets wait (W-203), with long walks of a few legs more than k or of many.
fn waiting(r: &mut Random, bytes: &[u8], party: u32) -> Case {
    let many = r.below(300);
    Case::Waiting(Waiting { plan: bytes.to_vec(), party, seed: r.next(), beyond: r.pick(&[0, 1, 5, 20, 60, many]) })
}

/// All cases of one seed, and the sound plan bytes that they begin with, with the party whose plan it is.
pub fn batch(r: &mut Random) -> (Vec<u8>, u32, Vec<Case>) {
    let draft = plans::plan(r);
    let (bytes, party) = bytes::in_an_edition(r, &draft);
    let (n, m) = (draft.n, draft.m);
    let mut cases = plan_calls(r, &bytes, party, &bytes);
    // the generator draws plans that pass 1 to 7 and 16; if the reference refuses one, let the comparison tell
    let Ok(plan) = read_for(&bytes, party) else { return (bytes, party, cases) };
    let k = look_ahead(&plan);
    // damaged bytes: one refusal aimed at, sometimes more than one
    for _ in 0..10 {
        let mut damaged = bytes.clone();
        bytes::damage(r, &mut damaged, 1);
        while r.percent(30) {
            bytes::damage(r, &mut damaged, 2);
        }
        let named = if r.percent(15) { parties::other(r) } else { party };
        let calls = plan_calls(r, &damaged, named, &bytes);
        cases.push(r.pick(&calls));
    }
    // sound bytes, and another number named
    for _ in 0..4 {
        let named = parties::other(r);
        let mut calls = plan_calls(r, &bytes, named, &bytes);
        calls.retain(|case| case.call().what.takes("party"));
        cases.push(r.pick(&calls));
    }
    cases.extend(written(r, &draft));
    cases.extend(needed(r, &draft));
    cases.extend(paged(r, &draft));
    cases.push(Case::Together(Together { plan: bytes.clone(), party }));
    let any_party = parties::party(r);
    cases.extend([party, any_party].map(|party| Case::Alone(Alone { plan: bytes.clone(), party, seed: r.next() })));
    // claims: true ones with others near to them, those that would be true if every set counted, and any
    let mut claims = vec![claims::any(r, &plan), claims::any(r, &plan)];
    if let Some((evidence, codes)) = claim::example(&plan, &mut |ways| r.below(ways)) {
        claims.extend(claims::near(r, &evidence, &codes, n, m, 12));
    }
    if let Some((evidence, codes)) = claim::example_of(&plan, &plan.every_set(), &mut |ways| r.below(ways)) {
        claims.extend(claims::renamed(r, &plan, &evidence, &codes));
    }
    cases.extend(claims.iter().map(|(claim, letters)| Case::check(&bytes, party, claim, letters)));
    let (claim, letters) = r.pick(&claims);
    cases.push(Case::check(&bytes, any_party, &claim, &letters));
    // the prepared plan
    if let Some(k) = k {
        let table = table_of(&plan, k);
        cases.extend(table_calls(r, &table, &plan, k));
        cases.extend(record_calls(r, &table, &plan, k));
        cases.push(session(r, &bytes, party, &plan, k));
    }
    cases.push(waiting(r, &bytes, party));
    // a table that preparing need not have made: the plan with another k, or any
    let other = match r.below(3) {
        0 => 0,
        1 => k.unwrap_or(r.below(4)).saturating_sub(1),
        _ => r.below(8),
    };
    let table = if r.percent(40) { tables::table(r) } else { table_of(&plan, other.min(max_look_ahead(n))) };
    // as with plans: the generator draws tables that pass 8
    let Ok((plan, k)) = plan_of(&table) else {
        cases.push(Case::open(&table, record::length(max_look_ahead(n)), POSITION));
        return (bytes, party, cases);
    };
    if k < 300 || r.percent(10) {
        cases.extend(table_calls(r, &table, &plan, k));
    }
    let mut damaged = table;
    tables::damage(r, &mut damaged);
    let calls = table_calls(r, &damaged, &plan, k);
    cases.push(r.pick(&calls));
    let (low, any) = (r.below(20) as u32, r.next() as u32);
    cases.push(Case::group(r.pick(&[low, 256 + low, REFUSED + low, any])));
    (bytes, party, cases)
}
