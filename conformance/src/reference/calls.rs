//! The reference behind the C interface: the header's rules for lent slices, and what is written into them.

use super::forms::{evidence_length, record_length, table_length, COUNTS, EVIDENCE, NOTHING, REFUSED, VERDICT};
use super::plan::{Plan, Read};
use super::record::{Booking, Record};
use super::table::{plan_of, table_of};
use super::{claim, lookahead, page as pages, plan, record, refuse, to_number, walk as walks, Refusal, Stakes};
use crate::calls::{by_functions, every_call};
use std::cell::Cell;

thread_local! {
    static WHY: Cell<&'static str> = const { Cell::new("") };
}

/// The reference. Which evidence is given under 15 is free: it writes the first that it finds, and no comparison asks for the same.
pub struct Reference;

/// Which part of its sentence applied, if the last call of this thread was refused.
pub fn why() -> &'static str {
    WHY.get()
}

fn answer(result: Result<u32, Refusal>) -> u32 {
    WHY.set(result.as_ref().map_or_else(|refusal| refusal.why, |_| ""));
    result.unwrap_or_else(|refusal| REFUSED + refusal.number)
}

every_call!(by_functions Reference "reference" answer);

/// 9, if fewer are lent than are needed.
fn lent<T>(slice: &[T], needed: usize, why: &'static str) -> Result<(), Refusal> {
    if slice.len() < needed {
        return refuse(9, why);
    }
    Ok(())
}

/// Writes the beginning of a slice that is long enough.
fn put<T: Copy>(slice: &mut [T], beginning: &[T]) {
    slice[..beginning.len()].copy_from_slice(beginning);
}

fn numbers(sets: &[Stakes]) -> Vec<u64> {
    sets.iter().map(|set| to_number(set)).collect()
}

fn read(plan: &[u8], counts: &mut [u32]) -> Result<u32, Refusal> {
    let Read { n, m, p, e, .. } = plan::read(plan)?;
    lent(counts, COUNTS, "counts")?;
    put(counts, &[m as u32, p as u32, e as u32]);
    Ok(n as u32)
}

/// What preparing and the count call have in common behind 1 to 7 and 16: 9, then k, or 15 with its evidence.
fn counted(plan: &Plan, letters: &mut [u8], evidence: &mut [u32]) -> Result<usize, Refusal> {
    lent(letters, evidence_length(plan.n), "letters")?;
    lent(evidence, EVIDENCE, "evidence")?;
    if let Some(k) = lookahead::look_ahead(plan) {
        return Ok(k);
    }
    let (claim, codes) = claim::example(plan, &mut |_| 0).expect("there is no k");
    put(evidence, &claim);
    put(letters, &codes);
    refuse(15, "no k")
}

fn prepare(plan: &[u8], party: u32, table: &mut [u64], letters: &mut [u8], evidence: &mut [u32]) -> Result<u32, Refusal> {
    let plan = plan::read_for(plan, party)?;
    lent(table, table_length(plan.n, plan.m), "table")?;
    let k = counted(&plan, letters, evidence)?;
    put(table, &table_of(&plan, k));
    Ok(k as u32)
}

fn look_ahead(plan: &[u8], party: u32, letters: &mut [u8], evidence: &mut [u32]) -> Result<u32, Refusal> {
    Ok(counted(&plan::read_for(plan, party)?, letters, evidence)? as u32)
}

/// W-207: "the drawing program's entry" names 0.
fn count(plan: &[u8]) -> Result<u32, Refusal> {
    match lookahead::look_ahead(&plan::read_for(plan, 0)?) {
        Some(k) => Ok(k as u32),
        None => refuse(15, "no k"),
    }
}

fn check(plan: &[u8], party: u32, claim: &[u32], letters: &[u8]) -> Result<u32, Refusal> {
    Ok(claim::holds(&plan::read_for(plan, party)?, claim, letters) as u32)
}

fn write(plan: &[u8], out: &mut [u8]) -> Result<u32, Refusal> {
    let form = plan::one_form(&plan::read(plan)?);
    lent(out, form.len(), "out")?;
    put(out, &form);
    Ok(form.len() as u32)
}

fn needs(plan: &[u8], party: u32, needs: &mut [u16]) -> Result<u32, Refusal> {
    let numbers = lookahead::needs(&plan::read_for(plan, party)?);
    lent(needs, numbers.len(), "needs")?;
    put(needs, &numbers);
    Ok(numbers.len() as u32)
}

/// W-206: "A short buffer is refused with 9." How many bytes a page has may be above 65,535, and so it stands in a slice, as a whole
/// walk's length does.
fn page(plan: &[u8], party: u32, page: &mut [u8], length: &mut [u64]) -> Result<u32, Refusal> {
    let text = pages::page(&plan::read_for(plan, party)?);
    lent(page, text.len(), "page")?;
    lent(length, 1, "length")?;
    put(page, text.as_bytes());
    put(length, &[text.len() as u64]);
    Ok(0)
}

fn step(table: &[u64], set: u64, letter: u32, next: &mut [u64]) -> Result<u32, Refusal> {
    let (plan, _) = plan_of(table)?;
    lent(next, 1, "next")?;
    let (led_to, rounds) = walks::step_from(&plan, set, letter)?;
    put(next, &[to_number(&led_to)]);
    Ok(rounds as u32)
}

fn walk(table: &[u64], word: &[u8], sets: &mut [u64], length: &mut [u64]) -> Result<u32, Refusal> {
    let (plan, _) = plan_of(table)?;
    lent(sets, word.len() + 1, "sets")?;
    lent(length, 1, "length")?;
    let walk = walks::whole_walk(&plan, word)?;
    put(length, &[walk.len() as u64 - 1]);
    put(sets, &numbers(&walk));
    Ok(0)
}

fn judge(table: &[u64], state: u32, letter: u32, word: &[u8], sets: &mut [u64]) -> Result<u32, Refusal> {
    let (plan, _) = plan_of(table)?;
    lent(sets, VERDICT, "sets")?;
    let verdict = walks::verdict(&plan, state, letter, word)?;
    put(sets, &numbers(&[verdict.can_walk, verdict.maximal_nonselector]));
    Ok(verdict.is_minimal_selector as u32)
}

/// What opening and a leg write and answer.
fn booked((booking, record): (Booking, Record), rec: &mut [u8], position: &mut [u32]) -> u32 {
    put(rec, &record.to_bytes());
    let Some((place, stake)) = booking else { return NOTHING };
    put(position, &[place as u32]);
    stake as u32
}

fn open(table: &[u64], rec: &mut [u8], position: &mut [u32]) -> Result<u32, Refusal> {
    let (plan, k) = plan_of(table)?;
    lent(rec, record_length(k), "record")?;
    lent(position, 1, "position")?;
    Ok(booked(record::open(&plan, k)?, rec, position))
}

fn feed(table: &[u64], rec: &mut [u8], letter: u32, position: &mut [u32]) -> Result<u32, Refusal> {
    let (plan, k) = plan_of(table)?;
    lent(rec, record_length(k), "record")?;
    lent(position, 1, "position")?;
    let fed = record::feed(&plan, k, &Record::from_bytes(rec, k), letter)?;
    Ok(booked(fed, rec, position))
}

fn finish(table: &[u64], rec: &[u8], sets: &mut [u64]) -> Result<u32, Refusal> {
    let (plan, k) = plan_of(table)?;
    lent(rec, record_length(k), "record")?;
    lent(sets, k, "sets")?;
    let open = record::finish(&plan, k, &Record::from_bytes(rec, k))?;
    put(sets, &numbers(&open));
    Ok(open.len() as u32)
}

fn group(refusal: u32) -> Result<u32, Refusal> {
    Ok(super::group(refusal))
}
