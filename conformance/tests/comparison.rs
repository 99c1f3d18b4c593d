//! The comparison on seeded random cases: every call of the library, and of plain.rs, against the reference.

mod common;

use conformance::batch::batch;
use conformance::calls::{Calls, CALLS};
use conformance::cases::Case;
use conformance::classes::{classes, has_classes};
use conformance::forms::{evidence, letters, REFUSED};
use conformance::lent::pattern;
use conformance::random::{claims, Random};
use conformance::reference::plan::read_for;
use conformance::shrink::fail;
use conformance::tally::Tally;
use std::time::{Duration, Instant};

fn check(case: &Case, subject: &dyn Calls, tally: &mut Tally, origin: &str) {
    tally.cases += 1;
    match case.compare(subject) {
        Ok(met) => met.iter().for_each(|class| tally.note(class)),
        Err(message) => fail(case, subject, message, origin),
    }
}

/// The evidence that the subject itself gives for a party's sound plan, claims near to it, and the same under other names of its set.
fn own_evidence(plan: &[u8], party: u32, r: &mut Random, subject: &dyn Calls) -> Vec<Case> {
    let Ok(meaning) = read_for(plan, party) else { return vec![] };
    let (mut codes, mut claim) = (pattern(letters(meaning.n)), [0; evidence::NUMBERS]);
    if subject.look_ahead(plan, party, &mut codes, &mut claim) != REFUSED + 15 {
        return vec![];
    }
    codes.truncate((claim[evidence::LEAD_IN] + claim[evidence::LOOP]) as usize);
    let mut claims = claims::near(r, &claim, &codes, meaning.n, meaning.m, 8);
    claims.extend(claims::renamed(r, &meaning, &claim, &codes));
    claims.iter().map(|(claim, letters)| Case::check(plan, party, claim, letters)).collect()
}

fn run(subject: &dyn Calls, seconds: u64, shift: u64) {
    let (seed, only) = (common::seed(), common::number("GAWHERINO_CASE", u64::MAX));
    let end = Instant::now() + Duration::from_secs(seconds);
    let begun = Instant::now();
    let mut tally = Tally::default();
    let mut number = shift;
    // at least so many, however slow the machine is, so that each class is met
    while Instant::now() < end || number - shift < 2500 {
        if only != u64::MAX {
            number = only;
        }
        let origin = format!("GAWHERINO_SEED={seed} GAWHERINO_CASE={number}");
        let mut r = Random::new(seed, number);
        let (plan, party, cases) = batch(&mut r);
        cases.iter().for_each(|case| check(case, subject, &mut tally, &origin));
        own_evidence(&plan, party, &mut r, subject).iter().for_each(|case| check(case, subject, &mut tally, &origin));
        if only != u64::MAX {
            return;
        }
        number += 1;
    }
    let took = begun.elapsed().as_secs_f64();
    tally.print(&format!("{} against the reference, {} plans in {took:.0} s", subject.name(), number - shift));
    tally.demand(&classes());
}

/// A call of the table without classes could be left out of the comparison unseen.
#[test]
fn every_call_has_classes() {
    for call in CALLS {
        assert!(has_classes(call.name), "{} has no classes", call.name);
    }
}

#[test]
fn plain_rust() {
    run(&conformance::plain::Plain, common::seconds() / 4, 0);
}

/// Sessions, waiting, sets together, parties alone and evidence apart, the reference can only agree with itself; sessions hold its record to
/// the plain walk, waiting its count to the possible stakes, sets together their numbers to the count, and parties alone their lines to
/// those of an edition 1 plan.
#[test]
fn the_reference_itself() {
    let seed = common::seed();
    let mut tally = Tally::default();
    for number in 0..2000 {
        for case in batch(&mut Random::new(seed, number)).2 {
            if !matches!(case, Case::Call(_)) {
                check(&case, &conformance::reference::calls::Reference, &mut tally, &format!("GAWHERINO_SEED={seed} case {number}"));
            }
        }
    }
    assert!(tally.cases > 8500, "only {} sessions, waits, sets together and parties alone", tally.cases);
}

/// On two threads at once: "nothing is kept between calls, so that different threads may call at once".
#[cfg(feature = "library")]
#[test]
fn library() {
    use conformance::library::Library;
    std::thread::scope(|scope| {
        let first = scope.spawn(|| run(&Library { null_if_empty: false }, common::seconds(), 0));
        let second = scope.spawn(|| run(&Library { null_if_empty: true }, common::seconds(), 1_000_000));
        for thread in [first, second] {
            if let Err(panic) = thread.join() {
                std::panic::resume_unwind(panic);
            }
        }
    });
}
