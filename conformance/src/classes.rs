//! The classes of replies: which one a call's outcome is of, and all that a run must meet, since a comparison that never met a case proves
//! nothing about it.

use crate::calls::CALLS;
use crate::cases::{Call, Outcome};
use crate::forms::plan::{form_length, line, number, set_number, E, EDITION, EDITIONS, HEADER, LINES_AT, M, N, P, STARTS_AT, TOTAL};
use crate::forms::record::{legs, BOOKED};
use crate::forms::{max_look_ahead, needs, page, table, GROUPS, MAX_CODES, MAX_LINES, MAX_STAKES, NOTHING, PARTIES, REFUSED, STARTS};
use crate::lent::{Given, Kind};
use crate::reference::claim::{holds, holds_of_any_set};
use crate::reference::lookahead::{least, look_ahead, needs as needs_of};
use crate::reference::plan::{read, read_for, Line, Name, Plan, Read};
use crate::reference::table::plan_of;
use crate::reference::{size, Stakes};
use std::ops::RangeInclusive;

/// The class of a count.
pub fn count_class(k: u32) -> &'static str {
    match k {
        0 => "k 0",
        1 => "k 1",
        2 => "k 2",
        3..=8 => "k 3 to 8",
        9..=64 => "k 9 to 64",
        _ => "k above 64",
    }
}

/// The classes of what the reference gave for a call: that of the reply, and those of what the call was given.
pub fn met(call: &Call, outcome: &Outcome, why: &str) -> Vec<String> {
    let name = call.what.name;
    let further = match (name, outcome.reply.checked_sub(REFUSED)) {
        ("write", None) => to_write(call.slice("plan"), outcome.left.slice::<u8>("out").len()),
        ("write", Some(9)) => too_short(form_length(call.slice("plan")), outcome.left.slice::<u8>("out").len()),
        ("needs", None) => numbered(&plan_given(call), outcome.left.slice("needs"), outcome.reply as usize),
        ("needs", Some(9)) => too_short(numbers_of(call.slice("plan")), outcome.left.slice::<u16>("needs").len()),
        ("page", None) => paged(&plan_given(call), outcome.left.slice::<u8>("page").len()),
        ("page", Some(9)) if why == "page" => too_short(page_of(&plan_given(call)), outcome.left.slice::<u8>("page").len()),
        ("prepare" | "look_ahead" | "count", None | Some(15)) => narrowed(&plan_given(call), outcome.reply),
        ("check", None) => claimed(&plan_given(call), call.slice("claim"), call.slice("letters")),
        ("step", None) => stepped(call, outcome.left.slice("next")[0]),
        ("step", Some(12)) => off_the_plan(call),
        ("judge", None) => judged(call),
        ("feed" | "finish", None | Some(14)) => based(call, outcome.reply),
        _ => vec![],
    };
    let further = further.into_iter().map(String::from).chain(of_parties(call, outcome, why));
    let mut met = vec![class(outcome, why)];
    met.extend(further.map(|class| format!("{name} {class}")));
    met
}

/// The class of one edition.
fn in_edition(edition: usize, class: &str) -> String {
    format!("edition {edition}: {class}")
}

/// The classes, and each of them as one of the plan's edition, if there is a plan and it has one.
pub fn in_its_edition(met: Vec<String>, plan: Option<&[u8]>) -> Vec<String> {
    let edition = plan.filter(|plan| plan.len() >= HEADER).map(|plan| number(plan, EDITION));
    match edition.filter(|edition| EDITIONS.contains(edition)) {
        Some(edition) => met.into_iter().flat_map(|class| [in_edition(edition, &class), class]).collect(),
        None => met,
    }
}

/// Of a list of classes those that apply.
fn applying(classes: &[(&'static str, bool)]) -> Vec<&'static str> {
    classes.iter().filter(|class| class.1).map(|class| class.0).collect()
}

/// Of a plan that was written: in which ways it was not in its one form, and how much was lent.
fn to_write(plan: &[u8], lent: usize) -> Vec<&'static str> {
    let [edition, p, e, starts_at, lines_at, total] = [EDITION, P, E, STARTS_AT, LINES_AT, TOTAL].map(|place| number(plan, place));
    let (starts_end, lines_end) = (starts_at + p, lines_at + line(edition) * e);
    let lines: Vec<&[u8]> = plan[lines_at..lines_end].chunks(line(edition)).collect();
    let (both, form) = (p > 0 && e > 0, form_length(plan));
    applying(&[
        ("starts out of order", !plan[starts_at..starts_end].is_sorted()),
        ("lines out of order", !lines.is_sorted()),
        ("lines before the starts", both && lines_at < starts_at),
        ("a gap before the parts", both && starts_at.min(lines_at) > HEADER),
        ("a gap between the parts", both && starts_at.max(lines_at) > starts_end.min(lines_end)),
        ("a gap behind the parts", both && total > starts_end.max(lines_end)),
        ("no starts", p == 0 && e > 0),
        ("no lines", p > 0 && e == 0),
        ("neither starts nor lines", p == 0 && e == 0),
        ("64 starts", p == MAX_STAKES),
        ("4,096 lines", e == MAX_LINES),
        ("lines out of order by their parties alone", !lines.is_sorted() && lines.is_sorted_by_key(|line| &line[..3])),
        ("lines by party first", !lines.is_sorted() && lines.is_sorted_by_key(|line| (&line[3..], *line))),
        ("room for the form alone", lent == form),
        ("more room", lent > form),
        ("less room than the plan has bytes", lent < total),
    ])
}

/// How many numbers the sets of a plan have.
fn numbers_of(plan: &[u8]) -> usize {
    needs::length(number(plan, N), number(plan, M))
}

/// A set that has a line on a page: its place among the numbers, its name, number and size.
struct PageLine {
    place: usize,
    name: Name,
    need: u16,
    stakes: usize,
}

/// The lines of a plan's page, in their order.
fn lines_of(plan: &Plan) -> Vec<PageLine> {
    let numbers = needs_of(plan);
    let line = |(name, set): (Name, Stakes)| {
        let place = if name.0 == STARTS { needs::STARTS } else { needs::FORKS + name.0 as usize * plan.m + name.1 as usize };
        PageLine { place, name, need: numbers[place], stakes: size(&set) }
    };
    plan.every_set().into_iter().map(line).filter(|line| line.need != needs::UNMEASURED).collect()
}

/// How many bytes the page of a plan has.
fn page_of(plan: &Plan) -> usize {
    page::LINE * lines_of(plan).len()
}

/// Of a plan that was refused with 9 where its form, its numbers or its page were to be written: by how much.
fn too_short(needed: usize, lent: usize) -> Vec<&'static str> {
    applying(&[("9: short by one", lent + 1 == needed), ("9: nothing lent", lent == 0)])
}

/// The plan, for the party that is named, of bytes that were not refused with 1 to 7 or 16.
fn plan_given(call: &Call) -> Plan {
    read_for(call.slice("plan"), call.party()).expect("passes 1 to 7 and 16")
}

/// W-207, of a call on plan bytes: the parties of lines and the one that is named, beside what the reply is.
fn of_parties(call: &Call, outcome: &Outcome, why: &str) -> Vec<String> {
    let Some(plan) = call.plan().filter(|plan| plan.len() >= HEADER) else { return vec![] };
    let refusal = outcome.reply.checked_sub(REFUSED);
    let met = match refusal {
        None | Some(9 | 15) => by_parties(call, outcome, &read(plan).expect("passes 1 to 7 and 16")),
        Some(2) => applying(&[("2: edition 0", number(plan, EDITION) == 0), ("2: edition 3", number(plan, EDITION) == 3)]),
        Some(4) => misplaced(plan, why),
        Some(6 | 7) => beside_a_party(plan, refusal == Some(7)),
        Some(16) => of_no_party(call, plan),
        _ => vec![],
    };
    let further = match refusal {
        None => Some(for_party(call.party())),
        Some(number @ 1..=7) if call.party() >= PARTIES => Some(beside_no_party(number)),
        _ => None,
    };
    met.into_iter().map(String::from).chain(further).collect()
}

fn for_party(party: u32) -> String {
    format!("for party {party}")
}

/// A refusal that comes before 16, though the party that is named is none.
fn beside_no_party(number: u32) -> String {
    format!("{number}: beside a party that is none")
}

/// The lines of a plan whose part of them is in its place, with their parties.
fn lines_in(plan: &[u8]) -> Vec<Line> {
    let (width, at) = (line(number(plan, EDITION)), number(plan, LINES_AT));
    let with_party = |line: &[u8]| [line[0], line[1], line[2], line.get(3).copied().unwrap_or(0)];
    plan[at..at + width * number(plan, E)].chunks(width).map(with_party).collect()
}

fn is_no_party(line: &Line) -> bool {
    line[3] as u32 >= PARTIES
}

/// Lines that agree with another one in so many bytes.
fn agreeing(lines: &[Line], bytes: usize) -> Vec<Line> {
    let mut lines = lines.to_vec();
    lines.sort();
    lines.windows(2).filter(|pair| pair[0][..bytes] == pair[1][..bytes]).map(|pair| pair[1]).collect()
}

/// Of a plan that passes 16: which parties have lines, and what those of others would have made of the reply.
fn by_parties(call: &Call, outcome: &Outcome, read: &Read) -> Vec<&'static str> {
    let has_lines: Vec<u32> = (0..PARTIES).filter(|&party| read.lines.iter().any(|line| line[3] as u32 == party)).collect();
    let own = read.lines.iter().filter(|line| line[3] as u32 == call.party()).count();
    let mut met = applying(&[
        ("lines that differ in the party alone", !agreeing(&read.lines, 3).is_empty()),
        ("lines of every party", has_lines.len() == PARTIES as usize),
        ("a party without lines, others with lines", own == 0 && read.e > 0),
        ("lines of the party and of others", own > 0 && own < read.e),
        ("4,096 lines", read.e == MAX_LINES),
    ]);
    let others = || has_lines.iter().filter(|&&party| party != call.party()).map(|&party| read.of(party).expect("a party's plan"));
    match (call.what.name, outcome.reply) {
        // not for many lines: it takes its time
        ("prepare" | "look_ahead" | "count", reply) if read.e < 500 && reply != REFUSED + 9 => {
            let k = (reply < REFUSED).then_some(reply as usize);
            let mut all = read.of(call.party()).expect("the named party's");
            others().for_each(|other| all.lines.iter_mut().zip(other.lines).for_each(|(lines, more)| lines.extend(more)));
            met.extend(applying(&[
                ("k, but 15 for another party", k.is_some() && others().any(|other| look_ahead(&other).is_none())),
                ("15, but k for another party", k.is_none() && others().any(|other| look_ahead(&other).is_some())),
                ("k, but 15 by all lines", k.is_some() && look_ahead(&all).is_none()),
                ("k, but another by all lines", k.is_some() && look_ahead(&all).is_some_and(|all| Some(all) != k)),
            ]));
        }
        ("check", said) => {
            let otherwise = others().any(|other| holds(&other, call.slice("claim"), call.slice("letters")) as u32 != said);
            met.extend(applying(&[
                ("yes, but no for another party", said == 1 && otherwise),
                ("no, but yes for another party", said == 0 && otherwise),
            ]));
        }
        _ => {}
    }
    met
}

/// Of a plan of edition 2 that is refused with 4: whether it would be if its lines had three bytes.
fn misplaced(plan: &[u8], why: &str) -> Vec<&'static str> {
    let mut narrow = plan.to_vec();
    set_number(&mut narrow, EDITION, 1);
    let is_placed = number(plan, EDITION) == 2 && !read(&narrow).is_err_and(|refusal| refusal.number <= 4);
    applying(&[
        ("4: lines past the total, but not if of three bytes", is_placed && why == "lines past the total"),
        ("4: parts overlap, but not if lines had three bytes", is_placed && why == "parts overlap"),
    ])
}

/// Of a plan that is refused with 6 or 7, while some line's party is above 7.
fn beside_a_party(plan: &[u8], is_twice: bool) -> Vec<&'static str> {
    let lines = lines_in(plan);
    let (high, twice) = (lines.iter().any(is_no_party), agreeing(&lines, 4));
    applying(&[
        ("6: beside a party above 7", !is_twice && high),
        ("7: of a party above 7", is_twice && twice.iter().all(is_no_party)),
        ("7: beside a party above 7", is_twice && high && !twice.iter().any(is_no_party)),
    ])
}

/// Of a call that is refused with 16: which numbers are no party's, and whether it was lent anything.
fn of_no_party(call: &Call, plan: &[u8]) -> Vec<&'static str> {
    let (lines, named) = (lines_in(plan), call.party());
    let high: Vec<Line> = lines.iter().filter(|line| is_no_party(line)).copied().collect();
    let (in_a_line, is_first) = (!high.is_empty(), number(plan, EDITION) == 1);
    let outputs = call.what.parameters.iter().zip(&call.given).filter(|(parameter, _)| matches!(parameter.kind, Kind::Output));
    let lent: Vec<&Given> = outputs.map(|(_, given)| given).collect();
    let is_lent_nothing = !lent.is_empty() && lent.iter().all(|given| **given == Given::Room(0));
    let is_low_byte = (named & 255) < PARTIES;
    applying(&[
        ("16: party 8 in a line", high.iter().any(|line| line[3] == 8)),
        ("16: party 200 or more in a line", high.iter().any(|line| line[3] >= 200)),
        ("16: in the last line alone", in_a_line && high.len() == 1 && is_no_party(&lines[lines.len() - 1])),
        ("16: in lines that differ in parties above 7 alone", !agreeing(&high, 3).is_empty()),
        ("16: in a line, one of 0 to 7 named", in_a_line && named < PARTIES),
        ("16: in a line, nothing lent", in_a_line && is_lent_nothing),
        ("16: party 8 named", !in_a_line && !is_first && named == 8),
        ("16: party 9 to 255 named", !in_a_line && (9..256).contains(&named)),
        ("16: party 256 or more named, of which the low byte is one", !in_a_line && named > 255 && is_low_byte),
        ("16: the greatest number named", !in_a_line && named == u32::MAX),
        ("16: named, nothing lent", !in_a_line && is_lent_nothing),
        ("16: party 3 named for edition 1", is_first && named == 3),
        ("16: named for edition 1, no lines", is_first && lines.is_empty()),
    ])
}

/// W-202, of a count or 15: what the forks that don't count would make of it, and whether forks far from the starts decide it.
fn narrowed(plan: &Plan, reply: u32) -> Vec<&'static str> {
    let k = (reply < REFUSED).then_some(reply as usize);
    let (sets, reached, near) = (plan.every_set(), plan.reached(), within(plan, FAR));
    let least_of = |kept: &dyn Fn(&Name) -> bool| least(plan, &sets.iter().filter(|(name, _)| kept(name)).cloned().collect::<Vec<_>>());
    let abandoned = least_of(&|&(stake, _)| stake != STARTS && !reached[stake as usize]);
    let from_near = || least_of(&|&(stake, _)| stake == STARTS || near[stake as usize]);
    applying(&[
        ("k less than if every set counted", k.is_some() && k < abandoned),
        ("k, but 15 if every set counted", k.is_some() && abandoned.is_none()),
        ("15, also by forks that don't count", k.is_none() && abandoned.is_none()),
        ("no starts, but a fork of several stakes", size(&plan.starts) == 0 && abandoned != Some(0)),
        ("decided by a fork far from the starts", near != reached && from_near() != k),
    ])
}

/// A fork that more legs than this lead to is far.
const FAR: usize = 8;

/// The stakes that up to so many legs from a start reach.
fn within(plan: &Plan, legs: usize) -> Stakes {
    let mut reached = plan.starts.clone();
    for _ in 0..legs {
        let ends: Vec<usize> = plan.lines.iter().flatten().filter(|line| reached[line.0]).map(|line| line.1).collect();
        ends.into_iter().for_each(|stake| reached[stake] = true);
    }
    reached
}

/// W-202, of a claim that is true but perhaps for the name of its set: whether that counts, and whether other names of the set do.
fn claimed(plan: &Plan, claim: &[u32], letters: &[u8]) -> Vec<&'static str> {
    if !holds_of_any_set(plan, claim, letters) {
        return vec![];
    }
    let reached = plan.reached();
    let counts = |stake: u32| stake == STARTS || reached[stake as usize];
    let (set, yes) = (plan.named(claim[0], claim[1]), counts(claim[0]));
    let otherwise = plan.every_set().into_iter().any(|(name, other)| Some(other) == set && counts(name.0) != yes);
    applying(&[
        ("no by an unreachable stake's name alone", !yes),
        ("no, though the set counts under another name", !yes && otherwise),
        ("yes to a set that an unreachable stake names too", yes && otherwise),
    ])
}

/// W-205, of the numbers of a plan's sets: which of them stand beside which others, and how much was lent.
fn numbered(plan: &Plan, lent: &[u16], written: usize) -> Vec<&'static str> {
    let numbers = &lent[..written];
    let reached = plan.reached();
    let (counted, abandoned): (Vec<_>, Vec<_>) =
        plan.every_set().into_iter().partition(|((stake, _), _)| *stake == STARTS || reached[*stake as usize]);
    let is_some = |number: &u16| (1..needs::UNMEASURED).contains(number);
    let is_endless = |number: &u16| *number == needs::ENDLESS;
    let (first, last) = (numbers.iter().position(is_endless), numbers.iter().rposition(is_endless));
    let some: Vec<&u16> = numbers.iter().filter(|number| is_some(number)).collect();
    let bound = max_look_ahead(plan.n);
    let mut twice = counted.iter().filter(|(_, set)| abandoned.iter().any(|(_, other)| other == set));
    let is_largest = plan.n == MAX_STAKES && plan.m == MAX_CODES;
    applying(&[
        ("a number of 1 or more behind an endless set", first.is_some_and(|first| numbers[first..].iter().any(is_some))),
        ("a number of 1 or more before an endless set", last.is_some_and(|last| numbers[..last].iter().any(is_some))),
        ("the starts endless, a fork with 1 or more", first == Some(needs::STARTS) && !some.is_empty()),
        ("different numbers of 1 or more", some.iter().min() != some.iter().max()),
        ("an abandoned fork of several stakes", abandoned.iter().any(|(_, set)| size(set) > 1)),
        ("a set that counts under one name and not under another", twice.any(|(_, set)| size(set) > 1)),
        ("no starts, but lines", size(&plan.starts) == 0 && !abandoned.is_empty()),
        ("n(n-1)/2 of three or more stakes", plan.n > 2 && some.iter().any(|&&k| k as usize == bound)),
        ("64 stakes and 32 codes", is_largest),
        ("64 stakes and 32 codes, the last fork with 1 or more", is_largest && numbers.last().is_some_and(is_some)),
        ("room for the numbers alone", lent.len() == written),
        ("more room", lent.len() > written),
    ])
}

/// W-206, of a page: what stands in its lines, and how much was lent.
fn paged(plan: &Plan, lent: usize) -> Vec<&'static str> {
    let lines = lines_of(plan);
    let length = page::LINE * lines.len();
    let (starts, forks): (Vec<&PageLine>, Vec<&PageLine>) = lines.iter().partition(|line| line.name.0 == STARTS);
    let need = |needs: RangeInclusive<u16>| lines.iter().any(|line| needs.contains(&line.need));
    let bar = |stakes: RangeInclusive<usize>| forks.iter().any(|line| stakes.contains(&line.stakes));
    let (stake, code) = (|line: &&PageLine| line.name.0 > 9, |line: &&PageLine| line.name.1 > 9);
    let dash = || need(needs::ENDLESS..=needs::ENDLESS);
    let last = needs::length(plan.n, plan.m) - 1;
    let is_largest = plan.n == MAX_STAKES && plan.m == MAX_CODES;
    applying(&[
        ("a need of 0", need(0..=0)),
        ("a need of one digit", need(1..=9)),
        ("a need of two digits", need(10..=99)),
        ("a need of three digits", need(100..=999)),
        ("a need of four digits", need(1000..=9999)),
        ("a dash", dash()),
        ("a dash and a need of 1 or more", dash() && need(1..=9999)),
        ("a bar for 1 stake", bar(1..=1)),
        ("a bar for 2 stakes", bar(2..=2)),
        ("a bar for 22 stakes", bar(22..=22)),
        ("a bar for 23 stakes", bar(23..=23)),
        ("a bar for 24 stakes", bar(24..=24)),
        ("a bar for 25 stakes or more", bar(25..=MAX_STAKES)),
        ("starts of 23 stakes", starts.iter().any(|line| line.stakes == 23)),
        ("starts of 24 stakes or more", starts.iter().any(|line| line.stakes > 23)),
        ("starts with a dash", starts.iter().any(|line| line.need == needs::ENDLESS)),
        ("a stake of one digit", forks.iter().any(|line| !stake(line))),
        ("a stake of two digits", forks.iter().any(stake)),
        ("a code of one digit", forks.iter().any(|line| !code(line))),
        ("a code of two digits", forks.iter().any(code)),
        ("sets without a line between lines", lines.windows(2).any(|pair| pair[0].place + 1 < pair[1].place)),
        ("no starts, but lines", size(&plan.starts) == 0 && plan.lines.iter().any(|lines| !lines.is_empty())),
        ("64 stakes and 32 codes, the last fork with a line", is_largest && lines.last().is_some_and(|line| line.place == last)),
        ("2,049 lines", lines.len() == 2049),
        ("room for the page alone", lent == length && length > 0),
        ("room for none, and none needed", lent == 0),
        ("more room", lent > length),
        ("more room for an empty page", lent > length && length == 0),
        ("less room than for every set", lent < page::most(plan.n, plan.m)),
    ])
}

/// W-204, of a step: what it was taken from, and what it led to.
fn stepped(call: &Call, next: u64) -> Vec<&'static str> {
    let table: &[u64] = call.slice("table");
    let (set, starts) = (call.number("set"), table[table::STARTS]);
    let lines = plan_of(table).expect("passes 8").0.lines.swap_remove(call.number("letter") as usize);
    let taken = lines.iter().filter(|(from, _)| set >> from & 1 == 1).count();
    applying(&[
        ("from the starts", set == starts && starts != 0),
        ("from all of 64 stakes", set == u64::MAX),
        ("from the last stake", set == 1 << (table[table::N] - 1)),
        ("to a stake that several stakes lead to", taken > next.count_ones() as usize),
    ])
}

/// W-204, of a step that was refused with 12: which of its numbers are off the plan.
fn off_the_plan(call: &Call) -> Vec<&'static str> {
    let table: &[u64] = call.slice("table");
    let (set, code) = (call.number("set"), call.number("letter"));
    let (bits, is_code) = (set.checked_shr(table[table::N] as u32).unwrap_or(0), code < table[table::M]);
    applying(&[
        ("12: the code alone, m itself", bits == 0 && code == table[table::M]),
        ("12: bit n alone", is_code && set == 1 << table[table::N]),
        ("12: a stake and bit n", is_code && bits == 1 && set.count_ones() > 1),
        ("12: a bit above n", is_code && bits & 1 == 0),
    ])
}

/// W-202, of a verdict: whether its set counts.
fn judged(call: &Call) -> Vec<&'static str> {
    let (plan, _) = plan_of(call.slice("table")).expect("passes 8");
    let (state, letter) = (call.number("state") as u32, call.number("letter") as u32);
    let set = plan.named(state, letter).expect("passes 12");
    applying(&[("a set of several stakes that doesn't count", state != STARTS && !plan.reached()[state as usize] && size(&set) > 1)])
}

/// W-202, of a leg or an ending that passes 10: whether some walk reaches the base.
fn based(call: &Call, reply: u32) -> Vec<&'static str> {
    let (plan, k) = plan_of(call.slice("table")).expect("passes 8");
    let rec: &[u8] = call.slice("rec");
    if (legs(rec) as usize) < k || plan.reached()[rec[BOOKED] as usize] {
        return vec![];
    }
    applying(&[
        ("from a base that no walk reaches", reply < REFUSED),
        ("14: a table as preparing makes it, a base that no walk reaches", reply == REFUSED + 14 && look_ahead(&plan) == Some(k)),
    ])
}

/// The class of a reply; `why` says which part of a refusal's sentence applied.
fn class(Outcome { reply, left }: &Outcome, why: &str) -> String {
    let (name, reply) = (left.what.name, *reply);
    if reply >= REFUSED {
        return format!("{name} {}: {why}", reply - REFUSED);
    }
    let kind = match name {
        "read" => "counts",
        "prepare" | "look_ahead" | "count" => count_class(reply),
        "check" => ["no", "yes"][reply as usize],
        "write" if left.slice::<u8>("plan") == &left.slice::<u8>("out")[..reply as usize] => "in its form already",
        "write" => "put into its form",
        "needs" => {
            let numbers = &left.slice::<u16>("needs")[..reply as usize];
            let endless = numbers.iter().filter(|&&number| number == needs::ENDLESS).count();
            match (endless, numbers.iter().filter(|&&number| number < needs::UNMEASURED).max()) {
                (0, None) => "no number",
                (0, Some(&k)) => count_class(k as u32),
                (_, None) => "endless sets alone",
                (1, _) => "one endless set among others",
                _ => "several endless sets among others",
            }
        }
        "page" => match left.slice::<u64>("length").first().map(|length| *length as usize / page::LINE) {
            None | Some(0) => "empty",
            Some(1) => "of one line",
            _ => "of several lines",
        },
        "step" => match (reply, left.slice::<u64>("next")[0].count_ones()) {
            (0, _) => "from the empty set",
            (_, 0) => "to nowhere",
            (1, _) => "from one stake",
            (rounds, led_to) if rounds == led_to => "from several stakes to as many",
            _ => "from several stakes to more or fewer",
        },
        "walk" => match (left.slice::<u8>("word").len() as u64, left.slice::<u64>("length")[0]) {
            (0, _) => "the empty word",
            (length, g) if g == length => "to its end",
            _ => "to g below its length",
        },
        "judge" => {
            let sets: &[u64] = left.slice("sets");
            match (reply, sets[0].count_ones(), sets[1]) {
                (1, _, _) => "minimal selector",
                (_, 0, _) => "nobody can walk it",
                (_, 1, _) => "selector, not minimal",
                (_, _, 0) => "nonselector, maximal for none",
                (_, _, last) if last == sets[0] => "nonselector, maximal for all",
                _ => "nonselector, maximal for some",
            }
        }
        "open" | "feed" if reply == NOTHING => "none booked",
        "open" | "feed" => "booked",
        "finish" => match reply as u64 {
            0 => "no position (k 0)",
            count if count == left.slice::<u64>("table")[table::K] => "k positions",
            _ => "fewer than k positions",
        },
        "group" => GROUPS[reply as usize],
        _ => unreachable!("{name} has no classes"),
    };
    format!("{name} {kind}")
}

/// Refusals of plan bytes of no edition.
const NO_EDITION: &[&str] = &["1: fewer than 16 bytes", "1: total not the byte count", "2: edition", "2: edition 0", "2: edition 3"];
const PLAN: &[&str] = &[
    "3: n out of range",
    "3: m out of range",
    "3: p out of range",
    "3: e out of range",
    "4: starts before 16",
    "4: starts past the total",
    "4: lines before 16",
    "4: lines past the total",
    "4: parts overlap",
    "5: a start not below n",
    "5: a start twice",
    "6: from not below n",
    "6: code not below m",
    "6: to not below n",
    "7: a line twice",
];
const TABLE: &[&str] = &[
    "8: fewer than 4 numbers",
    "8: n out of range",
    "8: m out of range",
    "8: shorter than its form needs",
    "8: k above n(n-1)/2",
    "8: a start's bit n or higher",
    "8: a set's bit n or higher",
];
const RECORD: &[&str] = &[
    "9: record",
    "10: more than 1,000,000 legs",
    "10: the zero byte",
    "10: the held count",
    "10: a stake before the first booking",
    "10: the booked stake not below n",
    "10: not zero past the held count",
    "10: a held code not below m",
    "10: the held codes can't be walked from the base",
];
const COUNT: &[&str] = &["k 0", "k 1", "k 2", "k 3 to 8", "k 9 to 64", "k above 64"];
const NO_COUNT: &[&str] = &["15: no k"];
/// W-202: which critical sets count.
const NARROWED: &[&str] = &[
    "k less than if every set counted",
    "k, but 15 if every set counted",
    "15, also by forks that don't count",
    "no starts, but a fork of several stakes",
    "decided by a fork far from the starts",
];
const EVIDENCE: &[&str] = &["9: letters", "9: evidence"];

/// A name, and the classes under it.
type Listed = (&'static str, &'static [&'static [&'static str]]);

/// For each call, and for sessions, waiting, sets together and parties alone: every answer and every refusal, with each part of a
/// refusal's sentence. Where there are plan bytes, each is to be met in both editions.
const CLASSES: &[Listed] = &[
    ("read", &[PLAN, &["counts", "9: counts"]]),
    ("prepare", &[PLAN, &["9: table"], EVIDENCE, COUNT, NO_COUNT, NARROWED]),
    ("look_ahead", &[PLAN, EVIDENCE, COUNT, NO_COUNT, NARROWED]),
    ("count", &[PLAN, COUNT, NO_COUNT, NARROWED]),
    ("check", &[PLAN, &["yes", "no", "yes to a set that an unreachable stake names too"]]),
    ("check", &[&["no by an unreachable stake's name alone", "no, though the set counts under another name"]]),
    ("write", &[PLAN, &["9: out", "9: short by one", "9: nothing lent", "in its form already", "put into its form"]]),
    ("write", &[&["starts out of order", "lines out of order", "lines before the starts"]]),
    ("write", &[&["a gap before the parts", "a gap between the parts", "a gap behind the parts"]]),
    ("write", &[&["no starts", "no lines", "neither starts nor lines", "64 starts", "4,096 lines"]]),
    ("write", &[&["room for the form alone", "more room", "less room than the plan has bytes"]]),
    ("needs", &[PLAN, &["9: needs", "9: short by one", "9: nothing lent", "no number"], COUNT]),
    ("needs", &[&["endless sets alone", "one endless set among others", "several endless sets among others"]]),
    ("needs", &[&["a number of 1 or more behind an endless set", "a number of 1 or more before an endless set"]]),
    ("needs", &[&["the starts endless, a fork with 1 or more", "different numbers of 1 or more"]]),
    ("needs", &[&["an abandoned fork of several stakes", "a set that counts under one name and not under another"]]),
    ("needs", &[&["no starts, but lines", "n(n-1)/2 of three or more stakes", "room for the numbers alone", "more room"]]),
    ("needs", &[&["64 stakes and 32 codes", "64 stakes and 32 codes, the last fork with 1 or more"]]),
    ("page", &[PLAN, &["9: page", "9: short by one", "9: nothing lent", "9: length", "empty", "of one line", "of several lines"]]),
    ("page", &[&["a need of 0", "a need of one digit", "a need of two digits", "a need of three digits", "a need of four digits"]]),
    ("page", &[&["a dash", "a dash and a need of 1 or more", "starts with a dash", "sets without a line between lines"]]),
    ("page", &[&["a bar for 1 stake", "a bar for 2 stakes", "a bar for 22 stakes", "a bar for 23 stakes", "a bar for 24 stakes"]]),
    ("page", &[&["a bar for 25 stakes or more", "starts of 23 stakes", "starts of 24 stakes or more", "no starts, but lines"]]),
    ("page", &[&["a stake of one digit", "a stake of two digits", "a code of one digit", "a code of two digits", "2,049 lines"]]),
    ("page", &[&["64 stakes and 32 codes, the last fork with a line", "room for the page alone", "room for none, and none needed"]]),
    ("page", &[&["more room", "more room for an empty page", "less room than for every set"]]),
    ("step", &[TABLE, &["9: next", "12: the code not below m", "12: the code above 255", "12: the set's bit n or higher"]]),
    ("step", &[&["12: the code alone, m itself", "12: bit n alone", "12: a stake and bit n", "12: a bit above n"]]),
    ("step", &[&["from the empty set", "to nowhere", "from one stake", "from several stakes to as many"]]),
    ("step", &[&["from several stakes to more or fewer", "from the starts", "from all of 64 stakes", "from the last stake"]]),
    ("step", &[&["to a stake that several stakes lead to"]]),
    ("walk", &[TABLE, &["9: sets", "9: length", "12: a code of the walk not below m", "13: no starts"]]),
    ("walk", &[&["the empty word", "to its end", "to g below its length"]]),
    ("judge", &[TABLE, &["9: sets", "12: 255 with a code other than 0", "12: the set's name off the plan"]]),
    ("judge", &[&["12: a code of the word not below m", "minimal selector", "selector, not minimal", "nobody can walk it"]]),
    ("judge", &[&["nonselector, maximal for none", "nonselector, maximal for some", "nonselector, maximal for all"]]),
    ("judge", &[&["a set of several stakes that doesn't count"]]),
    ("open", &[TABLE, &["9: record", "9: position", "13: no starts", "14: two or more starts", "booked", "none booked"]]),
    ("feed", &[TABLE, RECORD, &["9: position", "11: a leg beyond 1,000,000", "12: the leg not below m", "12: the leg above 255"]]),
    ("feed", &[&["13: the leg can't be walked", "14: two or more stakes are possible", "booked", "none booked"]]),
    ("feed", &[&["from a base that no walk reaches", "14: a table as preparing makes it, a base that no walk reaches"]]),
    ("finish", &[&["from a base that no walk reaches"]]),
    ("finish", &[TABLE, RECORD, &["9: sets", "no position (k 0)", "fewer than k positions", "k positions"]]),
    ("group", &[&GROUPS]),
    ("session", &[COUNT, &["13 at opening", "with refused legs 12", "with refused legs 13", "with refused legs above 255"]]),
    ("session with bookings,", &[COUNT, &["15 if every set counted"]]),
    ("waiting", &[COUNT, &["no starts", "k 0, 15 if every set counted", "15"]]),
    ("waiting in doubt", &[&["at position 0", "at a later position", "between three or more stakes", "until the next leg"]]),
    ("waiting in doubt,", &[&["though a later position has one stake", "a larger k if every set counted", "15 if every set counted"]]),
    ("waiting with a position certain,", &[COUNT]),
    ("together", &[COUNT, &["k 0, no number", "15, the starts named", "15, a fork named", "15 by one set alone", "15 by several sets"]]),
    ("alone", &[COUNT, &["15", "with all lines"]]),
];

/// W-207, in edition 2: of a call on plan bytes, and of one that names a party.
const PARTED: &[&str] = &[
    "4: lines past the total, but not if of three bytes",
    "4: parts overlap, but not if lines had three bytes",
    "6: beside a party above 7",
    "7: of a party above 7",
    "7: beside a party above 7",
    "16: a line's party above 7",
    "16: party 8 in a line",
    "16: party 200 or more in a line",
    "16: in the last line alone",
    "16: in lines that differ in parties above 7 alone",
    "lines that differ in the party alone",
    "lines of every party",
    "a party without lines, others with lines",
    "lines of the party and of others",
    "4,096 lines",
];
const PARTY_NAMED: &[&str] = &[
    "16: the party named above 7",
    "16: party 8 named",
    "16: party 9 to 255 named",
    "16: party 256 or more named, of which the low byte is one",
    "16: the greatest number named",
    "16: in a line, one of 0 to 7 named",
];
const LENT_NOTHING: &[&str] = &["16: in a line, nothing lent"];
const NAMED_AND_LENT_NOTHING: &[&str] = &["16: named, nothing lent"];
const BY_PARTY: &[&str] =
    &["k, but 15 for another party", "15, but k for another party", "k, but 15 by all lines", "k, but another by all lines"];
const CLASSES_OF_EDITION_2: &[Listed] = &[
    ("read", &[PARTED, LENT_NOTHING]),
    ("prepare", &[PARTED, PARTY_NAMED, LENT_NOTHING, NAMED_AND_LENT_NOTHING, BY_PARTY]),
    ("look_ahead", &[PARTED, PARTY_NAMED, LENT_NOTHING, NAMED_AND_LENT_NOTHING, BY_PARTY]),
    ("count", &[PARTED, BY_PARTY]),
    ("check", &[PARTED, PARTY_NAMED, &["yes, but no for another party", "no, but yes for another party"]]),
    ("write", &[PARTED, LENT_NOTHING, &["lines out of order by their parties alone", "lines by party first"]]),
    ("needs", &[PARTED, PARTY_NAMED, LENT_NOTHING, NAMED_AND_LENT_NOTHING]),
    ("page", &[PARTED, PARTY_NAMED, LENT_NOTHING, NAMED_AND_LENT_NOTHING]),
    ("alone", &[&["with some of the lines", "without lines, others with lines"]]),
];
/// Of a call that names a party, in edition 1.
const CLASSES_OF_EDITION_1: &[&str] = &[
    "16: a party other than 0 named for edition 1",
    "16: the party named above 7",
    "16: party 3 named for edition 1",
    "16: named for edition 1, no lines",
];

/// Every class that a run must meet.
pub fn classes() -> Vec<String> {
    let of = |(name, lists): &Listed| lists.concat().iter().map(|class| format!("{name} {class}")).collect::<Vec<_>>();
    let of_calls = |parameter: &str, list: &[String]| -> Vec<String> {
        let calls = CALLS.iter().filter(|call| call.takes(parameter));
        calls.flat_map(|call| list.iter().map(move |class| format!("{} {class}", call.name))).collect()
    };
    let strings = |list: &[&str]| list.iter().map(|class| class.to_string()).collect::<Vec<_>>();
    let beside: Vec<String> = (1..=7).map(beside_no_party).collect();
    let mut classes = [of_calls("plan", &strings(NO_EDITION)), of_calls("party", &beside)].concat();
    for listed in CLASSES {
        let is_on_plan = CALLS.iter().all(|call| call.name != listed.0 || call.takes("plan"));
        for class in of(listed) {
            if is_on_plan {
                classes.extend(EDITIONS.map(|edition| in_edition(edition, &class)));
            } else {
                classes.push(class);
            }
        }
    }
    let each_party: Vec<String> = (0..PARTIES).map(for_party).collect();
    classes.extend(of_calls("party", &strings(CLASSES_OF_EDITION_1)).iter().map(|class| in_edition(1, class)));
    classes.extend(of_calls("party", &each_party).iter().map(|class| in_edition(2, class)));
    classes.extend(CLASSES_OF_EDITION_2.iter().flat_map(of).map(|class| in_edition(2, &class)));
    classes
}

/// Whether there are classes of replies under this name.
pub fn has_classes(name: &str) -> bool {
    CLASSES.iter().any(|listed| listed.0 == name)
}
