//! A smaller case that still fails, by simple means: fewer lines, starts, stakes and codes, fewer legs and letters, fewer bits in sets
//! and tables.

use crate::alone::Alone;
use crate::calls::Calls;
use crate::cases::{Call, Case};
use crate::families::{AnyLine, Draft, Line, PartyLine};
use crate::forms::plan::{line, number, set_number, E, EDITION, HEADER, LINES_AT, M, N, P, STARTS_AT, TOTAL};
use crate::forms::table::K;
use crate::forms::MAX_STAKES;
use crate::lent::{Element, Given};
use crate::reference::page::page;
use crate::reference::plan::read_for;
use crate::session::Session;
use crate::together::Together;
use crate::waiting::Waiting;
use std::collections::BTreeSet;
use std::time::{Duration, Instant};

/// The list with one piece left out, for pieces from all of it down to one member.
fn without_a_piece<T: Clone>(list: &[T]) -> Vec<Vec<T>> {
    let mut shorter = Vec::new();
    let mut piece = list.len();
    while piece > 0 {
        for from in (0..list.len()).step_by(piece) {
            let to = (from + piece).min(list.len());
            shorter.push([&list[..from], &list[to..]].concat());
        }
        piece /= 2;
    }
    shorter
}

/// Plan bytes with some lines, starts or gaps left out, as long as the header says where the parts are; plan bytes need not be sound.
/// The parts stand as they did too, with a gap of one byte for each there was, since at writing it may be that which matters.
fn smaller_plans(bytes: &[u8]) -> Vec<Vec<u8>> {
    if bytes.len() < HEADER {
        return Vec::new();
    }
    let [edition, n, m, p, e, starts_at, lines_at, total] =
        [EDITION, N, M, P, E, STARTS_AT, LINES_AT, TOTAL].map(|place| number(bytes, place));
    let (starts_end, lines_end) = (starts_at + p, lines_at + line(edition) * e);
    if total != bytes.len() || starts_end > total || lines_end > total {
        return Vec::new();
    }
    let starts = bytes[starts_at..starts_end].to_vec();
    if edition == PartyLine::EDITION {
        let lines = bytes[lines_at..lines_end].chunks(line(edition)).map(PartyLine::from_bytes).collect();
        let plan = Draft { n, m, starts, lines };
        let mut plans = smaller_drafts(&plan);
        plans.extend(without_parties(&plan));
        return laid_out_as(bytes, edition, &plans);
    }
    let lines = bytes[lines_at..lines_end].chunks(line(edition)).map(Line::from_bytes).collect();
    laid_out_as(bytes, edition, &smaller_drafts(&Draft { n, m, starts, lines }))
}

/// The plan with fewer lines, starts, stakes or codes; and itself, for another layout.
fn smaller_drafts<L: AnyLine>(plan: &Draft<L>) -> Vec<Draft<L>> {
    let Draft { n, m, starts, lines } = plan;
    let mut plans: Vec<Draft<L>> = without_a_piece(lines).into_iter().map(|lines| Draft { lines, ..plan.clone() }).collect();
    plans.extend(without_a_piece(starts).into_iter().map(|starts| Draft { starts, ..plan.clone() }));
    plans.extend([(n.wrapping_sub(1), *m), (*n, m.wrapping_sub(1)), (*n, *m)].map(|(n, m)| Draft { n, m, ..plan.clone() }));
    // a stake out of the way: the last one takes the number of another
    for stake in 0..(*n).min(MAX_STAKES) as u8 {
        if !starts.contains(&stake) && !lines.iter().any(|line| line.walked().0 == stake || line.walked().2 == stake) {
            let name = |s: u8| if s as usize == n - 1 { stake } else { s };
            let renamed = |line: &L| {
                let (from, code, to) = line.walked();
                line.with((name(from), code, name(to)))
            };
            let lines = lines.iter().map(renamed).collect();
            plans.push(Draft { n: n - 1, m: *m, starts: starts.iter().map(|&s| name(s)).collect(), lines });
        }
    }
    plans
}

/// The plan without one party's lines, and with them as party 0's.
fn without_parties(plan: &Draft<PartyLine>) -> Vec<Draft<PartyLine>> {
    let parties: BTreeSet<u8> = plan.lines.iter().map(|line| line.3).collect();
    let each = parties.into_iter().flat_map(|party| {
        let left = plan.lines.iter().filter(|line| line.3 != party).copied().collect();
        let as_first = plan.lines.iter().map(|&line| if line.3 == party { (line.0, line.1, line.2, 0) } else { line }).collect();
        [left, as_first]
    });
    each.map(|lines| Draft { lines, ..plan.clone() }).collect()
}

/// The bytes of drafts of a plan that are smaller than its own, of the same edition.
fn laid_out_as<L: AnyLine>(bytes: &[u8], edition: usize, plans: &[Draft<L>]) -> Vec<Vec<u8>> {
    let [p, e, starts_at, lines_at, total] = [P, E, STARTS_AT, LINES_AT, TOTAL].map(|place| number(bytes, place));
    let (starts_end, lines_end) = (starts_at + p, lines_at + line(edition) * e);
    let [before, behind] = [starts_at.min(lines_at) > HEADER, starts_end.max(lines_end) < total].map(usize::from);
    let between = (starts_at.max(lines_at) > starts_end.min(lines_end)) as usize;
    let lines_first = lines_at < starts_at;
    let layouts = [(false, [0; 3]), (lines_first, [0; 3]), (lines_first, [0, 0, behind]), (lines_first, [before, between, behind])];
    let mut smaller = Vec::new();
    for plan in plans {
        for (i, &(lines_first, gaps)) in layouts.iter().enumerate() {
            let mut other = plan.laid_out(lines_first, gaps);
            set_number(&mut other, EDITION, edition);
            if (other.len(), other.as_slice()) < (bytes.len(), bytes) && !layouts[..i].contains(&layouts[i]) {
                smaller.push(other);
            }
        }
    }
    smaller
}

/// n × m of plan bytes that have a header.
fn forks(plan: &[u8]) -> usize {
    number(plan, N) * number(plan, M)
}

/// The bytes of the page of a plan for a party, none if it has no page.
fn page_length(plan: &[u8], party: u32) -> usize {
    read_for(plan, party).map_or(0, |plan| page(&plan).len())
}

/// Smaller sets: the empty one, and all but the lowest stake.
fn smaller_sets(set: u64) -> Vec<u64> {
    let mut sets = vec![0, set & set.wrapping_sub(1)];
    sets.retain(|&fewer| fewer < set);
    sets
}

/// Tables with sets emptied or without a bit, or with a smaller k.
fn smaller_tables(table: &[u64]) -> Vec<Vec<u64>> {
    let mut tables = Vec::new();
    for place in K..table.len() {
        let number = table[place];
        let less = if place == K { vec![0, number / 2, number.saturating_sub(1)] } else { smaller_sets(number) };
        for less in less.into_iter().filter(|&less| less < number) {
            let mut other = table.to_vec();
            other[place] = less;
            tables.push(other);
        }
    }
    tables
}

/// Half of it, and one less.
fn smaller_numbers(number: usize) -> impl Iterator<Item = usize> {
    [number / 2, number.saturating_sub(1)].into_iter().filter(move |&less| less < number)
}

/// Smaller ones in the place of what is given for a parameter of this name. A record's bytes all have their place.
fn smaller_given(name: &str, given: &Given) -> Vec<Given> {
    fn all<T: Element>(lists: Vec<Vec<T>>) -> Vec<Given> {
        lists.into_iter().map(T::given).collect()
    }
    match (name, given) {
        ("set", &Given::Number(set)) => smaller_sets(set).into_iter().map(Given::Number).collect(),
        ("party", &Given::Number(party)) => smaller_numbers(party as usize).map(|less| Given::Number(less as u64)).collect(),
        (_, &Given::Room(length)) => smaller_numbers(length).map(Given::Room).collect(),
        ("plan", Given::U8(bytes)) => all(smaller_plans(bytes)),
        ("rec", _) => vec![],
        (_, Given::U8(list)) => all(without_a_piece(list)),
        (_, Given::U64(table)) => all(smaller_tables(table)),
        _ => vec![],
    }
}

/// The call with something smaller in one place; and with so much less room too, for what is written of it, or for a number of each fork,
/// or for the lines of a page.
fn with_smaller(call: &Call, place: usize, given: Given) -> Vec<Case> {
    let mut other = call.clone();
    other.given[place] = given;
    let mut cases = vec![Case::Call(other.clone())];
    let parameters = call.what.parameters;
    if let (Given::U8(before), Given::U8(now)) = (&call.given[place], &other.given[place]) {
        let fewer = |size: &dyn Fn(&[u8]) -> usize| size(before).saturating_sub(size(now));
        let fewer = match (call.what.name, parameters[place].name) {
            ("page", _) => [fewer(&|plan| page_length(plan, call.party())), 0],
            (_, "plan") => [fewer(&<[u8]>::len), fewer(&forks)],
            _ => [fewer(&<[u8]>::len), 0],
        };
        for fewer in fewer.into_iter().filter(|&fewer| fewer > 0) {
            let mut less = other.clone();
            for (given, parameter) in less.given.iter_mut().zip(parameters) {
                match given {
                    Given::Room(room) if parameter.name != "length" => *room = room.saturating_sub(fewer),
                    _ => {}
                }
            }
            cases.push(Case::Call(less));
        }
    }
    cases
}

/// Smaller cases, each made only when it is asked for.
fn smaller(case: &Case) -> Box<dyn Iterator<Item = Case> + '_> {
    match case {
        Case::Call(call) => {
            // the last parameter first: a word before its plan or table
            let places = call.what.parameters.iter().enumerate().rev();
            Box::new(places.flat_map(move |(place, parameter)| {
                let smaller = smaller_given(parameter.name, &call.given[place]).into_iter();
                smaller.flat_map(move |given| with_smaller(call, place, given))
            }))
        }
        Case::Session(session) => {
            let legs = without_a_piece(&session.legs).into_iter().map(|legs| Session { legs, ..session.clone() });
            let plans = smaller_plans(&session.plan).into_iter().map(|plan| Session { plan, ..session.clone() });
            let fitting = (session.extra > 0).then(|| Session { extra: 0, ..session.clone() });
            Box::new(legs.chain(plans).chain(fitting).map(Case::Session))
        }
        Case::Waiting(waiting) => {
            let walks = smaller_numbers(waiting.beyond).map(|beyond| Waiting { beyond, ..waiting.clone() });
            let plans = smaller_plans(&waiting.plan).into_iter().map(|plan| Waiting { plan, ..waiting.clone() });
            Box::new(walks.chain(plans).map(Case::Waiting))
        }
        Case::Together(together) => {
            let plans = smaller_plans(&together.plan).into_iter();
            Box::new(plans.map(|plan| Case::Together(Together { plan, ..together.clone() })))
        }
        Case::Alone(alone) => Box::new(smaller_plans(&alone.plan).into_iter().map(|plan| Case::Alone(Alone { plan, ..alone.clone() }))),
    }
}

/// The smallest failing case that is found in a few seconds (GAWHERINO_SHRINK: in how many), with what it shows.
pub fn smallest(case: &Case, subject: &dyn Calls, message: String) -> (Case, String) {
    let (mut case, mut message) = (case.clone(), message);
    let seconds = std::env::var("GAWHERINO_SHRINK").ok().and_then(|text| text.parse().ok()).unwrap_or(10);
    let end = Instant::now() + Duration::from_secs(seconds);
    let fails = |other: Case| other.compare(subject).err().map(|found| (other, found));
    loop {
        let smaller = smaller(&case).take_while(|_| Instant::now() <= end).find_map(fails);
        match smaller {
            Some(found) => (case, message) = found,
            None => return (case, message),
        }
    }
}

/// Fails with the seed, the smallest case in hexadecimal and what is expected.
pub fn fail(case: &Case, subject: &dyn Calls, message: String, origin: &str) -> ! {
    let (small, found) = smallest(case, subject, message);
    panic!("\nthe reference and the {} disagree ({origin}); the smallest case found:\n  {}\n  {found}\n", subject.name(), small.show());
}
