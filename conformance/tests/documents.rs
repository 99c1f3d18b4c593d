//! The answers that the documents themselves write down: plans A to H, the examples of 003 whose lines its text gives, the cases of
//! document 01 that are only run, and what document 02 asks for. Each is put to the reference, to plain.rs and to the library.

mod common;

use conformance::alone::Alone;
use conformance::calls::{Calls, Description, CALLS};
use conformance::cases::Case;
use conformance::families::{all_pairs, draft, odometer, odometer_from, parted, theorem_5, unary_chain, AnyLine, Draft, Line, PartyLine};
use conformance::forms::plan::{header, set_number, EDITION};
use conformance::forms::*;
use conformance::lent::{pattern, Kind, Parameter};
use conformance::random::{parties, plans, Random};
use conformance::reference::doubt::in_doubt;
use conformance::reference::plan::{read, read_for};
use conformance::session::Session;
use conformance::shrink::fail;
use conformance::together::Together;
use conformance::waiting::Waiting;

/// A prepared plan of edition 1, or the refusal.
fn prepared(calls: &dyn Calls, plan: &Draft) -> Result<(u32, Vec<u64>), u32> {
    prepared_for(calls, plan, 0)
}

/// A plan of either edition, prepared for a party.
fn prepared_for<L: AnyLine>(calls: &dyn Calls, plan: &Draft<L>, party: u32) -> Result<(u32, Vec<u64>), u32> {
    let (mut table, mut letters) = (vec![0; table::length(plan.n, plan.m)], vec![0; letters(plan.n)]);
    let reply = calls.prepare(&plan.bytes(), party, &mut table, &mut letters, &mut [0; evidence::NUMBERS]);
    if reply >= REFUSED {
        return Err(reply - REFUSED);
    }
    Ok((reply, table))
}

/// k or the refusal for a plan of edition 1.
fn counted(calls: &dyn Calls, plan: &Draft, expected: Result<u32, u32>, name: &str) {
    counted_for(calls, plan, 0, expected, name);
}

/// k or the refusal for a party, by all three calls that count, and by reading; under 15 the evidence is checked. The k is the least by
/// walks too, the numbers of the sets say the same, and so does a plan of the party's lines alone.
fn counted_for<L: AnyLine>(calls: &dyn Calls, plan: &Draft<L>, party: u32, expected: Result<u32, u32>, name: &str) {
    let bytes = plan.bytes();
    let (n, m) = (plan.n, plan.m);
    for case in [
        Case::prepare(&bytes, party, table::length(n, m) + 1, letters(n) + 1, evidence::NUMBERS + 1),
        Case::look_ahead(&bytes, party, letters(n), evidence::NUMBERS),
        Case::count(&bytes),
        Case::Waiting(Waiting { plan: bytes.clone(), party, seed: common::seed(), beyond: 3 }),
        Case::needs(&bytes, party, needs::length(n, m) + 1),
        Case::page(&bytes, party, page::most(n, m) + 1, LENGTH + 1),
        Case::Together(Together { plan: bytes.clone(), party }),
        Case::Alone(Alone { plan: bytes.clone(), party, seed: common::seed() }),
    ] {
        case.compare(calls).unwrap_or_else(|message| fail(&case, calls, message, name));
    }
    if party == 0 {
        let number = expected.unwrap_or_else(|refusal| REFUSED + refusal);
        assert_eq!(calls.count(&bytes), number, "{name} by the drawing entry of {}", calls.name());
    }
    assert_eq!(prepared_for(calls, plan, party).map(|(k, _)| k), expected, "{name} by preparing of {}", calls.name());
    let mut counts = [0; COUNTS];
    assert_eq!(calls.read(&bytes, &mut counts), n as u32, "{name}");
    assert_eq!(counts, [m as u32, plan.starts.len() as u32, plan.lines.len() as u32], "{name}");
}

/// What each call on plan bytes replies for a party, with room for any plan or with none; each is compared with the reference too.
fn replies(calls: &dyn Calls, plan: &[u8], party: u32, is_lent: bool, name: &str) -> Vec<(&'static Description, u32)> {
    let (n, m) = (MAX_STAKES, MAX_CODES);
    let room = |most: usize| if is_lent { most } else { 0 };
    let cases = [
        Case::read(plan, room(COUNTS)),
        Case::prepare(plan, party, room(table::length(n, m)), room(letters(n)), room(evidence::NUMBERS)),
        Case::look_ahead(plan, party, room(letters(n)), room(evidence::NUMBERS)),
        Case::count(plan),
        Case::check(plan, party, [STARTS, 0, 0, 1, 0, 1].as_slice(), [0u8].as_slice()),
        Case::write(plan, room(plan::length(2, n, MAX_LINES))),
        Case::needs(plan, party, room(needs::length(n, m))),
        Case::page(plan, party, room(page::most(n, m)), room(LENGTH)),
    ];
    let run = |case: Case| {
        case.compare(calls).unwrap_or_else(|message| fail(&case, calls, message, name));
        (case.call().what, case.call().on(calls).reply)
    };
    cases.map(run).into()
}

/// Every call on plan bytes refuses them with this number, whatever is lent.
fn refused(calls: &dyn Calls, plan: &[u8], party: u32, number: u32, name: &str) {
    for is_lent in [true, false] {
        for (call, reply) in replies(calls, plan, party, is_lent, name) {
            assert_eq!(reply, REFUSED + number, "{name}: {} for party {party} by {}", call.name, calls.name());
        }
    }
}

fn set(stakes: &[u32]) -> u64 {
    stakes.iter().fold(0, |set, stake| set | 1 << stake)
}

/// A whole walk: g and the sets at 0 to g.
fn walked(calls: &dyn Calls, table: &[u64], word: &[u8]) -> Vec<u64> {
    let (mut sets, mut g) = (vec![0; word.len() + 1], [0]);
    assert_eq!(calls.walk(table, word, &mut sets, &mut g), 0);
    sets.truncate(g[0] as usize + 1);
    sets
}

/// A verdict: minimal selector or not, who can walk the word, for whom it is a maximal nonselector.
fn judged(calls: &dyn Calls, table: &[u64], state: u32, letter: u32, word: &[u8]) -> (bool, u64, u64) {
    let mut sets = [0; VERDICT];
    let reply = calls.judge(table, state, letter, word, &mut sets);
    assert!(reply <= 1);
    (reply == 1, sets[0], sets[1])
}

fn plan_a() -> Draft {
    draft(3, 1, &[0], &[(0, 0, 1), (1, 0, 1), (1, 0, 2)])
}

fn plan_c() -> Draft {
    draft(4, 2, &[0, 1], &[(0, 0, 2), (1, 0, 2), (2, 1, 3)])
}

fn plan_d() -> Draft {
    draft(3, 1, &[0], &[(0, 0, 0), (1, 0, 1), (1, 0, 2), (2, 0, 2)])
}

/// Plans A to H as document 01 lists them, with their k or the refusal. W-202: "Plan D is then accepted with k 0, and B and H stay
/// refused."
fn listed() -> [(&'static str, Draft, Result<u32, u32>); 8] {
    let mut with_loop = plan_c();
    with_loop.lines.push((3, 1, 3));
    [
        ("A", plan_a(), Ok(1)),
        ("B", draft(2, 1, &[0], &[(0, 0, 0), (0, 0, 1), (1, 0, 1)]), Err(15)),
        ("C", plan_c(), Ok(3)),
        ("D", plan_d(), Ok(0)),
        ("E", draft(1, 1, &[], &[]), Ok(0)),
        ("F", draft(2, 1, &[0, 1], &[]), Ok(1)),
        ("G", draft(3, 2, &[0, 1], &[(0, 0, 1), (1, 0, 2), (1, 1, 0), (2, 1, 2)]), Ok(3)),
        ("H", with_loop, Err(15)),
    ]
}

#[test]
fn plans_a_to_h() {
    let rows = listed();
    for calls in common::everyone() {
        for (name, plan, expected) in &rows {
            counted(calls, plan, *expected, name);
        }
        // A: "In {1,2} the empty word is a maximal nonselector of 2 only; word 0 is a minimal selector of 1."
        let (_, table) = prepared(calls, &plan_a()).expect("k 1");
        assert_eq!(judged(calls, &table, 1, 0, &[]), (false, set(&[1, 2]), set(&[2])));
        assert_eq!(judged(calls, &table, 1, 0, &[0]), (true, set(&[1]), 0));
        assert_eq!(table, [3, 1, 1, 0b001, 0b010, 0b110, 0]);
        // C: "Walk 0 1: {0,1}, {2}, {3}."
        let (_, table) = prepared(calls, &plan_c()).expect("k 3");
        assert_eq!(walked(calls, &table, &[0, 1]), [set(&[0, 1]), set(&[2]), set(&[3])]);
        // E: opening 13
        let (_, table) = prepared(calls, &rows[4].1).expect("k 0");
        assert_eq!(calls.open(&table, &mut [0; 8], &mut [0]), REFUSED + 13);
        // F: the empty walk has {0,1}
        let (_, table) = prepared(calls, &rows[5].1).expect("k 1");
        assert_eq!(walked(calls, &table, &[]), [set(&[0, 1])]);
    }
}

/// A plan of the list, a walk on it, a position and the stakes there; for each code the stake that is left there by a leg more, if that can
/// be walked.
type WalkInDoubt = (&'static str, &'static [u8], usize, &'static [u32], &'static [Option<u32>]);

/// W-203: "a plan that preparing answers with a k of 1 or more has a walk from a start with a position followed by exactly k-1 legs, all on
/// the plan, and at least two possible stakes there". Such walks as document 01 writes them, or as its lines give them.
#[test]
fn no_leg_held_for_nothing() {
    let rows: [WalkInDoubt; 4] = [
        // three legs 00, "open 3 stakes 1 2"; 2 has no line
        ("A", &[0, 0, 0], 3, &[1, 2], &[Some(1)]),
        // "Walk 0 1: {0,1}, {2}, {3}."; 3 has no line
        ("C", &[0, 1], 0, &[0, 1], &[None, None]),
        // "the empty walk has {0,1}"
        ("F", &[], 0, &[0, 1], &[None]),
        // from 0 by 0-0-1 and 1-1-0, and then with code 0 alone; from 1 by 1-0-2 and 2-1-2, and then with code 1 alone
        ("G", &[0, 1], 0, &[0, 1], &[Some(0), Some(1)]),
    ];
    let listed = listed();
    for calls in common::everyone() {
        for (name, walk, position, stakes, left) in rows {
            let (_, plan, _) = listed.iter().find(|row| row.0 == name).expect("is listed");
            let (k, table) = prepared(calls, plan).expect("a k");
            assert_eq!(walk.len() - position, k as usize - 1, "{name} by {}", calls.name());
            let sets = walked(calls, &table, walk);
            assert_eq!((sets.len(), sets[position]), (walk.len() + 1, set(stakes)), "{name} by {}", calls.name());
            assert_eq!(left.len(), plan.m);
            for (code, left) in left.iter().enumerate() {
                let sets = walked(calls, &table, &[walk, &[code as u8]].concat());
                let legs = walk.len() + left.is_some() as usize;
                let stakes = left.map_or(set(stakes), |stake| set(&[stake]));
                assert_eq!((sets.len(), sets[position]), (legs + 1, stakes), "{name} and {code} by {}", calls.name());
            }
        }
        // D, whose fork no walk reaches: one stake at every position
        let (_, table) = prepared(calls, &plan_d()).expect("k 0");
        assert_eq!(walked(calls, &table, &[0; 20]), [set(&[0]); 21]);
        // B and H, refused with 15: in doubt however many legs are behind, at position 1 and at 0. Their tables by hand.
        let b = [2, 1, 0, set(&[0]), set(&[0, 1]), set(&[1])];
        let h = [4, 2, 0, set(&[0, 1]), set(&[2]), 0, set(&[2]), 0, 0, set(&[3]), 0, set(&[3])];
        for legs in 0..20 {
            let sets = walked(calls, &b, &vec![0; legs + 1]);
            assert_eq!((sets.len(), sets[1]), (legs + 2, set(&[0, 1])), "B by {}", calls.name());
            let sets = walked(calls, &h, &(0..legs).map(|leg| (leg > 0) as u8).collect::<Vec<_>>());
            assert_eq!((sets.len(), sets[0]), (legs + 1, set(&[0, 1])), "H by {}", calls.name());
        }
    }
    // and the reference finds one for each number of legs below k, or for every number under 15
    for (name, plan, expected) in &listed {
        let plan = read_for(&plan.bytes(), 0).expect("sound");
        for legs in 0..20 {
            assert_eq!(in_doubt(&plan, legs, &mut |_| 0).is_some(), expected.map_or(true, |k| legs < k as usize), "{name}, {legs} legs");
        }
    }
}

#[test]
fn plan_a_as_the_document_writes_it() {
    let bytes = [1, 0, 3, 0, 1, 0, 1, 0, 3, 0, 0x10, 0, 0x11, 0, 0x1A, 0, 0, 0, 0, 1, 1, 0, 1, 1, 0, 2];
    assert_eq!(plan_a().bytes(), bytes);
    for calls in common::everyone() {
        let (_, table) = prepared(calls, &plan_a()).expect("k 1");
        let (mut rec, mut position) = ([0xEE; 10], [77]);
        // the sample's legs 00 00 00 book 0, 1, 1 at 0, 1, 2 and leave 3 open with 1 and 2
        assert_eq!(calls.open(&table, &mut rec, &mut position), NOTHING);
        assert_eq!((rec, position), ([0, 0, 0, 0, 255, 0, 0, 0, 0, 0xEE], [77]));
        for (at, stake) in [(0, 0), (1, 1), (2, 1)] {
            assert_eq!(calls.feed(&table, &mut rec, 0, &mut position), stake);
            assert_eq!(position, [at]);
            assert_eq!(rec, [at as u8 + 1, 0, 0, 0, stake as u8, 0, 1, 0, 0, 0xEE]);
        }
        let mut sets = [1 << 40, 1 << 41];
        assert_eq!(calls.finish(&table, &rec, &mut sets), 1);
        assert_eq!(sets, [set(&[1, 2]), 1 << 41]);
    }
}

/// "Who can cause which refusal", as document 01 lists them: author 1, caller 2, logger 3; every other number is nobody's. W-207: 16 is the
/// author's, as 7 is.
#[test]
fn groups_of_refusals() {
    let listed = [0, 1, 1, 1, 1, 1, 1, 1, 2, 2, 2, 3, 3, 3, 2, 1, 1];
    let large = [1 << 24, (1 << 24) + 1, (1 << 31) + 8, u32::MAX - 65_535, u32::MAX - 1, u32::MAX];
    for calls in common::everyone() {
        for refusal in (0..=70_000).chain(large) {
            let expected = listed.get(refusal as usize).copied().unwrap_or(0);
            assert_eq!(calls.group(refusal), expected, "{refusal} by {}", calls.name());
        }
    }
}

fn header_text() -> String {
    std::fs::read_to_string(concat!(env!("CARGO_MANIFEST_DIR"), "/../include/gawherino.h")).expect("the header is there")
}

/// The header's numbers: each refusal has one name, which stands under its group, and the sizes are those of 64 stakes and 32 codes.
#[test]
fn numbers_of_the_header() {
    let header = header_text();
    let defined = |line: &str| -> Option<(String, u32)> {
        let mut words = line.strip_prefix("#define GAWHERINO_")?.split_whitespace();
        Some((words.next()?.to_string(), words.next()?.trim_end_matches('u').parse().ok()?))
    };
    let (mut group, mut refusals) = (0, Vec::new());
    for line in header.lines() {
        group = match line {
            "/* Refusals by the plan's author. */" => 1,
            "/* By the caller. */" => 2,
            "/* By the logger. */" => 3,
            "" => 0,
            _ => group,
        };
        if group > 0 {
            if let Some((name, number)) = defined(line) {
                assert_eq!(conformance::reference::group(number), group, "{name}");
                refusals.push(number);
            }
        }
    }
    refusals.sort();
    assert_eq!(refusals, (1..=16).collect::<Vec<u32>>());
    let numbers: std::collections::BTreeMap<String, u32> = header.lines().filter_map(defined).collect();
    let k = max_look_ahead(MAX_STAKES);
    let sizes = [
        ("MAX_STAKES", MAX_STAKES),
        ("MAX_CODES", MAX_CODES),
        ("MAX_LINES", MAX_LINES),
        ("MAX_PLAN", u16::MAX as usize),
        ("MAX_LOOKAHEAD", k),
        ("MAX_TABLE", table::length(MAX_STAKES, MAX_CODES)),
        ("MAX_RECORD", record::length(k)),
        ("MAX_LETTERS", letters(MAX_STAKES)),
        ("MAX_SETS", k),
        ("MAX_WRITTEN", plan::length(2, MAX_STAKES, MAX_LINES)),
        ("PARTIES", PARTIES as usize),
        ("MAX_NEEDS", needs::length(MAX_STAKES, MAX_CODES)),
        ("ENDLESS", needs::ENDLESS as usize),
        ("UNMEASURED", needs::UNMEASURED as usize),
        ("MAX_PAGE", page::most(MAX_STAKES, MAX_CODES)),
        ("PAGE_LINE", page::LINE),
        ("MAX_LEGS", MAX_LEGS as usize),
        ("REFUSED", REFUSED as usize),
        ("NOTHING", NOTHING as usize),
        ("STARTS", STARTS as usize),
        ("COUNTS", COUNTS),
        ("EVIDENCE", evidence::NUMBERS),
        ("VERDICT", VERDICT),
    ];
    let groups = GROUPS.iter().enumerate().map(|(number, name)| (name.to_uppercase(), number));
    for (name, number) in sizes.map(|(name, number)| (name.to_string(), number)).into_iter().chain(groups) {
        assert_eq!(numbers.get(&name), Some(&(number as u32)), "GAWHERINO_{name}");
    }
}

/// The header declares the calls of the table in its order, so that none is missed here and the library is called as it is declared.
#[test]
fn calls_of_the_header() {
    let header = header_text();
    let declared = header.split("\nuint32_t gawherino_").skip(1).map(|rest| rest.split_once(';').expect("it ends").0);
    let declared: Vec<String> = declared.map(|text| text.split_whitespace().collect::<Vec<_>>().join(" ")).collect();
    let of_the_table = CALLS.iter().map(|call| {
        let parameters = call.parameters.iter().map(|Parameter { name, kind, c, .. }| match kind {
            Kind::Number => format!("{c} {name}"),
            Kind::Input => format!("const {c} *{name}, size_t {name}_len"),
            Kind::Output => format!("{c} *{name}, size_t {name}_len"),
        });
        format!("{}({})", call.name, parameters.collect::<Vec<_>>().join(", "))
    });
    assert_eq!(declared, of_the_table.collect::<Vec<_>>());
}

/// "12: a code .. in a call not below the plan's": a code is any 32-bit number, also where a part of its bits would be one of the plan's.
#[test]
fn codes_of_32_bits() {
    let plan = draft(3, 32, &[0], &[(0, 0, 1), (1, 31, 2), (2, 1, 2)]);
    for calls in common::everyone() {
        let (_, table) = prepared(calls, &plan).expect("k 0");
        let (mut rec, mut position) = ([0; 8], [77]);
        assert_eq!(calls.open(&table, &mut rec, &mut position), 0);
        for (code, reply) in [(0, 1), (31, 2), (1, 2)] {
            let before = (rec, position);
            for stray in [32, 33, 255, 256, 256 + code, 65_535, 65_536, 65_536 + code, (1 << 31) + code, u32::MAX] {
                assert_eq!(calls.feed(&table, &mut rec, stray, &mut position), REFUSED + 12, "{stray} by {}", calls.name());
                assert_eq!((rec, position), before);
            }
            assert_eq!(calls.feed(&table, &mut rec, code, &mut position), reply);
        }
    }
}

/// A step: the rounds and the set led to, or the refusal; a longer slice keeps its rest, and a refused step writes nothing.
fn stepped(calls: &dyn Calls, table: &[u64], set: u64, code: u32) -> Result<(u32, u64), u32> {
    let mut next = pattern::<u64>(NEXT + 1);
    let reply = calls.step(table, set, code, &mut next);
    let kept = if reply < REFUSED { NEXT } else { 0 };
    assert_eq!(next[kept..], pattern::<u64>(NEXT + 1)[kept..], "by {}", calls.name());
    if reply >= REFUSED {
        return Err(reply - REFUSED);
    }
    Ok((reply, next[0]))
}

/// W-204 on plan A, from every set of its stakes: what code 0 leads to, in "exactly as many" rounds "as the set has members".
#[test]
fn steps_on_plan_a() {
    for calls in common::everyone() {
        let (_, table) = prepared(calls, &plan_a()).expect("k 1");
        let led_to = [0, 0b010, 0b110, 0b110, 0, 0b010, 0b110, 0b110];
        for (set, led_to) in led_to.into_iter().enumerate() {
            let rounds = [0, 1, 1, 2, 1, 2, 2, 3][set];
            assert_eq!(stepped(calls, &table, set as u64, 0), Ok((rounds, led_to)), "from {set:b} by {}", calls.name());
            // a code not below m, and "a bit n or higher"
            for stray in [1, 2, 32, 255, 256, 65_536, 1 << 31, u32::MAX] {
                assert_eq!(stepped(calls, &table, set as u64, stray), Err(12), "{stray} by {}", calls.name());
            }
            for bit in 3..MAX_STAKES {
                assert_eq!(stepped(calls, &table, set as u64 | 1 << bit, 0), Err(12), "bit {bit} by {}", calls.name());
            }
        }
        // 8, then 9, then 12, and the table's numbers past its form are not read
        let longer = [table.as_slice(), &[u64::MAX]].concat();
        assert_eq!(stepped(calls, &longer, 0b011, 0), Ok((2, 0b110)));
        assert_eq!(calls.step(&table, 0b011, 0, &mut []), REFUSED + 9);
        assert_eq!(calls.step(&table, 0b1000, 1, &mut []), REFUSED + 9);
        assert_eq!(calls.step(&table[..6], 0b1000, 1, &mut []), REFUSED + 8);
        assert_eq!(stepped(calls, &table[..6], 0b1000, 1), Err(8));
    }
}

/// Steps at the greatest sizes: with 64 stakes no bit is too high, and the rounds are 0 to 64.
#[test]
fn steps_of_64_stakes() {
    let lines: Vec<Line> = (0..64).map(|stake| (stake, 31, 63 - stake)).collect();
    let plan = draft(64, 32, &[0], &lines);
    for calls in common::everyone() {
        let (_, table) = prepared(calls, &plan).expect("k 0");
        for set in [0, u64::MAX, u64::MAX - 1, 1 << 63, 1, u64::MAX >> 1, 0x0123_4567_89AB_CDEF] {
            assert_eq!(stepped(calls, &table, set, 31), Ok((set.count_ones(), set.reverse_bits())), "{set:x} by {}", calls.name());
            assert_eq!(stepped(calls, &table, set, 30), Ok((set.count_ones(), 0)), "{set:x} by {}", calls.name());
            assert_eq!(stepped(calls, &table, set, 32), Err(12), "{set:x} by {}", calls.name());
        }
    }
}

/// Steps along a word from the starts give the stakes reached: a whole walk goes on as long as they lead anywhere, shows no other stakes,
/// and ends in the last of their sets that is not empty. Every word of up to five codes on the listed plans that have a start, those without a k too.
#[test]
fn steps_along_a_whole_walk() {
    for calls in common::everyone() {
        let (mut to_the_end, mut shorter, mut fewer) = (0, 0, 0);
        for (name, plan, _) in listed().into_iter().filter(|(_, plan, _)| !plan.starts.is_empty()) {
            let table = conformance::reference::table::table_of(&read_for(&plan.bytes(), 0).expect("sound"), 0);
            for word in (0..=5).flat_map(|length| common::words(plan.m, length)) {
                let mut sets = vec![table[table::STARTS]];
                for &code in &word {
                    let set = sets[sets.len() - 1];
                    let (rounds, next) = stepped(calls, &table, set, code as u32).expect("on the plan");
                    assert_eq!(rounds, set.count_ones(), "{name} by {}", calls.name());
                    sets.push(next);
                }
                let walk = walked(calls, &table, &word);
                let g = sets.iter().rposition(|&set| set != 0).expect("there are starts");
                assert_eq!((walk.len() - 1, walk[g]), (g, sets[g]), "{name}, {word:?} by {}", calls.name());
                assert!(walk.iter().zip(&sets).all(|(shown, reached)| shown & !reached == 0), "{name}, {word:?} by {}", calls.name());
                fewer += walk.iter().zip(&sets).any(|(shown, reached)| shown != reached) as u32;
                *(if g == word.len() { &mut to_the_end } else { &mut shorter }) += 1;
            }
        }
        assert!(to_the_end > 40 && shorter > 140 && fewer > 20, "{to_the_end} to the end, {shorter} shorter, {fewer} with fewer shown");
    }
}

#[test]
fn traps_of_document_01() {
    // a loop that exchanges the two stakes still means 15
    let exchange = draft(2, 1, &[0, 1], &[(0, 0, 1), (1, 0, 0)]);
    // three stakes that share no word of some length may still share one of that length two by two
    let by_twos = draft(4, 3, &[0, 1, 2], &[(0, 0, 3), (1, 0, 3), (1, 1, 3), (2, 1, 3), (0, 2, 3), (2, 2, 3)]);
    // C renumbered so that a round in place goes wrong
    let renumbered = draft(4, 2, &[2, 3], &[(2, 0, 1), (3, 0, 1), (1, 1, 0)]);
    for calls in common::everyone() {
        counted(calls, &exchange, Err(15), "exchange");
        counted(calls, &by_twos, Ok(2), "two by two");
        counted(calls, &renumbered, Ok(3), "C renumbered");
    }
}

/// Example 1 with 2: Fig. 1 (a) is plan A with p, q, r as 0, 1, 2; Fig. 1 (b) forks to two stakes without lines.
#[test]
fn examples_1_and_2() {
    let b = draft(3, 1, &[0], &[(0, 0, 1), (0, 0, 2)]);
    for calls in common::everyone() {
        counted(calls, &plan_a(), Ok(1), "Fig. 1 (a)");
        counted(calls, &b, Ok(1), "Fig. 1 (b)");
        let (_, table) = prepared(calls, &plan_a()).expect("k 1");
        // <<p, a>> = {q}: 1 is the only minimal q-selector, a* are selectors, there are no nonselectors
        assert_eq!(judged(calls, &table, 0, 0, &[]), (true, set(&[1]), 0));
        assert_eq!(judged(calls, &table, 0, 0, &[0]), (false, set(&[1]), 0));
        // T = {q, r}: the q-selectors are a+, and a is minimal
        assert_eq!(judged(calls, &table, 1, 0, &[0, 0]), (false, set(&[1]), 0));
        // (b): R_T = {1}; 1 is a maximal nonselector of q and of r, and there are no selectors
        let (_, table) = prepared(calls, &b).expect("k 1");
        assert_eq!(judged(calls, &table, 0, 0, &[]), (false, set(&[1, 2]), set(&[1, 2])));
        assert_eq!(judged(calls, &table, 0, 0, &[0]), (false, 0, 0));
    }
}

/// Example 1 with 2, Fig. 1 (c): p and q as 0 and 1, one code a; the fork <p, a> has the set {p, q}, and from q every a^k can be walked.
/// The text leaves open where q's a leads: to q, to p or to both. Whichever it is, what it says of T = {p, q} must hold. There is no k, so
/// preparing makes no table; a verdict needs none of its making.
#[test]
fn examples_1_and_2_without_look_ahead() {
    let readings: [(&[Line], u64); 3] = [(&[(1, 0, 1)], 0b10), (&[(1, 0, 0)], 0b01), (&[(1, 0, 0), (1, 0, 1)], 0b11)];
    for calls in common::everyone() {
        for (from_q, led_to) in readings {
            let c = draft(2, 1, &[0], &[&[(0, 0, 0), (0, 0, 1)], from_q].concat());
            counted(calls, &c, Err(15), "Fig. 1 (c)");
            // every word in a* is a nonselector of p and of q; there are no selectors and no maximal nonselectors
            let table = [2, 1, 0, set(&[0]), set(&[0, 1]), led_to];
            for length in 0..20 {
                assert_eq!(judged(calls, &table, 0, 0, &vec![0; length]), (false, set(&[0, 1]), 0), "a^{length}");
            }
        }
    }
}

/// Fig. 7, q1 to q7 as 0 to 6, a and b as 0 and 1, and c, for which it has no edges, as 2. The lines are those that Examples 7, 8 and 10
/// name; q5 has none, since 1 is its maximal nonselector.
fn figure_7(starts: &[u8]) -> Draft {
    let (a, b) = (0, 1);
    let lines: [Line; 11] =
        [(0, a, 1), (0, a, 2), (0, b, 0), (1, a, 3), (1, a, 4), (1, a, 5), (1, b, 5), (2, b, 6), (3, a, 0), (5, b, 4), (6, a, 0)];
    draft(7, 3, starts, &lines)
}

fn word(text: &str) -> Vec<u8> {
    text.bytes().map(|letter| letter - b'a').collect()
}

#[test]
fn examples_7_8_and_10() {
    for calls in common::everyone() {
        let plan = figure_7(&[0, 5]);
        counted(calls, &plan, Ok(2), "Fig. 7 is 2-predictable");
        let (_, table) = prepared(calls, &plan).expect("k 2");
        // Example 7: minimal selectors and maximal nonselectors, and no others among all words of up to 4 letters
        let sets: [((u32, u32), Vec<(&str, u32)>, Vec<(&str, u32)>); 3] = [
            ((STARTS, 0), vec![("a", 0), ("ba", 0), ("bb", 0)], vec![("b", 5)]),
            ((0, 0), vec![("a", 1), ("bb", 1), ("ba", 2)], vec![]),
            ((1, 0), vec![("a", 3), ("b", 5)], vec![("", 4)]),
        ];
        let mut words = vec![String::new()];
        for length in 0..4 {
            let last: Vec<String> = words.iter().filter(|word| word.len() == length).cloned().collect();
            words.extend(last.iter().flat_map(|word| ["a", "b", "c"].map(|letter| format!("{word}{letter}"))));
        }
        for ((state, letter), selectors, nonselectors) in &sets {
            for text in &words {
                let (minimal, can_walk, maximal) = judged(calls, &table, *state, *letter, &word(text));
                let selected = selectors.iter().find(|(selector, _)| selector == text);
                assert_eq!(minimal, selected.is_some(), "{text} in {state}, {letter}");
                if let Some((_, stake)) = selected {
                    assert_eq!(can_walk, set(&[*stake]), "{text}");
                }
                let last: Vec<u32> = nonselectors.iter().filter(|(word, _)| word == text).map(|(_, stake)| *stake).collect();
                assert_eq!(maximal, set(&last), "{text}");
            }
        }
        // "The empty word 1 is a minimal selector in each deterministic transition."
        for (state, letter, to) in [(0, 1, 0), (1, 1, 5), (2, 1, 6), (3, 0, 0), (5, 1, 4), (6, 0, 0)] {
            assert_eq!(judged(calls, &table, state, letter, &[]), (true, set(&[to]), 0));
        }
        // Example 8: aaababaab, whose last two positions stay open
        let sets = walked(calls, &table, &word("aaababaab"));
        let stakes: [&[u32]; 10] = [&[0], &[1], &[3], &[0], &[0], &[2], &[6], &[0], &[1, 2], &[5, 6]];
        assert_eq!(sets, stakes.map(set));
        // leg by leg: each position when the second later leg has come
        let (mut rec, mut position) = (vec![0; 10], [0]);
        assert_eq!(calls.open(&table, &mut rec, &mut position), NOTHING);
        for (i, &code) in word("aaababaab").iter().enumerate() {
            let reply = calls.feed(&table, &mut rec, code as u32, &mut position);
            if i == 0 {
                assert_eq!(reply, NOTHING);
            } else {
                assert_eq!((reply, position[0] as usize), (stakes[i - 1][0], i - 1));
            }
        }
        let mut open = [0; 2];
        assert_eq!(calls.finish(&table, &rec, &mut open), 2);
        assert_eq!(open, [set(&[1, 2]), set(&[5, 6])]);
        // Example 10: abba has one path, q1 q2 q6 q5, and then stops
        assert_eq!(walked(calls, &table, &word("abba")), [set(&[0]), set(&[1]), set(&[5]), set(&[4])]);
        // "In general, the predictor of Fig. 7 has the following properties": the initial set by how the input begins
        let begins: [(&[u8], &[(&str, &[u32])]); 3] = [
            (&[0, 5], &[("", &[0, 5]), ("b", &[0, 5]), ("cab", &[0, 5]), ("bca", &[0, 5]), ("a", &[0]), ("baa", &[0]), ("bbb", &[0])]),
            (&[1, 2], &[("", &[1, 2]), ("b", &[1, 2]), ("cab", &[1, 2]), ("bca", &[1, 2]), ("ab", &[1]), ("bb", &[1]), ("bac", &[2])]),
            (&[3, 4, 5], &[("", &[3, 4, 5]), ("ca", &[3, 4, 5]), ("ac", &[3]), ("bc", &[5]), ("b", &[5])]),
        ];
        for (starts, walks) in begins {
            let (_, table) = prepared(calls, &figure_7(starts)).expect("k 2");
            for (text, stakes) in walks {
                assert_eq!(walked(calls, &table, &word(text))[0], set(stakes), "{text} from {starts:?}");
            }
        }
    }
}

#[test]
fn example_11_and_theorem_5() {
    let first = [(1, 2), (1, 3), (1, 4), (2, 3), (2, 4), (3, 4)];
    let second = [(2, 3), (3, 4), (1, 4), (2, 4), (1, 3), (2, 1)];
    let mut r = Random::new(common::seed(), 11);
    for calls in common::everyone() {
        for pairs in [first, second] {
            let pairs: Vec<(u8, u8)> = pairs.iter().map(|&(r, s)| (r - 1, s - 1)).collect();
            counted(calls, &theorem_5(4, &pairs), Ok(6), "Example 11: both are 6-predictable");
        }
        for n in 1..=8u8 {
            let bound = n as u32 * (n as u32 - 1) / 2;
            for _ in 0..5 {
                counted(calls, &theorem_5(n as usize, &all_pairs(n)), Ok(bound), "Theorem 5: (n^2 - n)/2 is reached");
                let mut pairs = all_pairs(n);
                r.shuffle(&mut pairs);
                pairs.iter_mut().for_each(|pair| *pair = if r.percent(50) { (pair.1, pair.0) } else { *pair });
                counted(calls, &theorem_5(n as usize, &pairs), Ok(bound), "Theorem 5 in any order");
            }
        }
    }
}

/// Proposition 6 (one code, n - 1) and Remark 7 (two codes, n/2 × (n+1)/2), which the paper states of its figures 10 and 12.
#[test]
fn bounds_that_are_reached() {
    for calls in common::everyone() {
        for n in [2, 3, 4, 9, 33, 64] {
            counted(calls, &unary_chain(n), Ok(n as u32 - 1), "Fig. 10");
            let chain: Vec<Line> = (0..n as u8 - 1).map(|s| (s, 0, s + 1)).collect();
            counted(calls, &draft(n, 1, &[0, 1], &chain), Ok(n as u32 - 1), "Fig. 10 without its loop, states 1 and 2 initial");
            counted(calls, &odometer(n / 2, n.div_ceil(2)), Ok((n / 2 * n.div_ceil(2)) as u32), "Remark 7's number");
        }
    }
}

#[test]
fn sizes_that_are_only_run() {
    for calls in common::everyone() {
        // n 64 and 65
        counted(calls, &draft(64, 1, &[63], &[(63, 0, 62), (62, 0, 0)]), Ok(0), "n 64");
        assert_eq!(calls.count(&draft(65, 1, &[0], &[]).bytes()), REFUSED + 3, "n 65");
        // m 32 and 33
        counted(calls, &draft(2, 32, &[0], &[(0, 31, 1), (0, 31, 0), (1, 30, 1)]), Ok(1), "m 32");
        assert_eq!(calls.count(&draft(2, 33, &[0], &[]).bytes()), REFUSED + 3, "m 33");
        // e 4,096: every line of 64 stakes with one code has no k; from the lower half to the upper with four codes has k 1
        let every: Vec<Line> = (0..64).flat_map(|from| (0..64).map(move |to| (from, 0, to))).collect();
        counted(calls, &draft(64, 1, &[0], &every), Err(15), "e 4,096");
        let across: Vec<Line> = (0..32).flat_map(|from| (0..4).flat_map(move |code| (32..64).map(move |to| (from, code, to)))).collect();
        counted(calls, &draft(64, 4, &[7], &across), Ok(1), "e 4,096 with k 1");
        // e 4,097
        let mut more = across.clone();
        more.push((63, 0, 63));
        let many = draft(64, 4, &[7], &more).bytes();
        refused(calls, &many, 0, 3, "e 4,097");
        // 0 starts
        let none = draft(3, 2, &[], &[(0, 0, 1), (1, 1, 2)]);
        counted(calls, &none, Ok(0), "0 starts");
        let (_, table) = prepared(calls, &none).expect("k 0");
        assert_eq!(calls.open(&table, &mut [0; 8], &mut [0]), REFUSED + 13);
        assert_eq!(calls.walk(&table, &[], &mut [0], &mut [0]), REFUSED + 13);
        // the greatest count that 64 stakes reach here, and an empty part inside the lines
        counted(calls, &odometer(32, 32), Ok(1024), "k 1,024");
        let mut inside = header([1, 2, 1, 0, 1, 17, 16, 19]);
        inside.extend([0, 0, 1]);
        assert_eq!(calls.count(&inside), 0);
    }
}

/// What the check says of a claim on a plan of edition 1.
fn said_yes(calls: &dyn Calls, plan: &Draft, claim: [u32; evidence::NUMBERS], letters: &[u8]) -> bool {
    said_yes_for(calls, plan, 0, claim, letters)
}

/// What the check says of a claim for a party.
fn said_yes_for<L: AnyLine>(calls: &dyn Calls, plan: &Draft<L>, party: u32, claim: [u32; evidence::NUMBERS], letters: &[u8]) -> bool {
    let reply = calls.check(&plan.bytes(), party, &claim, letters);
    assert!(reply <= 1, "{reply} by {}", calls.name());
    reply == 1
}

/// W-202: "a critical set counts only as the starts, or as what one code leads to from a stake that some walk from a start reaches; the
/// same set named by an unreachable stake doesn't count". Here {1, 2} is what code 0 leads to from 0 and code 1 from 3, and both stakes go
/// on with code 0 for ever.
#[test]
fn one_set_under_several_names() {
    let lines = [(0, 0, 1), (0, 0, 2), (1, 0, 1), (2, 0, 2), (3, 1, 1), (3, 1, 2)];
    let claims = [[STARTS, 0, 1, 2, 0, 1], [0, 0, 1, 2, 0, 1], [3, 1, 1, 2, 0, 1]];
    // by the starts which of the names counts
    let rows: [(&[u8], [bool; 3]); 9] = [
        (&[0], [false, true, false]),
        (&[3], [false, false, true]),
        (&[0, 3], [false, true, true]),
        (&[1, 2], [true, false, false]),
        (&[1, 2, 0], [true, true, false]),
        (&[1, 2, 3], [true, false, true]),
        (&[1], [false; 3]),
        (&[2], [false; 3]),
        (&[], [false; 3]),
    ];
    for calls in common::everyone() {
        for (starts, counting) in rows {
            let plan = draft(4, 2, starts, &lines);
            counted(calls, &plan, if counting.contains(&true) { Err(15) } else { Ok(0) }, &format!("from {starts:?}"));
            let said = claims.map(|claim| said_yes(calls, &plan, claim, &[0]));
            assert_eq!(said, counting, "from {starts:?} by {}", calls.name());
            // W-205: by each name that counts the set has 65,535, and by a fork that does not 65,534
            let numbers = numbers_of(calls, &plan);
            let endless = [numbers[0], numbers[1], numbers[1 + 3 * 2 + 1]].map(|number| number == NONE);
            assert_eq!(endless, counting, "from {starts:?} by {}", calls.name());
            assert!([1, 1 + 3 * 2 + 1].iter().all(|&place| [NONE, OUT].contains(&numbers[place])), "from {starts:?} by {}", calls.name());
        }
        // the reachable name taken away with one of its lines
        let plan = draft(4, 2, &[0], &[&lines[..1], &lines[2..]].concat());
        counted(calls, &plan, Ok(0), "{1, 2} has the name of an unreachable stake alone");
        assert_eq!(claims.map(|claim| said_yes(calls, &plan, claim, &[0])), [false; 3], "{}", calls.name());
    }
}

/// W-202, without starts: no walk reaches a stake, and the starts alone, an empty set, count. Opening is refused with 13.
#[test]
fn no_starts_but_lines() {
    for calls in common::everyone() {
        for (name, with_starts, _) in listed() {
            let plan = Draft { starts: vec![], ..with_starts };
            counted(calls, &plan, Ok(0), &format!("{name} without starts"));
            assert_eq!(numbers_of(calls, &plan), vec![OUT; plan.n * plan.m + 1], "{name} without starts");
            let (_, table) = prepared(calls, &plan).expect("k 0");
            assert_eq!(calls.open(&table, &mut [0; 8], &mut [0]), REFUSED + 13, "{name} without starts");
            assert_eq!(calls.walk(&table, &[], &mut [0], &mut [0]), REFUSED + 13, "{name} without starts");
        }
        let b = draft(2, 1, &[], &[(0, 0, 0), (0, 0, 1), (1, 0, 1)]);
        assert!(!said_yes(calls, &b, [0, 0, 0, 1, 0, 1], &[0]) && !said_yes(calls, &b, [STARTS, 0, 0, 1, 0, 1], &[0]));
        assert!(said_yes(calls, &Draft { starts: vec![0], ..b }, [0, 0, 0, 1, 0, 1], &[0]));
    }
}

/// W-202: "Refusal 14 may now also meet a record whose base no walk reaches." Such a record passes 10 if its held codes can be walked.
#[test]
fn records_whose_base_no_walk_reaches() {
    // k 0: stake 0, which no walk reaches, forks to itself and to 1
    let plain = draft(2, 2, &[1], &[(0, 0, 0), (0, 0, 1)]);
    // the same with a way on by code 1
    let way_on = draft(2, 2, &[1], &[(0, 0, 0), (0, 0, 1), (0, 1, 1)]);
    // k 1 by the starts 1 and 2: the fork of 0 leads to 0 and 3, which both go on
    let held = draft(4, 2, &[1, 2], &[(0, 0, 0), (0, 0, 3), (3, 0, 3)]);
    for calls in common::everyone() {
        counted(calls, &plain, Ok(0), "the base's fork does not count");
        let (_, table) = prepared(calls, &plain).expect("k 0");
        assert_eq!(table, [2, 2, 0, 0b10, 0b11, 0, 0, 0]);
        for legs in [0, 1, 2, 255] {
            let rec = [legs, 0, 0, 0, 0, 0, 0, 0];
            for (code, refusal) in [(0, 14), (1, 13), (2, 12)] {
                let (mut fed, mut position) = (rec, [77]);
                assert_eq!(calls.feed(&table, &mut fed, code, &mut position), REFUSED + refusal, "code {code} by {}", calls.name());
                assert_eq!((fed, position), (rec, [77]));
            }
            assert_eq!(calls.finish(&table, &rec, &mut []), 0, "{}", calls.name());
            // as opening leaves it, from the start: nothing is on the plan there
            let mut opened = [legs, 0, 0, 0, 1, 0, 0, 0];
            assert_eq!(calls.feed(&table, &mut opened, 0, &mut [0]), REFUSED + 13);
        }
        // a leg from such a base is taken where it leads to one stake
        counted(calls, &way_on, Ok(0), "the base's fork does not count");
        let (_, table) = prepared(calls, &way_on).expect("k 0");
        let (mut rec, mut position) = ([4, 0, 0, 0, 0, 0, 0, 0], [77]);
        assert_eq!(calls.feed(&table, &mut rec, 0, &mut position), REFUSED + 14);
        assert_eq!(calls.feed(&table, &mut rec, 1, &mut position), 1);
        assert_eq!((rec, position), ([5, 0, 0, 0, 1, 0, 0, 0], [5]));
        // with a held code: 0 and 3 are possible at the position that is due
        counted(calls, &held, Ok(1), "two starts, and a base whose fork does not count");
        let (_, table) = prepared(calls, &held).expect("k 1");
        let (rec, mut sets) = ([1, 0, 0, 0, 0, 0, 1, 0, 0], [0]);
        assert_eq!((calls.finish(&table, &rec, &mut sets), sets), (1, [set(&[0, 3])]));
        let mut fed = rec;
        assert_eq!((calls.feed(&table, &mut fed, 0, &mut [0]), fed), (REFUSED + 14, rec));
        // 10 is for held codes that can't be walked, here code 1
        assert_eq!(calls.finish(&table, &[1, 0, 0, 0, 0, 0, 1, 0, 1], &mut sets), REFUSED + 10);
    }
}

/// A chain of n stakes and behind it, n - 1 legs from the start, a fork. It counts if no leg of the chain is missing, in whatever order the
/// stakes are numbered and the lines listed.
#[test]
fn a_fork_behind_a_chain() {
    for n in [2, 3, 4, 9, 33, 64u8] {
        let ascending: Vec<u8> = (0..n).collect();
        let descending: Vec<u8> = (0..n).rev().collect();
        let from_both_ends: Vec<u8> = (0..n).map(|i| if i % 2 == 0 { i / 2 } else { n - 1 - i / 2 }).collect();
        for order in [ascending, descending, from_both_ends] {
            let (last, other) = (order[n as usize - 1], order[n as usize - 2]);
            let claim = [last as u32, 1, last.min(other) as u32, last.max(other) as u32, 0, 1];
            let mut chain: Vec<Line> = order.windows(2).map(|pair| (pair[0], 0, pair[1])).collect();
            chain.reverse();
            // what code 1 leads to from the last: itself and the one before, of which the first goes on with 1 and the other with 0
            let fork = [(last, 1, last), (last, 1, other)];
            // with a loop there the other goes on with 1 too
            let clash = [fork.as_slice(), &[(other, 1, other)]].concat();
            for calls in common::everyone() {
                let made = |chain: &[Line], fork: &[Line]| draft(n as usize, 2, &order[..1], &[chain, fork].concat());
                counted(calls, &made(&chain, &fork), Ok(1), "a whole chain");
                counted(calls, &made(&chain, &clash), Err(15), "a whole chain");
                assert!(said_yes(calls, &made(&chain, &clash), claim, &[1]), "{order:?} by {}", calls.name());
                // the fork's own number
                let number = |plan: &Draft| numbers_of(calls, plan)[1 + last as usize * 2 + 1];
                assert_eq!([&fork[..], &clash].map(|fork| number(&made(&chain, fork))), [1, NONE], "{order:?} by {}", calls.name());
                for missing in 0..chain.len() {
                    let (before, after) = (&chain[..missing], &chain[missing + 1..]);
                    let cut = [before, after].concat();
                    assert_eq!(calls.count(&made(&cut, &fork).bytes()), 0, "{order:?} by {}", calls.name());
                    assert_eq!(calls.count(&made(&cut, &clash).bytes()), 0, "{order:?} by {}", calls.name());
                    assert!(!said_yes(calls, &made(&cut, &clash), claim, &[1]), "{order:?} by {}", calls.name());
                    assert_eq!(number(&made(&cut, &clash)), OUT, "{order:?} by {}", calls.name());
                }
            }
        }
    }
}

/// W-202: "Verdicts may still name any set." Document 01's of plan A's set {1,2} hold from whatever start, also where no walk reaches 1.
#[test]
fn verdicts_on_any_set() {
    for calls in common::everyone() {
        for (starts, k) in [(vec![0], 1), (vec![1], 1), (vec![2], 0), (vec![], 0)] {
            let (found, table) = prepared(calls, &Draft { starts, ..plan_a() }).expect("predictable");
            assert_eq!(found, k);
            assert_eq!(judged(calls, &table, 1, 0, &[]), (false, set(&[1, 2]), set(&[2])));
            assert_eq!(judged(calls, &table, 1, 0, &[0]), (true, set(&[1]), 0));
        }
        // D: in {1,2}, for which it was turned down, every word is a nonselector of both and none is maximal
        let (_, table) = prepared(calls, &plan_d()).expect("k 0");
        for length in 0..5 {
            assert_eq!(judged(calls, &table, 1, 0, &vec![0; length]), (false, set(&[1, 2]), 0));
        }
    }
}

/// W-202: "where we compare with source document 003, we compare after its unreachable stakes are taken out". Its figures from other
/// starts.
#[test]
fn figures_from_other_starts() {
    for calls in common::everyone() {
        // Fig. 1 (a): from q the fork <q, a> counts, and from r nothing remains but r
        counted(calls, &Draft { starts: vec![1], ..plan_a() }, Ok(1), "Fig. 1 (a) from q");
        counted(calls, &Draft { starts: vec![2], ..plan_a() }, Ok(0), "Fig. 1 (a) from r");
        // Fig. 7: from q3 all is reached; from q6 there remains q6 b q5, and from q5 nothing but q5
        counted(calls, &figure_7(&[2]), Ok(2), "Fig. 7 from q3");
        counted(calls, &figure_7(&[5]), Ok(0), "Fig. 7 from q6");
        counted(calls, &figure_7(&[4]), Ok(0), "Fig. 7 from q5");
        // from both there remains the same, and they share the empty word alone
        counted(calls, &figure_7(&[4, 5]), Ok(1), "Fig. 7 from q5 and q6");
        // Fig. 10 from any state but the first: there remains a chain
        for n in [2, 3, 9, 64] {
            for start in 1..n as u8 {
                counted(calls, &Draft { starts: vec![start], ..unary_chain(n) }, Ok(0), "Fig. 10 from a state of its chain");
            }
        }
    }
}

/// The plan in its one form, written into a buffer that is longer than needed and keeps its rest.
fn written(calls: &dyn Calls, plan: &[u8]) -> Vec<u8> {
    let mut out: Vec<u8> = pattern(plan.len() + 3);
    let length = calls.write(plan, &mut out) as usize;
    assert!(length <= plan.len(), "{length} for {} bytes by {}", plan.len(), calls.name());
    assert_eq!(out[length..], pattern::<u8>(plan.len() + 3)[length..], "the rest by {}", calls.name());
    out.truncate(length);
    out
}

/// The plan in every layout, its starts and lines as listed, backwards and in any order.
fn drawn_otherwise<L: AnyLine>(plan: &Draft<L>) -> Vec<Vec<u8>> {
    let mut r = Random::new(common::seed(), 201);
    let (mut backwards, mut shuffled) = (plan.clone(), plan.clone());
    backwards.starts.reverse();
    backwards.lines.reverse();
    r.shuffle(&mut shuffled.starts);
    r.shuffle(&mut shuffled.lines);
    let (mut starts_alone, mut lines_alone) = (plan.clone(), plan.clone());
    starts_alone.starts.reverse();
    lines_alone.lines.reverse();
    let orders = [plan.clone(), backwards, shuffled, starts_alone, lines_alone];
    let gaps = [[0, 0, 0], [1, 0, 0], [0, 1, 0], [0, 0, 1], [5, 300, 2]];
    orders.iter().flat_map(|plan| [false, true].map(|first| gaps.map(|gaps| plan.laid_out(first, gaps)))).flatten().collect()
}

/// Document 02, W-201: "one form: starts at 16 ascending, lines directly after them ascending by from, code and to, no gaps".
/// `form` is a plan whose starts and lines are listed ascending; its bytes are what every other drawing of it must be written as. W-207: it
/// "orders by party last".
fn filed<L: AnyLine>(calls: &dyn Calls, form: &Draft<L>, name: &str) {
    assert!(form.starts.windows(2).all(|pair| pair[0] < pair[1]) && form.lines.windows(2).all(|pair| pair[0] < pair[1]), "{name}");
    let bytes = form.bytes();
    let needed = 16 + form.starts.len() + [3, 4][L::EDITION - 1] * form.lines.len();
    assert_eq!(bytes.len(), needed, "{name}");
    for plan in drawn_otherwise(form) {
        assert_eq!(written(calls, &plan), bytes, "{name} by {}", calls.name());
        // "A short output buffer is refused with 9": short of the form, whatever the plan's own length is
        for lent in [0, 1, 15, 16, needed - 1] {
            let mut out: Vec<u8> = pattern(lent.min(needed - 1));
            assert_eq!(calls.write(&plan, &mut out), REFUSED + 9, "{name} into {lent} by {}", calls.name());
            assert_eq!(out, pattern::<u8>(out.len()), "{name} into {lent} by {}", calls.name());
        }
        let mut out = vec![0; needed];
        assert_eq!((calls.write(&plan, &mut out), &out), (needed as u32, &bytes), "{name} by {}", calls.name());
    }
    // "Reading the written form yields the plan it came from."
    let mut counts = [0; COUNTS];
    assert_eq!(calls.read(&bytes, &mut counts), form.n as u32, "{name}");
    assert_eq!(counts, [form.m as u32, form.starts.len() as u32, form.lines.len() as u32], "{name}");
}

#[test]
fn one_form_to_file() {
    // A is listed in document 01 byte by byte, and in its form; G by hand, drawn with the lines first, backwards, and with gaps
    let a = [1, 0, 3, 0, 1, 0, 1, 0, 3, 0, 0x10, 0, 0x11, 0, 0x1A, 0, 0, 0, 0, 1, 1, 0, 1, 1, 0, 2];
    let g = [1, 0, 3, 0, 2, 0, 2, 0, 4, 0, 0x10, 0, 0x12, 0, 0x1E, 0, 0, 1, 0, 0, 1, 1, 0, 2, 1, 1, 0, 2, 1, 2];
    let g_header = [1, 0, 3, 0, 2, 0, 2, 0, 4, 0, 0x1E, 0, 0x11, 0, 0x23, 0];
    let g_parts = [99, 2, 1, 2, 1, 1, 0, 1, 0, 2, 0, 0, 1, 99, 1, 0, 99, 99, 99];
    // the greatest: 64 starts, and 4,096 lines over one code, four and 32
    let stakes: Vec<u8> = (0..64).collect();
    let every: Vec<Line> = (0..64).flat_map(|from| (0..64).map(move |to| (from, 0, to))).collect();
    let across: Vec<Line> = (0..32).flat_map(|from| (0..4).flat_map(move |code| (32..64).map(move |to| (from, code, to)))).collect();
    let twos: Vec<Line> = (0..64).flat_map(|from| (0..32).flat_map(move |code| [(from, code, code), (from, code, 63)])).collect();
    for calls in common::everyone() {
        assert_eq!(written(calls, &a), a);
        assert_eq!(written(calls, &[&g_header[..], &g_parts].concat()), g);
        for (name, plan, _) in &listed() {
            filed(calls, plan, name);
        }
        for (lines, m) in [(&every, 1), (&across, 4), (&twos, 32)] {
            assert_eq!(lines.len(), 4096);
            filed(calls, &draft(64, m, &stakes, lines), "64 starts and 4,096 lines");
            assert_eq!(written(calls, &draft(64, m, &stakes, lines).bytes()).len(), 12_368);
        }
        filed(calls, &draft(64, 32, &stakes, &[]), "64 starts and no line");
        filed(calls, &draft(64, 1, &[], &every), "no start and 4,096 lines");
        // from before code before to, each at its ends
        let ends: Vec<Line> = [0, 63].iter().flat_map(|&from| [0, 31].map(|code| [0, 63].map(|to| (from, code, to)))).flatten().collect();
        filed(calls, &draft(64, 32, &[0, 63], &ends), "the ends of every range");
        // an empty part inside the other, and nothing but a gap
        let mut inside = header([1, 2, 1, 0, 2, 17, 16, 22]);
        inside.extend([1, 0, 1, 0, 0, 1]);
        assert_eq!(written(calls, &inside), draft(2, 1, &[], &[(0, 0, 1), (1, 0, 1)]).bytes());
        let mut gap = header([1, 2, 1, 0, 0, 18, 20, 20]);
        gap.extend([7; 4]);
        assert_eq!(written(calls, &gap), draft(2, 1, &[], &[]).bytes());
    }
}

/// Plan A spoilt in each way that 1 to 7 name, and the number; and of edition 2 with a party that is none.
fn refused_plans() -> Vec<(u32, Vec<u8>)> {
    let a = plan_a().bytes();
    let changed = |place: usize, byte: u8| {
        let mut bytes = a.clone();
        bytes[place] = byte;
        bytes
    };
    vec![
        (1, a[..15].to_vec()),
        (1, a[..25].to_vec()),
        // W-207: "Refusal 2 now means neither 1 nor 2"; of edition 2 its lines would be four bytes each, and three of them go past the total
        (2, changed(0, 0)),
        (2, changed(0, 3)),
        (2, changed(1, 1)),
        (4, changed(0, 2)),
        (3, changed(2, 65)),
        (3, changed(4, 33)),
        (3, changed(6, 4)),
        (3, changed(9, 17)),
        (4, changed(10, 15)),
        (4, changed(10, 17)),
        (4, changed(12, 18)),
        (5, changed(16, 3)),
        (5, draft(2, 1, &[1, 1], &[]).bytes()),
        (6, changed(20, 3)),
        (6, changed(21, 1)),
        (7, changed(25, 1)),
        (16, parted(3, 1, &[0], &[(0, 0, 1, 0), (1, 0, 1, 8), (1, 0, 2, 0)]).bytes()),
    ]
}

/// W-201: "a plan that passes 1 to 7"; one that does not, or not 16, is refused with the first of them that applies, also where the buffer
/// is short.
#[test]
fn plans_that_are_not_written() {
    let refused = refused_plans();
    for calls in common::everyone() {
        for (number, plan) in &refused {
            for lent in [0, 1, 25, 26, 100] {
                let mut out: Vec<u8> = pattern(lent);
                assert_eq!(calls.write(plan, &mut out), REFUSED + number, "{plan:?} into {lent} by {}", calls.name());
                assert_eq!(out, pattern::<u8>(lent), "{plan:?} by {}", calls.name());
            }
        }
    }
}

/// The plan that bytes mean, so that their order does not matter: the edition, n, m, the starts and the lines' bytes.
type Meaning = (usize, usize, usize, Vec<u8>, Vec<Vec<u8>>);

/// Writes a plan in several layouts: the form is written as itself, means what it came from, and is that of no plan that means another.
fn filed_as<L: AnyLine>(calls: &dyn Calls, plan: &Draft<L>, forms: &mut std::collections::BTreeMap<Vec<u8>, Meaning>) {
    let (mut starts, mut lines) = (plan.starts.clone(), plan.lines.clone());
    starts.sort();
    lines.sort();
    let meaning = (L::EDITION, plan.n, plan.m, starts, lines.iter().map(|line| line.to_bytes()).collect());
    for bytes in [plan.bytes(), plan.laid_out(true, [1, 2, 3])] {
        let form = written(calls, &bytes);
        assert_eq!(written(calls, &form), form, "written twice by {}", calls.name());
        let mut again = read(&form).expect("the form passes 1 to 7");
        let mut came_from = read(&bytes).expect("sound");
        again.lines.sort();
        came_from.lines.sort();
        assert_eq!((again.edition, again.n, again.m), (came_from.edition, came_from.n, came_from.m));
        assert_eq!((again.starts, again.lines), (came_from.starts, came_from.lines));
        let before = forms.entry(form).or_insert_with(|| meaning.clone());
        assert_eq!(*before, meaning, "different plans give equal bytes by {}", calls.name());
    }
}

/// W-201: "Equal n, m, starts and lines give equal bytes, and different ones give different bytes." W-207: "equal bytes are claimed within
/// one edition"; in edition 2 a line has its party.
#[test]
fn equal_and_different_plans() {
    let plan = draft(5, 3, &[1, 3], &[(0, 1, 2), (2, 0, 4), (4, 2, 0)]);
    let starts: [&[u8]; 4] = [&[1], &[1, 2], &[1, 3, 4], &[]];
    let lines: [&[Line]; 8] = [
        &[(1, 1, 2), (2, 0, 4), (4, 2, 0)],
        &[(0, 0, 2), (2, 0, 4), (4, 2, 0)],
        &[(0, 1, 3), (2, 0, 4), (4, 2, 0)],
        &[(0, 1, 2), (2, 0, 4), (4, 2, 1)],
        &[(0, 1, 2), (2, 0, 4)],
        &[(0, 1, 2), (1, 0, 0), (2, 0, 4), (4, 2, 0)],
        &[(2, 1, 0), (4, 0, 2), (0, 2, 4)],
        &[],
    ];
    let mut all = vec![plan.clone(), Draft { n: 6, ..plan.clone() }, Draft { m: 4, ..plan.clone() }];
    all.extend(starts.map(|starts| draft(5, 3, starts, &plan.lines)));
    all.extend(lines.map(|lines| draft(5, 3, &plan.starts, lines)));
    for calls in common::everyone() {
        let mut r = Random::new(common::seed(), 202);
        // random plans, and a change of one thing in each
        let mut drawn = all.clone();
        for _ in 0..150 {
            let plan = plans::plan(&mut r);
            drawn.push(Draft { n: (plan.n + 1).min(MAX_STAKES), ..plan.clone() });
            drawn.push(Draft { m: (plan.m + 1).min(MAX_CODES), ..plan.clone() });
            drawn.push(Draft { starts: plan.starts[..plan.starts.len() / 2].to_vec(), ..plan.clone() });
            drawn.push(Draft { lines: plan.lines[..plan.lines.len() / 2].to_vec(), ..plan.clone() });
            drawn.push(plan);
        }
        let mut forms = std::collections::BTreeMap::new();
        for plan in drawn {
            filed_as(calls, &plan, &mut forms);
            // W-207: of edition 2 as one party's, as another's, and with lines of others
            filed_as(calls, &plan.of_party(0), &mut forms);
            filed_as(calls, &plan.of_party(7), &mut forms);
            filed_as(calls, &parties::among_others(&mut r, &plan).0, &mut forms);
        }
        let meanings: std::collections::BTreeSet<_> = forms.values().collect();
        assert_eq!(meanings.len(), forms.len(), "equal plans give different bytes by {}", calls.name());
        assert!(forms.len() > 1200, "{}", forms.len());
    }
}

/// W-205: "65,535 means that this set has none, 65,534 that it is empty or doesn't count by W-202".
const NONE: u16 = 65_535;
const OUT: u16 = 65_534;

/// The numbers of a plan's sets, into a buffer that is longer than needed and keeps its rest.
fn numbers_of(calls: &dyn Calls, plan: &Draft) -> Vec<u16> {
    let length = plan.n * plan.m + 1;
    let mut numbers: Vec<u16> = pattern(length + 3);
    assert_eq!(calls.needs(&plan.bytes(), 0, &mut numbers), length as u32, "by {}", calls.name());
    assert_eq!(numbers[length..], pattern::<u16>(length + 3)[length..], "the rest by {}", calls.name());
    numbers.truncate(length);
    numbers
}

/// W-205 of one plan, however it is drawn: these numbers, into as many places and into more; 9 into fewer, and then nothing is written.
/// "If no entry is 65,535, the plan's k is the largest of the entries other than 65,534, or 0 if there is no such entry."
fn needed(calls: &dyn Calls, plan: &Draft, expected: &[u16], name: &str) {
    let length = plan.n * plan.m + 1;
    assert_eq!(expected.len(), length, "{name}");
    assert_eq!(numbers_of(calls, plan), expected, "{name} by {}", calls.name());
    let drawn = if length < 100 { drawn_otherwise(plan) } else { vec![plan.laid_out(true, [1, 2, 3])] };
    for bytes in drawn {
        let mut numbers = vec![0; length];
        assert_eq!(calls.needs(&bytes, 0, &mut numbers), length as u32, "{name} by {}", calls.name());
        assert_eq!(numbers, expected, "{name} by {}", calls.name());
        for lent in [0, 1, length / 2, length - 1] {
            let mut numbers: Vec<u16> = pattern(lent);
            assert_eq!(calls.needs(&bytes, 0, &mut numbers), REFUSED + 9, "{name} into {lent} by {}", calls.name());
            assert_eq!(numbers, pattern::<u16>(lent), "{name} into {lent} by {}", calls.name());
        }
    }
    let largest = expected.iter().filter(|&&number| number != OUT).max().map_or(0, |&k| k as u32);
    counted(calls, plan, if expected.contains(&NONE) { Err(15) } else { Ok(largest) }, name);
}

/// W-205 on plans A to H: the starts, then stake by stake and code by code.
#[test]
fn needs_of_plans_a_to_h() {
    let rows: [(&str, &[u16]); 8] = [
        // {0}; from 0 {1}; from 1 {1,2}, of which 2 has no line; from 2 nothing
        ("A", &[0, 0, 1, OUT]),
        // {0}; from 0 {0,1}, and both go on with 0 for ever; from 1 {1}
        ("B", &[0, NONE, 0]),
        // {0,1} share 0 1; from 0 and from 1 by 0 {2}; from 2 by 1 {3}; there is no other line
        ("C", &[3, 0, OUT, 0, OUT, OUT, 0, OUT, OUT]),
        // {0}; from 0 {0}; no walk reaches 1 with its {1,2}, nor 2 with its {2}
        ("D", &[0, 0, OUT, OUT]),
        // no start, no line
        ("E", &[OUT, OUT]),
        // {0,1} share the empty word alone; no line
        ("F", &[1, OUT, OUT]),
        // {0,1} share 0 1, "the bound itself"; each line leads to one stake, and there is none from 0 by 1 or from 2 by 0
        ("G", &[3, 0, OUT, 0, 0, OUT, 0]),
        // {0,1} share 0 1 1 1 .. without end; the forks as C's, and from 3 by 1 {3}
        ("H", &[NONE, 0, OUT, 0, OUT, OUT, 0, OUT, 0]),
    ];
    for calls in common::everyone() {
        for ((name, numbers), (listed, plan, k)) in rows.iter().zip(listed()) {
            assert_eq!(*name, listed);
            needed(calls, &plan, numbers, name);
            // what document 01 has for the plan as a whole
            let largest = numbers.iter().filter(|&&number| number < OUT).max().map_or(0, |&k| k as u32);
            assert_eq!(if numbers.contains(&NONE) { Err(15) } else { Ok(largest) }, k, "{name}");
        }
    }
}

/// W-205: "One bad fork now sinks a whole plan, and hides the others." Two bad forks, {1,2} from 0 by 0 and from 4 by 2, with others beside
/// them, and two forks of 6, of which one would be bad. By the starts other stakes are reached; the others' forks have 65,534.
#[test]
fn bad_forks_among_others() {
    let lines: Vec<Line> = [
        [(0, 0, 1), (0, 0, 2)],
        [(0, 1, 3), (0, 1, 4)],
        [(0, 2, 1), (0, 2, 3)],
        [(1, 0, 1), (2, 0, 2)],
        [(3, 1, 5), (4, 1, 5)],
        [(4, 2, 1), (4, 2, 2)],
        [(6, 0, 1), (6, 0, 2)],
        [(6, 1, 3), (6, 1, 4)],
    ]
    .concat();
    let forks = [
        // {1,2} go on with 0 for ever; {3,4} meet at 5 by 1, and 5 has no line; {1,3} go on with 0 and with 1 alone
        [NONE, 2, 1],
        // {1}
        [0, OUT, OUT],
        // {2}
        [0, OUT, OUT],
        // {5}
        [OUT, 0, OUT],
        // {5}; {1,2}
        [OUT, 0, NONE],
        // no line
        [OUT, OUT, OUT],
        // {1,2}; {3,4}
        [NONE, 2, OUT],
    ];
    // the starts, their own number, and the stakes that are reached
    let rows: [(&[u8], u16, &[usize]); 11] = [
        (&[0], 0, &[0, 1, 2, 3, 4, 5]),
        (&[6], 0, &[1, 2, 3, 4, 5, 6]),
        // both go on with 0 to 1 or 2
        (&[0, 6], NONE, &[0, 1, 2, 3, 4, 5, 6]),
        (&[1, 2], NONE, &[1, 2]),
        // 4 goes on to 1 and 2, too
        (&[3, 4], 2, &[1, 2, 3, 4, 5]),
        // 5 shares the empty word alone with each of the others
        (&[3, 4, 5], 2, &[1, 2, 3, 4, 5]),
        // 2 goes on with 0 alone, and 4 with 1 and 2
        (&[2, 4], 1, &[1, 2, 4, 5]),
        (&[1, 3], 1, &[1, 3, 5]),
        (&[3], 0, &[3, 5]),
        (&[5], 0, &[5]),
        (&[], OUT, &[]),
    ];
    for calls in common::everyone() {
        for (starts, number, reached) in rows {
            let mut expected = vec![number];
            for (stake, numbers) in forks.iter().enumerate() {
                expected.extend(if reached.contains(&stake) { numbers } else { &[OUT; 3] });
            }
            needed(calls, &draft(7, 3, starts, &lines), &expected, &format!("from {starts:?}"));
        }
    }
}

/// W-205 at the greatest sizes: 2,049 numbers.
#[test]
fn needs_of_64_stakes_and_32_codes() {
    let place = |stake: usize, code: usize| 1 + stake * 32 + code;
    // the first fork, {63}, and the last, {0,1}, of which 1 has no line
    let mut ends = vec![OUT; 2049];
    (ends[0], ends[place(0, 0)], ends[place(63, 31)]) = (0, 0, 1);
    assert_eq!((place(0, 0), place(63, 31)), (1, 2048));
    // a line from each stake by each code, but for stake 40, which has none; beside three of these lines another
    let lines = (0..64u8).filter(|&from| from != 40).flat_map(|from| (0..32).map(move |code| (from, code, (from + code + 1) % 64)));
    let mut every: Vec<Line> = lines.collect();
    let mut numbers = vec![0; 2049];
    numbers[place(40, 0)..place(41, 0)].fill(OUT);
    // {8,40}; {9,10} and {31,32}, which share words of any length, since by one code or another both get past 40
    every.extend([(5, 2, 40), (5, 3, 10), (63, 31, 32)]);
    (numbers[place(5, 2)], numbers[place(5, 3)], numbers[place(63, 31)]) = (1, NONE, NONE);
    // from the lower half a line by each code into the lower half; the upper half, with two lines by each code, is abandoned
    let low = (0..32u8).flat_map(|from| (0..32).map(move |code| (from, code, (from + code + 1) % 32)));
    let high = (32..64u8).flat_map(|from| (0..32).flat_map(move |code| [(from, code, 0), (from, code, from)]));
    let half: Vec<Line> = low.chain(high).collect();
    let mut of_half = vec![0; 2049];
    of_half[place(32, 0)..].fill(OUT);
    for calls in common::everyone() {
        needed(calls, &draft(64, 32, &[0], &[(0, 0, 63), (63, 31, 0), (63, 31, 1)]), &ends, "the first fork and the last");
        needed(calls, &draft(64, 32, &[0], &every), &numbers, "a line from each stake but one by each code");
        needed(calls, &draft(64, 32, &[0], &half), &of_half, "half of the stakes abandoned");
        needed(calls, &draft(64, 32, &[], &half), &[OUT; 2049], "no starts");
        needed(calls, &draft(64, 32, &[63], &[]), &[&[0], [OUT; 2048].as_slice()].concat(), "no lines");
    }
}

/// Numbers that 003 proves or states: Theorem 5 with n(n-1)/2, Proposition 6 with n - 1 for one code, Remark 7 with n/2 × (n+1)/2. In each
/// family the sets of several stakes are one and the same, {r, s}, and every other line leads to one stake.
#[test]
fn needs_as_large_as_they_can_be() {
    // by a plan's lines: what a fork of several stakes has, 0 for one stake, 65,534 for none
    let by_lines = |plan: &Draft, starts: u16, several: u16| {
        let mut numbers = vec![starts];
        for (stake, code) in (0..plan.n as u8).flat_map(|stake| (0..plan.m as u8).map(move |code| (stake, code))) {
            let led_to = plan.lines.iter().filter(|line| (line.0, line.1) == (stake, code)).count();
            numbers.push([OUT, 0, several][led_to]);
        }
        numbers
    };
    for calls in common::everyone() {
        // n 3: 0 by 0 leads to {0,1}, which share 1 2; then by 1 0-1-0 and 1-1-2, by 2 0-2-1 and 2-2-2
        let three = theorem_5(3, &all_pairs(3));
        needed(calls, &three, &[0, 3, 0, 0, OUT, 0, OUT, OUT, OUT, 0], "Theorem 5 with three stakes");
        for n in 1..=8u8 {
            let plan = theorem_5(n as usize, &all_pairs(n));
            needed(calls, &plan, &by_lines(&plan, 0, n as u16 * (n as u16 - 1) / 2), "Theorem 5");
        }
        for n in [2, 3, 9, 64] {
            needed(calls, &unary_chain(n), &by_lines(&unary_chain(n), 0, n as u16 - 1), "Proposition 6");
        }
        for (i, j) in [(1, 1), (2, 3), (8, 9), (32, 32)] {
            let (plan, number) = (odometer(i, j), (i * j) as u16);
            needed(calls, &plan, &by_lines(&plan, number, number), "Remark 7's number");
        }
    }
}

/// W-205 where the text of 003, or a trap of document 01, says how long the words of a set are.
#[test]
fn needs_of_figure_7_and_of_the_traps() {
    // Example 7: in {q1,q6} b is a maximal nonselector; in {q2,q3} ba and bb are minimal selectors; in {q4,q5,q6} a and b are.
    // q1: {q2,q3}, {q1}; q2: {q4,q5,q6}, {q6}; q3: {q7} by b; q4: {q1} by a; q5: none; q6: {q5} by b; q7: {q1} by a; none by c
    let by_stake = [[2, 0, OUT], [1, 0, OUT], [OUT, 0, OUT], [0, OUT, OUT], [OUT, OUT, OUT], [OUT, 0, OUT], [0, OUT, OUT]].concat();
    // "A loop that exchanges the two stakes": the starts; each stake leads to one
    let exchange = draft(2, 1, &[0, 1], &[(0, 0, 1), (1, 0, 0)]);
    // "Three stakes that share no word of some length may still share one of that length two by two": 0 and 1 share 0, 1 and 2 share 1,
    // 0 and 2 share 2
    let by_twos = draft(4, 3, &[0, 1, 2], &[(0, 0, 3), (1, 0, 3), (1, 1, 3), (2, 1, 3), (0, 2, 3), (2, 2, 3)]);
    for calls in common::everyone() {
        needed(calls, &figure_7(&[0, 5]), &[&[2], by_stake.as_slice()].concat(), "Fig. 7");
        // from q6 there remains q6 b q5
        let mut from_q6 = [OUT; 22];
        (from_q6[0], from_q6[1 + 5 * 3 + 1]) = (0, 0);
        needed(calls, &figure_7(&[5]), &from_q6, "Fig. 7 from q6");
        needed(calls, &exchange, &[NONE, 0, 0], "exchange");
        needed(calls, &by_twos, &[2, 0, OUT, 0, 0, 0, OUT, OUT, 0, 0, OUT, OUT, OUT], "two by two");
    }
}

/// W-205: "From plan bytes that pass refusals 1 to 7"; the first of them and 16 that applies comes before 9.
#[test]
fn plans_that_have_no_numbers() {
    let refused = refused_plans();
    for calls in common::everyone() {
        for (number, plan) in &refused {
            for lent in [0, 1, 3, 4, 100] {
                let mut numbers: Vec<u16> = pattern(lent);
                assert_eq!(calls.needs(plan, 0, &mut numbers), REFUSED + number, "{plan:?} into {lent} by {}", calls.name());
                assert_eq!(numbers, pattern::<u16>(lent), "{plan:?} by {}", calls.name());
            }
        }
    }
}

/// The page of a plan of edition 1, or the refusal.
fn paged(calls: &dyn Calls, plan: &[u8], lent: usize, for_length: usize) -> Result<String, u32> {
    paged_for(calls, plan, 0, lent, for_length)
}

/// A party's page, or the refusal, with so much lent for the page and for its length; the rest is kept, and a refused call writes nothing.
fn paged_for(calls: &dyn Calls, plan: &[u8], party: u32, lent: usize, for_length: usize) -> Result<String, u32> {
    let (mut page, mut length): (Vec<u8>, Vec<u64>) = (pattern(lent), pattern(for_length));
    let reply = calls.page(plan, party, &mut page, &mut length);
    let (bytes, numbers) = if reply < REFUSED { (length[0] as usize, 1) } else { (0, 0) };
    assert_eq!(page[bytes..], pattern::<u8>(lent)[bytes..], "the rest by {}", calls.name());
    assert_eq!(length[numbers..], pattern::<u64>(for_length)[numbers..], "the rest by {}", calls.name());
    if reply >= REFUSED {
        return Err(reply - REFUSED);
    }
    assert_eq!(reply, 0, "by {}", calls.name());
    page.truncate(bytes);
    Ok(String::from_utf8(page).expect("a page is text"))
}

/// W-206 of one plan, however it is drawn: the page of these lines, "40 characters and a line feed" each, into as many bytes and into more;
/// "A short buffer is refused with 9", and so is a length without a place.
fn hung(calls: &dyn Calls, plan: &Draft, lines: &[&str], name: &str) {
    assert!(lines.iter().all(|line| line.len() == 40 && line.is_ascii()), "{name}: {lines:?}");
    let expected: String = lines.iter().flat_map(|line| [line, "\n"]).collect();
    let needed = 41 * lines.len();
    assert_eq!(expected.len(), needed, "{name}");
    let drawn = if plan.lines.len() < 100 { drawn_otherwise(plan) } else { vec![plan.bytes(), plan.laid_out(true, [1, 2, 3])] };
    for bytes in drawn {
        for (lent, for_length) in [(needed, 1), (needed + 1, 1), (needed, 2), (needed + 41, 3)] {
            let page = paged(calls, &bytes, lent, for_length);
            assert!(page.as_ref() == Ok(&expected), "{name} into {lent} by {}:\n{expected}\n{}", calls.name(), page.unwrap_or_default());
        }
        for lent in [0, 1, 16, 40, 41, 42, needed / 2, needed.saturating_sub(41), needed.saturating_sub(1)] {
            let is_short = lent < needed;
            for for_length in if is_short { 0..3 } else { 0..1 } {
                assert_eq!(paged(calls, &bytes, lent, for_length), Err(9), "{name} into {lent} and {for_length} by {}", calls.name());
            }
        }
    }
    assert!(paged(calls, &plan.bytes(), 84_009, 1) == Ok(expected), "{name} by {}", calls.name());
    assert_eq!(paged(calls, &plan.bytes(), 84_009, 0), Err(9), "{name} by {}", calls.name());
    let case = Case::page(&plan.bytes(), 0u32, needed, LENGTH);
    case.compare(calls).unwrap_or_else(|message| fail(&case, calls, message, name));
}

/// W-206 on plans A to H, with the numbers of W-205: "right-aligned, stake in columns 1 to 4, code in 6 to 9, need in 11 to 16, a dash in
/// column 16 for 65,535, then the fork's stakes as a bar from column 18 .. unused columns are blanks. The starts' line has the word `from`
/// in columns 1 to 4 and a blank code. Sets marked 65,534 have no line."
#[test]
fn pages_of_plans_a_to_h() {
    let rows: [(&str, &[&str]); 8] = [
        (
            "A",
            &[
                "from           0 #                      ",
                "   0    0      0 #                      ",
                "   1    0      1 ##                     ",
            ],
        ),
        // no look-ahead, but a page
        (
            "B",
            &[
                "from           0 #                      ",
                "   0    0      - ##                     ",
                "   1    0      0 #                      ",
            ],
        ),
        (
            "C",
            &[
                "from           3 ##                     ",
                "   0    0      0 #                      ",
                "   1    0      0 #                      ",
                "   2    1      0 #                      ",
            ],
        ),
        // the forks of 1 and of 2 have no line, since no walk reaches them
        ("D", &["from           0 #                      ", "   0    0      0 #                      "]),
        // an empty page
        ("E", &[]),
        ("F", &["from           1 ##                     "]),
        (
            "G",
            &[
                "from           3 ##                     ",
                "   0    0      0 #                      ",
                "   1    0      0 #                      ",
                "   1    1      0 #                      ",
                "   2    1      0 #                      ",
            ],
        ),
        (
            "H",
            &[
                "from           - ##                     ",
                "   0    0      0 #                      ",
                "   1    0      0 #                      ",
                "   2    1      0 #                      ",
                "   3    1      0 #                      ",
            ],
        ),
    ];
    for calls in common::everyone() {
        for ((name, lines), (listed, plan, _)) in rows.iter().zip(listed()) {
            assert_eq!(*name, listed);
            hung(calls, &plan, lines, name);
            // without starts no set counts
            hung(calls, &Draft { starts: vec![], ..plan }, &[], &format!("{name} without starts"));
        }
    }
}

/// W-206: "up to 23 hash signs, one for each stake, cut at 23", for forks and for the starts.
#[test]
fn bars_of_1_to_64_stakes() {
    // from 0 by each code as many stakes, of which 0 alone has lines, so that any two share the empty word alone
    let sizes = [1, 2, 21, 22, 23, 24, 25, 63, 64];
    let lines: Vec<Line> = (0u8..).zip(sizes).flat_map(|(code, size)| (0..size).map(move |to| (0, code, 63 - to))).collect();
    let of_forks = [
        "from           0 #                      ",
        "   0    0      0 #                      ",
        "   0    1      1 ##                     ",
        "   0    2      1 #####################  ",
        "   0    3      1 ###################### ",
        "   0    4      1 #######################",
        "   0    5      1 #######################",
        "   0    6      1 #######################",
        "   0    7      1 #######################",
        "   0    8      1 #######################",
    ];
    // the starts alone
    let of_starts = [
        (1, "from           0 #                      "),
        (2, "from           1 ##                     "),
        (21, "from           1 #####################  "),
        (22, "from           1 ###################### "),
        (23, "from           1 #######################"),
        (24, "from           1 #######################"),
        (25, "from           1 #######################"),
        (64, "from           1 #######################"),
    ];
    // all stakes go on for ever with code 0
    let every: Vec<Line> = (0..24).flat_map(|from| (0..24).map(move |to| (from, 0, to))).collect();
    let endless: Vec<String> = (0..24).map(|stake| format!("{stake:>4}    0      - #######################")).collect();
    let endless: Vec<&str> = endless.iter().map(String::as_str).collect();
    assert_eq!((endless[0], endless[23]), ("   0    0      - #######################", "  23    0      - #######################"));
    for calls in common::everyone() {
        hung(calls, &draft(64, 9, &[0], &lines), &of_forks, "forks of 1 to 64 stakes");
        for (size, line) in of_starts {
            hung(calls, &draft(64, 2, &(0..size).collect::<Vec<u8>>(), &[]), &[line], &format!("{size} starts"));
        }
        let from = "from           - #######################";
        hung(calls, &draft(24, 1, &(0..24).collect::<Vec<u8>>(), &every), &[&[from], endless.as_slice()].concat(), "all endless");
    }
}

/// W-206, numbers of two digits and more: stakes and codes here, and needs of two digits, by the numbers of Proposition 6 and Theorem 5.
#[test]
fn stakes_codes_and_needs_of_two_digits() {
    // one code, and "k = n - 1": 0 leads to {0,1}, and each other stake but the last to the next
    let chain = [
        "from           0 #                      ",
        "   0    0     11 ##                     ",
        "   1    0      0 #                      ",
        "   2    0      0 #                      ",
        "   3    0      0 #                      ",
        "   4    0      0 #                      ",
        "   5    0      0 #                      ",
        "   6    0      0 #                      ",
        "   7    0      0 #                      ",
        "   8    0      0 #                      ",
        "   9    0      0 #                      ",
        "  10    0      0 #                      ",
    ];
    // five stakes and ten codes: 0 leads by 0 to {0,1}, which share nine codes, by which they go through all the pairs
    let pairs = [
        "from           0 #                      ",
        "   0    0     10 ##                     ",
        "   0    1      0 #                      ",
        "   0    2      0 #                      ",
        "   0    3      0 #                      ",
        "   0    4      0 #                      ",
        "   1    1      0 #                      ",
        "   1    5      0 #                      ",
        "   1    6      0 #                      ",
        "   1    7      0 #                      ",
        "   2    2      0 #                      ",
        "   2    5      0 #                      ",
        "   2    8      0 #                      ",
        "   2    9      0 #                      ",
        "   3    3      0 #                      ",
        "   3    6      0 #                      ",
        "   3    8      0 #                      ",
        "   4    4      0 #                      ",
        "   4    7      0 #                      ",
        "   4    9      0 #                      ",
    ];
    // the first fork, {63}, and the last, {0,1}, of which 1 has no line; between them no set has a line
    let ends = [
        "from           0 #                      ",
        "   0    0      0 #                      ",
        "  63   31      1 ##                     ",
    ];
    // nines and tens; no walk reaches 11
    let tens = draft(12, 11, &[9, 10], &[(9, 9, 10), (9, 10, 9), (9, 10, 10), (10, 10, 9), (11, 10, 9), (11, 10, 10)]);
    let of_tens = [
        "from           - ##                     ",
        "   9    9      0 #                      ",
        "   9   10      - ##                     ",
        "  10   10      0 #                      ",
    ];
    for calls in common::everyone() {
        hung(calls, &unary_chain(12), &chain, "Proposition 6");
        hung(calls, &theorem_5(5, &all_pairs(5)), &pairs, "Theorem 5");
        hung(calls, &draft(64, 32, &[0], &[(0, 0, 63), (63, 31, 0), (63, 31, 1)]), &ends, "the first fork and the last");
        hung(calls, &tens, &of_tens, "nines and tens");
    }
}

/// W-206, needs of one to four digits: two counters, whose forks by code 2 lead into the midst of the count. From x and y there is left of
/// 1,024, "Remark 7's number", what 32 × x + y leaves of it.
#[test]
fn needs_of_one_to_four_digits() {
    let left = [1024, 1023, 1001, 1000, 999, 998, 101, 100, 99, 98, 64, 32, 11, 10, 9, 8, 2, 1];
    let places = left.map(|left: usize| ((1024 - left) / 32, (1024 - left) % 32));
    let of_forks = [
        "   0    2   1024 ##                     ",
        "   1    2   1023 ##                     ",
        "   2    2   1001 ##                     ",
        "   3    2   1000 ##                     ",
        "   4    2    999 ##                     ",
        "   5    2    998 ##                     ",
        "   6    2    101 ##                     ",
        "   7    2    100 ##                     ",
        "   8    2     99 ##                     ",
        "   9    2     98 ##                     ",
        "  10    2     64 ##                     ",
        "  11    2     32 ##                     ",
        "  12    2     11 ##                     ",
        "  13    2     10 ##                     ",
        "  14    2      9 ##                     ",
        "  15    2      8 ##                     ",
        "  16    2      2 ##                     ",
        "  17    2      1 ##                     ",
    ];
    let plan = odometer_from(32, 32, &places);
    for calls in common::everyone() {
        let page = paged(calls, &plan.bytes(), 84_009, 1).expect("a page");
        let lines: Vec<&str> = page.lines().collect();
        // each stake of x has codes 0, 1 and 2, the last 0 and 2; each of y 0 and 3, the last 1 and 3
        assert_eq!((page.len(), lines.len()), (41 * 160, 1 + 3 * 32 - 1 + 2 * 32), "by {}", calls.name());
        assert_eq!(lines[0], "from        1024 ##                     ", "by {}", calls.name());
        for (a, line) in of_forks.iter().enumerate() {
            assert_eq!(lines[1 + 3 * a + 2], *line, "by {}", calls.name());
            assert_eq!(lines[1 + 3 * a][9..], "      0 #                      "[..], "by {}", calls.name());
        }
        assert_eq!(lines[1 + 3 * 31], "  31    0      0 #                      ", "by {}", calls.name());
        assert_eq!(lines[1 + 3 * 31 + 1], "  31    2   1024 ##                     ", "by {}", calls.name());
        assert_eq!(lines[159], "  63    3   1024 ##                     ", "by {}", calls.name());
        assert_eq!(paged(calls, &plan.bytes(), 41 * 160 - 1, 1), Err(9), "by {}", calls.name());
        let case = Case::page(&plan.bytes(), 0u32, page::LINE * 160, LENGTH);
        case.compare(calls).unwrap_or_else(|message| fail(&case, calls, message, "needs of one to four digits"));
    }
}

/// W-206 at the greatest size: 64 stakes and 32 codes, one line from each stake by each code, and all are reached. 2,049 lines of 41 bytes.
#[test]
fn the_largest_page() {
    let lines: Vec<Line> = (0..64u8).flat_map(|from| (0..32).map(move |code| (from, code, (from + code + 1) % 64))).collect();
    let plan = draft(64, 32, &[0], &lines).bytes();
    let some = [
        (0, "from           0 #                      "),
        (1, "   0    0      0 #                      "),
        (2, "   0    1      0 #                      "),
        (11, "   0   10      0 #                      "),
        (32, "   0   31      0 #                      "),
        (33, "   1    0      0 #                      "),
        (321, "  10    0      0 #                      "),
        (1024, "  31   31      0 #                      "),
        (1025, "  32    0      0 #                      "),
        (2017, "  63    0      0 #                      "),
        (2048, "  63   31      0 #                      "),
    ];
    for calls in common::everyone() {
        for lent in [84_009, 84_010, 90_000] {
            let page = paged(calls, &plan, lent, 1).expect("a page");
            let lines: Vec<&str> = page.lines().collect();
            assert_eq!((page.len(), lines.len()), (84_009, 2_049), "by {}", calls.name());
            assert!(
                page.ends_with('\n') && lines.iter().all(|line| line[9..] == "      0 #                      "[..]),
                "by {}",
                calls.name()
            );
            for (number, line) in some {
                assert_eq!(lines[number], line, "line {number} by {}", calls.name());
            }
        }
        for lent in [0, 41, 65_535, 65_536, 83_968, 84_008] {
            assert_eq!(paged(calls, &plan, lent, 1), Err(9), "into {lent} by {}", calls.name());
        }
        assert_eq!(paged(calls, &plan, 84_009, 0), Err(9), "by {}", calls.name());
    }
}

/// W-206: "made from the same plan bytes" as W-205's numbers; the first of 1 to 7 and 16 that applies comes before 9.
#[test]
fn plans_that_have_no_page() {
    for calls in common::everyone() {
        for (number, plan) in &refused_plans() {
            for (lent, for_length) in [(0, 0), (0, 1), (40, 1), (41, 0), (200, 0), (200, 2)] {
                assert_eq!(paged(calls, plan, lent, for_length), Err(*number), "{plan:?} into {lent} by {}", calls.name());
            }
        }
    }
}

/// Plans A to H as parties 0 to 7 of one plan: all their lines, with the starts, n and m that are everyone's.
fn listed_as_parties(starts: &[u8]) -> Draft<PartyLine> {
    let lines: Vec<PartyLine> = (0..).zip(listed()).flat_map(|(party, (_, plan, _))| plan.of_party(party).lines).collect();
    parted(4, 2, starts, &lines)
}

/// W-207: "One party's count is that of an edition 1 plan with those lines alone." Plans A to H as the parties of one plan, by its starts.
#[test]
fn plans_a_to_h_as_parties() {
    let rows: [(&[u8], [Result<u32, u32>; 8]); 3] = [
        // A and B as document 01 has them; from 0 alone each line of C, D, G and H that is reached leads to one stake; E and F have no lines
        (&[0], [Ok(1), Err(15), Ok(0), Ok(0), Ok(0), Ok(0), Ok(0), Ok(0)]),
        // C, F, G and H as document 01 has them; 0 and 1 go on with 0 for ever in A, B and D; E has no lines, as F
        (&[0, 1], [Err(15), Err(15), Ok(3), Err(15), Ok(1), Ok(1), Ok(3), Err(15)]),
        (&[], [Ok(0); 8]),
    ];
    for calls in common::everyone() {
        for (starts, expected) in &rows {
            let plan = listed_as_parties(starts);
            for (party, expected) in (0..).zip(expected) {
                counted_for(calls, &plan, party, *expected, &format!("party {party} from {starts:?}"));
                counted(calls, &plan.alone(party as u8), *expected, &format!("party {party} alone from {starts:?}"));
                // whoever else walks the plan, and in whichever order the lines stand
                let mut backwards = plan.clone();
                backwards.lines.reverse();
                assert_eq!(prepared_for(calls, &backwards, party), prepared_for(calls, &plan, party), "by {}", calls.name());
                assert_eq!(prepared_for(calls, &plan, party), prepared(calls, &plan.alone(party as u8)), "by {}", calls.name());
            }
            // "p and e count all lines", of whatever party
            let mut counts = [0; COUNTS];
            assert_eq!(calls.read(&plan.bytes(), &mut counts), 4);
            assert_eq!(counts, [2, starts.len() as u32, 21], "by {}", calls.name());
            // "the drawing program's entry" names 0
            let number = expected[0].unwrap_or_else(|refusal| REFUSED + refusal);
            assert_eq!(calls.count(&plan.bytes()), number, "from {starts:?} by {}", calls.name());
        }
        // A's table among 4 stakes and 2 codes, and that of a party without lines
        let plan = listed_as_parties(&[0]);
        assert_eq!(prepared_for(calls, &plan, 0), Ok((1, vec![4, 2, 1, 0b1, 0b10, 0, 0b110, 0, 0, 0, 0, 0])));
        assert_eq!(prepared_for(calls, &plan, 4), Ok((0, vec![4, 2, 0, 0b1, 0, 0, 0, 0, 0, 0, 0, 0])));
    }
}

/// W-207 where one party can be predicted and another not: 15 with evidence for the one alone, and the check of the same claim says yes for
/// the one and no for the other. All lines together could not be predicted.
#[test]
fn two_parties_of_which_one_is_predictable() {
    let (a, b) = (plan_a().lines, [(0, 0, 0), (0, 0, 1), (1, 0, 1)]);
    let claim = [0, 0, 0, 1, 0, 1];
    let of_a = [
        "from           0 #                      \n",
        "   0    0      0 #                      \n",
        "   1    0      1 ##                     \n",
    ];
    let of_b = [
        "from           0 #                      \n",
        "   0    0      - ##                     \n",
        "   1    0      0 #                      \n",
    ];
    for (predictable, other) in [(0, 1), (1, 0), (3, 5), (7, 0), (0, 7)] {
        let lines = [draft(3, 1, &[0], &a).of_party(predictable).lines, draft(3, 1, &[0], &b).of_party(other).lines].concat();
        let plan = parted(3, 1, &[0], &lines);
        let bytes = plan.bytes();
        let (predictable, other) = (predictable as u32, other as u32);
        for calls in common::everyone() {
            let name = format!("parties {predictable} and {other}");
            counted_for(calls, &plan, predictable, Ok(1), &name);
            counted_for(calls, &plan, other, Err(15), &name);
            assert!(said_yes_for(calls, &plan, other, claim, &[0]), "{name} by {}", calls.name());
            assert!(!said_yes_for(calls, &plan, predictable, claim, &[0]), "{name} by {}", calls.name());
            // the other's evidence, whichever it is, is none for the predictable party, and its table is untouched
            let (mut table, mut codes, mut numbers) = (pattern::<u64>(7), pattern::<u8>(9), [0; evidence::NUMBERS]);
            assert_eq!(calls.prepare(&bytes, other, &mut table, &mut codes, &mut numbers), REFUSED + 15, "{name} by {}", calls.name());
            assert_eq!(table, pattern::<u64>(7), "{name} by {}", calls.name());
            assert!(said_yes_for(calls, &plan, other, numbers, &codes), "{name} by {}", calls.name());
            assert!(!said_yes_for(calls, &plan, predictable, numbers, &codes), "{name} by {}", calls.name());
            // a party of 0 to 7 that has no lines
            for none in (0..8).filter(|&party| ![predictable, other].contains(&party)) {
                counted_for(calls, &plan, none, Ok(0), &name);
                assert!(!said_yes_for(calls, &plan, none, claim, &[0]), "{name} by {}", calls.name());
                assert_eq!(paged_for(calls, &bytes, none, 41, 1).as_deref(), Ok(of_a[0]), "{name} by {}", calls.name());
            }
            assert_eq!(calls.count(&bytes), [1, REFUSED + 15, 0][[predictable, other].iter().position(|&party| party == 0).unwrap_or(2)]);
            assert_eq!(paged_for(calls, &bytes, predictable, 123, 1), Ok(of_a.concat()), "{name} by {}", calls.name());
            assert_eq!(paged_for(calls, &bytes, other, 123, 1), Ok(of_b.concat()), "{name} by {}", calls.name());
            for (party, expected) in [(predictable, [0, 0, 1, OUT]), (other, [0, NONE, 0, OUT])] {
                let mut numbers = [7; 4];
                assert_eq!((calls.needs(&bytes, party, &mut numbers), numbers), (4, expected), "{name} by {}", calls.name());
            }
        }
    }
    // all lines together
    let all = draft(3, 1, &[0], &[(0, 0, 0), (0, 0, 1), (1, 0, 1), (1, 0, 2)]);
    common::everyone().into_iter().for_each(|calls| counted(calls, &all, Err(15), "all lines"));
}

/// "Demand 3 now speaks of the named party's lines": the same legs on the table of each party of one plan.
#[test]
fn walks_of_two_parties() {
    // on foot 0 leads by 0 to 1 and 1 back; on skis 0 leads by 0 to 1 and 2, of which 1 goes on with 1 alone and 2 with 0 alone
    let lines = [(0, 0, 1, 0), (1, 0, 0, 0), (0, 0, 1, 1), (0, 0, 2, 1), (1, 1, 0, 1), (2, 0, 0, 1)];
    let plan = parted(3, 2, &[0], &lines);
    let rows: [(u32, &[u32], &[u32], &[u64]); 3] = [
        // each leg books at once; code 1 can't be walked on foot
        (0, &[0, 0, 1, 0], &[1, 0, REFUSED + 13, 1], &[]),
        // each leg books the position before it, and the last one leaves 1 and 2 open
        (1, &[0, 0, 0, 1, 0], &[0, 2, 0, 1, 0], &[0b110]),
        // without lines nothing can be walked
        (2, &[0, 1], &[REFUSED + 13, REFUSED + 13], &[]),
    ];
    for calls in common::everyone() {
        for (party, legs, replies, open) in rows {
            let k = open.len();
            counted_for(calls, &plan, party, Ok(k as u32), &format!("party {party}"));
            let (_, table) = prepared_for(calls, &plan, party).expect("a k");
            let (mut rec, mut position) = (vec![0; record::length(k)], [77]);
            assert_eq!(calls.open(&table, &mut rec, &mut position), if k == 0 { 0 } else { NOTHING }, "party {party} by {}", calls.name());
            let given: Vec<u32> = legs.iter().map(|&leg| calls.feed(&table, &mut rec, leg, &mut position)).collect();
            assert_eq!(given, replies, "party {party} by {}", calls.name());
            let mut sets = vec![0; k];
            assert_eq!((calls.finish(&table, &rec, &mut sets), sets.as_slice()), (k as u32, open), "party {party} by {}", calls.name());
            let session = Case::Session(Session { plan: plan.bytes(), party, legs: legs.to_vec(), extra: 1 });
            session.compare(calls).unwrap_or_else(|message| fail(&session, calls, message, "walks of two parties"));
        }
    }
}

/// Lines of two stakes and one code in edition 2.
fn two_stakes(lines: &[PartyLine]) -> Vec<u8> {
    parted(2, 1, &[0], lines).bytes()
}

/// W-207: "Two lines are now the same only if all four agree, so refusal 7 is finer there"; "16, a party above 7 in a line .. after 7". And
/// 6 does not look at the party. Whatever is lent and whichever party is named.
#[test]
fn refusals_6_7_and_16_of_lines() {
    let rows: [(u32, &[PartyLine]); 24] = [
        (16, &[(0, 0, 1, 8)]),
        (16, &[(0, 0, 1, 9)]),
        (16, &[(0, 0, 1, 128)]),
        (16, &[(0, 0, 1, 200)]),
        (16, &[(0, 0, 1, 255)]),
        (16, &[(0, 0, 1, 0), (1, 0, 1, 1), (1, 0, 0, 8)]),
        (16, &[(1, 0, 0, 8), (0, 0, 1, 0), (1, 0, 1, 1)]),
        // equal in all four, though of no party
        (7, &[(0, 0, 1, 200), (0, 0, 1, 200)]),
        (7, &[(0, 0, 1, 8), (1, 0, 1, 8), (0, 0, 1, 8)]),
        // not equal, though a part of the bits is
        (16, &[(0, 0, 1, 9), (0, 0, 1, 17)]),
        (16, &[(0, 0, 1, 1), (0, 0, 1, 9)]),
        (16, &[(0, 0, 1, 0), (0, 0, 1, 8)]),
        (16, &[(0, 0, 1, 0), (0, 0, 1, 128)]),
        (16, &[(0, 0, 1, 72), (0, 0, 1, 200)]),
        // 7 for two lines, and 16 for a third
        (7, &[(0, 0, 1, 0), (0, 0, 1, 0), (1, 0, 1, 8)]),
        (7, &[(1, 0, 1, 8), (0, 0, 1, 7), (0, 0, 1, 7)]),
        (7, &[(0, 0, 1, 3), (1, 0, 1, 255), (0, 0, 1, 3)]),
        // 6 beside both
        (6, &[(0, 0, 2, 8)]),
        (6, &[(0, 1, 1, 255)]),
        (6, &[(2, 0, 1, 200), (2, 0, 1, 200)]),
        (6, &[(0, 0, 1, 8), (0, 0, 2, 0)]),
        (6, &[(0, 0, 1, 0), (0, 0, 1, 0), (1, 1, 0, 0)]),
        // 7 within one party alone
        (7, &[(0, 0, 1, 5), (1, 0, 1, 5), (0, 0, 1, 4), (0, 0, 1, 5)]),
        (7, &[(1, 0, 1, 7), (1, 0, 1, 7)]),
    ];
    for calls in common::everyone() {
        for (number, lines) in rows {
            for party in [0, 1, 5, 7, 8, 256, u32::MAX] {
                refused(calls, &two_stakes(lines), party, number, &format!("{lines:?}"));
            }
        }
        // 5 before them; 16 also where the parts stand otherwise
        let twice = parted(2, 1, &[1, 1], &[(0, 0, 1, 8), (0, 0, 1, 8)]);
        refused(calls, &twice.bytes(), 0, 5, "a start twice");
        let otherwise = parted(2, 1, &[1, 0], &[(0, 0, 1, 0), (1, 0, 1, 9)]);
        drawn_otherwise(&otherwise).iter().for_each(|plan| refused(calls, plan, 0, 16, "drawn otherwise"));
    }
}

/// The same line for every party, each of which has it: no two are the same. In edition 1 there is no party to tell them apart by.
#[test]
fn lines_that_differ_in_the_party_alone() {
    let lines: Vec<PartyLine> = (0..8).flat_map(|party| [(0, 0, 1, party), (1, 0, 0, 7 - party)]).collect();
    let plan = parted(2, 1, &[0], &lines);
    for calls in common::everyone() {
        for party in 0..8 {
            counted_for(calls, &plan, party, Ok(0), "one line from each stake");
            assert_eq!(prepared_for(calls, &plan, party), Ok((0, vec![2, 1, 0, 0b1, 0b10, 0b1])), "by {}", calls.name());
        }
        refused(calls, &draft(2, 1, &[0], &[(0, 0, 1), (0, 0, 1)]).bytes(), 0, 7, "the same of edition 1");
        // one of them under the party of another
        for (line, party) in [(0, 1), (0, 7), (15, 1), (2, 0), (14, 0)] {
            let mut again = lines.clone();
            again[line].3 = party;
            refused(calls, &two_stakes(&again), 0, 7, &format!("line {line} as party {party}'s"));
        }
    }
}

/// Numbers that are no party: every one above 7, be a part of its bits a party's or not.
const NO_PARTIES: [u32; 14] = [8, 9, 15, 16, 128, 200, 255, 256, 263, 65_535, 65_536, 65_543, 1 << 31, u32::MAX];

/// W-207: 16 for "a party above 7 .. in the call, or a party other than 0 named for edition 1", before 9, and after 1 to 7. The calls that
/// name none are not concerned.
#[test]
fn parties_that_may_not_be_named() {
    for calls in common::everyone() {
        let refused_where_named = |plan: &[u8], party: u32, name: &str| {
            for is_lent in [true, false] {
                let of_0 = replies(calls, plan, 0, is_lent, name);
                for ((call, reply), (_, by_0)) in replies(calls, plan, party, is_lent, name).into_iter().zip(of_0) {
                    let expected = if call.takes("party") { REFUSED + 16 } else { by_0 };
                    assert_eq!(reply, expected, "{name}: {} for party {party} by {}", call.name, calls.name());
                }
            }
        };
        for (name, plan, _) in listed() {
            for party in (1..8).chain(NO_PARTIES) {
                refused_where_named(&plan.bytes(), party, name);
            }
            for party in NO_PARTIES {
                refused_where_named(&plan.of_party(0).bytes(), party, name);
                refused_where_named(&plan.of_party(7).bytes(), party, name);
            }
        }
        // "16 .. after 7": what is wrong with the plan comes first
        for (number, plan) in refused_plans() {
            for party in (0..8).chain(NO_PARTIES) {
                refused(calls, &plan, party, number, "a plan that is refused");
            }
        }
    }
}

/// W-207: "Refusal 2 now means neither 1 nor 2".
#[test]
fn editions() {
    let plans = [plan_a().bytes(), plan_a().of_party(0).bytes(), draft(1, 1, &[], &[]).bytes(), two_stakes(&[(0, 0, 1, 8)])];
    for calls in common::everyone() {
        for plan in &plans {
            for edition in [0, 3, 4, 5, 255, 256, 257, 258, 512, 513, 514, 65_535] {
                let mut other = plan.clone();
                set_number(&mut other, EDITION, edition);
                refused(calls, &other, 0, 2, &format!("edition {edition}"));
            }
        }
        // without lines both editions say the same
        for edition in [1, 2] {
            let mut none = draft(2, 1, &[0, 1], &[]).bytes();
            set_number(&mut none, EDITION, edition);
            assert_eq!(calls.count(&none), 1, "edition {edition} by {}", calls.name());
        }
    }
}

/// W-207: "part lengths follow the edition". Two lines, 6 bytes or 8, and one start.
#[test]
fn parts_by_the_edition() {
    // where starts and lines begin, the total, and what each edition makes of it
    let rows: [(usize, usize, usize, [bool; 2]); 14] = [
        (16, 17, 23, [true, false]),
        (16, 17, 24, [true, false]),
        (16, 17, 25, [true, true]),
        (16, 18, 25, [true, false]),
        (16, 19, 25, [true, false]),
        (16, 20, 25, [false, false]),
        // lines first: the start stands behind them, or on their last bytes
        (22, 16, 25, [true, false]),
        (23, 16, 25, [true, false]),
        (24, 16, 25, [true, true]),
        (21, 16, 25, [false, false]),
        (16, 16, 25, [false, false]),
        (30, 22, 31, [true, true]),
        (29, 22, 31, [true, false]),
        (28, 22, 31, [true, false]),
    ];
    for calls in common::everyone() {
        for (starts_at, lines_at, total, fits) in rows {
            for (edition, fits) in (1..).zip(fits) {
                let mut plan = header([edition, 2, 1, 1, 2, starts_at, lines_at, total]);
                plan.resize(total, 0);
                if fits {
                    let lines: &[u8] = if edition == 1 { &[0, 0, 1, 1, 0, 1] } else { &[0, 0, 1, 0, 1, 0, 1, 0] };
                    plan[lines_at..][..lines.len()].copy_from_slice(lines);
                    assert_eq!(calls.count(&plan), 0, "{starts_at}, {lines_at}, {total} in edition {edition} by {}", calls.name());
                } else {
                    refused(calls, &plan, 0, 4, &format!("{starts_at}, {lines_at}, {total} in edition {edition}"));
                }
            }
        }
        // no lines: a part of no bytes may stand anywhere, the start's byte included
        for edition in [1, 2] {
            for lines_at in 16..=20 {
                let mut plan = header([edition, 2, 1, 1, 0, 17, lines_at, 20]);
                plan.resize(20, 0);
                assert_eq!(calls.count(&plan), 0, "no lines at {lines_at} in edition {edition} by {}", calls.name());
            }
        }
    }
}

/// W-207 at the greatest sizes: 4,096 lines of four bytes.
#[test]
fn sizes_of_edition_2() {
    // every line of 64 stakes with one code as the line of a party; 512 lines for each of 8 parties, the same for all; all of one party
    let every: Vec<PartyLine> = (0..64).flat_map(|from| (0..64).map(move |to| (from, 0, to, (from + to) % 8))).collect();
    let eightfold: Vec<PartyLine> =
        (0..8).flat_map(|party| (0..8).flat_map(move |from| (8..64).chain(0..8).map(move |to| (from, 31, to, party)))).collect();
    let across: Vec<Line> = (0..32).flat_map(|from| (0..4).flat_map(move |code| (32..64).map(move |to| (from, code, to)))).collect();
    let across = draft(64, 4, &[7], &across);
    let largest = (0..64).collect::<Vec<u8>>();
    for calls in common::everyone() {
        for (m, starts, lines, name) in [(1, &largest[..], &every, "every line"), (32, &[7], &eightfold, "eight parties' lines")] {
            assert_eq!(lines.len(), 4096);
            let plan = parted(64, m, starts, lines);
            let mut counts = [0; COUNTS];
            assert_eq!(calls.read(&plan.bytes(), &mut counts), 64, "{name} by {}", calls.name());
            assert_eq!(counts, [m as u32, starts.len() as u32, 4096], "{name} by {}", calls.name());
            for party in [0, 3, 7] {
                // among all stakes as starts, or among those that 7 leads to, some two share words without end
                counted_for(calls, &plan, party, Err(15), name);
            }
            // one line twice, wherever; in the place of another, or of one that differs in the party alone
            for (from, to) in [(0, 4095), (4095, 0), (17, 18), (2048, 1)] {
                let mut twice = lines.clone();
                twice[to] = twice[from];
                refused(calls, &parted(64, m, starts, &twice).bytes(), 0, 7, name);
            }
            // a party that is none, in the first line or the last
            for place in [0, 4095] {
                let mut stray = lines.clone();
                stray[place].3 = 8;
                refused(calls, &parted(64, m, starts, &stray).bytes(), 7, 16, name);
            }
            // all of parties that are none, and one of them twice
            let mut stray: Vec<PartyLine> = lines.iter().map(|&(from, code, to, party)| (from, code, to, 200 + party)).collect();
            refused(calls, &parted(64, m, starts, &stray).bytes(), 0, 16, name);
            stray[4095] = stray[0];
            refused(calls, &parted(64, m, starts, &stray).bytes(), 0, 7, name);
            // one line more
            let more = [&lines[..], &[(63, 0, 63, 7)]].concat();
            refused(calls, &parted(64, m, starts, &more).bytes(), 0, 3, name);
        }
        for (party, other) in [(0, 7), (7, 0)] {
            counted_for(calls, &across.of_party(party), party as u32, Ok(1), "all lines of one party");
            counted_for(calls, &across.of_party(party), other, Ok(0), "no line of another");
        }
    }
}

/// W-201 for edition 2: "The writer of W-201 orders by party last", and the written edition is the plan's own.
#[test]
fn one_form_of_edition_2() {
    // by hand, drawn with the lines first and backwards, with gaps
    let form = [2, 0, 3, 0, 2, 0, 2, 0, 5, 0, 0x10, 0, 0x12, 0, 0x26, 0, 0, 2, 0, 0, 1, 0, 0, 0, 1, 7, 0, 0, 2, 3, 0, 1, 0, 2, 2, 0, 0, 1];
    let drawn_header = [2, 0, 3, 0, 2, 0, 2, 0, 5, 0, 0x26, 0, 0x11, 0, 0x2B, 0];
    let drawn_parts = [99, 2, 0, 0, 1, 0, 1, 0, 2, 0, 0, 2, 3, 0, 0, 1, 7, 0, 0, 1, 0, 99, 2, 0, 99, 99, 99];
    let stakes: Vec<u8> = (0..64).collect();
    let every: Vec<PartyLine> = (0..64).flat_map(|from| (0..64).map(move |to| (from, 31, to, (from + to) % 8))).collect();
    let eightfold: Vec<PartyLine> =
        (0..64).flat_map(|from| (0..8).flat_map(move |to| (0..8).map(move |party| (from, 0, to, party)))).collect();
    for calls in common::everyone() {
        assert_eq!(written(calls, &form), form);
        assert_eq!(written(calls, &[&drawn_header[..], &drawn_parts].concat()), form);
        for (name, plan, _) in &listed() {
            for party in [0, 1, 7] {
                filed(calls, &plan.of_party(party), name);
                // of the same lines, of edition 1 and of another party, the bytes are others
                assert_ne!(written(calls, &plan.bytes()), written(calls, &plan.of_party(party).bytes()));
                let other = written(calls, &plan.of_party(party ^ 1).bytes());
                assert_eq!(other == written(calls, &plan.of_party(party).bytes()), plan.lines.is_empty(), "{name} by {}", calls.name());
            }
        }
        let mut in_order = listed_as_parties(&[0, 1]);
        in_order.lines.sort();
        filed(calls, &in_order, "plans A to H as parties");
        for lines in [&every, &eightfold] {
            filed(calls, &parted(64, 32, &stakes, lines), "64 starts and 4,096 lines");
            assert_eq!(written(calls, &parted(64, 32, &stakes, lines).bytes()).len(), 16_464);
        }
        // from before code before to before the party, each at its ends
        let numbers = [0, 63].map(|from| [0, 31].map(|code| [0, 63].map(|to| [0, 7].map(|party| (from, code, to, party)))));
        let ends: Vec<PartyLine> = numbers.into_iter().flatten().flatten().flatten().collect();
        filed(calls, &parted(64, 32, &[0, 63], &ends), "the ends of every range");
    }
}

/// "A whole walk on a prepared plan, of any length": more codes than a record takes legs, to the end and with a code off the plan last.
#[test]
fn a_whole_walk_of_more_than_a_million_legs() {
    let circle = draft(3, 2, &[0], &[(0, 0, 1), (1, 0, 2), (2, 0, 0), (1, 1, 0)]);
    for calls in common::everyone() {
        let (_, table) = prepared(calls, &circle).expect("k 0");
        let mut word = vec![0; 1_500_000];
        let (mut sets, mut g) = (vec![0; word.len() + 2], [0]);
        sets[word.len() + 1] = 77;
        assert_eq!(calls.walk(&table, &word, &mut sets, &mut g), 0);
        assert_eq!((g[0], sets[word.len() + 1]), (1_500_000, 77));
        assert!(sets[..=word.len()].iter().enumerate().all(|(i, &set)| set == 1 << (i % 3)));
        // off the plan two legs before the end: stake 0 has no code 1
        word[1_499_997] = 1;
        assert_eq!(calls.walk(&table, &word, &mut sets, &mut g), 0);
        assert_eq!(g[0], 1_499_997);
        word[1_499_999] = 2;
        g[0] = 5;
        assert_eq!((calls.walk(&table, &word, &mut sets, &mut g), g[0]), (REFUSED + 12, 5));
    }
}

/// Leg 1,000,000 and the next: on plan A, on a plan with k 0 and on one with k 6.
#[test]
fn a_million_legs() {
    let circle = draft(3, 2, &[0], &[(0, 0, 1), (1, 0, 2), (2, 0, 0), (1, 1, 0)]);
    for (i, calls) in common::everyone().into_iter().enumerate() {
        // all three plans on the library; the others take their time, and one plan is enough for them
        let plans = [(plan_a(), 1), (circle.clone(), 1), (odometer(2, 3), 4)];
        for (plan, codes) in plans.into_iter().take(if i == 2 { 3 } else { 1 }) {
            let mut r = Random::new(common::seed(), 1_000_000);
            let mut legs: Vec<u32> = Vec::new();
            // a walk that never leaves the plan: code 0 everywhere, and for the counters 0 or 2 on the x side
            for at in 0..MAX_LEGS {
                legs.push(if codes == 4 && r.percent(30) { 2 } else { 0 });
                if at % 100_000 == 98 {
                    // refused legs take no place
                    legs.push(plan.m as u32);
                }
            }
            legs.extend([0, 255, u32::MAX, 0]);
            let session = Session { plan: plan.bytes(), party: 0, legs, extra: 2 };
            match session.compare(calls) {
                Ok(met) => {
                    assert!(met.contains(&"session of 1,000,000 legs".to_string()), "{met:?}");
                    assert!(met.contains(&"session with refused legs 11".to_string()), "{met:?}");
                }
                Err(message) => panic!("{} on {plan:?}: {}", calls.name(), message.chars().take(2000).collect::<String>()),
            }
        }
    }
}
