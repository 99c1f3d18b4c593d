//! The reference against the definitions read literally on tiny plans: all words of a length are written out and each is tried.

mod common;

use common::words;
use conformance::random::{bytes, claims, parties, plans, Random};
use conformance::reference::claim;
use conformance::reference::doubt::in_doubt;
use conformance::reference::lookahead::{entry, largest, least, look_ahead, needs};
use conformance::reference::page::page;
use conformance::reference::plan::{one_form, read, read_for, Plan};
use conformance::reference::record::{feed, Record};
use conformance::reference::walk::{possible, reach, step_from, verdict, whole_walk};
use conformance::reference::{members, only, size};
use std::collections::BTreeSet;

/// w in R(s), by trying every line in turn.
fn walks(plan: &Plan, s: usize, word: &[u8]) -> bool {
    match word.split_first() {
        None => true,
        Some((&code, rest)) => plan.lines[code as usize].iter().any(|&(from, to)| from == s && walks(plan, to, rest)),
    }
}

/// Some path from s to t is labelled by the word.
fn leads(plan: &Plan, s: usize, word: &[u8], t: usize) -> bool {
    match word.split_first() {
        None => s == t,
        Some((&code, rest)) => plan.lines[code as usize].iter().any(|&(from, to)| from == s && leads(plan, to, rest, t)),
    }
}

/// The stakes "that some walk from a start reaches" (W-202): every word of up to n codes is tried from every start.
fn literal_reached(plan: &Plan) -> Vec<usize> {
    let words: Vec<Vec<u8>> = (0..=plan.n).flat_map(|length| words(plan.m, length)).collect();
    let is_reached = |x: &usize| members(&plan.starts).into_iter().any(|s| words.iter().any(|word| leads(plan, s, word, *x)));
    (0..plan.n).filter(is_reached).collect()
}

/// A set's stake and code, and its stakes.
type Named = ((u32, u32), Vec<usize>);

/// The starts, and what each code leads to from each of these stakes, if it leads anywhere.
fn literal_sets(plan: &Plan, stakes: &[usize]) -> Vec<Named> {
    let mut sets = vec![((255, 0), members(&plan.starts))];
    for &stake in stakes {
        for code in 0..plan.m {
            let led_to: Vec<usize> = (0..plan.n).filter(|&to| plan.lines[code].contains(&(stake, to))).collect();
            if !led_to.is_empty() {
                sets.push(((stake as u32, code as u32), led_to));
            }
        }
    }
    sets
}

/// Every set of the plan, as Definition 1 has them.
fn every_literal_set(plan: &Plan) -> Vec<Named> {
    literal_sets(plan, &(0..plan.n).collect::<Vec<_>>())
}

/// Definition 1 over these sets, word by word: the least k up to the bound, or none.
fn literal_count(plan: &Plan, sets: &[Named]) -> Option<usize> {
    let bound = plan.n * plan.n.saturating_sub(1) / 2;
    (0..=bound).find(|&k| {
        let shared = |s: usize, t: usize| words(plan.m, k).iter().any(|word| walks(plan, s, word) && walks(plan, t, word));
        sets.iter().all(|(_, stakes)| stakes.iter().all(|&s| stakes.iter().all(|&t| s == t || !shared(s, t))))
    })
}

/// Plan bytes of either edition with few stakes and codes, and the party whose plan they were drawn for.
fn tiny_bytes(how_many: u64) -> impl Iterator<Item = (u64, Random, Vec<u8>, u32)> {
    let seed = common::seed();
    (0..)
        .map(move |number| (number, Random::new(seed ^ 0xDEF, number)))
        .filter_map(|(number, mut r)| {
            let draft = plans::plan(&mut r);
            if draft.n > 5 || draft.m.pow((draft.n * (draft.n - 1) / 2) as u32) > 1100 {
                return None;
            }
            let (bytes, party) = bytes::in_an_edition(&mut r, &draft);
            Some((number, r, bytes, party))
        })
        .take(how_many as usize)
}

/// The same as that party's plans.
fn tiny_plans(how_many: u64) -> impl Iterator<Item = (u64, Random, Plan)> {
    tiny_bytes(how_many).map(|(number, r, bytes, party)| (number, r, read_for(&bytes, party).expect("sound")))
}

/// The number at a place of the header.
fn at(bytes: &[u8], place: usize) -> usize {
    bytes[2 * place] as usize + 256 * bytes[2 * place + 1] as usize
}

/// Which of the refusals of plan bytes apply, in the order of the checks, each sentence asked by itself. Numbers are looked at where they
/// stand, and where they don't the sentence is not asked: then an earlier one applies.
fn literal_refusals(bytes: &[u8], named: Option<u32>) -> Vec<u32> {
    // 1: fewer than 16 bytes, or total not the byte count
    if bytes.len() < 16 || at(bytes, 7) != bytes.len() {
        return vec![1];
    }
    let [edition, n, m, p, e, starts_at, lines_at, total] = std::array::from_fn(|place| at(bytes, place));
    // W-207: "Edition 2 has lines of four bytes", "part lengths follow the edition"
    let width = 2 + edition;
    let (starts, lines) = (starts_at..starts_at + p, lines_at..lines_at + width * e);
    let start = |i: usize| bytes.get(starts_at + i).map(|&stake| stake as usize);
    let part = |i: usize, byte: usize| bytes.get(lines_at + width * i + byte).map(|&byte| byte as usize);
    let same = |i: usize, j: usize| (0..width).all(|byte| part(i, byte).is_some() && part(i, byte) == part(j, byte));
    let pairs = |count: usize| (0..count).flat_map(|i| (0..i).map(move |j| (i, j)));
    let is_high = |party: usize| party > 7;
    let applies = [
        // "neither 1 nor 2"
        (2, ![1, 2].contains(&edition)),
        // a count out of range
        (3, !((1..=64).contains(&n) && (1..=32).contains(&m) && p <= n && e <= 4096)),
        // a part misplaced
        (4, [&starts, &lines].iter().any(|part| part.start < 16 || part.end > total)),
        (4, starts.clone().any(|place| lines.contains(&place))),
        // a start not below n, or twice
        (5, (0..p).any(|i| start(i).is_some_and(|stake| stake >= n))),
        (5, pairs(p).any(|(i, j)| start(i) == start(j) && start(i).is_some())),
        // a line's number not below its count
        (6, (0..e).any(|i| [(0, n), (1, m), (2, n)].iter().any(|&(byte, count)| part(i, byte).is_some_and(|number| number >= count)))),
        // a line twice, "the same only if all four agree"
        (7, pairs(e).any(|(i, j)| same(i, j))),
        // "a party above 7 in a line or in the call, or a party other than 0 named for edition 1"
        (16, edition == 2 && (0..e).any(|i| part(i, 3).is_some_and(is_high))),
        (16, named.is_some_and(|party| is_high(party as usize) || (edition == 1 && party != 0))),
    ];
    applies.into_iter().filter(|refusal| refusal.1).map(|refusal| refusal.0).collect()
}

/// W-207: "Checks: 16 .. after 7 and before 8". Sound bytes and damaged ones, with any number named.
#[test]
fn refusals_sentence_by_sentence() {
    let mut met = BTreeSet::new();
    for (number, mut r, bytes, party) in tiny_bytes(6000) {
        for damages in 0..3 {
            let mut damaged = bytes.clone();
            (0..damages).for_each(|_| bytes::damage(&mut r, &mut damaged, 1));
            if damaged.len() >= 16 && at(&damaged, 4) > 1000 {
                continue;
            }
            let first = |named| literal_refusals(&damaged, named).first().copied();
            assert_eq!(read(&damaged).err().map(|refusal| refusal.number), first(None), "case {number}: {damaged:?}");
            for named in [party, parties::other(&mut r)] {
                let refusal = read_for(&damaged, named).err().map(|refusal| refusal.number);
                assert_eq!(refusal, first(Some(named)), "case {number}: {named} in {damaged:?}");
                let all = literal_refusals(&damaged, Some(named));
                met.extend(all.windows(2).map(|pair| (pair[0], pair[1])));
                met.extend(all.iter().map(|&refusal| (refusal, refusal)));
            }
        }
    }
    println!("refusals that applied, each with the next: {met:?}");
    let pairs = [(2, 3), (3, 4), (4, 5), (4, 16), (5, 6), (5, 7), (5, 16), (6, 7), (6, 16), (7, 16)];
    assert!((1..=7).chain([16]).all(|refusal| met.contains(&(refusal, refusal))) && pairs.iter().all(|pair| met.contains(pair)));
}

/// W-207: calls that "name a party .. use that party's lines": a line is the plan's exactly if its bytes with the party's stand among those
/// of the lines; n, m and the starts are everyone's.
#[test]
fn the_lines_of_each_party() {
    let (mut several, mut none) = (0, 0);
    for (number, _, bytes, _) in tiny_bytes(3000) {
        let [edition, n, m, p, e, starts_at, lines_at, _] = std::array::from_fn(|place| at(&bytes, place));
        let lines: Vec<&[u8]> = bytes[lines_at..].chunks(2 + edition).take(e).collect();
        for party in 0..if edition == 1 { 1 } else { 8u8 } {
            let plan = read_for(&bytes, party as u32).expect("sound");
            assert_eq!((plan.n, plan.m), (n, m), "case {number}");
            assert!((0..n).all(|s| plan.starts[s] == bytes[starts_at..starts_at + p].contains(&(s as u8))), "case {number}");
            for (from, code, to) in (0..n).flat_map(|from| (0..m).flat_map(move |code| (0..n).map(move |to| (from, code, to)))) {
                let with_party = [from as u8, code as u8, to as u8, party];
                let is_there = lines.contains(&&with_party[..2 + edition]);
                assert_eq!(plan.lines[code].contains(&(from, to)), is_there, "case {number}: {with_party:?} in {bytes:?}");
            }
            let own = plan.lines.iter().map(Vec::len).sum::<usize>();
            several += (0 < own && own < e) as u32;
            none += (own == 0 && e > 0) as u32;
        }
    }
    println!("parties with some of the lines: {several}, with none: {none}");
    assert!(several > 500 && none > 500);
}

#[test]
fn the_count_is_the_least_number_without_a_shared_word() {
    let (mut found, mut none) = ([0; 11], 0);
    for (number, _, plan) in tiny_plans(4000) {
        let reached = literal_reached(&plan);
        assert_eq!(members(&plan.reached()), reached, "case {number}: {plan:?}");
        let literal = literal_count(&plan, &literal_sets(&plan, &reached));
        assert_eq!(look_ahead(&plan), literal, "case {number}: {plan:?}");
        match literal {
            Some(k) => found[k] += 1,
            None => none += 1,
        }
    }
    println!("tiny plans with k 0, 1, ..: {found:?}; without: {none}");
    assert!(none > 100 && found[..5].iter().all(|&count| count > 0));
}

/// W-205 with all words of a length tried on each set by itself: "the least k for which no two of its different stakes share a word of k
/// codes", 65,535 if there is none up to n(n-1)/2, 65,534 if the set "is empty or doesn't count by W-202"; "first the starts, then stake by
/// stake and code by code". And what the numbers together say of the plan's k, which is counted word by word over all sets that count.
#[test]
fn the_number_of_each_set_by_itself() {
    let (mut found, mut none, mut beside, mut several, mut empty, mut abandoned) = ([0; 11], 0, 0, 0, 0, 0);
    for (number, _, plan) in tiny_plans(8000) {
        let (every, counting) = (every_literal_set(&plan), literal_sets(&plan, &literal_reached(&plan)));
        let mut names = vec![(255, 0)];
        for stake in 0..plan.n as u32 {
            names.extend((0..plan.m as u32).map(|code| (stake, code)));
        }
        let mut expected = Vec::new();
        for name in &names {
            let has_name = |set: &&Named| set.0 == *name && !set.1.is_empty();
            expected.push(match counting.iter().find(has_name) {
                Some(set) => literal_count(&plan, std::slice::from_ref(set)).map_or(65_535, |k| k as u16),
                None => 65_534,
            });
            empty += !every.iter().any(|set| has_name(&set)) as u32;
            abandoned += (every.iter().any(|set| has_name(&set)) && !counting.iter().any(|set| has_name(&set))) as u32;
        }
        assert_eq!(needs(&plan), expected, "case {number}: {plan:?}");
        assert!(names.iter().enumerate().all(|(place, &name)| entry(name, plan.m) == place), "case {number}: {plan:?}");
        let count = literal_count(&plan, &counting);
        assert_eq!(largest(&expected), count, "case {number}: {plan:?}");
        let endless = expected.iter().filter(|&&number| number == 65_535).count();
        beside += (endless > 0 && expected.iter().any(|number| (1..65_534).contains(number))) as u32;
        several += (endless > 1) as u32;
        none += endless;
        expected.iter().filter(|&&number| number < 65_534).for_each(|&number| found[number as usize] += 1);
    }
    println!("sets of tiny plans with 0, 1, ..: {found:?}; without: {none}; empty: {empty}; abandoned: {abandoned}");
    println!("plans with a number of 1 or more beside an endless set: {beside}; with several endless sets: {several}");
    assert!(none > 1000 && empty > 1000 && abandoned > 500 && beside > 100 && several > 100);
    assert!(found[..4].iter().all(|&count| count > 50) && found[4] > 0);
}

/// W-206 column by column, on tiny plans and on such as have wide sets and long needs. The numbers are those of W-205, which are counted
/// above word by word.
#[test]
fn the_page_column_by_column() {
    let seed = common::seed();
    let drawn = (0..2000).map(|number| {
        let mut r = Random::new(seed ^ 0x206, number);
        let plan = plans::plan(&mut r);
        let plan = plans::to_page(&mut r, &plan);
        let (bytes, party) = bytes::in_an_edition(&mut r, &plan);
        (number, read_for(&bytes, party).expect("sound"))
    });
    // "right-aligned": the digit that stands so many columns before the last, or a blank
    let digit = |number: usize, before_last: usize| match number / 10usize.pow(before_last as u32) {
        0 if before_last > 0 => ' ',
        rest => (b'0' + (rest % 10) as u8) as char,
    };
    let (mut longest, mut cut, mut dashes) = ([0; 4], 0, 0);
    for (number, plan) in tiny_plans(1000).map(|(number, _, plan)| (number, plan)).chain(drawn) {
        // "in the order of W-205"; "Sets marked 65,534 have no line"
        let mut names = vec![(255, 0)];
        names.extend((0..plan.n).flat_map(|stake| (0..plan.m).map(move |code| (stake, code))));
        let mut lines: Vec<((usize, usize), u16)> = names.into_iter().zip(needs(&plan)).collect();
        lines.retain(|line| line.1 != 65_534);
        let page: Vec<char> = page(&plan).chars().collect();
        assert_eq!(page.len(), 41 * lines.len(), "case {number}: {plan:?}");
        for (characters, ((stake, code), need)) in page.chunks(41).zip(lines) {
            let is_starts = (stake, code) == (255, 0);
            let is_in = |&to: &usize| if is_starts { plan.starts[to] } else { plan.lines[code].contains(&(stake, to)) };
            let stakes = (0..plan.n).filter(is_in).count();
            for (column, &character) in (1..).zip(characters) {
                let expected = match column {
                    1..=4 if is_starts => b"from"[column - 1] as char,
                    1..=4 => digit(stake, 4 - column),
                    6..=9 if !is_starts => digit(code, 9 - column),
                    11..=16 if need != 65_535 => digit(need as usize, 16 - column),
                    16 => '-',
                    18..=40 if column - 17 <= stakes => '#',
                    41 => '\n',
                    _ => ' ',
                };
                assert_eq!(character, expected, "case {number}: column {column} of {characters:?}, {plan:?}");
            }
            match need {
                65_535 => dashes += 1,
                _ => longest[need.max(1).ilog10() as usize] += 1,
            }
            cut += (stakes > 23) as u32;
        }
    }
    println!("lines with needs of 1, 2, 3 and 4 digits: {longest:?}; with a dash: {dashes}; with a bar that is cut: {cut}");
    assert!(longest.iter().all(|&count| count > 50) && dashes > 1000 && cut > 100);
}

/// W-203 with walks written out, as the codes before a position and those behind it. The possible stakes there are those that the first
/// lead to from a start and from which the others can be walked. Up to n codes before it are written out: the paths to two possible stakes
/// part at the starts or at a fork, which is led to by no more, and there at least as many legs follow. A position in doubt with n(n-1)/2
/// legs behind it means that there is no k.
#[test]
fn the_count_is_the_least_number_of_legs_without_doubt() {
    let (mut found, mut none, mut later) = ([0; 11], 0, 0);
    for (number, mut r, plan) in tiny_plans(3000) {
        let bound = plan.n * (plan.n - 1) / 2;
        let starts = members(&plan.starts);
        let led_to = |word: &[u8]| -> Vec<usize> { (0..plan.n).filter(|&x| starts.iter().any(|&s| leads(&plan, s, word, x))).collect() };
        let can_walk = |word: &[u8]| -> Vec<usize> { (0..plan.n).filter(|&x| walks(&plan, x, word)).collect() };
        let possible = |before: &[usize], behind: &[usize]| before.iter().filter(|&x| behind.contains(x)).count();
        let before: BTreeSet<Vec<usize>> = (0..=plan.n).flat_map(|length| words(plan.m, length)).map(|word| led_to(&word)).collect();
        let is_in_doubt = |legs: usize| {
            let behind: BTreeSet<Vec<usize>> = words(plan.m, legs).iter().map(|word| can_walk(word)).collect();
            before.iter().any(|before| behind.iter().any(|behind| possible(before, behind) >= 2))
        };
        let doubts: Vec<bool> = (0..=bound).map(is_in_doubt).collect();
        let least = (0..=bound).find(|&k| !doubts[k..].contains(&true));
        assert_eq!(look_ahead(&plan), least, "case {number}: {plan:?}");
        for (legs, &is_there) in doubts.iter().enumerate() {
            let doubt = in_doubt(&plan, legs, &mut |ways| r.below(ways));
            assert_eq!(doubt.is_some(), is_there, "case {number}: {legs} legs, {plan:?}");
            let Some((walk, position)) = doubt else { continue };
            let (before, behind) = walk.split_at(position);
            assert_eq!(behind.len(), legs, "case {number}: {plan:?}");
            assert!(possible(&led_to(before), &can_walk(behind)) >= 2, "case {number}: {walk:?} at {position}, {plan:?}");
            later += (position > 0) as u32;
        }
        match least {
            Some(k) => found[k] += 1,
            None => none += 1,
        }
    }
    println!("tiny plans in doubt for fewer than 0, 1, .. legs: {found:?}; for any number: {none}; behind the first position: {later}");
    assert!(none > 100 && later > 500 && found[..4].iter().all(|&count| count > 20) && found[4] > 0);
}

/// W-202: "where we compare with source document 003, we compare after its unreachable stakes are taken out". In what remains every set
/// counts, and the count is never more than it would be if every set of the whole plan did.
#[test]
fn the_count_of_what_remains() {
    let (mut same, mut less, mut some_for_none) = (0, 0, 0);
    for (number, _, plan) in tiny_plans(3000) {
        let kept = literal_reached(&plan);
        if kept.len() == plan.n {
            continue;
        }
        let name = |stake: usize| kept.iter().position(|&other| other == stake);
        let among_kept = |lines: &Vec<(usize, usize)>| lines.iter().filter_map(|&(from, to)| Some((name(from)?, name(to)?))).collect();
        let lines = plan.lines.iter().map(among_kept).collect();
        let remains = Plan { n: kept.len(), m: plan.m, starts: kept.iter().map(|&stake| plan.starts[stake]).collect(), lines };
        let count = literal_count(&remains, &every_literal_set(&remains));
        assert_eq!(look_ahead(&plan), count, "case {number}: {plan:?}");
        let wide = literal_count(&plan, &every_literal_set(&plan));
        assert_eq!(least(&plan, &plan.every_set()), wide, "case {number}: {plan:?}");
        match (count, wide) {
            (Some(k), Some(wide)) if k < wide => less += 1,
            (Some(_), None) => some_for_none += 1,
            _ => {
                assert_eq!(count, wide, "case {number}: {plan:?}");
                same += 1;
            }
        }
    }
    println!("tiny plans with unreachable stakes: {same} with the same count, {less} with a lower one, {some_for_none} with one for none");
    assert!(same > 50 && less > 50 && some_for_none > 50);
}

/// Document 01 has 14 "met only with a table not made by preparing"; W-202: it "may now also meet a record whose base no walk reaches".
/// With the plan's k, every base and all codes that may be held: 10 if they can't be walked, whether a walk reaches the base or not, and 14
/// for no base that one reaches.
#[test]
fn refusal_14_with_the_count_of_the_plan() {
    let mut met = 0;
    for (number, _, plan) in tiny_plans(1000) {
        let Some(k) = look_ahead(&plan) else { continue };
        let (starts, reached) = (members(&plan.starts), literal_reached(&plan));
        for legs in 0..=k {
            for held in words(plan.m, legs) {
                let codes = [held.as_slice(), &vec![0; k - legs]].concat();
                // the base is the starts while legs < k, else the booked stake
                for booked in if legs < k { 255..256 } else { 0..plan.n } {
                    let base = if legs < k { starts.clone() } else { vec![booked] };
                    let record = Record { legs: legs as u32, booked: booked as u8, zero: 0, held: legs as u16, codes: codes.clone() };
                    for code in 0..plan.m as u32 {
                        let refusal = feed(&plan, k, &record, code).err().map(|refusal| refusal.number);
                        let can_be_walked = base.iter().any(|&stake| walks(&plan, stake, &held));
                        assert_eq!(refusal == Some(10), !can_be_walked, "case {number}: {record:?} {plan:?}");
                        let is_reached = base.iter().all(|stake| reached.contains(stake));
                        assert!(refusal != Some(14) || !is_reached, "case {number}: {record:?} {code} {plan:?}");
                        met += (refusal == Some(14)) as u32;
                    }
                }
            }
        }
    }
    println!("14 from a base that no walk reaches: {met}");
    assert!(met > 50);
}

#[test]
fn possible_stakes_and_verdicts_word_by_word() {
    for (number, mut r, plan) in tiny_plans(3000) {
        let length = r.below(7);
        let word: Vec<u8> = (0..length).map(|_| r.below(plan.m) as u8).collect();
        let starts = members(&plan.starts);
        if !starts.is_empty() {
            let g = (0..=word.len()).rev().find(|&g| starts.iter().any(|&s| walks(&plan, s, &word[..g]))).expect("the empty word");
            let sets = whole_walk(&plan, &word).expect("with starts and codes on the plan");
            assert_eq!(sets.len(), g + 1, "case {number}");
            for (i, set) in sets.iter().enumerate() {
                for (x, &is_in) in set.iter().enumerate() {
                    let reached = starts.iter().any(|&s| leads(&plan, s, &word[..i], x));
                    assert_eq!(is_in, reached && walks(&plan, x, &word[i..g]), "case {number}");
                }
            }
        }
        // Definition 2; W-202: "Verdicts may still name any set."
        let sets = plan.every_set();
        let ((stake, code), set) = r.pick(&sets);
        let given = verdict(&plan, stake, code, &word).expect("the set is on the plan");
        let selects = |word: &[u8]| members(&set).into_iter().filter(|&t| walks(&plan, t, word)).count() == 1;
        assert_eq!(given.is_minimal_selector, selects(&word) && (0..word.len()).all(|end| !selects(&word[..end])), "case {number}");
        for t in 0..plan.n {
            let in_t = set[t] && walks(&plan, t, &word);
            assert_eq!(given.can_walk[t], in_t);
            let in_another = members(&set).into_iter().any(|s| s != t && walks(&plan, s, &word));
            let extended = (0..plan.m as u8).any(|code| walks(&plan, t, &[word.as_slice(), &[code]].concat()));
            assert_eq!(given.maximal_nonselector[t], in_t && in_another && !extended, "case {number}");
        }
        // paths and sets
        for s in 0..plan.n {
            let only = only(plan.n, s);
            let reached = reach(&plan, &only, &word);
            assert!((0..plan.n).all(|t| reached[t] == leads(&plan, s, &word, t)), "case {number}");
            assert_eq!(size(&possible(&plan, &only, &word)[0]) == 1, walks(&plan, s, &word), "case {number}");
        }
    }
}

/// W-204 as its sentence has it: "take the lowest member, join what it leads to, strike it out, and go on until the set is empty". From
/// every set, those with a bit n or n + 1 too, by every code and by m.
#[test]
fn a_step_member_by_member() {
    let (mut nowhere, mut joined) = (0, 0);
    for (number, _, plan) in tiny_plans(1000) {
        for (set, code) in (0..1u64 << (plan.n + 2)).flat_map(|set| (0..=plan.m as u32).map(move |code| (set, code))) {
            let given = step_from(&plan, set, code).map(|(led_to, rounds)| (members(&led_to), rounds)).map_err(|refusal| refusal.number);
            if code as usize == plan.m || set >= 1 << plan.n {
                assert_eq!(given, Err(12), "case {number}: {set:b} {code} {plan:?}");
                continue;
            }
            let mut left: BTreeSet<usize> = (0..plan.n).filter(|s| set & (1 << s) != 0).collect();
            let (mut led_to, mut rounds, mut lines) = (BTreeSet::new(), 0, 0);
            while let Some(lowest) = left.pop_first() {
                let ends: Vec<usize> = (0..plan.n).filter(|&end| plan.lines[code as usize].contains(&(lowest, end))).collect();
                lines += ends.len();
                led_to.extend(ends);
                rounds += 1;
            }
            nowhere += (rounds > 0 && led_to.is_empty()) as u32;
            joined += (led_to.len() < lines) as u32;
            assert_eq!(given, Ok((led_to.into_iter().collect(), rounds)), "case {number}: {set:b} {code} {plan:?}");
        }
    }
    println!("steps that lead nowhere: {nowhere}; to a stake that several stakes lead to: {joined}");
    assert!(nowhere > 500 && joined > 500);
}

/// Document 02, W-201: what stands where, and that nothing is left out, added or out of order. W-207: the lines "by party last".
#[test]
fn the_one_form_byte_by_byte() {
    for (number, _, bytes, _) in tiny_bytes(3000) {
        let form = one_form(&read(&bytes).expect("sound"));
        // edition, n, m, p and e are the plan's
        assert_eq!(form[..10], bytes[..10], "case {number}");
        let [edition, _, _, p, e, starts_at, lines_at, total] = std::array::from_fn(|place| at(&form, place));
        let (width, length) = (2 + edition, 16 + p + (2 + edition) * e);
        assert_eq!([starts_at, lines_at, total, form.len()], [16, 16 + p, length, length], "case {number}");
        // as many as there were, and each of them: all, since none stands twice
        let parts = |bytes: &[u8]| -> (Vec<u8>, Vec<Vec<u8>>) {
            let lines = bytes[at(bytes, 6)..].chunks(width).take(e).map(<[u8]>::to_vec).collect();
            (bytes[at(bytes, 5)..][..p].to_vec(), lines)
        };
        let ((starts, lines), (drawn_starts, drawn_lines)) = (parts(&form), parts(&bytes));
        assert!(starts.iter().all(|start| drawn_starts.contains(start)), "case {number}");
        assert!(lines.iter().all(|line| drawn_lines.contains(line)), "case {number}");
        assert!(starts.windows(2).all(|pair| pair[0] < pair[1]), "case {number}");
        // from, then code, then to, then the party: where two lines first differ, the later one has more
        let ascend = |pair: &[Vec<u8>]| {
            let place = (0..width).find(|&byte| pair[0][byte] != pair[1][byte]);
            place.is_some_and(|byte| pair[0][byte] < pair[1][byte])
        };
        assert!(lines.windows(2).all(ascend), "case {number}");
    }
}

#[test]
fn claims_by_paths() {
    let (mut yes, mut no, mut by_name) = (0, 0, 0);
    for (number, mut r, plan) in tiny_plans(1500) {
        let (sets, every) = (literal_sets(&plan, &literal_reached(&plan)), every_literal_set(&plan));
        let mut all = vec![claims::any(&mut r, &plan), claims::any(&mut r, &plan)];
        let mut choose = r.clone();
        if let Some((claim, letters)) = claim::example(&plan, &mut |ways| choose.below(ways)) {
            assert!(claim::holds(&plan, &claim, &letters), "case {number}");
            all.extend(claims::near(&mut r, &claim, &letters, plan.n, plan.m, 10));
        }
        if let Some((claim, letters)) = claim::example_of(&plan, &plan.every_set(), &mut |ways| choose.below(ways)) {
            all.extend(claims::renamed(&mut r, &plan, &claim, &letters));
        }
        for (claim, letters) in all {
            let holds = claim::holds(&plan, &claim, &letters);
            assert_eq!(holds, literal_claim(&plan, &sets, &claim, &letters).is_some(), "case {number}: {claim:?} {letters:?} {plan:?}");
            *(if holds { &mut yes } else { &mut no }) += 1;
            // the set does not count under the name that is claimed
            by_name += (!holds && literal_claim(&plan, &every, &claim, &letters).is_some()) as u32;
        }
    }
    println!("claims: {yes} yes, {no} no, of which {by_name} by the name alone");
    assert!(yes > 500 && no > 500 && by_name > 50);
}

/// The sentences of The count one by one, with paths, for these sets.
fn literal_claim(plan: &Plan, sets: &[Named], claim: &[u32], letters: &[u8]) -> Option<()> {
    let &[stake, code, s, t, lead, turn, ..] = claim else { return None };
    let length = lead.checked_add(turn)?;
    let (_, named) = sets.iter().find(|(name, _)| *name == (stake, code))?;
    let (s, t) = (s as usize, t as usize);
    let fits = s < t && named.contains(&s) && named.contains(&t) && turn >= 1 && length as usize <= plan.n * plan.n;
    if !fits || length as usize > letters.len() || letters[..length as usize].iter().any(|&code| code as usize >= plan.m) {
        return None;
    }
    let (lead, turn) = letters[..length as usize].split_at(lead as usize);
    let goes_round = |from: usize| (0..plan.n).any(|x| leads(plan, from, lead, x) && leads(plan, x, turn, x));
    (goes_round(s) && goes_round(t)).then_some(())
}
