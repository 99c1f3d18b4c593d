//! Benchmarks: the proved library and plain.rs side by side in one run, each call through the same interface of slices. Prints Markdown.

use conformance::calls::Calls;
use conformance::families::{draft, ladder, odometer, Draft, Line, PartyLine};
use conformance::forms::{evidence, letters, needs, page, plan, record, table};
use conformance::forms::{COUNTS, LENGTH, MAX_CODES, MAX_LINES, MAX_STAKES, NEXT, PARTIES, POSITION, REFUSED};
use conformance::library::Library;
use conformance::plain::Plain;
use conformance::random::Random;
use std::hint::black_box;
use std::time::Duration;

/// One sample lasts about so long, and so many are taken of each side in turn.
const SAMPLE: Duration = Duration::from_millis(20);
const SAMPLES: usize = 15;
/// Of an operation that takes longer than a sample.
const FEW_SAMPLES: usize = 7;

/// Room for the evidence of any plan.
const LETTERS: usize = letters(MAX_STAKES);
const EVIDENCE: usize = evidence::NUMBERS;

/// Linux's timespec and clock_gettime, which std links anyway.
#[repr(C)]
struct Timespec {
    seconds: i64,
    nanoseconds: i64,
}

extern "C" {
    fn clock_gettime(clock: i32, time: *mut Timespec) -> i32;
}

/// The processor time of this thread in nanoseconds, so that other work on the machine counts little.
fn now() -> u64 {
    const THREAD_CPU_TIME: i32 = 3;
    let mut time = Timespec { seconds: 0, nanoseconds: 0 };
    // SAFETY: the pointer is to a timespec of our own
    assert_eq!(unsafe { clock_gettime(THREAD_CPU_TIME, &mut time) }, 0);
    time.seconds as u64 * 1_000_000_000 + time.nanoseconds as u64
}

/// Nanoseconds for one operation: the middle of the samples, and the quartiles.
struct Time {
    median: f64,
    low: f64,
    high: f64,
}

fn time_of(samples: &mut [f64]) -> Time {
    samples.sort_by(f64::total_cmp);
    Time { median: samples[samples.len() / 2], low: samples[samples.len() / 4], high: samples[samples.len() * 3 / 4] }
}

fn show(time: &Time) -> String {
    let (unit, name) = if time.median < 1e3 {
        (1.0, "ns")
    } else if time.median < 1e6 {
        (1e3, "µs")
    } else {
        (1e6, "ms")
    };
    format!("{:.1} {name} ({:.1} to {:.1})", time.median / unit, time.low / unit, time.high / unit)
}

/// Times `operation`, which does `count` operations, on both sides alternately.
fn row(name: &str, count: usize, operation: &dyn Fn(&dyn Calls)) {
    if std::env::args().nth(1).is_some_and(|word| !name.contains(&word)) {
        return;
    }
    let sides: [&dyn Calls; 2] = [&Library { null_if_empty: false }, &Plain];
    let mut samples = [Vec::new(), Vec::new()];
    let rounds = sides.map(|side| {
        operation(side);
        let begun = now();
        operation(side);
        (SAMPLE.as_nanos() as u64 / (now() - begun).max(1)).clamp(1, 1_000_000) as usize
    });
    for _ in 0..if rounds[0] > 1 { SAMPLES } else { FEW_SAMPLES } {
        for (i, side) in sides.iter().enumerate() {
            let begun = now();
            for _ in 0..rounds[i] {
                operation(*side);
            }
            samples[i].push((now() - begun) as f64 / (rounds[i] * count) as f64);
        }
    }
    let [library, plain] = samples.map(|mut samples| time_of(&mut samples));
    println!("| {name} | {} | {} | {:.2} |", show(&library), show(&plain), plain.median / library.median);
}

/// The replies of both sides, which must be equal.
fn agreed(operation: &dyn Fn(&dyn Calls) -> u32) -> u32 {
    let library = operation(&Library { null_if_empty: false });
    assert_eq!(library, operation(&Plain), "the library and plain.rs disagree");
    library
}

fn says(reply: u32) -> String {
    if reply >= REFUSED {
        return format!("refused {}", reply - REFUSED);
    }
    format!("k {reply}")
}

/// The numbers of a plan's sets: how many count, how many of these are without a k, and the greatest k of the others.
fn says_needs(numbers: &[u16]) -> String {
    let endless = numbers.iter().filter(|&&number| number == needs::ENDLESS).count();
    let counted = numbers.iter().filter(|&&number| number != needs::UNMEASURED).count();
    let most = numbers.iter().filter(|&&number| number < needs::UNMEASURED).max().map_or(0, |&k| k);
    format!("{counted} sets, {endless} without k, the others up to k {most}")
}

/// `e` different lines of those that are drawn.
fn drawn(r: &mut Random, m: usize, e: usize, draw: impl Fn(&mut Random) -> Option<Line>) -> Draft {
    let (mut lines, mut seen) = (Vec::new(), std::collections::HashSet::new());
    while lines.len() < e {
        lines.extend(draw(r).filter(|&line| seen.insert(line)));
    }
    draft(MAX_STAKES, m, &[0], &lines)
}

/// Lines that lead from lower stakes to higher ones: always predictable.
fn downhill(r: &mut Random, m: usize, e: usize) -> Draft {
    drawn(r, m, e, |r| {
        let (from, to) = (r.below(MAX_STAKES) as u8, r.below(MAX_STAKES) as u8);
        let code = r.below(m) as u8;
        (from < to).then_some((from, code, to))
    })
}

fn any_lines(r: &mut Random, m: usize, e: usize) -> Draft {
    drawn(r, m, e, |r| Some((r.below(MAX_STAKES) as u8, r.below(m) as u8, r.below(MAX_STAKES) as u8)))
}

/// Lines that lead downhill among the lower half of the stakes, and any lines out of the upper half, which no walk reaches.
fn half_abandoned(r: &mut Random, m: usize, e: usize) -> Draft {
    let half = MAX_STAKES / 2;
    drawn(r, m, e, |r| {
        let (from, code, to) = (r.below(MAX_STAKES), r.below(m), r.below(MAX_STAKES));
        (from >= half || (from < to && to < half)).then_some((from as u8, code as u8, to as u8))
    })
}

/// One line out of each stake by each code: k 0.
fn deterministic(r: &mut Random, m: usize) -> Draft {
    let lines: Vec<Line> = (0..MAX_STAKES as u8).flat_map(|s| (0..m as u8).map(move |c| (s, c, 0))).collect();
    let lines = lines.into_iter().map(|(s, c, _)| (s, c, r.below(MAX_STAKES) as u8)).collect::<Vec<_>>();
    draft(MAX_STAKES, m, &[0], &lines)
}

/// The same lines in edition 2, each some party's.
fn mixed(r: &mut Random, plan: &Draft) -> Draft<PartyLine> {
    let mut plan = plan.of_party(0);
    plan.lines.iter_mut().for_each(|line| line.3 = r.below(PARTIES as usize) as u8);
    plan
}

fn full_size(mut plan: Draft) -> Draft {
    (plan.n, plan.m) = (MAX_STAKES, MAX_CODES);
    plan
}

fn table_of(plan: &Draft) -> Vec<u64> {
    let mut table = vec![0; table::length(plan.n, plan.m)];
    assert!(Plain.prepare(&plan.bytes(), 0, &mut table, &mut [0; LETTERS], &mut [0; EVIDENCE]) < REFUSED);
    table
}

/// A random walk that stays on the plan.
fn walk_on(r: &mut Random, table: &[u64], length: usize) -> Vec<u8> {
    let (m, mut set) = (table[table::M] as usize, table[table::STARTS]);
    let step = |set: u64, code: usize| {
        (0..MAX_STAKES).filter(|s| set >> s & 1 == 1).fold(0, |led_to, s| led_to | table[table::SETS + s * m + code])
    };
    let mut word = Vec::new();
    for _ in 0..length {
        let ways: Vec<(usize, u64)> = (0..m).map(|code| (code, step(set, code))).filter(|way| way.1 != 0).collect();
        let (code, next) = r.pick(&ways);
        set = next;
        word.push(code as u8);
    }
    word
}

fn main() {
    let mut r = Random::new(2007, 3);
    println!("Processor time for one operation: the median of {SAMPLES} samples of some 20 ms ({FEW_SAMPLES} where one operation takes");
    println!("longer), taken of both sides in turn, with the quartiles. The timed part is the calls alone, each with all its checks:");
    println!("from plan bytes for read, write, count (gawherino_look_ahead), prepare, needs and page; from a table for a leg (8 on the");
    println!("whole table each time), a whole walk and a step (8 on the whole table too). A leg's time is that of opening and all legs");
    println!("(20,000 to 1,000,000), divided by their number; a step's that of one by each code, divided by theirs.");
    println!();
    println!("| what | library | plain Rust | plain / library |");
    println!("|---|---|---|---|");

    let full = downhill(&mut r, MAX_CODES, MAX_LINES);
    // whose lines are whose, by other numbers than the lines themselves
    let mut of_parties = Random::new(2007, 207);
    let (one_party, eight_parties) = (full.of_party(0).bytes(), mixed(&mut of_parties, &full).bytes());
    let full = full.bytes();
    let every: Vec<Line> = (0..64).flat_map(|from| (0..64).map(move |to| (from, 0, to))).collect();
    let every = draft(64, 1, &[0], &every);
    let small = draft(3, 1, &[0], &[(0, 0, 1), (1, 0, 1), (1, 0, 2)]).bytes();
    for (name, plan) in [
        ("read, 4,096 lines over 64 × 32", &full),
        ("read, 4,096 lines over 64 × 1", &every.bytes()),
        ("read, plan A", &small),
        ("read, edition 2, 4,096 lines over 64 × 32 of party 0", &one_party),
        ("read, edition 2, 4,096 lines over 64 × 32 of eight parties", &eight_parties),
        ("read, edition 2, 4,096 lines over 64 × 1 of eight parties", &mixed(&mut of_parties, &every).bytes()),
    ] {
        row(name, 1, &|calls| {
            black_box(calls.read(black_box(plan), &mut [0; COUNTS]));
        });
    }

    // with numbers of its own, so that the plans of the other rows stay as they are
    let mut own = Random::new(2007, 201);
    let mut any_order = any_lines(&mut own, MAX_CODES, MAX_LINES);
    any_order.starts = (0..MAX_STAKES as u8).collect();
    own.shuffle(&mut any_order.starts);
    let mut in_order = any_order.clone();
    in_order.starts.sort();
    in_order.lines.sort();
    for (name, plan) in [
        ("write, 4,096 lines over 64 × 32 in any order, 64 starts", &any_order.bytes()),
        ("write, the same in order already", &in_order.bytes()),
        ("write, plan A", &small),
        ("write, edition 2, 4,096 lines over 64 × 32 of party 0 in any order, 64 starts", &any_order.of_party(0).bytes()),
        ("write, edition 2, the same lines of eight parties", &mixed(&mut of_parties, &any_order).bytes()),
        ("write, edition 2, the same of party 0 in order already", &in_order.of_party(0).bytes()),
    ] {
        let out = std::cell::RefCell::new([0; plan::length(2, MAX_STAKES, MAX_LINES)]);
        let written = agreed(&|calls| calls.write(plan, out.borrow_mut().as_mut_slice()));
        assert_eq!(written as usize, plan.len());
        row(name, 1, &|calls| {
            black_box(calls.write(black_box(plan), out.borrow_mut().as_mut_slice()));
        });
    }

    // of the 32 stakes with forks the one start is reached, or all as starts
    let half: Vec<u8> = (0..32).collect();
    let across: Vec<Line> = (0..32).flat_map(|from| (0..4).flat_map(move |code| (32..64).map(move |to| (from, code, to)))).collect();
    let mut late_loop = odometer(32, 32);
    // the last pair of the count goes on for ever: x 31 and y 31 share code 1
    late_loop.lines.push((31, 1, 31));
    let plans = [
        ("dense, 4,096 lines downhill over 64 × 32", full.clone()),
        ("dense, 4,096 lines downhill over 64 × 4", downhill(&mut r, 4, MAX_LINES).bytes()),
        ("dense, 4,096 lines from half to half over 64 × 4", draft(64, 4, &[7], &across).bytes()),
        ("sparse, 200 lines downhill over 64 × 4", downhill(&mut r, 4, 200).bytes()),
        ("sparse, deterministic over 64 × 32", deterministic(&mut r, MAX_CODES).bytes()),
        ("ladder of 31 over 63 × 2", ladder(31, 2).bytes()),
        ("long, two counters 9 × 9 over 18 × 4", odometer(9, 9).bytes()),
        ("long, two counters 9 × 9 in 64 × 32", full_size(odometer(9, 9)).bytes()),
        ("long, two counters 32 × 32 over 64 × 4", odometer(32, 32).bytes()),
        ("unpredictable, all 4,096 lines over 64 × 1", every.bytes()),
        ("unpredictable, 4,096 random lines over 64 × 32", any_lines(&mut r, MAX_CODES, MAX_LINES).bytes()),
        ("unpredictable, 150 random lines over 64 × 2", any_lines(&mut r, 2, 150).bytes()),
        ("unpredictable, loop after 1,023 codes, 64 × 4", late_loop.bytes()),
        ("half of the stakes abandoned, 4,096 lines over 64 × 32", half_abandoned(&mut own, MAX_CODES, MAX_LINES).bytes()),
        ("dense, 4,096 lines from half to half over 64 × 4, 32 starts", draft(64, 4, &half, &across).bytes()),
    ];
    for (name, plan) in &plans {
        let reply = agreed(&|calls| calls.look_ahead(plan, 0, &mut [0; LETTERS], &mut [0; EVIDENCE]));
        assert_eq!(name.starts_with("unpredictable"), reply == REFUSED + 15, "{name}: {}", says(reply));
        row(&format!("count, {name}: {}", says(reply)), 1, &|calls| {
            black_box(calls.look_ahead(black_box(plan), 0, &mut [0; LETTERS], &mut [0; EVIDENCE]));
        });
    }
    // of edition 1 for party 0; of edition 2 for the party that has all lines, and for one of the eight
    let of_edition_2 = [
        ("edition 2, 4,096 lines downhill over 64 × 32 of party 0", one_party, 0),
        ("edition 2, the same lines of eight parties, for party 3", eight_parties, 3),
    ];
    let of_edition_1 = |row: &(&'static str, Vec<u8>)| (row.0, row.1.clone(), 0);
    for (name, plan, party) in [0, 3, 8].map(|row| of_edition_1(&plans[row])).iter().chain(&of_edition_2) {
        let mut table = vec![0; table::length(MAX_STAKES, MAX_CODES)];
        let reply = agreed(&|calls| calls.prepare(plan, *party, &mut table.clone(), &mut [0; LETTERS], &mut [0; EVIDENCE]));
        let table = std::cell::RefCell::new(&mut table);
        row(&format!("prepare, {name}: {}", says(reply)), 1, &|calls| {
            black_box(calls.prepare(black_box(plan), *party, &mut table.borrow_mut(), &mut [0; LETTERS], &mut [0; EVIDENCE]));
        });
    }

    // of the plans of the count, and of plan A
    let of_plans = [0, 3, 4, 6, 8, 10, 11, 12, 13, 14].map(|row| of_edition_1(&plans[row]));
    let measured: Vec<_> = [("plan A", small.clone(), 0)].into_iter().chain(of_plans).chain(of_edition_2).collect();
    for (name, plan, party) in &measured {
        let room = std::cell::RefCell::new([0; needs::length(MAX_STAKES, MAX_CODES)]);
        let numbers = |calls: &dyn Calls| {
            let mut numbers = room.borrow_mut();
            let length = calls.needs(plan, *party, numbers.as_mut_slice()) as usize;
            numbers[..length].to_vec()
        };
        let told = numbers(&Library { null_if_empty: false });
        assert_eq!(told, numbers(&Plain), "the library and plain.rs disagree");
        row(&format!("needs, {name}: {}", says_needs(&told)), 1, &|calls| {
            black_box(calls.needs(black_box(plan), *party, room.borrow_mut().as_mut_slice()));
        });
    }
    for (name, plan, party) in &measured {
        let room = std::cell::RefCell::new([0; page::most(MAX_STAKES, MAX_CODES)]);
        let text = |calls: &dyn Calls| {
            let (mut page, mut length) = (room.borrow_mut(), [0; LENGTH]);
            assert_eq!(calls.page(plan, *party, page.as_mut_slice(), &mut length), 0);
            page[..length[0] as usize].to_vec()
        };
        let told = text(&Library { null_if_empty: false });
        assert!(told == text(&Plain), "the library and plain.rs disagree");
        row(&format!("page, {name}: {} lines", told.len() / page::LINE), 1, &|calls| {
            black_box(calls.page(black_box(plan), *party, room.borrow_mut().as_mut_slice(), &mut [0; LENGTH]));
        });
    }

    let walks = [
        ("k 0, 64 × 4", deterministic(&mut r, 4), 1_000_000),
        ("k 0, 64 × 32", deterministic(&mut r, MAX_CODES), 1_000_000),
        ("k 1, 2 × 4", odometer(1, 1), 1_000_000),
        ("k 1, 64 × 32", full_size(odometer(1, 1)), 1_000_000),
        ("k 8, 6 × 4", odometer(2, 4), 1_000_000),
        ("k 8, 64 × 32", full_size(odometer(2, 4)), 1_000_000),
        ("k 72, 17 × 4", odometer(8, 9), 300_000),
        ("k 72, 64 × 32", full_size(odometer(8, 9)), 300_000),
        ("k 1,024, 64 × 4", odometer(32, 32), 20_000),
    ];
    for (name, plan, length) in &walks {
        let table = table_of(plan);
        let k = table[table::K] as usize;
        let word = walk_on(&mut r, &table, *length);
        let feed = |calls: &dyn Calls| {
            let (mut rec, mut position, mut sum) = (vec![0; record::length(k)], [0; POSITION], 0u32);
            calls.open(&table, &mut rec, &mut position);
            for &code in &word {
                let reply = calls.feed(black_box(&table), &mut rec, code as u32, &mut position);
                debug_assert!(reply < REFUSED);
                sum = sum.wrapping_mul(31).wrapping_add(reply);
            }
            sum
        };
        agreed(&feed);
        row(&format!("feed, a leg, {name}"), word.len(), &|calls| {
            black_box(feed(calls));
        });
    }
    for (name, plan, length) in &walks {
        let table = table_of(plan);
        let word = walk_on(&mut r, &table, *length);
        let sets = std::cell::RefCell::new(vec![0; word.len() + 1]);
        row(&format!("whole walk, a leg, {name}"), word.len(), &|calls| {
            black_box(calls.walk(black_box(&table), &word, &mut sets.borrow_mut(), &mut [0; LENGTH]));
        });
    }
    for (name, plan, _) in [&walks[2], &walks[0], &walks[1]] {
        let table = table_of(plan);
        let all = u64::MAX >> (MAX_STAKES - plan.n);
        for (from, set) in [("one stake", 1), ("all stakes", all)] {
            let step = |calls: &dyn Calls| {
                (0..plan.m as u32).fold(0u64, |sum, code| {
                    let mut next = [0; NEXT];
                    let rounds = calls.step(black_box(&table), set, code, &mut next);
                    sum.wrapping_mul(31).wrapping_add(next[0]).wrapping_add(rounds as u64)
                })
            };
            agreed(&|calls| {
                let sum = step(calls);
                (sum ^ sum >> 32) as u32
            });
            row(&format!("step, from {from}, {name}"), plan.m, &|calls| {
                black_box(step(calls));
            });
        }
    }
}
