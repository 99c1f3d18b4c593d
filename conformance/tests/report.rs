//! The report program (GAWHERINO_REPORT, else ../target/bin/report): what it writes on standard output against the reference's report.
//! How it reads and writes is tested in streaming.rs.

mod common;

use common::program::{plan_a, plan_a_among_others, refused_inputs, ring, with_legs, REPORT, SAMPLE};
use conformance::families::{draft, odometer, parted, Draft};
use conformance::random::{bytes, plans, walks, Random};
use conformance::reference::plan::read_for;
use conformance::reference::report::report;

fn written(input: &[u8]) -> String {
    REPORT.written(input)
}

fn agree(input: &[u8], origin: &str) {
    REPORT.agree(input, origin);
}

#[test]
fn the_reference_writes_the_sample() {
    assert_eq!(report(&with_legs(&plan_a(), &[0, 0, 0])), SAMPLE);
}

#[test]
fn the_sample_of_document_01() {
    assert_eq!(written(&with_legs(&plan_a(), &[0, 0, 0])), SAMPLE);
}

#[test]
fn what_document_01_says_of_refusals() {
    // the only line for 1 to 7, and W-207: it "treats 16 as it does 7"
    for (number, input) in refused_inputs() {
        assert_eq!(written(&input), format!("refused {number} author\n"), "{input:?}");
    }
    // a total of 16 or more that is short of the bytes leaves legs, here one that is off the plan
    assert_eq!(
        written(&with_legs(&plan_a(), &[9])),
        "stakes 3 codes 1 starts 1 lines 3\nlook-ahead 1\nrefused 12 logger\nopen 0 stakes 0\n"
    );
    // for 15 it replaces line 2 and ends the report
    let b = draft(2, 1, &[0], &[(0, 0, 0), (0, 0, 1), (1, 0, 1)]);
    assert_eq!(written(&with_legs(&b, &[0, 0])), "stakes 2 codes 1 starts 1 lines 3\nrefused 15 author\n");
    // at opening it is line 3 and the last
    let e = draft(1, 1, &[], &[]);
    assert_eq!(written(&with_legs(&e, &[0, 0])), "stakes 1 codes 1 starts 0 lines 0\nlook-ahead 0\nrefused 13 logger\n");
    // on a leg it ends the walk, and the open lines follow; "after the word `stakes` even for one"
    let c = draft(4, 2, &[0, 1], &[(0, 0, 2), (1, 0, 2), (2, 1, 3)]);
    let text = "stakes 4 codes 2 starts 2 lines 3\nlook-ahead 3\nrefused 13 logger\nopen 0 stakes 0 1\nopen 1 stakes 2\nopen 2 stakes 3\n";
    assert_eq!(written(&with_legs(&c, &[0, 1, 1, 0, 9])), text);
    assert_eq!(report(&with_legs(&c, &[0, 1, 1, 0, 9])), text);
    // D, since W-202, and B without its start: what no walk reaches does not count
    let d = draft(3, 1, &[0], &[(0, 0, 0), (1, 0, 1), (1, 0, 2), (2, 0, 2)]);
    let text = "stakes 3 codes 1 starts 1 lines 4\nlook-ahead 0\nat 0 stake 0\nat 1 stake 0\nat 2 stake 0\n";
    assert_eq!(written(&with_legs(&d, &[0, 0])), text);
    assert_eq!(report(&with_legs(&d, &[0, 0])), text);
    let text = "stakes 2 codes 1 starts 0 lines 3\nlook-ahead 0\nrefused 13 logger\n";
    assert_eq!(written(&with_legs(&Draft { starts: vec![], ..b.clone() }, &[0, 0])), text);
    assert_eq!(report(&with_legs(&Draft { starts: vec![], ..b }, &[0, 0])), text);
    // with k 0 there is nothing open
    let line = draft(2, 1, &[0], &[(0, 0, 1)]);
    let text = "stakes 2 codes 1 starts 1 lines 1\nlook-ahead 0\nat 0 stake 0\nat 1 stake 1\nrefused 13 logger\n";
    assert_eq!(written(&with_legs(&line, &[0, 0, 0])), text);
    assert_eq!(report(&with_legs(&line, &[0, 0, 0])), text);
}

/// W-207: "The report .. and the drawing program's entry name 0"; line 1 counts all lines, of whatever party.
#[test]
fn party_0_is_reported() {
    let of_0 = plan_a_among_others();
    let walked = "look-ahead 1\nat 0 stake 0\nat 1 stake 1\nat 2 stake 1\nopen 3 stakes 1 2\n";
    // plan A alone, in edition 2; among others' lines; and plan B for party 0, without a look-ahead
    let mut of_3 = of_0.clone();
    of_3.lines.iter_mut().for_each(|line| line.3 = [3, 1, 2, 0, 4, 5, 6, 7][line.3 as usize]);
    let rows = [
        (with_legs(&plan_a().of_party(0), &[0, 0, 0]), format!("stakes 3 codes 1 starts 1 lines 3\n{walked}")),
        (with_legs(&of_0, &[0, 0, 0]), format!("stakes 3 codes 1 starts 1 lines 12\n{walked}")),
        (with_legs(&of_3, &[0, 0, 0]), "stakes 3 codes 1 starts 1 lines 12\nrefused 15 author\n".to_string()),
        // no line of party 0: nothing can be walked
        (
            with_legs(&plan_a().of_party(1), &[0, 0, 0]),
            "stakes 3 codes 1 starts 1 lines 3\nlook-ahead 0\nat 0 stake 0\nrefused 13 logger\n".to_string(),
        ),
        // 16 in a line of another party is the only line, and 7 comes before it
        (with_legs(&parted(2, 1, &[0], &[(0, 0, 1, 0), (0, 0, 1, 8)]), &[0]), "refused 16 author\n".to_string()),
        (with_legs(&parted(2, 1, &[0], &[(0, 0, 1, 200), (0, 0, 1, 200)]), &[0]), "refused 7 author\n".to_string()),
    ];
    for (input, text) in rows {
        assert_eq!((written(&input), report(&input)), (text.clone(), text), "{input:?}");
    }
}

/// A refused leg in every part of an input, and at the borders of the parts that the program reads.
#[test]
fn a_refused_leg_at_every_border() {
    let places = [0, 1, 2, 3, 15, 16, 17, 4093, 4094, 4095, 4096, 4097, 4098, 8190, 8191, 8192, 8193, 12287, 12288, 12289];
    for place in places {
        for later in [0, 1, 4095, 4096, 4097, 4098, 9000] {
            for (plan, leg) in [(plan_a(), 9), (ring(), 1), (ring(), 2), (ring(), 255)] {
                let mut legs = vec![0; place];
                legs.push(leg);
                legs.resize(place + 1 + later, 0);
                agree(&with_legs(&plan, &legs), &format!("leg {leg} at {place}, then {later} more"));
            }
        }
    }
    // two of them: the second is not looked at
    for (first, second) in [(9, 1), (1, 9), (1, 1), (2, 200)] {
        agree(&with_legs(&ring(), &[0, 0, first, 0, second, 0]), "two refused legs");
    }
    // plan A, a refused leg and 4,098 sound ones: the walk ends at the first
    let mut legs = vec![9];
    legs.resize(4099, 0);
    let text = "stakes 3 codes 1 starts 1 lines 3\nlook-ahead 1\nrefused 12 logger\nopen 0 stakes 0\n";
    assert_eq!(written(&with_legs(&plan_a(), &legs)), text);
}

#[test]
fn a_million_legs_and_the_next() {
    let mut input = with_legs(&plan_a(), &vec![0; 1_000_000]);
    agree(&input, "1,000,000 legs");
    let long = written(&input);
    assert!(long.ends_with("at 999999 stake 1\nopen 1000000 stakes 1 2\n"));
    input.push(0);
    agree(&input, "1,000,001 legs");
    assert!(written(&input).ends_with("at 999999 stake 1\nrefused 11 logger\nopen 1000000 stakes 1 2\n"));
    // 11 comes before 12
    *input.last_mut().expect("has legs") = 200;
    input.extend([0, 1, 2]);
    assert!(written(&input).ends_with("at 999999 stake 1\nrefused 11 logger\nopen 1000000 stakes 1 2\n"));
    agree(&input, "1,000,000 legs and more");
}

#[test]
fn a_long_count() {
    let plan = odometer(32, 32);
    let bytes = plan.bytes();
    let meaning = read_for(&bytes, 0).expect("sound");
    let mut r = Random::new(common::seed(), 7);
    for length in [0, 100, 1023, 1024, 1025, 1500] {
        let legs = walks::legs(&mut r, &meaning, length);
        agree(&with_legs(&plan, &legs), "k 1,024");
    }
}

#[test]
fn random_plans_and_legs() {
    let seed = common::seed();
    let mut met = std::collections::BTreeMap::new();
    let how_many = 15 * common::seconds().max(20);
    for number in 0..how_many {
        let mut r = Random::new(seed ^ 0x2E9, number);
        let draft = plans::plan(&mut r);
        let (mut input, _) = bytes::in_an_edition(&mut r, &draft);
        let meaning = read_for(&input, 0).expect("sound");
        let length = r.pick(&[0, 1, 3, 10, 40, 150]);
        let legs = walks::legs(&mut r, &meaning, length);
        if r.percent(35) {
            bytes::damage(&mut r, &mut input, 2);
        }
        input.extend(&legs);
        if r.percent(12) {
            let end = r.below(input.len() + 1);
            input.truncate(end);
        }
        let text = report(&input);
        let kind = match text.lines().find(|line| line.starts_with("refused")) {
            Some(line) => line.to_string(),
            None if text.contains("\nopen") && text.contains("\nat") => "at and open".to_string(),
            None => "at or open alone".to_string(),
        };
        *met.entry(kind).or_insert(0) += 1;
        agree(&input, &format!("GAWHERINO_SEED={seed} input {number}"));
    }
    println!("{how_many} inputs: {met:?}");
    for number in [1, 2, 3, 4, 5, 6, 7, 16, 12, 13, 15] {
        assert!(met.keys().any(|line| line.starts_with(&format!("refused {number} "))), "refusal {number} was never met");
    }
}
