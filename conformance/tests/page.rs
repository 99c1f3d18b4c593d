//! The page program (GAWHERINO_PAGE, else ../target/bin/page): what it writes on standard output against the reference's page, and how it
//! reads and writes: an input cut into reads anywhere, standard input that stays open, and a read or a write that fails.

mod common;

use common::program::{plan_a, plan_a_among_others, refused_inputs, ring, with_legs, PAGE};
use conformance::families::{draft, odometer, Draft, Line};
use conformance::forms::page;
use conformance::random::{bytes, plans, Random};
use conformance::reference::page::page_text;

/// Plan A's page: the starts {0}, from 0 {1}, from 1 {1,2}, of which 2 has no line; from 2 nothing.
const SAMPLE: &str = concat!(
    "from           0 #                      \n",
    "   0    0      0 #                      \n",
    "   1    0      1 ##                     \n",
);

/// A line from each stake by each code, and each stake leads to the next: 2,049 sets of one stake.
fn largest() -> Draft {
    let lines: Vec<Line> = (0..64).flat_map(|from| (0..32).map(move |code| (from, code, (from + code + 1) % 64))).collect();
    draft(64, 32, &[0], &lines)
}

#[test]
fn the_reference_writes_the_sample() {
    assert_eq!(page_text(&plan_a().bytes()), SAMPLE);
}

/// "bytes after the plan's total are ignored", be they codes of the plan or not.
#[test]
fn the_sample_with_legs_and_without() {
    for legs in [&[][..], &[0, 0, 0], &[9], &[255; 5000]] {
        assert_eq!(PAGE.written(&with_legs(&plan_a(), legs)), SAMPLE, "{} legs", legs.len());
    }
}

/// A refusal is the only line, as in the report: 1 is for "fewer than 16 bytes, a total below 16, or fewer bytes than the total".
#[test]
fn refusals_1_to_7_and_16() {
    for (number, input) in refused_inputs() {
        assert_eq!(PAGE.written(&input), format!("refused {number} author\n"), "{input:?}");
        PAGE.agree(&input, "a refused plan");
        PAGE.agree(&[input.as_slice(), &[0, 0, 0]].concat(), "a refused plan and more bytes");
    }
}

/// Plans that the report refuses have a page too: B without a look-ahead, and E, which has no starts, an empty one.
#[test]
fn plans_that_are_not_refused() {
    let b = draft(2, 1, &[0], &[(0, 0, 0), (0, 0, 1), (1, 0, 1)]);
    let text = concat!(
        "from           0 #                      \n",
        "   0    0      - ##                     \n",
        "   1    0      0 #                      \n",
    );
    assert_eq!(PAGE.written(&b.bytes()), text);
    PAGE.agree(&b.bytes(), "plan B");
    // with a total of 16
    for plan in [draft(1, 1, &[], &[]), draft(64, 32, &[], &[]), Draft { starts: vec![], ..b }] {
        for legs in [&[][..], &[0, 0]] {
            assert_eq!(PAGE.written(&with_legs(&plan, legs)), "");
            PAGE.agree(&with_legs(&plan, legs), "an empty page");
        }
    }
    PAGE.agree(&ring().bytes(), "a ring");
    PAGE.agree(&odometer(32, 32).bytes(), "needs of 1,024");
}

/// W-207: as in the report, party 0 is named.
#[test]
fn the_page_of_party_0() {
    let of_0 = plan_a_among_others();
    for plan in [plan_a().of_party(0), of_0.clone()] {
        assert_eq!(PAGE.written(&plan.bytes()), SAMPLE);
        PAGE.agree(&with_legs(&plan, &[0, 0]), "plan A as party 0's");
    }
    // of party 0's lines none is left: the starts alone
    let mut of_others = of_0;
    of_others.lines.retain(|line| line.3 > 0);
    assert_eq!(PAGE.written(&of_others.bytes()), "from           0 #                      \n");
    PAGE.agree(&of_others.bytes(), "no line of party 0");
}

#[test]
fn the_largest_page() {
    let text = PAGE.written(&largest().bytes());
    assert_eq!(text.len(), page::most(64, 32));
    assert!(text.ends_with("\n  63   31      0 #                      \n"));
    PAGE.agree(&largest().bytes(), "2,049 lines");
}

#[test]
fn random_plans() {
    let seed = common::seed();
    let mut met = std::collections::BTreeMap::new();
    let how_many = 15 * common::seconds().max(20);
    for number in 0..how_many {
        let mut r = Random::new(seed ^ 0x9A6, number);
        let drawn = plans::plan(&mut r);
        let mut plan = plans::to_page(&mut r, &drawn);
        if r.percent(12) {
            plan.starts.clear();
        }
        let (mut input, _) = bytes::in_an_edition(&mut r, &plan);
        if r.percent(35) {
            bytes::damage(&mut r, &mut input, 2);
        }
        let has_legs = r.percent(50);
        if has_legs {
            let legs = r.among(1, 40);
            input.extend(r.bytes(legs));
        }
        if r.percent(12) {
            let end = r.below(input.len() + 1);
            input.truncate(end);
        }
        let text = page_text(&input);
        let kind = match (text.starts_with("refused"), text.is_empty(), has_legs) {
            (true, _, _) => text.trim_end().to_string(),
            (_, true, false) => "an empty page".to_string(),
            (_, true, true) => "an empty page, legs".to_string(),
            (_, false, false) => "lines".to_string(),
            (_, false, true) => "lines, legs".to_string(),
        };
        *met.entry(kind).or_insert(0) += 1;
        PAGE.agree(&input, &format!("GAWHERINO_SEED={seed} input {number}"));
    }
    println!("{how_many} inputs: {met:?}");
    let refusals = (1..=7).chain([16]).map(|number| format!("refused {number} author"));
    for kind in refusals.chain(["an empty page", "an empty page, legs", "lines", "lines, legs"].map(String::from)) {
        assert!(met.contains_key(&kind), "{kind}: never met");
    }
}

/// How it reads and writes. These tests ask more of the program than its text, so that faults.sh, which has another in its place, leaves
/// them out.
mod reading {
    use super::common::program::{pieces, text};
    use super::*;
    use std::fs::File;
    use std::io::{Read, Seek, Write};
    use std::os::fd::OwnedFd;
    use std::os::unix::net::{UnixDatagram, UnixStream};
    use std::process::{Output, Stdio};
    use std::sync::mpsc;
    use std::time::Duration;

    /// The exit status is always 0.
    fn run(stdin: Stdio, stdout: Stdio) -> Output {
        let output = PAGE.run(stdin, stdout);
        assert!(output.status.success(), "{}", output.status);
        output
    }

    #[test]
    fn the_sample_cut_at_every_place() {
        let sample = with_legs(&plan_a(), &[0, 0, 0]);
        for size in 1..=40 {
            PAGE.agree_cut(&sample, pieces(&sample, || size), "the sample");
        }
        // two cuts anywhere
        for first in 1..16 {
            for second in 1..10 {
                let mut sizes = [first, 16, second, 16].into_iter();
                PAGE.agree_cut(&sample, pieces(&sample, || sizes.next().unwrap_or(1)), "the sample");
            }
        }
        // and ended anywhere
        for end in 0..sample.len() {
            for size in [1, 2, 3, 7, 16, 4096] {
                PAGE.agree_cut(&sample[..end], pieces(&sample[..end], || size), "the sample cut short");
            }
        }
    }

    #[test]
    fn refused_plans_and_an_empty_page_in_parts() {
        let mut inputs: Vec<Vec<u8>> = refused_inputs().into_iter().map(|(_, input)| [input.as_slice(), &[0, 0, 0]].concat()).collect();
        inputs.push(with_legs(&draft(1, 1, &[], &[]), &[0, 0]));
        for input in inputs {
            for size in [1, 2, 5, 15, 16, 4096] {
                PAGE.agree_cut(&input, pieces(&input, || size), "a refused plan or an empty page");
            }
        }
    }

    #[test]
    fn random_inputs_in_random_parts() {
        let seed = common::seed();
        for number in 0..10 * common::seconds().max(20) {
            let mut r = Random::new(seed ^ 0x51B, number);
            let drawn = plans::plan(&mut r);
            let plan = plans::to_page(&mut r, &drawn);
            let (mut input, _) = bytes::in_an_edition(&mut r, &plan);
            let legs = r.below(100);
            input.extend(r.bytes(legs));
            let most = r.pick(&[1, 2, 7, 40, 5000]);
            let parts = pieces(&input, || r.below(most) + 1);
            PAGE.agree_cut(&input, parts, &format!("GAWHERINO_SEED={seed} input {number}"));
        }
    }

    #[test]
    fn the_largest_page_through_a_pipe() {
        let input = largest().bytes();
        for size in [1, 15, 16, 17, 1000, 4096, 70_000] {
            let mut child = PAGE.started(Stdio::piped(), Stdio::piped());
            let mut stdin = child.stdin.take().expect("is piped");
            let parts: Vec<Vec<u8>> = input.chunks(size).map(<[u8]>::to_vec).collect();
            let writer = std::thread::spawn(move || parts.iter().for_each(|part| stdin.write_all(part).expect("it reads all")));
            let output = child.wait_with_output().expect("it ends");
            writer.join().expect("all of it is written");
            assert!(output.status.success() && text(&output.stdout) == page_text(&input), "written in parts of {size}");
            assert_eq!(text(&output.stderr), "");
        }
    }

    /// The page is there, and the program has ended, though more bytes may come.
    #[test]
    fn the_page_is_written_while_standard_input_stays_open() {
        let refused = [&plan_a().bytes()[..14], &[15, 0]].concat();
        for (input, expected) in [
            (plan_a().bytes(), SAMPLE.to_string()),
            (with_legs(&plan_a(), &[0, 0]), SAMPLE.to_string()),
            (draft(1, 1, &[], &[]).bytes(), String::new()),
            (largest().bytes(), page_text(&largest().bytes())),
            // a total below 16
            (refused, "refused 1 author\n".to_string()),
        ] {
            let mut child = PAGE.started(Stdio::piped(), Stdio::piped());
            let mut stdin = child.stdin.take().expect("is piped");
            let mut stdout = child.stdout.take().expect("is piped");
            let (told, written) = mpsc::channel();
            std::thread::spawn(move || {
                let mut page = String::new();
                stdout.read_to_string(&mut page).expect("is text");
                drop(told.send(page));
            });
            stdin.write_all(&input).expect("there is room in the pipe");
            let page = written.recv_timeout(Duration::from_secs(20)).expect("the page, while the pipe is open");
            assert!(page == expected, "expected:\n{expected}\nwritten:\n{page}");
            assert!(child.wait().expect("it ends").success());
            drop(stdin);
        }
    }

    /// The program shares its place in the file with us.
    #[test]
    fn nothing_is_read_behind_the_plan() {
        let path = std::env::temp_dir().join(format!("gawherino-{}-unread-page", std::process::id()));
        let mut below_16 = plan_a().bytes();
        below_16[14] = 15;
        let mut edition = plan_a().bytes();
        edition[0] = 3;
        // (an input, and how many of its bytes may be read at the most)
        for (plan, most) in [
            (plan_a().bytes(), plan_a().bytes().len()),
            (largest().bytes(), largest().bytes().len()),
            (draft(1, 1, &[], &[]).bytes(), 16),
            (edition, plan_a().bytes().len()),
            (below_16, 16),
        ] {
            let mut input = plan.clone();
            input.resize(plan.len() + 100_000, 0);
            std::fs::write(&path, &input).expect("a file can be written");
            let mut file = File::open(&path).expect("and read");
            let output = run(Stdio::from(file.try_clone().expect("a second handle")), Stdio::piped());
            assert!(text(&output.stdout) == page_text(&input) && output.stderr.is_empty());
            let place = file.stream_position().expect("has a place") as usize;
            assert!(place <= most, "{place} bytes were read, {most} were enough");
        }
        std::fs::remove_file(&path).expect("it is there");
    }

    #[test]
    fn a_read_that_fails_is_no_end() {
        // a folder can be opened and not be read
        let output = run(Stdio::from(File::open("/").expect("there is a root")), Stdio::piped());
        assert_eq!((text(&output.stdout), text(&output.stderr)), (String::new(), PAGE.unread()));
        // a read that fails before the plan is there; behind it none is tried
        let a = plan_a().bytes();
        let cases: [(&[&[u8]], &str, String); 5] = [
            (&[], "", PAGE.unread()),
            (&[&a[..7]], "", PAGE.unread()),
            (&[&a[..16]], "", PAGE.unread()),
            (&[&a[..16], &a[16..25]], "", PAGE.unread()),
            (&[&a[..16], &a[16..]], SAMPLE, String::new()),
        ];
        for (parts, expected, said) in cases {
            let (ours, its) = UnixDatagram::pair().expect("a pair of sockets");
            // a read that waits longer fails
            its.set_read_timeout(Some(Duration::from_millis(300))).expect("can be set");
            for part in parts {
                ours.send(part).expect("there is room");
            }
            let output = run(Stdio::from(OwnedFd::from(its)), Stdio::piped());
            assert_eq!((text(&output.stdout).as_str(), text(&output.stderr)), (expected, said), "{} parts", parts.len());
        }
    }

    /// An empty page needs no write.
    #[test]
    fn a_write_that_fails_is_said() {
        for input in [plan_a().bytes(), with_legs(&plan_a(), &[0; 9000]), largest().bytes(), vec![], with_legs(&ring(), &[1])] {
            let (ours, its) = UnixStream::pair().expect("a pair of sockets");
            let writer = std::thread::spawn(move || {
                let mut ours = ours;
                drop(ours.write_all(&input));
            });
            let full = File::options().write(true).open("/dev/full").expect("there is a full device");
            let output = run(Stdio::from(OwnedFd::from(its)), Stdio::from(full));
            writer.join().expect("writing does not panic");
            assert_eq!(text(&output.stderr), PAGE.unwritten());
        }
    }
}
