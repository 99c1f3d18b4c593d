//! How the report program reads and writes: an input cut into reads anywhere, a leg reported as it arrives, nothing read after the end,
//! and a read or a write that fails.

mod common;

use common::program::{pieces, plan_a, refused_inputs, ring, text, with_legs, REPORT, SAMPLE};
use conformance::families::{draft, odometer};
use conformance::random::{bytes, plans, walks, Random};
use conformance::reference::plan::read_for;
use conformance::reference::report::report;
use std::fs::File;
use std::io::{BufRead, BufReader, Seek, Write};
use std::os::fd::OwnedFd;
use std::os::unix::net::UnixDatagram;
use std::process::Stdio;
use std::sync::mpsc;
use std::time::Duration;

fn agree(input: &[u8], pieces: Vec<Vec<u8>>, origin: &str) {
    REPORT.agree_cut(input, pieces, origin);
}

#[test]
fn the_sample_cut_at_every_place() {
    let sample = with_legs(&plan_a(), &[0, 0, 0]);
    assert_eq!(report(&sample), SAMPLE);
    for size in 1..=4096 {
        if size < 40 || size % 512 < 2 {
            agree(&sample, pieces(&sample, || size), "the sample");
        }
    }
    // two cuts anywhere
    for first in 1..16 {
        for second in 1..10 {
            let mut sizes = [first, 16, second, 16].into_iter();
            agree(&sample, pieces(&sample, || sizes.next().unwrap_or(1)), "the sample");
        }
    }
    // and ended anywhere
    for end in 0..sample.len() {
        for size in [1, 2, 3, 7, 16, 4096] {
            agree(&sample[..end], pieces(&sample[..end], || size), "the sample cut short");
        }
    }
}

#[test]
fn a_refused_leg_at_every_border_of_reads() {
    for size in [1, 2, 3, 100, 4095, 4096] {
        for place in [0, 1, 2, 99, 100, 101, 4094, 4095, 4096, 4097, 8191, 8192] {
            for (plan, leg) in [(plan_a(), 9), (ring(), 1), (ring(), 2)] {
                let mut legs = vec![0; place];
                legs.push(leg);
                legs.resize(place + 1 + 5000, 0);
                let input = with_legs(&plan, &legs);
                agree(&input, pieces(&input, || size), &format!("leg {leg} at {place}"));
            }
        }
    }
}

#[test]
fn refused_plans_in_parts() {
    let b = draft(2, 1, &[0], &[(0, 0, 0), (0, 0, 1), (1, 0, 1)]);
    let e = draft(1, 1, &[], &[]);
    let mut inputs = vec![with_legs(&b, &[0, 0]), with_legs(&e, &[0, 0])];
    inputs.extend(refused_inputs().into_iter().map(|(_, input)| [input.as_slice(), &[0, 0, 0]].concat()));
    for input in inputs {
        for size in [1, 2, 5, 15, 16, 4096] {
            agree(&input, pieces(&input, || size), "a refused plan");
        }
    }
}

#[test]
fn random_inputs_in_random_parts() {
    let seed = common::seed();
    for number in 0..10 * common::seconds().max(20) {
        let mut r = Random::new(seed ^ 0x51A, number);
        let draft = plans::plan(&mut r);
        let (mut input, _) = bytes::in_an_edition(&mut r, &draft);
        let meaning = read_for(&input, 0).expect("sound");
        let length = r.pick(&[0, 1, 3, 10, 40, 150]);
        let legs = walks::legs(&mut r, &meaning, length);
        input.extend(&legs);
        let most = r.pick(&[1, 2, 7, 40, 5000]);
        let parts = pieces(&input, || r.below(most) + 1);
        agree(&input, parts, &format!("GAWHERINO_SEED={seed} input {number}"));
    }
}

#[test]
fn a_long_plan_through_a_pipe() {
    let plan = odometer(32, 32);
    let input = with_legs(&plan, &[0; 40]);
    for size in [1, 15, 16, 17, 1000, 4096, 70_000] {
        let mut child = REPORT.started(Stdio::piped(), Stdio::piped());
        let mut stdin = child.stdin.take().expect("is piped");
        let parts: Vec<Vec<u8>> = input.chunks(size).map(<[u8]>::to_vec).collect();
        let writer = std::thread::spawn(move || parts.iter().for_each(|part| stdin.write_all(part).expect("it reads all")));
        let output = child.wait_with_output().expect("it ends");
        writer.join().expect("all of it is written");
        assert_eq!(text(&output.stdout), report(&input), "written in parts of {size}");
        assert_eq!(text(&output.stderr), "");
    }
}

#[test]
fn a_leg_is_reported_while_the_pipe_stays_open() {
    let mut child = REPORT.started(Stdio::piped(), Stdio::piped());
    let mut stdin = child.stdin.take().expect("is piped");
    let stdout = child.stdout.take().expect("is piped");
    let (told, lines) = mpsc::channel();
    std::thread::spawn(move || {
        for line in BufReader::new(stdout).lines() {
            drop(told.send(line.expect("is text")));
        }
    });
    let mut say = |bytes: &[u8], expected: &[&str]| {
        stdin.write_all(bytes).expect("it reads on");
        for line in expected {
            assert_eq!(lines.recv_timeout(Duration::from_secs(20)).as_deref(), Ok(*line), "while the pipe is open");
        }
    };
    let plan = plan_a().bytes();
    say(&plan[..20], &[]);
    say(&plan[20..], &["stakes 3 codes 1 starts 1 lines 3", "look-ahead 1"]);
    say(&[0], &["at 0 stake 0"]);
    say(&[0], &["at 1 stake 1"]);
    say(&[0, 0], &["at 2 stake 1", "at 3 stake 1"]);
    drop(stdin);
    assert_eq!(lines.recv_timeout(Duration::from_secs(20)).as_deref(), Ok("open 4 stakes 1 2"));
    assert!(child.wait().expect("it ends").success());
}

/// The program shares its place in the file with us.
#[test]
fn nothing_is_read_after_the_end() {
    let path = std::env::temp_dir().join(format!("gawherino-{}-unread", std::process::id()));
    let e = draft(1, 1, &[], &[]);
    // (plan, legs before the rest, bytes that may be read at the most)
    for (plan, legs, most) in
        [(plan_a(), vec![9], 26 + 4096), (ring(), vec![0, 0, 1], ring().bytes().len() + 4096), (e.clone(), vec![], e.bytes().len())]
    {
        let mut input = with_legs(&plan, &legs);
        input.resize(input.len() + 100_000, 0);
        std::fs::write(&path, &input).expect("a file can be written");
        let mut file = File::open(&path).expect("and read");
        let output = REPORT.run(Stdio::from(file.try_clone().expect("a second handle")), Stdio::piped());
        assert_eq!(text(&output.stdout), report(&input));
        let place = file.stream_position().expect("has a place") as usize;
        assert!(place <= most, "{place} bytes were read, {most} were enough");
    }
    std::fs::remove_file(&path).expect("it is there");
}

#[test]
fn a_read_that_fails_is_no_end() {
    // a folder can be opened and not be read
    let output = REPORT.run(Stdio::from(File::open("/").expect("there is a root")), Stdio::piped());
    assert_eq!((text(&output.stdout).as_str(), text(&output.stderr).as_str()), ("", REPORT.unread().as_str()));
    // a read that fails once the plan, or some legs, are there: what is booked is written, and no open line
    let first = "stakes 3 codes 1 starts 1 lines 3\nlook-ahead 1\n";
    let cases: [(&[&[u8]], String); 4] = [
        (&[], String::new()),
        (&[&plan_a().bytes()[..16]], String::new()),
        (&[&plan_a().bytes()[..16], &plan_a().bytes()[16..]], first.to_string()),
        (&[&plan_a().bytes()[..16], &plan_a().bytes()[16..], &[0, 0]], format!("{first}at 0 stake 0\nat 1 stake 1\n")),
    ];
    for (parts, expected) in cases {
        let (ours, its) = UnixDatagram::pair().expect("a pair of sockets");
        // a read that waits longer fails
        its.set_read_timeout(Some(Duration::from_millis(300))).expect("can be set");
        for part in parts {
            ours.send(part).expect("there is room");
        }
        let output = REPORT.run(Stdio::from(OwnedFd::from(its)), Stdio::piped());
        assert_eq!((text(&output.stdout), text(&output.stderr).as_str()), (expected, REPORT.unread().as_str()));
    }
}

#[test]
fn a_write_that_fails_is_said() {
    for input in [with_legs(&plan_a(), &[0, 0, 0]), with_legs(&plan_a(), &[0; 9000]), vec![], with_legs(&ring(), &[1])] {
        let (ours, its) = std::os::unix::net::UnixStream::pair().expect("a pair of sockets");
        let writer = std::thread::spawn(move || {
            let mut ours = ours;
            drop(ours.write_all(&input));
        });
        let full = File::options().write(true).open("/dev/full").expect("there is a full device");
        let output = REPORT.run(Stdio::from(OwnedFd::from(its)), Stdio::from(full));
        writer.join().expect("writing does not panic");
        assert_eq!(text(&output.stderr), REPORT.unwritten());
    }
}
