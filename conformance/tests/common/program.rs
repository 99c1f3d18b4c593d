//! The programs, each by its name (GAWHERINO_REPORT, else ../target/bin/report; GAWHERINO_PAGE, else ../target/bin/page): what one writes
//! on standard output against what the reference has for it, whole and cut into reads; and inputs.

use conformance::families::{draft, parted, AnyLine, Draft, PartyLine};
use conformance::forms::plan::{number, HEADER, TOTAL};
use conformance::lent::hex;
use conformance::reference::page::page_text;
use conformance::reference::report::report;
use std::io::Write;
use std::os::fd::OwnedFd;
use std::os::unix::net::UnixDatagram;
use std::path::PathBuf;
use std::process::{Child, Command, Output, Stdio};
use std::time::{Duration, Instant};

pub struct Program {
    pub name: &'static str,
    /// What it should write for an input.
    pub expected: fn(&[u8]) -> String,
}

pub const REPORT: Program = Program { name: "report", expected: report };
pub const PAGE: Program = Program { name: "page", expected: page_text };

pub fn text(bytes: &[u8]) -> String {
    String::from_utf8_lossy(bytes).into_owned()
}

impl Program {
    fn path(&self) -> PathBuf {
        let (name, variable) = (self.name, format!("GAWHERINO_{}", self.name.to_uppercase()));
        let path = match std::env::var_os(&variable) {
            Some(path) => PathBuf::from(path),
            None => PathBuf::from(env!("CARGO_MANIFEST_DIR")).join("../target/bin").join(name),
        };
        assert!(path.is_file(), "there is no {}: run `bash tools/build.sh {name}` in the repository first, or set {variable}", path.display());
        path
    }

    pub fn started(&self, stdin: Stdio, stdout: Stdio) -> Child {
        let child = Command::new(self.path()).stdin(stdin).stdout(stdout).stderr(Stdio::piped()).spawn();
        child.expect("the program can be started")
    }

    pub fn run(&self, stdin: Stdio, stdout: Stdio) -> Output {
        self.started(stdin, stdout).wait_with_output().expect("the program ends")
    }

    /// What it says on standard error if a read or a write fails.
    pub fn unread(&self) -> String {
        format!("{}: standard input could not be read\n", self.name)
    }

    pub fn unwritten(&self) -> String {
        format!("{}: standard output could not be written\n", self.name)
    }

    /// What it writes for an input that a pipe brings.
    pub fn written(&self, input: &[u8]) -> String {
        let mut child = self.started(Stdio::piped(), Stdio::piped());
        let mut stdin = child.stdin.take().expect("is piped");
        let input = input.to_vec();
        // the program may stop reading early, after a refusal
        let writer = std::thread::spawn(move || drop(stdin.write_all(&input)));
        let output = child.wait_with_output().expect("the program ends");
        writer.join().expect("writing does not panic");
        let is_quiet = output.status.success() && output.stderr.is_empty();
        assert!(is_quiet, "the {} program ended with {}: {}", self.name, output.status, text(&output.stderr));
        String::from_utf8(output.stdout).expect("what it writes is text")
    }

    /// Compares one input, and on a difference looks for a smaller one by dropping bytes behind the plan.
    pub fn agree(&self, input: &[u8], origin: &str) {
        let differs = |input: &[u8]| self.written(input) != (self.expected)(input);
        if !differs(input) {
            return;
        }
        let mut input = input.to_vec();
        let mut piece = input.len() / 2;
        let end = Instant::now() + Duration::from_secs(10);
        while piece > 0 {
            let mut from = if input.len() >= HEADER { number(&input, TOTAL) } else { 0 };
            while from + piece <= input.len() && Instant::now() < end {
                let shorter = [&input[..from], &input[from + piece..]].concat();
                if differs(&shorter) {
                    input = shorter;
                } else {
                    from += piece;
                }
            }
            piece /= 2;
        }
        let short = |text: String| text.chars().take(3000).collect::<String>();
        panic!(
            "\nthe {} differs ({origin}); the smallest input found, {} bytes:\n{}\nexpected:\n{}\nwritten:\n{}",
            self.name,
            input.len(),
            hex(&input[..input.len().min(3000)]),
            short((self.expected)(&input)),
            short(self.written(&input))
        );
    }

    /// What it writes if each of its reads gets one piece: a read of a datagram takes it alone, and an empty one is an end.
    pub fn cut(&self, pieces: Vec<Vec<u8>>) -> String {
        let (ours, its) = UnixDatagram::pair().expect("a pair of sockets");
        // one that reads on after the end fails, and does not wait for ever
        its.set_read_timeout(Some(Duration::from_secs(20))).expect("can be set");
        let writer = std::thread::spawn(move || {
            for piece in pieces {
                // it may have stopped reading, after a refusal
                if ours.send(&piece).is_err() {
                    return;
                }
            }
            drop(ours.send(&[]));
        });
        let output = self.run(Stdio::from(OwnedFd::from(its)), Stdio::piped());
        writer.join().expect("writing does not panic");
        assert!(output.status.success() && output.stderr.is_empty(), "{}: {}", output.status, text(&output.stderr));
        text(&output.stdout)
    }

    /// Compares one input that is read in these pieces.
    pub fn agree_cut(&self, input: &[u8], pieces: Vec<Vec<u8>>, origin: &str) {
        let lengths: Vec<usize> = pieces.iter().map(Vec::len).take(200).collect();
        let (expected, given) = ((self.expected)(input), self.cut(pieces));
        let name = self.name;
        assert!(
            expected == given,
            "\nthe {name} differs ({origin}), read in parts of {lengths:?}\nexpected:\n{expected}\nwritten:\n{given}"
        );
    }
}

/// An input in pieces of a size that `size` gives, none longer than what a program asks for at that place.
pub fn pieces(input: &[u8], mut size: impl FnMut() -> usize) -> Vec<Vec<u8>> {
    let total = if input.len() >= HEADER { number(input, TOTAL) } else { HEADER };
    let mut pieces = Vec::new();
    let mut at = 0;
    while at < input.len() {
        let asked = match at {
            // once the total's first byte is there, more than 16 may be asked for: never more than the total
            _ if at < HEADER => HEADER - at,
            _ if at < total => total - at,
            _ => 4096,
        };
        let length = size().clamp(1, asked).min(input.len() - at);
        pieces.push(input[at..at + length].to_vec());
        at += length;
    }
    pieces
}

pub fn with_legs<L: AnyLine>(plan: &Draft<L>, legs: &[u8]) -> Vec<u8> {
    [plan.bytes().as_slice(), legs].concat()
}

pub fn plan_a() -> Draft {
    draft(3, 1, &[0], &[(0, 0, 1), (1, 0, 1), (1, 0, 2)])
}

/// One stake and a line back to it with code 0: code 1 is refused with 13, a higher one with 12. k is 0.
pub fn ring() -> Draft {
    draft(1, 2, &[0], &[(0, 0, 0)])
}

/// Plan A as party 0's in edition 2, with plan B's lines for party 3 and for all others the line that makes A unpredictable.
pub fn plan_a_among_others() -> Draft<PartyLine> {
    let own = [(0, 0, 1, 0), (1, 0, 1, 0), (1, 0, 2, 0)];
    let of_b = [(0, 0, 0, 3), (0, 0, 1, 3), (1, 0, 1, 3)];
    let others: Vec<PartyLine> = [1, 2, 4, 5, 6, 7].map(|party| (2, 0, 2, party)).to_vec();
    parted(3, 1, &[0], &[&of_b[..], &own, &others].concat())
}

/// Inputs that both programs refuse with 1 to 7 or 16, each with the number: plan A's bytes cut short, or with one of them changed, and
/// those of edition 2 with a party changed or a line twice.
pub fn refused_inputs() -> Vec<(u32, Vec<u8>)> {
    let a = plan_a().bytes();
    let mut inputs: Vec<(u32, Vec<u8>)> = [0, 1, 15, 16, 25].map(|end| (1, a[..end].to_vec())).into();
    // a total below 16, fewer bytes than the total, and one for each of 2 to 7
    let of_edition_1 = [(14, 15, 1), (14, 0x1B, 1), (0, 0, 2), (0, 3, 2), (2, 65, 3), (10, 15, 4), (16, 3, 5), (17, 3, 6), (25, 1, 7)];
    // of edition 1 its lines are three bytes each, and the second begins with the first one's party, which is no stake
    let of_edition_2 = [(0, 3, 2), (0, 1, 6), (16, 3, 5), (19, 3, 6), (23, 0, 7), (20, 8, 16), (40, 9, 16), (64, 255, 16), (64, 8, 16)];
    let several = plan_a_among_others().bytes();
    for (bytes, changes) in [(&a, &of_edition_1), (&several, &of_edition_2)] {
        for &(place, value, number) in changes {
            let mut bytes = bytes.clone();
            bytes[place] = value;
            inputs.push((number, bytes));
        }
    }
    inputs
}

pub const SAMPLE: &str = "stakes 3 codes 1 starts 1 lines 3\nlook-ahead 1\nat 0 stake 0\nat 1 stake 1\nat 2 stake 1\nopen 3 stakes 1 2\n";
