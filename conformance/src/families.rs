//! Plans as lists, their bytes, and families of plans whose count is known.

use crate::forms::plan::{header, length, line, HEADER};

/// A line of edition 1: from, code, to; and of edition 2, with its party.
pub type Line = (u8, u8, u8);
pub type PartyLine = (u8, u8, u8, u8);

/// A line of one of the editions.
pub trait AnyLine: Copy + Ord {
    const EDITION: usize;
    fn to_bytes(self) -> Vec<u8>;
    fn from_bytes(bytes: &[u8]) -> Self;
    /// From, code and to.
    fn walked(self) -> Line;
    /// The same party's line, or the same edition's, with another from, code and to.
    fn with(self, walked: Line) -> Self;
}

impl AnyLine for Line {
    const EDITION: usize = 1;

    fn to_bytes(self) -> Vec<u8> {
        vec![self.0, self.1, self.2]
    }

    fn from_bytes(bytes: &[u8]) -> Line {
        (bytes[0], bytes[1], bytes[2])
    }

    fn walked(self) -> Line {
        self
    }

    fn with(self, walked: Line) -> Line {
        walked
    }
}

impl AnyLine for PartyLine {
    const EDITION: usize = 2;

    fn to_bytes(self) -> Vec<u8> {
        vec![self.0, self.1, self.2, self.3]
    }

    fn from_bytes(bytes: &[u8]) -> PartyLine {
        (bytes[0], bytes[1], bytes[2], bytes[3])
    }

    fn walked(self) -> Line {
        (self.0, self.1, self.2)
    }

    fn with(self, (from, code, to): Line) -> PartyLine {
        (from, code, to, self.3)
    }
}

/// A plan as a list of starts and lines, before it is bytes. Its lines say of which edition.
#[derive(Clone, Debug, PartialEq, Eq)]
pub struct Draft<L = Line> {
    pub n: usize,
    pub m: usize,
    pub starts: Vec<u8>,
    pub lines: Vec<L>,
}

pub fn draft(n: usize, m: usize, starts: &[u8], lines: &[Line]) -> Draft {
    Draft { n, m, starts: starts.to_vec(), lines: lines.to_vec() }
}

/// A plan of edition 2.
pub fn parted(n: usize, m: usize, starts: &[u8], lines: &[PartyLine]) -> Draft<PartyLine> {
    Draft { n, m, starts: starts.to_vec(), lines: lines.to_vec() }
}

impl Draft {
    /// These lines as a party's, in edition 2.
    pub fn of_party(&self, party: u8) -> Draft<PartyLine> {
        let lines = self.lines.iter().map(|&(from, code, to)| (from, code, to, party)).collect();
        Draft { n: self.n, m: self.m, starts: self.starts.clone(), lines }
    }
}

impl Draft<PartyLine> {
    /// W-207, "an edition 1 plan with those lines alone".
    pub fn alone(&self, party: u8) -> Draft {
        let lines = self.lines.iter().filter(|line| line.3 == party).map(|line| line.walked()).collect();
        Draft { n: self.n, m: self.m, starts: self.starts.clone(), lines }
    }
}

impl<L: AnyLine> Draft<L> {
    /// Plan bytes: the starts behind the header, the lines behind them, no gaps.
    pub fn bytes(&self) -> Vec<u8> {
        self.laid_out(false, [0; 3])
    }

    /// Plan bytes with the lines before the starts or behind them, and gaps of so many bytes before, between and behind the two.
    pub fn laid_out(&self, lines_first: bool, gaps: [usize; 3]) -> Vec<u8> {
        let (p, e) = (self.starts.len(), self.lines.len());
        let (first, all_lines) = (HEADER + gaps[0], line(L::EDITION) * e);
        let (starts_at, lines_at) = if lines_first { (first + all_lines + gaps[1], first) } else { (first, first + p + gaps[1]) };
        let total = length(L::EDITION, p, e) + gaps.iter().sum::<usize>();
        let mut bytes = header([L::EDITION, self.n, self.m, p, e, starts_at, lines_at, total]);
        bytes.resize(total, 255);
        self.put_parts(&mut bytes, starts_at, lines_at);
        bytes
    }

    /// Puts the starts and the lines where they are to begin.
    pub fn put_parts(&self, bytes: &mut [u8], starts_at: usize, lines_at: usize) {
        bytes[starts_at..][..self.starts.len()].copy_from_slice(&self.starts);
        let lines: Vec<u8> = self.lines.iter().flat_map(|line| line.to_bytes()).collect();
        bytes[lines_at..][..lines.len()].copy_from_slice(&lines);
    }
}

/// Theorem 5: a sequence of k = n(n-1)/2 pairs, and k codes of which each leads one pair to the next. n of 1 to 8 (28 codes).
pub fn theorem_5(n: usize, pairs: &[(u8, u8)]) -> Draft {
    if pairs.is_empty() {
        return draft(n, 1, &[0], &[]);
    }
    let (r, s) = pairs[0];
    let mut lines = vec![(r, 0, r), (r, 0, s)];
    for (i, pair) in pairs.windows(2).enumerate() {
        let code = i as u8 + 1;
        lines.push((pair[0].0, code, pair[1].0));
        lines.push((pair[0].1, code, pair[1].1));
    }
    draft(n, pairs.len(), &[r], &lines)
}

/// All pairs (i, j) with i < j < n in their order.
pub fn all_pairs(n: u8) -> Vec<(u8, u8)> {
    (0..n).flat_map(|i| (i + 1..n).map(move |j| (i, j))).collect()
}

/// Two counters that only together count to i × j: code 0 moves y on, code 1 takes y from its end to 0 and moves x on. Starts x 0 and y 0
/// share exactly the words that begin the count, so k = i × j (Remark 7's number for i + j stakes). Codes 2, from every x, and 3, from
/// every y, fork back to both starts, so that walks go on for ever and meet the doubt again and again.
pub fn odometer(i: usize, j: usize) -> Draft {
    let (x, y) = (|a: usize| a as u8, |b: usize| (i + b) as u8);
    let mut lines = Vec::new();
    for a in 0..i {
        lines.push((x(a), 0, x(a)));
        if a + 1 < i {
            lines.push((x(a), 1, x(a + 1)));
        }
        lines.extend([(x(a), 2, x(0)), (x(a), 2, y(0))]);
    }
    for b in 0..j {
        if b + 1 < j {
            lines.push((y(b), 0, y(b + 1)));
        } else {
            lines.push((y(b), 1, y(0)));
        }
        lines.extend([(y(b), 3, x(0)), (y(b), 3, y(0))]);
    }
    draft(i + j, 4, &[x(0), y(0)], &lines)
}

/// The same with forks into the midst of the count: code 2 leads from x a to the x and the y of `places[a]`, x × j + y codes on, so that
/// the fork's own number is i × j - (x × j + y).
pub fn odometer_from(i: usize, j: usize, places: &[(usize, usize)]) -> Draft {
    let mut plan = odometer(i, j);
    plan.lines.retain(|&(from, code, _)| code != 2 || from as usize >= places.len());
    for (a, &(x, y)) in places.iter().enumerate() {
        plan.lines.extend([(a as u8, 2, x as u8), (a as u8, 2, (i + y) as u8)]);
    }
    plan
}

/// One code: a stake with a loop and a line to a chain of the other stakes. k = n-1 for n of 2 or more (Proposition 6, Fig. 10).
pub fn unary_chain(n: usize) -> Draft {
    let mut lines = vec![(0, 0, 0)];
    lines.extend((0..n as u8 - 1).map(|s| (s, 0, s + 1)));
    draft(n, 1, &[0], &lines)
}

/// Two rails of `length` stakes that are walked by the same codes and never meet; only the first goes back to the fork. k = length.
pub fn ladder(length: usize, codes: usize) -> Draft {
    let mut lines = Vec::new();
    let rail = |rail: usize, step: usize| (1 + rail * length + step) as u8;
    lines.extend([(0, 0, rail(0, 0)), (0, 0, rail(1, 0))]);
    for side in 0..2 {
        for step in 0..length - 1 {
            for code in 0..codes {
                lines.push((rail(side, step), code as u8, rail(side, step + 1)));
            }
        }
    }
    lines.push((rail(0, length - 1), 0, 0));
    if codes > 1 {
        lines.push((rail(1, length - 1), 1, 0));
    }
    draft(1 + 2 * length, codes, &[0], &lines)
}
