//! Plan bytes: refusals 1 to 7 and 16 in their order, the plan that the bytes mean for a party, and the one form in which a plan is filed.

use super::forms::{line_length, number, HEADER, LAST_PARTY, MOST_CODES, MOST_LINES, MOST_STAKES, STARTS};
use super::{members, refuse, Refusal, Stakes};

/// A semiautomaton: for each code its lines, as (from, to).
#[derive(Clone, Debug)]
pub struct Plan {
    pub n: usize,
    pub m: usize,
    pub starts: Stakes,
    pub lines: Vec<Vec<(usize, usize)>>,
}

/// A critical set's name: stake and code.
pub type Name = (u32, u32);

/// A line as it was read: from, code, to and party, which is 0 in edition 1.
pub type Line = [u8; 4];

/// What reading answers (n, m, p and e), and what else was read.
#[derive(Debug)]
pub struct Read {
    pub edition: usize,
    pub n: usize,
    pub m: usize,
    pub p: usize,
    pub e: usize,
    pub starts: Stakes,
    pub lines: Vec<Line>,
}

impl Read {
    /// W-207, the plan of a party that a call names: the starts, and "that party's lines".
    pub fn of(&self, party: u32) -> Result<Plan, Refusal> {
        // "16, a party above 7 .. in the call, or a party other than 0 named for edition 1"
        if party > LAST_PARTY {
            return refuse(16, "the party named above 7");
        }
        if self.edition == 1 && party != 0 {
            return refuse(16, "a party other than 0 named for edition 1");
        }
        let mut lines = vec![Vec::new(); self.m];
        for &[from, code, to, of] in &self.lines {
            if of as u32 == party {
                lines[code as usize].push((from as usize, to as usize));
            }
        }
        Ok(Plan { n: self.n, m: self.m, starts: self.starts.clone(), lines })
    }
}

impl Plan {
    /// The stakes that lines from one stake with one code lead to.
    pub fn fork(&self, stake: usize, code: usize) -> Stakes {
        let mut set = vec![false; self.n];
        for &(from, to) in &self.lines[code] {
            if from == stake {
                set[to] = true;
            }
        }
        set
    }

    /// W-202: the stakes "that some walk from a start reaches", a walk of no legs too. The lines are gone through again and again, and
    /// where one begins at a marked stake its end is marked, until a whole pass marks nothing new.
    pub fn reached(&self) -> Stakes {
        let mut marked = self.starts.clone();
        loop {
            let before = marked.clone();
            for &(from, to) in self.lines.iter().flatten() {
                if marked[from] {
                    marked[to] = true;
                }
            }
            if marked == before {
                return marked;
            }
        }
    }

    /// The critical sets that count, each with its name. W-202: "a critical set counts only as the starts, or as what one code leads to
    /// from a stake that some walk from a start reaches; the same set named by an unreachable stake doesn't count".
    pub fn critical_sets(&self) -> Vec<(Name, Stakes)> {
        self.sets_of(&members(&self.reached()))
    }

    /// Every critical set, whether it counts or not: "Verdicts may still name any set."
    pub fn every_set(&self) -> Vec<(Name, Stakes)> {
        self.sets_of(&(0..self.n).collect::<Vec<_>>())
    }

    /// The starts as stake 255 and code 0, then the forks of these stakes that are not empty.
    fn sets_of(&self, stakes: &[usize]) -> Vec<(Name, Stakes)> {
        let mut sets = vec![(STARTS, self.starts.clone())];
        for &stake in stakes {
            for code in 0..self.m {
                if self.lines[code].iter().any(|&(from, _)| from == stake) {
                    sets.push(((stake as u32, code as u32), self.fork(stake, code)));
                }
            }
        }
        sets
    }

    /// The set that a caller names by stake and code, 255 and 0 being the starts; none if a number is off the plan.
    pub fn named(&self, stake: u32, code: u32) -> Option<Stakes> {
        if (stake, code) == STARTS {
            return Some(self.starts.clone());
        }
        if (stake as usize) < self.n && (code as usize) < self.m {
            return Some(self.fork(stake as usize, code as usize));
        }
        None
    }
}

/// Reading, and then the plan of the party that is named.
pub fn read_for(bytes: &[u8], party: u32) -> Result<Plan, Refusal> {
    read(bytes)?.of(party)
}

/// Reading a plan: n, m, p and e, and what the bytes mean.
pub fn read(bytes: &[u8]) -> Result<Read, Refusal> {
    // 1: fewer than 16 bytes, or total not the byte count
    if bytes.len() < HEADER {
        return refuse(1, "fewer than 16 bytes");
    }
    // "in order: edition, n, m, count of starts p, count of lines e, offset of starts, offset of lines, total length"
    let [edition, n, m, p, e, starts_at, lines_at, total] = std::array::from_fn(|place| number(bytes, place));
    if total != bytes.len() {
        return refuse(1, "total not the byte count");
    }
    // W-207: "Refusal 2 now means neither 1 nor 2, and part lengths follow the edition."
    let Some(width) = line_length(edition) else {
        return refuse(2, "edition");
    };
    // 3: a count out of range
    if !(1..=MOST_STAKES).contains(&n) {
        return refuse(3, "n out of range");
    }
    if !(1..=MOST_CODES).contains(&m) {
        return refuse(3, "m out of range");
    }
    if p > n {
        return refuse(3, "p out of range");
    }
    if e > MOST_LINES {
        return refuse(3, "e out of range");
    }
    // 4: a part misplaced. Each part, an empty one too, begins at 16 or later and ends no later than the total.
    if starts_at < HEADER {
        return refuse(4, "starts before 16");
    }
    if starts_at + p > total {
        return refuse(4, "starts past the total");
    }
    if lines_at < HEADER {
        return refuse(4, "lines before 16");
    }
    if lines_at + width * e > total {
        return refuse(4, "lines past the total");
    }
    // Two non-empty parts don't overlap: no byte belongs to both. An empty part has no byte.
    let part_of_lines = lines_at..lines_at + width * e;
    if (starts_at..starts_at + p).any(|place| part_of_lines.contains(&place)) {
        return refuse(4, "parts overlap");
    }
    // 5: a start not below n, or twice
    let mut starts = vec![false; n];
    for place in starts_at..starts_at + p {
        let stake = bytes[place] as usize;
        if stake >= n {
            return refuse(5, "a start not below n");
        }
        if starts[stake] {
            return refuse(5, "a start twice");
        }
        starts[stake] = true;
    }
    // 6: a line's number not below its count; no word of the party, which has no count
    let lines: Vec<Line> = (0..e)
        .map(|line| {
            let place = lines_at + width * line;
            let party = if width == 4 { bytes[place + 3] } else { 0 };
            [bytes[place], bytes[place + 1], bytes[place + 2], party]
        })
        .collect();
    for &[from, code, to, _] in &lines {
        if from as usize >= n {
            return refuse(6, "from not below n");
        }
        if code as usize >= m {
            return refuse(6, "code not below m");
        }
        if to as usize >= n {
            return refuse(6, "to not below n");
        }
    }
    // 7: a line twice; W-207: "the same only if all four agree". Each is compared with all before it, its bytes as one number.
    let whole: Vec<u32> = lines.iter().map(|&line| u32::from_be_bytes(line)).collect();
    if (0..e).any(|line| whole[..line].contains(&whole[line])) {
        return refuse(7, "a line twice");
    }
    // W-207: "16, a party above 7 in a line .. after 7"
    if lines.iter().any(|&[_, _, _, party]| party as u32 > LAST_PARTY) {
        return refuse(16, "a line's party above 7");
    }
    Ok(Read { edition, n, m, p, e, starts, lines })
}

/// W-201, "one form: starts at 16 ascending, lines directly after them ascending by from, code and to, no gaps"; W-207: it "orders by party
/// last". The edition is the plan's own.
pub fn one_form(read: &Read) -> Vec<u8> {
    let width = line_length(read.edition).expect("it was read");
    let starts = members(&read.starts);
    let mut lines = read.lines.clone();
    lines.sort();
    let lines_at = HEADER + starts.len();
    let total = lines_at + width * lines.len();
    let mut form = Vec::new();
    for number in [read.edition, read.n, read.m, starts.len(), lines.len(), HEADER, lines_at, total] {
        form.push((number % 256) as u8);
        form.push((number / 256) as u8);
    }
    for stake in starts {
        form.push(stake as u8);
    }
    for line in lines {
        form.extend(&line[..width]);
    }
    form
}
