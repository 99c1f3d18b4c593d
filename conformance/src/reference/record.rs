//! Walks leg by leg: the record as its fields, refusal 10 rule by rule, opening, a leg and ending.

use super::forms::{record_length, HELD_CODES, MOST_LEGS, NONE_BOOKED};
use super::plan::Plan;
use super::walk::possible;
use super::{members, only, refuse, size, Refusal, Stakes};

#[derive(Clone, Debug, PartialEq, Eq)]
pub struct Record {
    pub legs: u32,
    /// the last booked stake, 255 before the first
    pub booked: u8,
    pub zero: u8,
    pub held: u16,
    /// k bytes: the held codes, oldest first, then zeros
    pub codes: Vec<u8>,
}

impl Record {
    /// From at least 8 + k bytes.
    pub fn from_bytes(bytes: &[u8], k: usize) -> Record {
        let &[a, b, c, d, booked, zero, low, high] = &bytes[..HELD_CODES] else { unreachable!("as many bytes") };
        let (legs, held) = (u32::from_le_bytes([a, b, c, d]), u16::from_le_bytes([low, high]));
        Record { legs, booked, zero, held, codes: bytes[HELD_CODES..record_length(k)].to_vec() }
    }

    pub fn to_bytes(&self) -> Vec<u8> {
        let mut bytes = self.legs.to_le_bytes().to_vec();
        bytes.extend([self.booked, self.zero]);
        bytes.extend(self.held.to_le_bytes());
        bytes.extend(&self.codes);
        bytes
    }

    fn held_codes(&self) -> &[u8] {
        &self.codes[..self.held as usize]
    }
}

/// The base of a record that keeps the rules, or 10.
fn base(plan: &Plan, k: usize, record: &Record) -> Result<Stakes, Refusal> {
    let legs = record.legs as usize;
    if legs > MOST_LEGS {
        return refuse(10, "more than 1,000,000 legs");
    }
    if record.zero != 0 {
        return refuse(10, "the zero byte");
    }
    if record.held as usize != legs.min(k) {
        return refuse(10, "the held count");
    }
    if legs < k && record.booked != NONE_BOOKED {
        return refuse(10, "a stake before the first booking");
    }
    if legs >= k && record.booked as usize >= plan.n {
        return refuse(10, "the booked stake not below n");
    }
    if record.codes[record.held as usize..].iter().any(|&code| code != 0) {
        return refuse(10, "not zero past the held count");
    }
    if record.held_codes().iter().any(|&code| code as usize >= plan.m) {
        return refuse(10, "a held code not below m");
    }
    let base = if legs < k { plan.starts.clone() } else { only(plan.n, record.booked as usize) };
    if size(&possible(plan, &base, record.held_codes())[0]) == 0 {
        return refuse(10, "the held codes can't be walked from the base");
    }
    Ok(base)
}

/// A booked position and its stake, if one was booked.
pub type Booking = Option<(usize, usize)>;

pub fn open(plan: &Plan, k: usize) -> Result<(Booking, Record), Refusal> {
    if size(&plan.starts) == 0 {
        return refuse(13, "no starts");
    }
    let mut record = Record { legs: 0, booked: NONE_BOOKED, zero: 0, held: 0, codes: vec![0; k] };
    if k > 0 {
        return Ok((None, record));
    }
    if size(&plan.starts) > 1 {
        return refuse(14, "two or more starts");
    }
    let stake = members(&plan.starts)[0];
    record.booked = stake as u8;
    Ok((Some((0, stake)), record))
}

pub fn feed(plan: &Plan, k: usize, record: &Record, code: u32) -> Result<(Booking, Record), Refusal> {
    let base = base(plan, k, record)?;
    if record.legs as usize == MOST_LEGS {
        return refuse(11, "a leg beyond 1,000,000");
    }
    if code as usize >= plan.m {
        return refuse(12, if code > u8::MAX as u32 { "the leg above 255" } else { "the leg not below m" });
    }
    // a new leg is read behind the held codes before its booking is worked out
    let mut word = record.held_codes().to_vec();
    word.push(code as u8);
    let sets = possible(plan, &base, &word);
    if size(&sets[0]) == 0 {
        return refuse(13, "the leg can't be walked");
    }
    let legs = record.legs as usize + 1;
    let mut next = Record { legs: legs as u32, held: legs.min(k) as u16, ..record.clone() };
    let latest = &word[word.len() - legs.min(k)..];
    next.codes = latest.iter().copied().chain(std::iter::repeat(0)).take(k).collect();
    if legs < k {
        return Ok((None, next));
    }
    // leg number i with i at least k books position i-k; the base stands at the position before the held codes
    let position = legs - k;
    let at_base = record.legs as usize - record.held as usize;
    let set = &sets[position - at_base];
    // W-202: "Refusal 14 may now also meet a record whose base no walk reaches"; 10 does not ask whether one does
    if size(set) > 1 {
        return refuse(14, "two or more stakes are possible");
    }
    let stake = members(set)[0];
    next.booked = stake as u8;
    Ok((Some((position, stake)), next))
}

/// Ending: the possible stakes of the unbooked positions, lowest first.
pub fn finish(plan: &Plan, k: usize, record: &Record) -> Result<Vec<Stakes>, Refusal> {
    let base = base(plan, k, record)?;
    let sets = possible(plan, &base, record.held_codes());
    let first_unbooked = if (record.legs as usize) < k { 0 } else { 1 };
    Ok(sets[first_unbooked..].to_vec())
}
