//! The reference: documents 01 and 02 and the paper (003) in the plainest Rust. A set is a vector of booleans, a plan the list of its
//! lines, a refusal is given where its sentence stands. Nothing here is fast, and nothing here calls the library.

pub mod calls;
pub mod claim;
pub mod doubt;
mod forms;
pub mod lookahead;
pub mod page;
pub mod plan;
pub mod record;
pub mod report;
pub mod table;
pub mod walk;

/// A refusal: document 01's number, and which part of its sentence applied.
#[derive(Clone, Copy, Debug, PartialEq, Eq)]
pub struct Refusal {
    pub number: u32,
    pub why: &'static str,
}

/// "Who can cause which refusal": 1 for the plan author's, 2 for the caller's, 3 for the logger's, each as document 01 lists them; else 0.
/// W-207's 16 is treated "as 7".
pub fn group(number: u32) -> u32 {
    let lists: [&[u32]; 3] = [&[1, 2, 3, 4, 5, 6, 7, 15, 16], &[8, 9, 10, 14], &[11, 12, 13]];
    lists.iter().position(|list| list.contains(&number)).map_or(0, |place| place as u32 + 1)
}

pub fn refuse<T>(number: u32, why: &'static str) -> Result<T, Refusal> {
    Err(Refusal { number, why })
}

/// A set of stakes: one boolean for each.
pub type Stakes = Vec<bool>;

pub fn size(set: &[bool]) -> usize {
    set.iter().filter(|&&is_in| is_in).count()
}

pub fn members(set: &[bool]) -> Vec<usize> {
    (0..set.len()).filter(|&s| set[s]).collect()
}

/// The set of one stake.
pub fn only(n: usize, stake: usize) -> Stakes {
    (0..n).map(|s| s == stake).collect()
}

/// "A set is a 64-bit number, bit s for stake s."
pub fn to_number(set: &[bool]) -> u64 {
    members(set).iter().map(|&s| 2u64.pow(s as u32)).sum()
}

pub fn from_number(number: u64, n: usize) -> Stakes {
    (0..n).map(|s| number >> s & 1 == 1).collect()
}
