//! The report, from whole walks: what is booked and what is open is read off the possible stakes of the walk that the legs make.

use super::forms::{number, HEADER, MOST_LEGS, TOTAL};
use super::lookahead::look_ahead;
use super::plan::{read, Plan, Read};
use super::walk::{possible, step};
use super::{group, members, size};

/// "number and group, author, caller or logger"
pub fn refused(number: u32) -> String {
    let name = ["author", "caller", "logger"][group(number) as usize - 1];
    format!("refused {number} {name}\n")
}

/// What was read of the plan that a program's input begins with, the plan of the party that the programs name, and the bytes behind it; or
/// the number of the refusal. W-207: "The report, which treats 16 as it does 7, .. name 0."
pub fn begun_with(input: &[u8]) -> Result<(Read, Plan, &[u8]), u32> {
    // refusal 1 here: fewer than 16 bytes, a total below 16, or fewer bytes than the total
    if input.len() < HEADER {
        return Err(1);
    }
    let total = number(input, TOTAL);
    if total < HEADER || input.len() < total {
        return Err(1);
    }
    let (bytes, behind) = input.split_at(total);
    let read = read(bytes).map_err(|refusal| refusal.number)?;
    let plan = read.of(0).map_err(|refusal| refusal.number)?;
    Ok((read, plan, behind))
}

pub fn report(input: &[u8]) -> String {
    let (Read { n, m, p, e, .. }, plan, legs) = match begun_with(input) {
        Ok(begun) => begun,
        Err(number) => return refused(number),
    };
    let mut text = format!("stakes {n} codes {m} starts {p} lines {e}\n");
    let Some(k) = look_ahead(&plan) else {
        return text + &refused(15);
    };
    text += &format!("look-ahead {k}\n");
    if size(&plan.starts) == 0 {
        return text + &refused(13);
    }
    // the legs that are taken, and what ended the walk
    let mut reached = plan.starts.clone();
    let mut taken = Vec::new();
    let mut ended = String::new();
    for &code in legs {
        let refusal = if taken.len() == MOST_LEGS {
            11
        } else if code as usize >= plan.m {
            12
        } else {
            reached = step(&plan, &reached, code);
            if size(&reached) > 0 {
                taken.push(code);
                continue;
            }
            13
        };
        ended = refused(refusal);
        break;
    }
    let sets = possible(&plan, &plan.starts, &taken);
    for (position, set) in sets.iter().enumerate() {
        if position + k <= taken.len() {
            assert_eq!(size(set), 1, "a position that is followed by k legs has one possible stake");
            text += &format!("at {position} stake {}\n", members(set)[0]);
        }
    }
    text += &ended;
    for (position, set) in sets.iter().enumerate() {
        if position + k > taken.len() {
            let stakes: Vec<String> = members(set).iter().map(|stake| stake.to_string()).collect();
            text += &format!("open {position} stakes {}\n", stakes.join(" "));
        }
    }
    text
}
