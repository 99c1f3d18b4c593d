//! Sizes, and the places of plan bytes, tables, records and further values: the numbers of include/gawherino.h. The reference has its
//! own, from the documents.

/// An answer from here on is a refusal: this number plus the refusal's.
pub const REFUSED: u32 = 65_536;
/// Opening and a leg: no stake was booked.
pub const NOTHING: u32 = 255;
/// As the stake of a critical set, with code 0: the starts.
pub const STARTS: u32 = 255;
/// Who can cause a refusal, by the number that stands for them.
pub const GROUPS: [&str; 4] = ["nobody", "author", "caller", "logger"];

pub const MAX_STAKES: usize = 64;
pub const MAX_CODES: usize = 32;
pub const MAX_LINES: usize = 4096;
pub const MAX_LEGS: u32 = 1_000_000;
/// A party is below this (W-207).
pub const PARTIES: u32 = 8;

/// Further values: of reading (m, p, e), of a verdict, and of a booking.
pub const COUNTS: usize = 3;
pub const VERDICT: usize = 2;
pub const POSITION: usize = 1;
/// How many numbers the length of a whole walk, or of a page, is.
pub const LENGTH: usize = 1;
/// How many numbers the set is that a step leads to.
pub const NEXT: usize = 1;

/// Plan bytes begin with numbers of 16 bits, little-endian; then come starts of one byte and lines.
pub mod plan {
    pub const EDITION: usize = 0;
    pub const N: usize = 1;
    pub const M: usize = 2;
    pub const P: usize = 3;
    pub const E: usize = 4;
    pub const STARTS_AT: usize = 5;
    pub const LINES_AT: usize = 6;
    pub const TOTAL: usize = 7;
    /// How many numbers there are, and where the parts may begin.
    pub const NUMBERS: usize = 8;
    pub const HEADER: usize = 2 * NUMBERS;
    pub const EDITIONS: [usize; 2] = [1, 2];

    /// The bytes of a line: from, code, to, and in edition 2 the party. Of plan bytes of no edition they are read as in the first.
    pub const fn line(edition: usize) -> usize {
        if edition == 2 {
            4
        } else {
            3
        }
    }

    /// The bytes of a plan without gaps.
    pub const fn length(edition: usize, p: usize, e: usize) -> usize {
        HEADER + p + line(edition) * e
    }

    /// The bytes of the one form of a plan, by its header.
    pub fn form_length(bytes: &[u8]) -> usize {
        length(number(bytes, EDITION), number(bytes, P), number(bytes, E))
    }

    pub fn number(bytes: &[u8], place: usize) -> usize {
        u16::from_le_bytes([bytes[2 * place], bytes[2 * place + 1]]) as usize
    }

    pub fn set_number(bytes: &mut [u8], place: usize, number: usize) {
        bytes[2 * place..2 * place + 2].copy_from_slice(&(number as u16).to_le_bytes());
    }

    pub fn header(numbers: [usize; NUMBERS]) -> Vec<u8> {
        numbers.iter().flat_map(|&number| (number as u16).to_le_bytes()).collect()
    }
}

/// A table's numbers.
pub mod table {
    pub const N: usize = 0;
    pub const M: usize = 1;
    pub const K: usize = 2;
    pub const STARTS: usize = 3;
    /// From here on the set at stake × m + code.
    pub const SETS: usize = 4;

    pub const fn length(n: usize, m: usize) -> usize {
        SETS + n * m
    }
}

/// A record's bytes.
pub mod record {
    use std::ops::Range;

    pub const LEGS: Range<usize> = 0..4;
    pub const BOOKED: usize = 4;
    pub const ZERO: usize = 5;
    pub const HELD: Range<usize> = 6..8;
    /// From here on k bytes: the held codes, oldest first, then zeros.
    pub const CODES: usize = 8;
    /// Booked before the first booking.
    pub const NONE: u8 = 255;

    pub const fn length(k: usize) -> usize {
        CODES + k
    }

    pub fn legs(rec: &[u8]) -> u32 {
        u32::from_le_bytes(rec[LEGS].try_into().expect("four bytes"))
    }

    pub fn held(rec: &[u8]) -> usize {
        u16::from_le_bytes(rec[HELD].try_into().expect("two bytes")) as usize
    }

    pub fn set_legs(rec: &mut [u8], legs: u32) {
        rec[LEGS].copy_from_slice(&legs.to_le_bytes());
    }

    pub fn set_held(rec: &mut [u8], held: usize) {
        rec[HELD].copy_from_slice(&(held as u16).to_le_bytes());
    }
}

/// The numbers of evidence and of a claim.
pub mod evidence {
    pub const LEAD_IN: usize = 4;
    pub const LOOP: usize = 5;
    pub const NUMBERS: usize = 6;
}

/// The look-ahead of each critical set by itself (W-205).
pub mod needs {
    /// In a number's place: the set has no look-ahead.
    pub const ENDLESS: u16 = 65_535;
    /// In a number's place: the set is empty or does not count.
    pub const UNMEASURED: u16 = 65_534;
    /// The starts' number, then from here on the fork's at stake × m + code.
    pub const STARTS: usize = 0;
    pub const FORKS: usize = 1;

    pub const fn length(n: usize, m: usize) -> usize {
        FORKS + n * m
    }
}

/// The page of these numbers (W-206).
pub mod page {
    use super::needs;

    /// The bytes of a line, its line feed among them.
    pub const LINE: usize = 41;

    /// The bytes of a page on which every set has a line.
    pub const fn most(n: usize, m: usize) -> usize {
        LINE * needs::length(n, m)
    }
}

/// The bytes for the codes of evidence.
pub const fn letters(n: usize) -> usize {
    n * n
}

/// The greatest look-ahead of n stakes.
pub const fn max_look_ahead(n: usize) -> usize {
    n * (n - 1) / 2
}
