//! The numbers of document 01: sizes, and where what stands in plan bytes, tables, records and evidence.

/// "n (1 to 64), m (1 to 32) .. count of lines e (0 to 4,096)"
pub const MOST_STAKES: usize = 64;
pub const MOST_CODES: usize = 32;
pub const MOST_LINES: usize = 4096;
/// "legs taken (.. at most 1,000,000)"
pub const MOST_LEGS: usize = 1_000_000;

/// "k, or 65,536 plus the refusal number"
pub const REFUSED: u32 = 65_536;
/// "The starts are named as stake 255, code 0."
pub const STARTS: (u32, u32) = (255, 0);
/// What the C header has for "that none was booked".
pub const NOTHING: u32 = 255;
/// "the last booked stake (one byte, 255 before the first)"
pub const NONE_BOOKED: u8 = 255;

/// "Eight little-endian 16-bit numbers, in order: edition (1), .. total length": each part begins behind them, "at 16 or later".
pub const TOTAL: usize = 7;
pub const HEADER: usize = 16;
/// W-207: "Edition 2 has lines of four bytes: from, code, to, party (0 to 7)."
pub const LAST_PARTY: u32 = 7;

/// "n, m, k, the starts, then at 4 + stake × m + code the set of stakes led to"
pub const SETS: usize = 4;

/// "the held codes stand from byte 8 on, k bytes"
pub const HELD_CODES: usize = 8;

/// The critical set's stake and code, stakes s and t, the lengths of lead-in and loop.
pub const EVIDENCE: usize = 6;
/// "Reading answers n, m, p and e": n as its value, the others into a slice.
pub const COUNTS: usize = 3;
/// A verdict's two sets.
pub const VERDICT: usize = 2;

/// W-205: "65,535 means that this set has none, 65,534 that it is empty or doesn't count by W-202."
pub const HAS_NONE: u16 = 65_535;
pub const NOT_COUNTED: u16 = 65_534;

/// "4 + n × m numbers for preparing"
pub fn table_length(n: usize, m: usize) -> usize {
    SETS + n * m
}

/// "8 + k bytes for a record"
pub fn record_length(k: usize) -> usize {
    HELD_CODES + k
}

/// "both lengths together are at most n × n", and as many bytes are lent for evidence.
pub fn evidence_length(n: usize) -> usize {
    n * n
}

/// Refusal 8: "k above n(n-1)/2".
pub fn bound(n: usize) -> usize {
    n * (n - 1) / 2
}

/// "A line is three bytes"; W-207: "Edition 2 has lines of four bytes". None for a number that is neither edition's.
pub fn line_length(edition: usize) -> Option<usize> {
    match edition {
        1 => Some(3),
        2 => Some(4),
        _ => None,
    }
}

/// A number of 16 bits, little-endian.
pub fn number(bytes: &[u8], place: usize) -> usize {
    bytes[2 * place] as usize + 256 * bytes[2 * place + 1] as usize
}
