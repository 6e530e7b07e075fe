//! Instruction profiling for one thermal unit over a Trading Day: a safe binding of the library.
//!
//! Compile with `-C link-arg=target/staticlib/libgristpebble.a`.

use std::fmt;

/// A line for each refusal: its number, a blank, its words.
const REFUSALS: &str = include_str!("../refusals.txt");

/// This many bytes suffice for the listing of any day.
pub const LISTING_BYTES: usize = 46_080;

/// The number of a refusal, as document 01 has it: 1 to 9 from the input, 20 to 27 from the state of the day.
#[derive(Clone, Copy, Debug, PartialEq, Eq)]
pub struct Refusal(pub u32);

impl Refusal {
    /// What the refusal means, in words.
    pub fn words(self) -> &'static str {
        REFUSALS
            .lines()
            .filter_map(|line| line.split_once(' '))
            .find(|(number, _)| number.parse() == Ok(self.0))
            .map_or("unknown", |(_, words)| words)
    }
}

/// The line that the listing program prints, `X n`; the words are not in it.
impl fmt::Display for Refusal {
    fn fmt(&self, f: &mut fmt::Formatter<'_>) -> fmt::Result {
        write!(f, "X {}", self.0)
    }
}

impl std::error::Error for Refusal {}

extern "C" {
    fn gristpebble_listing(records: *const u8, length: usize, out: *mut u8, room: usize) -> u64;
}

/// Takes the records from an empty day up to close and writes the listing to the front of `out`: the count of bytes
/// written, or the first refusal; then `out` is as it was.
pub fn listing_into(records: &[u8], out: &mut [u8]) -> Result<usize, Refusal> {
    // SAFETY: both slices are valid for their lengths and, one being lent for writing, do not overlap.
    let result = unsafe { gristpebble_listing(records.as_ptr(), records.len(), out.as_mut_ptr(), out.len()) };
    match (result >> 32) as u32 {
        0 => Ok(result as usize),
        number => Err(Refusal(number)),
    }
}

/// The listing of the day that these records make.
pub fn listing(records: &[u8]) -> Result<Vec<u8>, Refusal> {
    let mut out = vec![0; LISTING_BYTES];
    let count = listing_into(records, &mut out)?;
    out.truncate(count);
    Ok(out)
}
