//! Made test texts: the same k, seed and length make the same text everywhere.
//!
//! ```
//! let mut text = [9; 4];
//! bellbadger::texts::make_text(1, 7, &mut text)?;
//! assert_eq!(text, [0; 4]); // 0 is the one symbol below 1
//! # Ok::<(), bellbadger::Refused>(())
//! ```
use crate::{accepted, fits, Refused};

#[repr(C)]
struct RawMade {
    accepted: u8,
    refused: u8,
}

extern "C" {
    fn bellbadger_make_text(k: usize, seed: u64, text: *mut u8, length: usize) -> RawMade;
}

/// Fills the buffer with a text of symbols below k, by Marsaglia's 64-bit xorshift with shifts 13 left, 7
/// right, 17 left from the seed; each new value modulo k is a symbol.
///
/// # Errors
/// 4 (k is not 1 to 16), then 41 (the seed is 0). The buffer is then as it was.
///
/// ```
/// use bellbadger::texts::make_text;
///
/// let mut text = [0; 8];
/// make_text(16, 1, &mut text)?;
/// assert_eq!(text, [1, 1, 9, 5, 5, 1, 1, 13]);
/// assert_eq!(make_text(16, 0, &mut text).unwrap_err().to_string(), "refused 41: the seed is 0");
/// assert_eq!(text, [1, 1, 9, 5, 5, 1, 1, 13]);
/// # Ok::<(), bellbadger::Refused>(())
/// ```
///
/// # Panics
/// Where the library that is linked has another version or state than this wrapper was written for.
pub fn make_text(k: usize, seed: u64, text: &mut [u8]) -> Result<(), Refused> {
    fits();
    // SAFETY: the pointer leads to as many bytes as the length says, and nobody else has them.
    let r = unsafe { bellbadger_make_text(k, seed, text.as_mut_ptr(), text.len()) };
    accepted(r.accepted, r.refused)
}
