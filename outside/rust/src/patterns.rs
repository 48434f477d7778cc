//! Patterns for shop owners: a pattern becomes a rule file.
//!
//! A letter a to p is the symbol 0 to 15; what stands side by side follows each other; `x|y` is x or y;
//! `x*` is x any number of times; brackets join. `|` binds loosest and `*` tightest. An empty
//! alternative, pattern or bracket is the empty text.
//!
//! ```
//! use bellbadger::{patterns::rule_file, read};
//!
//! assert_eq!(read(&rule_file(b"(ab)*c")?)?.n, 4); // a start, and three letters
//! # Ok::<(), bellbadger::Refused>(())
//! ```
use crate::{accepted, fits, Refused};

/// The most bytes of a pattern's rule file.
///
/// ```
/// use bellbadger::patterns::{rule_file, LONGEST_FILE};
/// assert!(rule_file(b"((a|b|c|d|e)*(f|g|h)*)*")?.len() <= LONGEST_FILE);
/// # Ok::<(), bellbadger::Refused>(())
/// ```
pub const LONGEST_FILE: usize = 2122;

#[repr(C)]
struct RawPattern {
    accepted: u8,
    refused: u8,
    length: u16,
    bytes: [u8; LONGEST_FILE],
}

const _: () = assert!(std::mem::size_of::<RawPattern>() == 2126);

extern "C" {
    fn bellbadger_pattern(pattern: *const u8, length: usize) -> RawPattern;
}

/// The rule file of a pattern, for [`read`](crate::read) and [`Judge::load`](crate::Judge::load).
///
/// The rule accepts exactly the pattern's texts: state 0 is its start, state i the i-th letter from the
/// left, and it has 16 symbols.
///
/// # Errors
/// 30 (over 128 bytes), 31 (the bytes are no pattern), 32 (more than 31 letters).
///
/// ```
/// use bellbadger::{patterns::rule_file, Judge};
///
/// // any number of times 0 1, and then 2
/// let file = rule_file(b"(ab)*c")?;
/// let mut judge = Judge::new();
/// let _loaded = judge.load(&file)?;
/// judge.open(1)?;
/// let _looked = judge.deliver(0, 0, &[0, 1, 0, 1, 2])?;
/// assert!(judge.verdict()?.is_yes());
/// assert_eq!(rule_file(b"*c").unwrap_err().to_string(), "refused 31: the bytes are no pattern");
/// # Ok::<(), bellbadger::Refused>(())
/// ```
///
/// # Panics
/// Where the library that is linked has another version or state than this wrapper was written for.
pub fn rule_file(pattern: &[u8]) -> Result<Vec<u8>, Refused> {
    fits();
    // SAFETY: the pointer leads to as many bytes as the length says, and they are only read.
    let r = unsafe { bellbadger_pattern(pattern.as_ptr(), pattern.len()) };
    accepted(r.accepted, r.refused).map(|()| r.bytes[..usize::from(r.length)].to_vec())
}
