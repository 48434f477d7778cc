//! A sample trace of a rule, for its owner to look at.
//!
//! ```
//! use bellbadger::samples::{sample, Wish};
//! use bellbadger::{patterns::rule_file, read};
//!
//! let all = read(&rule_file(b"(a|b|c|d|e|f|g|h|i|j|k|l|m|n|o|p)*")?)?;
//! assert_eq!(sample(Wish::Rejected, &all)?, None);
//! # Ok::<(), bellbadger::Refused>(())
//! ```
use crate::{accepted, fits, CheckedRule, Refused};

/// What the text is to be.
///
/// ```
/// use bellbadger::{patterns::rule_file, read, samples::{sample, Wish}};
/// let rule = read(&rule_file(b"bc")?)?;
/// assert_eq!(sample(Wish::Accepted, &rule)?, Some(vec![1, 2]));
/// # Ok::<(), bellbadger::Refused>(())
/// ```
#[derive(Clone, Copy, Debug, PartialEq, Eq, Hash)]
pub enum Wish {
    /// One that the rule accepts.
    Accepted = 0,
    /// One of the rule's symbols that it does not accept.
    Rejected = 1,
}

#[repr(C)]
struct RawSample {
    kind: u8,
    refused: u8,
    length: u16,
    text: [u8; 511],
}

const _: () = assert!(std::mem::size_of::<RawSample>() == 516);

/// The kind of an answer that has a text; 0 is a refusal, and 2 says that there is none.
const TEXT: u8 = 1;

extern "C" {
    fn bellbadger_sample(wish: u8, rule: CheckedRule) -> RawSample;
}

/// The shortest text that is as it is wished, and among the shortest the first by symbols, of a rule in
/// which anything may stand; or `None` where there is none. It has at most 511 bytes.
///
/// # Errors
/// 3, 4, 6, 8 as for [`Judge::install`](crate::Judge::install), then 35 (texts lead to more than 512 sets
/// from the set of initial states, the empty set counted if reached).
///
/// ```
/// use bellbadger::samples::{sample, Wish};
/// use bellbadger::read;
///
/// let ends_in_0_1 = read(&[
///     3, 2, 1, 0, 0, 0, 4, 0, 0, 0, 22, 0, 6, 0, 28, 0, 2, 0, 30, 0, 0, 0, 0, 0, 0, 1, 1, 0, 1, 2,
/// ])?;
/// assert_eq!(sample(Wish::Accepted, &ends_in_0_1)?, Some(vec![0, 1]));
/// assert_eq!(sample(Wish::Rejected, &ends_in_0_1)?, Some(vec![]));
/// # Ok::<(), bellbadger::Refused>(())
/// ```
///
/// # Panics
/// Where the library that is linked has another version or state than this wrapper was written for.
pub fn sample(wish: Wish, rule: &CheckedRule) -> Result<Option<Vec<u8>>, Refused> {
    fits();
    // SAFETY: plain numbers.
    let r = unsafe { bellbadger_sample(wish as u8, *rule) };
    accepted(u8::from(r.kind != 0), r.refused)?;
    Ok((r.kind == TEXT).then(|| r.text[..usize::from(r.length)].to_vec()))
}
