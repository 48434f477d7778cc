//! Two rules compared: whether they accept the same texts, or the first on which they differ.
//!
//! ```
//! use bellbadger::{compare::compare, patterns::rule_file, read};
//!
//! let (one, two) = (read(&rule_file(b"aa*")?)?, read(&rule_file(b"a*a")?)?);
//! assert!(compare(&one, &two)?.is_same());
//! # Ok::<(), bellbadger::Refused>(())
//! ```
use crate::{accepted, fits, CheckedRule, Refused};

/// What comparing two rules tells.
///
/// ```
/// use bellbadger::{compare::{compare, Comparison}, patterns::rule_file, read};
/// let (one, two) = (read(&rule_file(b"a")?)?, read(&rule_file(b"a|b")?)?);
/// assert_eq!(compare(&one, &two)?, Comparison::SecondAlone(vec![1]));
/// # Ok::<(), bellbadger::Refused>(())
/// ```
#[derive(Clone, Debug, PartialEq, Eq, Hash)]
#[must_use]
pub enum Comparison {
    /// The first rule accepts this text, and the second does not.
    FirstAlone(Vec<u8>),
    /// The second rule accepts this text, and the first does not.
    SecondAlone(Vec<u8>),
    /// There is no such text: the two accept the same.
    Same,
}

impl Comparison {
    /// Whether the two rules accept the same texts. That there is an answer, `Ok(..)`, says nothing of
    /// that.
    ///
    /// Asking is not enough; an answer that is dropped is reported by the compiler:
    ///
    /// ```compile_fail
    /// #![deny(unused_must_use)]
    /// fn replace(compared: bellbadger::compare::Comparison) {
    ///     compared.is_same();
    /// }
    /// ```
    ///
    /// ```
    /// use bellbadger::compare::Comparison;
    /// assert!(Comparison::Same.is_same());
    /// assert!(!Comparison::FirstAlone(vec![0]).is_same());
    /// ```
    #[must_use]
    pub fn is_same(&self) -> bool {
        matches!(self, Comparison::Same)
    }
}

#[repr(C)]
struct RawComparison {
    kind: u8,
    refused: u8,
    length: u16,
    text: [u8; 511],
}

const _: () = assert!(std::mem::size_of::<RawComparison>() == 516);

/// The kinds of an answer.
const REFUSED: u8 = 0;
const FIRST_ALONE: u8 = 10;
const SECOND_ALONE: u8 = 11;
const SAME: u8 = 12;

extern "C" {
    fn bellbadger_compare(one: CheckedRule, two: CheckedRule) -> RawComparison;
}

/// The shortest text that exactly one of two rules accepts, whatever stands in them, and among the
/// shortest the first by symbols; or that there is none. It has at most 511 bytes, and may be empty.
///
/// # Errors
/// 3, 4, 6, 8 as for [`Judge::install`](crate::Judge::install), of the first rule, then of the second;
/// then 36 (different numbers of symbols), 45 (too many pairs: there are 513 texts of which no two lead
/// to the same pair of sets, one set of each rule, and none is later than a text that exactly one rule
/// accepts; so a difference that shows soon is reported however many pairs there are).
///
/// ```
/// use bellbadger::compare::{compare, Comparison};
/// use bellbadger::{patterns::rule_file, read};
///
/// let rule = read(&rule_file(b"(ab)*c")?)?;
/// // the same, put in another way
/// let changed = read(&rule_file(b"c|ab(ab)*c")?)?;
/// assert!(compare(&rule, &changed)?.is_same());
/// // one that may close at once no longer
/// let changed = read(&rule_file(b"ab(ab)*c")?)?;
/// assert_eq!(compare(&rule, &changed)?, Comparison::FirstAlone(vec![2]));
/// # Ok::<(), bellbadger::Refused>(())
/// ```
///
/// # Panics
/// Where the library that is linked has another version or state than this wrapper was written for, or
/// answers with a kind that it does not know.
pub fn compare(one: &CheckedRule, two: &CheckedRule) -> Result<Comparison, Refused> {
    fits();
    // SAFETY: plain numbers.
    let r = unsafe { bellbadger_compare(*one, *two) };
    accepted(u8::from(r.kind != REFUSED), r.refused)?;
    let text = || r.text[..usize::from(r.length)].to_vec();
    Ok(match r.kind {
        FIRST_ALONE => Comparison::FirstAlone(text()),
        SECOND_ALONE => Comparison::SecondAlone(text()),
        SAME => Comparison::Same,
        other => panic!("the library answers with kind {other}, which this wrapper does not know"),
    })
}
