//! Two rules made one, for a machine with two heads.
//!
//! ```
//! use bellbadger::merge::{merge_reduced, Way};
//! use bellbadger::{patterns::rule_file, read, samples};
//!
//! let (one, two) = (read(&rule_file(b"a*b")?)?, read(&rule_file(b"aa(a|b)")?)?);
//! let both = merge_reduced(Way::Both, &one, &two)?;
//! assert_eq!(samples::sample(samples::Wish::Accepted, &both)?, Some(vec![0, 0, 1]));
//! # Ok::<(), bellbadger::Refused>(())
//! ```
use crate::{accepted, fits, CheckedRule, Refused};

/// Which texts the result accepts.
///
/// ```
/// use bellbadger::{merge::{merge, Way}, patterns::rule_file, read, samples};
/// let (one, two) = (read(&rule_file(b"a*")?)?, read(&rule_file(b"b")?)?);
/// let mixed = merge(Way::Interleaving, &one, &two)?;
/// assert_eq!(samples::sample(samples::Wish::Accepted, &mixed)?, Some(vec![1]));
/// # Ok::<(), bellbadger::Refused>(())
/// ```
#[derive(Clone, Copy, Debug, PartialEq, Eq, Hash)]
pub enum Way {
    /// Those that both rules accept.
    Both = 0,
    /// Those that either rule accepts.
    Either = 1,
    /// The interleavings of one from each.
    Interleaving = 2,
}

#[repr(C)]
struct RawMerge {
    accepted: u8,
    refused: u8,
    rule: CheckedRule,
}

const _: () = assert!(std::mem::size_of::<RawMerge>() == 2064);

extern "C" {
    fn bellbadger_merge(way: u8, one: CheckedRule, two: CheckedRule) -> RawMerge;
    fn bellbadger_merge_reduced(way: u8, one: CheckedRule, two: CheckedRule) -> RawMerge;
}

/// Makes one rule of two, with n1 and n2 states, whatever stands in them.
///
/// For both and interleaving the pair (q1, q2) is state q1 × n2 + q2, initial or final where both
/// its members are; an arc moves both, or for interleaving one alone. For either the second rule's
/// states follow the first's, and each is what it was, arcs included. A result with more than 512
/// sets is refused where it is installed, with 9. Where 37 stands in the way, [`merge_reduced`]
/// needs fewer states.
///
/// # Errors
/// 3, 4, 6, 8 as for [`Judge::install`](crate::Judge::install), of the first rule, then of the
/// second; then 36 (different numbers of symbols), 37 (more than 32 states in the result).
///
/// ```
/// use bellbadger::merge::{merge, Way};
/// use bellbadger::{read, Judge};
///
/// let ends_in_0_1 = read(&[
///     3, 2, 1, 0, 0, 0, 4, 0, 0, 0, 22, 0, 6, 0, 28, 0, 2, 0, 30, 0, 0, 0, 0, 0, 0, 1, 1, 0, 1, 2,
/// ])?;
/// let even_0s = read(&[
///     2, 2, 1, 0, 0, 0, 1, 0, 0, 0, 18, 0, 4, 0, 22, 0, 4, 0, 0, 1, 1, 0, 0, 0, 1, 1,
/// ])?;
/// let rule = merge(Way::Both, &even_0s, &ends_in_0_1)?;
/// let mut judge = Judge::new();
/// let _loaded = judge.install(&rule)?;
/// judge.open(1)?;
/// let _looked = judge.deliver(0, 0, &[0, 0, 1])?;
/// assert!(judge.verdict()?.is_yes());
/// let _looked = judge.deliver(0, 1, &[0, 1])?; // one 0
/// assert!(!judge.verdict()?.is_yes());
/// # Ok::<(), bellbadger::Refused>(())
/// ```
///
/// # Panics
/// Where the library that is linked has another version or state than this wrapper was written for.
pub fn merge(way: Way, one: &CheckedRule, two: &CheckedRule) -> Result<CheckedRule, Refused> {
    fits();
    // SAFETY: plain numbers.
    let r = unsafe { bellbadger_merge(way as u8, *one, *two) };
    accepted(r.accepted, r.refused).map(|()| r.rule)
}

/// Makes one rule of two, whatever stands in them, that accepts the texts which that of [`merge`]
/// accepts, with few states.
///
/// Both rules are reduced ([`reduce`](crate::reduce::reduce)), of their pairs, or for either of the
/// states of both, only those are built that are reachable and live, and the result is reduced.
/// States keep their order, and are numbered from 0. Where reducing a rule or the result would be
/// refused with 9, that step is left out, and the rule as it is is used: so nothing is refused that
/// [`merge`] takes. The result may have more sets than that of [`merge`], though, as a reduced rule
/// may: where it cannot be installed, and that one can, take that one.
///
/// # Errors
/// 3, 4, 6, 8 as for [`merge`], of the first rule, then of the second; then 36 (different numbers
/// of symbols), 37 (more than 32 pairs, or states, are reachable and live).
///
/// ```
/// use bellbadger::merge::{merge, merge_reduced, Way};
/// use bellbadger::{patterns::rule_file, read};
///
/// let one = read(&rule_file(b"(ab)*cd")?)?;
/// let two = read(&rule_file(b"(ab|ab|ab)*cd")?)?;
/// // five states by nine are 45 pairs, of which four are needed
/// assert_eq!((one.n, two.n), (5, 9));
/// assert_eq!(merge(Way::Both, &one, &two).unwrap_err().number(), 37);
/// assert_eq!(merge_reduced(Way::Both, &one, &two)?.n, 4);
/// # Ok::<(), bellbadger::Refused>(())
/// ```
///
/// # Panics
/// Where the library that is linked has another version or state than this wrapper was written for.
pub fn merge_reduced(
    way: Way,
    one: &CheckedRule,
    two: &CheckedRule,
) -> Result<CheckedRule, Refused> {
    fits();
    // SAFETY: plain numbers.
    let r = unsafe { bellbadger_merge_reduced(way as u8, *one, *two) };
    accepted(r.accepted, r.refused).map(|()| r.rule)
}
