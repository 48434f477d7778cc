//! A rule reduced: the same texts, and no state that is unreachable, dead or alike to another.
//!
//! ```
//! use bellbadger::{patterns::rule_file, read, reduce::reduce};
//!
//! let rule = read(&rule_file(b"ab|ab")?)?;
//! assert_eq!((rule.n, reduce(&rule)?.rule.n), (5, 3));
//! # Ok::<(), bellbadger::Refused>(())
//! ```
use crate::{accepted, fits, CheckedRule, Refused};

/// What comes of reducing a rule.
///
/// ```
/// use bellbadger::{patterns::rule_file, read, reduce::reduce};
/// let rule = read(&rule_file(b"ab|ab")?)?;
/// let reduced = reduce(&rule)?;
/// let kept = if reduced.installs { reduced.rule } else { rule };
/// assert_eq!(kept.n, 3);
/// # Ok::<(), bellbadger::Refused>(())
/// ```
#[derive(Clone, Copy, Debug, PartialEq, Eq)]
#[must_use]
pub struct Reduced {
    /// A rule that accepts the same texts, with as many symbols and no more states.
    pub rule: CheckedRule,
    /// Whether it can be installed. It may have over 512 sets though the rule that it came from has not:
    /// keep that one then.
    pub installs: bool,
}

#[repr(C)]
struct RawReduced {
    accepted: u8,
    refused: u8,
    installs: u8,
    rule: CheckedRule,
}

const _: () = assert!(std::mem::size_of::<RawReduced>() == 2064);

extern "C" {
    fn bellbadger_reduce(rule: CheckedRule) -> RawReduced;
}

/// Makes a rule smaller, whatever stands in it, that accepts the same texts.
///
/// States go that are unreachable, from the initial ones, or dead: no final state can be reached from
/// them. Each other state is represented by the lowest reachable state alike to it, which accepts the
/// same texts as it does; what is not reached any more then goes too. States keep their order, and are
/// numbered from 0. A rule that accepts no text becomes one state with all masks 0; one that has nothing
/// to take out comes back as it is. It is not the smallest rule that accepts these texts.
///
/// # Errors
/// 3, 4, 6, 8, 9 as for [`Judge::install`](crate::Judge::install).
///
/// ```
/// use bellbadger::{compare::compare, merge, patterns::rule_file, read, reduce::reduce};
///
/// let rule = read(&rule_file(b"(a|a)b|ab")?)?;
/// let reduced = reduce(&rule)?;
/// assert_eq!((rule.n, reduced.rule.n, reduced.installs), (6, 3, true));
/// assert!(compare(&rule, &reduced.rule)?.is_same());
/// // six states by six are too many to be merged, and three by three are not
/// assert_eq!(merge::merge(merge::Way::Both, &rule, &rule).unwrap_err().number(), 37);
/// assert_eq!(merge::merge(merge::Way::Both, &reduced.rule, &reduced.rule)?.n, 9);
/// # Ok::<(), bellbadger::Refused>(())
/// ```
///
/// # Panics
/// Where the library that is linked has another version or state than this wrapper was written for.
pub fn reduce(rule: &CheckedRule) -> Result<Reduced, Refused> {
    fits();
    // SAFETY: plain numbers.
    let r = unsafe { bellbadger_reduce(*rule) };
    accepted(r.accepted, r.refused)?;
    Ok(Reduced {
        rule: r.rule,
        installs: r.installs == 1,
    })
}
