//! A rule by value, and reading one from a file.
use crate::{accepted, fits, raw, Refused};
use std::fmt;

/// A rule by value: what [`read`] answers and [`Judge::install`](crate::Judge::install) takes.
///
/// A mask has bit q for state q. Any numbers may stand in a rule that is made by hand: it is checked
/// again where it is installed.
///
/// ```
/// use bellbadger::{patterns::rule_file, read};
/// let rule = read(&rule_file(b"ab")?)?;
/// assert_eq!((rule.n, rule.k, rule.initials, rule.finals), (3, 16, 0b001, 0b100));
/// assert_eq!(rule.targets[0], 0b010); // a leads from state 0 to state 1
/// # Ok::<(), bellbadger::Refused>(())
/// ```
#[repr(C)]
#[derive(Clone, Copy, PartialEq, Eq, Hash)]
pub struct CheckedRule {
    /// The number of states, 1 to 32.
    pub n: u8,
    /// The number of symbols, 1 to 16.
    pub k: u8,
    /// The mask of initial states.
    pub initials: u32,
    /// The mask of final states.
    pub finals: u32,
    /// The mask of the targets of state q and symbol s stands at q × 16 + s; it is 0 for a state or a
    /// symbol that does not exist.
    pub targets: [u32; 512],
}

impl CheckedRule {
    /// The mask of the states that a symbol leads to from a state.
    ///
    /// ```
    /// let rule_b = [
    ///     3, 1, 1, 0, 0, 0, 6, 0, 0, 0, 22, 0, 4, 0, 26, 0, 2, 0, 28, 0, 2, 0, 0, 1, 0, 2, 0, 0, 0, 0,
    /// ];
    /// let rule = bellbadger::read(&rule_b)?;
    /// assert_eq!(rule.target_mask(0, 0), 0b110);
    /// assert_eq!(rule.target_mask(0, 16), 0);
    /// # Ok::<(), bellbadger::Refused>(())
    /// ```
    #[must_use]
    pub fn target_mask(&self, state: u8, symbol: u8) -> u32 {
        match (state, symbol) {
            (0..32, 0..16) => self.targets[usize::from(state) * 16 + usize::from(symbol)],
            _ => 0,
        }
    }
}

/// Its sizes: the states and symbols, how many states are initial and final, how many arcs there are.
impl fmt::Debug for CheckedRule {
    fn fmt(&self, f: &mut fmt::Formatter<'_>) -> fmt::Result {
        let arcs: u32 = self.targets.iter().map(|mask| mask.count_ones()).sum();
        f.debug_struct("CheckedRule")
            .field("states", &self.n)
            .field("symbols", &self.k)
            .field("initial", &self.initials.count_ones())
            .field("final", &self.finals.count_ones())
            .field("arcs", &arcs)
            .finish_non_exhaustive()
    }
}

/// Reads a rule file: the rule in it. No judge is needed.
///
/// # Errors
/// 1 to 8: the file is no rule. (9, over 512 sets, is reported where the rule is installed.)
///
/// ```
/// use bellbadger::{read, Judge};
///
/// let rule_a = [
///     3, 2, 1, 0, 0, 0, 4, 0, 0, 0, 22, 0, 6, 0, 28, 0, 2, 0, 30, 0, 0, 0, 0, 0, 0, 1, 1, 0, 1, 2,
/// ];
/// assert_eq!(read(&rule_a[..29]).unwrap_err().number(), 7);
/// let rule = read(&rule_a)?;
/// assert_eq!((rule.n, rule.k), (3, 2));
/// assert_eq!(Judge::new().install(&rule)?.sets, 5);
/// # Ok::<(), bellbadger::Refused>(())
/// ```
///
/// # Panics
/// Where the library that is linked has another version or state than this wrapper was written for.
pub fn read(file: &[u8]) -> Result<CheckedRule, Refused> {
    fits();
    // SAFETY: the pointer leads to as many bytes as the length says, and they are only read.
    let r = unsafe { raw::bellbadger_read(file.as_ptr(), file.len()) };
    accepted(r.accepted, r.refused).map(|()| r.rule)
}
