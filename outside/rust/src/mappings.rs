//! The mapping machine: chunks run one by one, on whatever machines, and put together afterwards.
//!
//! It is for rules of at most eight states with at most 512 mappings. A [`Profile`] is built once; a run
//! answers the chunk's [`Mapping`], eight bytes; mappings compose in order of the chunks, in any
//! bracketing; and the last one has the yes or no that a filled board with these chunks has.
//!
//! ```
//! use bellbadger::mappings::Profile;
//! use bellbadger::{read, Refused};
//!
//! // Rule A accepts the texts that end in 0 1.
//! let rule_a = [
//!     3, 2, 1, 0, 0, 0, 4, 0, 0, 0, 22, 0, 6, 0, 28, 0, 2, 0, 30, 0, 0, 0, 0, 0, 0, 1, 1, 0, 1, 2,
//! ];
//! let profile = Profile::build(&read(&rule_a)?)?;
//! let later = profile.run(&[1])?; // chunks come out of order
//! let earlier = profile.run(&[0, 255])?; // 255 is an idle mark
//! assert!(profile.accepts(earlier.then(later)));
//! assert!(!profile.accepts(later.then(earlier)));
//! # Ok::<(), Refused>(())
//! ```
use crate::{accepted, fits, CheckedRule, Refused};
use std::fmt;

/// The set of states that each of eight states is mapped to: bit p of the mask at q for state p from
/// state q. Any value is one, and any two compose.
///
/// ```
/// use bellbadger::{mappings::Profile, patterns::rule_file, read};
/// let profile = Profile::build(&read(&rule_file(b"ab")?)?)?;
/// let mapping = profile.run(&[0])?; // from state 0 to state 1
/// assert_eq!(mapping.masks, [0b10, 0, 0, 0, 0, 0, 0, 0]);
/// assert_eq!(mapping.to_string(), "0200000000000000");
/// # Ok::<(), bellbadger::Refused>(())
/// ```
#[repr(C)]
#[derive(Clone, Copy, PartialEq, Eq, Hash)]
pub struct Mapping {
    /// The mask of state q stands at q. In the mapping of a chunk they are 0 from the rule's n on.
    pub masks: [u8; 8],
}

/// The mapping machine of a rule.
///
/// ```
/// use bellbadger::{mappings::Profile, patterns::rule_file, read};
/// let profile = Profile::build(&read(&rule_file(b"ab")?)?)?;
/// assert!(profile.accepts(profile.run(&[0, 1])?));
/// # Ok::<(), bellbadger::Refused>(())
/// ```
#[derive(Clone, PartialEq, Eq)]
pub struct Profile(Box<RawProfile>);

#[repr(C)]
#[derive(Clone, Copy, PartialEq, Eq)]
struct RawProfile {
    n: u8,
    k: u8,
    initials: u8,
    finals: u8,
    count: u16,
    mappings: [u64; 512],
    next: [u16; 8192],
}

#[repr(C)]
struct RawBuild {
    accepted: u8,
    refused: u8,
    profile: RawProfile,
}

#[repr(C)]
struct RawRun {
    accepted: u8,
    refused: u8,
    mapping: Mapping,
}

/// As the C header has it; outside/c/test_mappings.c reads every field of it.
const PROFILE_SIZE: usize = 20488;
const _: () = assert!(std::mem::size_of::<RawProfile>() == PROFILE_SIZE);

extern "C" {
    fn bellbadger_profile_size() -> usize;
    fn bellbadger_profile_build(rule: CheckedRule) -> RawBuild;
    fn bellbadger_profile_run(profile: RawProfile, chunk: *const u8, length: usize) -> RawRun;
    fn bellbadger_compose(earlier: Mapping, later: Mapping) -> Mapping;
    fn bellbadger_profile_verdict(profile: RawProfile, mapping: Mapping) -> u8;
}

impl Mapping {
    /// The mapping of two chunks, one behind the other: this is the earlier one's.
    ///
    /// ```
    /// # use bellbadger::mappings::Mapping;
    /// let same = Mapping { masks: [1, 2, 4, 8, 16, 32, 64, 128] };
    /// let any = Mapping { masks: [255, 0, 3, 17, 99, 1, 2, 128] };
    /// assert_eq!((any.then(same), same.then(any)), (any, any));
    /// ```
    #[must_use]
    pub fn then(self, later: Mapping) -> Mapping {
        // SAFETY: plain numbers.
        unsafe { bellbadger_compose(self, later) }
    }
}

/// Sixteen hex digits, the mask of state 0 first, as the programs write a mapping.
impl fmt::Display for Mapping {
    fn fmt(&self, f: &mut fmt::Formatter<'_>) -> fmt::Result {
        self.masks
            .iter()
            .try_for_each(|mask| write!(f, "{mask:02X}"))
    }
}

impl fmt::Debug for Mapping {
    fn fmt(&self, f: &mut fmt::Formatter<'_>) -> fmt::Result {
        write!(f, "Mapping({self})")
    }
}

impl Profile {
    /// Checks a rule, whatever stands in it, and builds its profile.
    ///
    /// # Errors
    /// 3, 4, 6, 8 as [`Judge::install`](crate::Judge::install) has them; 33 (more than eight states),
    /// 34 (more than 512 mappings).
    ///
    /// ```
    /// # use bellbadger::{mappings::Profile, CheckedRule};
    /// let rule = CheckedRule { n: 9, k: 1, initials: 1, finals: 2, targets: [0; 512] };
    /// let refused = Profile::build(&rule).unwrap_err();
    /// assert_eq!(refused.to_string(), "refused 33: the rule has more than eight states");
    /// ```
    ///
    /// # Panics
    /// Where the library that is linked has another version or profile than this wrapper was written for.
    pub fn build(rule: &CheckedRule) -> Result<Profile, Refused> {
        fits();
        // SAFETY: the function takes nothing and returns a number.
        let size = unsafe { bellbadger_profile_size() };
        assert_eq!(
            size, PROFILE_SIZE,
            "libbellbadger.a has another profile than this wrapper"
        );
        // SAFETY: plain numbers.
        let r = unsafe { bellbadger_profile_build(*rule) };
        accepted(r.accepted, r.refused).map(|()| Profile(Box::new(r.profile)))
    }

    /// How many mappings the texts of the rule have, 1 to 512.
    ///
    /// ```
    /// use bellbadger::{mappings::Profile, patterns::rule_file, read};
    /// let profile = Profile::build(&read(&rule_file(b"ab")?)?)?;
    /// assert_eq!(profile.count(), 5); // of no event, of a, of b, of a b, and of all else
    /// # Ok::<(), bellbadger::Refused>(())
    /// ```
    #[must_use]
    pub fn count(&self) -> u16 {
        self.0.count
    }

    /// The mapping of a chunk. Byte 255 is an idle mark: it is skipped and is no part of the text, but
    /// counts in the limit.
    ///
    /// # Errors
    /// 12 (over 65,536 bytes), 13 (a byte is no symbol and no idle mark).
    ///
    /// ```
    /// use bellbadger::{mappings::Profile, patterns::rule_file, read};
    /// let profile = Profile::build(&read(&rule_file(b"ab")?)?)?;
    /// assert_eq!(profile.run(&[255])?.masks[0], 1); // an idle mark leads nowhere else
    /// assert_eq!(profile.run(&[16]).unwrap_err().number(), 13);
    /// # Ok::<(), bellbadger::Refused>(())
    /// ```
    pub fn run(&self, chunk: &[u8]) -> Result<Mapping, Refused> {
        // SAFETY: the pointer leads to as many bytes as the length says, and they are only read.
        let r = unsafe { bellbadger_profile_run(*self.0, chunk.as_ptr(), chunk.len()) };
        accepted(r.accepted, r.refused).map(|()| r.mapping)
    }

    /// The verdict: whether the mapping leads from an initial state to a final one. Any value has one;
    /// bits for states that there are not mean nothing.
    ///
    /// ```
    /// use bellbadger::{mappings::Profile, patterns::rule_file, read};
    /// let profile = Profile::build(&read(&rule_file(b"ab")?)?)?;
    /// assert!(profile.accepts(profile.run(&[0])?.then(profile.run(&[1])?)));
    /// assert!(!profile.accepts(profile.run(&[0])?));
    /// # Ok::<(), bellbadger::Refused>(())
    /// ```
    #[must_use]
    pub fn accepts(&self, mapping: Mapping) -> bool {
        // SAFETY: plain numbers.
        unsafe { bellbadger_profile_verdict(*self.0, mapping) == 1 }
    }
}

/// Its sizes: the states and symbols, and how many mappings there are.
impl fmt::Debug for Profile {
    fn fmt(&self, f: &mut fmt::Formatter<'_>) -> fmt::Result {
        f.debug_struct("Profile")
            .field("states", &self.0.n)
            .field("symbols", &self.0.k)
            .field("mappings", &self.0.count)
            .finish_non_exhaustive()
    }
}
