//! A trace that comes in order, of any length, followed chunk by chunk: whether it keeps to the rule so
//! far, where it was lost, and what could come next.
//!
//! A chunk that is refused leaves a hole, and what comes behind a hole may well look good. So a refusal
//! stands: every later chunk is refused with the same number, until the chunk is dropped
//! ([`Follower::drop_refused`]), or another trace begun ([`Follower::begin`]). A trace is good exactly where
//! no chunk of it was refused and the last answer says [`is_accepted_so_far`](Followed::is_accepted_so_far).
//! That a chunk was taken, `Ok(..)`, says nothing of that.
//!
//! ```
//! use bellbadger::follow::Follower;
//! use bellbadger::{CheckedRule, Refused};
//!
//! // 0 and then 1, and nothing else
//! let mut rule = CheckedRule { n: 3, k: 2, initials: 0b001, finals: 0b100, targets: [0; 512] };
//! rule.targets[0] = 0b010; // from state 0 by symbol 0
//! rule.targets[17] = 0b100; // from state 1 by symbol 1
//! let mut follower = Follower::new(&rule)?;
//!
//! let first = follower.follow(&[0, 255])?; // 255 is an idle mark
//! assert!(!first.is_accepted_so_far() && first.lost.is_none());
//! assert_eq!(first.expected.to_vec(), [1]);
//! assert!(follower.follow(&[1])?.is_accepted_so_far());
//!
//! // another trace: it is lost by the second byte of its second chunk, where 1 would have been right
//! follower.begin();
//! let _empty = follower.follow(&[])?;
//! let lost = follower.follow(&[0, 0, 1])?;
//! assert_eq!((lost.lost, lost.expected.to_vec(), lost.complete), (Some(2), vec![1], false));
//!
//! // a third: 2 is no symbol, so the second chunk is refused, and the third would pass for it
//! follower.begin();
//! let _first = follower.follow(&[0])?;
//! assert_eq!(follower.follow(&[1, 2]).unwrap_err().number(), 13);
//! assert_eq!(follower.follow(&[1]).unwrap_err().number(), 13);
//! follower.drop_refused();
//! assert!(follower.follow(&[1])?.is_accepted_so_far());
//! # Ok::<(), Refused>(())
//! ```
use crate::{accepted, fits, CheckedRule, Refused};
use std::fmt;

#[repr(C)]
#[derive(Clone, Copy, PartialEq, Eq)]
struct RawFollower {
    rule: CheckedRule,
    live: u32,
}

#[repr(C)]
struct RawPrepared {
    accepted: u8,
    refused: u8,
    follower: RawFollower,
}

#[repr(C)]
struct RawFollowed {
    accepted: u8,
    refused: u8,
    ends: u8,
    lost: u8,
    at: u32,
    set: u32,
    expected: u16,
    complete: u8,
}

/// As the C header has them; outside/c/test_follow.c reads every field.
const FOLLOWER_SIZE: usize = 2064;
const _: () = assert!(std::mem::size_of::<RawFollower>() == FOLLOWER_SIZE);
const _: () = assert!(std::mem::size_of::<RawFollowed>() == 16);

extern "C" {
    fn bellbadger_follower_size() -> usize;
    fn bellbadger_follower_prepare(rule: CheckedRule) -> RawPrepared;
    fn bellbadger_follow_by(
        follower: RawFollower,
        set: u32,
        chunk: *const u8,
        length: usize,
    ) -> RawFollowed;
}

/// Some of the symbols 0 to 15.
///
/// ```
/// use bellbadger::{follow::Follower, patterns::rule_file, read};
/// let mut follower = Follower::new(&read(&rule_file(b"a(b|d)")?)?)?;
/// let symbols = follower.follow(&[0])?.expected;
/// assert_eq!(format!("{symbols:?}"), "{1, 3}");
/// # Ok::<(), bellbadger::Refused>(())
/// ```
#[derive(Clone, Copy, PartialEq, Eq, Hash, Default)]
#[must_use]
pub struct Symbols(u16);

impl Symbols {
    /// Whether the symbol is one of them.
    ///
    /// ```
    /// use bellbadger::{follow::Follower, patterns::rule_file, read};
    /// let mut follower = Follower::new(&read(&rule_file(b"a(b|d)")?)?)?;
    /// let symbols = follower.follow(&[0])?.expected;
    /// assert!(symbols.contains(1) && !symbols.contains(2) && !symbols.contains(16));
    /// # Ok::<(), bellbadger::Refused>(())
    /// ```
    #[must_use]
    pub fn contains(self, symbol: u8) -> bool {
        symbol < 16 && self.0 >> symbol & 1 == 1
    }

    /// Whether there is none.
    ///
    /// ```
    /// use bellbadger::{follow::Follower, patterns::rule_file, read};
    /// let mut follower = Follower::new(&read(&rule_file(b"a(b|d)")?)?)?;
    /// assert!(!follower.follow(&[0])?.expected.is_empty());
    /// assert!(follower.follow(&[1])?.expected.is_empty()); // nothing can follow
    /// # Ok::<(), bellbadger::Refused>(())
    /// ```
    #[must_use]
    pub fn is_empty(self) -> bool {
        self.0 == 0
    }

    /// The symbols, the lowest first.
    ///
    /// ```
    /// use bellbadger::{follow::Follower, patterns::rule_file, read};
    /// let mut follower = Follower::new(&read(&rule_file(b"a(b|d)")?)?)?;
    /// assert_eq!(follower.follow(&[0])?.expected.iter().sum::<u8>(), 1 + 3);
    /// # Ok::<(), bellbadger::Refused>(())
    /// ```
    pub fn iter(self) -> impl Iterator<Item = u8> {
        (0..16).filter(move |&symbol| self.contains(symbol))
    }

    /// The same as a list.
    ///
    /// ```
    /// use bellbadger::{follow::Follower, patterns::rule_file, read};
    /// let mut follower = Follower::new(&read(&rule_file(b"a(b|d)")?)?)?;
    /// assert_eq!(follower.follow(&[0])?.expected.to_vec(), [1, 3]);
    /// # Ok::<(), bellbadger::Refused>(())
    /// ```
    #[must_use]
    pub fn to_vec(self) -> Vec<u8> {
        self.iter().collect()
    }
}

impl fmt::Debug for Symbols {
    fn fmt(&self, f: &mut fmt::Formatter<'_>) -> fmt::Result {
        f.debug_set().entries(self.iter()).finish()
    }
}

/// What a chunk that was taken tells of the trace.
///
/// ```
/// use bellbadger::{follow::Follower, patterns::rule_file, read};
/// let mut follower = Follower::new(&read(&rule_file(b"a(b|d)")?)?)?;
/// let followed = follower.follow(&[0, 2])?; // 2 is lost on it
/// assert_eq!((followed.lost, followed.expected.to_vec()), (Some(2), vec![1, 3]));
/// assert!(!followed.is_accepted_so_far() && !followed.complete);
/// # Ok::<(), bellbadger::Refused>(())
/// ```
#[derive(Clone, Copy, Debug, PartialEq, Eq)]
#[must_use]
pub struct Followed {
    accepted_so_far: bool,
    /// Whether the trace is lost: whatever comes, the rule will not accept it. The least number of bytes
    /// of this chunk, idle marks counted, after which that is so; 0 where it was so before the chunk.
    pub lost: Option<usize>,
    /// The symbols that could come next, so that the rule can still accept the trace. Where it is lost,
    /// those that could have stood in the place of the byte by which it was; none where that was before
    /// this chunk.
    pub expected: Symbols,
    /// Whether the trace could have ended before the byte by which it was lost; where it is not lost,
    /// whether it can end here. It is no verdict: a lost trace has it too.
    pub complete: bool,
}

impl Followed {
    /// Whether the rule accepts all that came, up to the end of this chunk: the yes or no of a filled
    /// board with the same chunks. Chunks that were refused and dropped are no part of it.
    ///
    /// Asking is not enough; an answer that is dropped is reported by the compiler:
    ///
    /// ```compile_fail
    /// #![deny(unused_must_use)]
    /// fn ship(followed: bellbadger::follow::Followed) {
    ///     followed.is_accepted_so_far();
    /// }
    /// ```
    ///
    /// ```
    /// use bellbadger::{follow::Follower, patterns::rule_file, read};
    /// let mut follower = Follower::new(&read(&rule_file(b"a(b|d)")?)?)?;
    /// assert!(!follower.follow(&[0])?.is_accepted_so_far());
    /// assert!(follower.follow(&[1])?.is_accepted_so_far());
    /// # Ok::<(), bellbadger::Refused>(())
    /// ```
    #[must_use]
    pub fn is_accepted_so_far(&self) -> bool {
        self.accepted_so_far
    }
}

/// A rule that was checked, and the set of states that the trace has led to; or the refusal of a chunk,
/// which stands. Each trace has a follower of its own, or begins it anew.
///
/// ```
/// use bellbadger::{follow::Follower, patterns::rule_file, read};
/// let mut follower = Follower::new(&read(&rule_file(b"a(b|d)")?)?)?;
/// assert!(follower.follow(&[0, 3])?.is_accepted_so_far());
/// # Ok::<(), bellbadger::Refused>(())
/// ```
#[derive(Clone, PartialEq, Eq)]
pub struct Follower {
    by: Box<RawFollower>,
    set: u32,
    refused: Option<Refused>,
}

impl Follower {
    /// Checks a rule, whatever stands in it, and begins a trace with its initial states.
    ///
    /// # Errors
    /// 3, 4, 6, 8 as [`Judge::install`](crate::Judge::install) has them. A rule of over 512 sets is taken.
    ///
    /// ```
    /// # use bellbadger::{follow::Follower, CheckedRule};
    /// let rule = CheckedRule { n: 2, k: 1, initials: 4, finals: 2, targets: [0; 512] };
    /// assert_eq!(Follower::new(&rule).unwrap_err().number(), 6);
    /// ```
    ///
    /// # Panics
    /// Where the library that is linked has another version or follower than this wrapper was written for.
    pub fn new(rule: &CheckedRule) -> Result<Follower, Refused> {
        fits();
        // SAFETY: the function takes nothing and returns a number.
        let size = unsafe { bellbadger_follower_size() };
        assert_eq!(
            size, FOLLOWER_SIZE,
            "libbellbadger.a has another follower than this wrapper"
        );
        // SAFETY: plain numbers.
        let r = unsafe { bellbadger_follower_prepare(*rule) };
        accepted(r.accepted, r.refused)?;
        Ok(Follower {
            set: rule.initials,
            by: Box::new(r.follower),
            refused: None,
        })
    }

    /// Begins another trace, with the initial states; a refusal stands no more.
    ///
    /// ```
    /// use bellbadger::{follow::Follower, patterns::rule_file, read};
    /// let mut follower = Follower::new(&read(&rule_file(b"a(b|d)")?)?)?;
    /// let _lost = follower.follow(&[1])?;
    /// follower.begin();
    /// assert!(follower.follow(&[0, 1])?.is_accepted_so_far());
    /// # Ok::<(), bellbadger::Refused>(())
    /// ```
    pub fn begin(&mut self) {
        (self.set, self.refused) = (self.by.rule.initials, None);
    }

    /// The refusal of a chunk, with which each later one is refused too, where there was one.
    ///
    /// ```
    /// use bellbadger::{follow::Follower, patterns::rule_file, read};
    /// let mut follower = Follower::new(&read(&rule_file(b"a(b|d)")?)?)?;
    /// assert!(follower.refused().is_none());
    /// assert!(follower.follow(&[16]).is_err()); // no symbol
    /// assert_eq!(follower.refused().unwrap().number(), 13);
    /// # Ok::<(), bellbadger::Refused>(())
    /// ```
    #[must_use]
    pub fn refused(&self) -> Option<Refused> {
        self.refused
    }

    /// Leaves the refused chunk out, so that the trace goes on behind the last one that was taken. Where the
    /// chunk was a part of the trace, hand it in as it was meant, or the trace has a hole that nobody sees.
    ///
    /// ```
    /// use bellbadger::{follow::Follower, patterns::rule_file, read};
    /// let mut follower = Follower::new(&read(&rule_file(b"a(b|d)")?)?)?;
    /// assert!(follower.follow(&[16]).is_err());
    /// follower.drop_refused();
    /// assert!(follower.follow(&[0, 1])?.is_accepted_so_far());
    /// # Ok::<(), bellbadger::Refused>(())
    /// ```
    pub fn drop_refused(&mut self) {
        self.refused = None;
    }

    /// Follows the next chunk. Byte 255 is an idle mark: it is skipped and is no part of the text, but
    /// counts in the limit and in places. An empty chunk changes nothing, and is answered too.
    ///
    /// # Errors
    /// 12 (over 65,536 bytes), 13 (a byte is no symbol and no idle mark). The chunk is then no part of the
    /// trace, and every later one is refused with the same number, until [`drop_refused`](Self::drop_refused)
    /// or [`begin`](Self::begin).
    ///
    /// ```compile_fail
    /// #![deny(unused_must_use)]
    /// fn next(follower: &mut bellbadger::follow::Follower) -> Result<(), bellbadger::Refused> {
    ///     follower.follow(&[1])?;
    ///     Ok(())
    /// }
    /// ```
    ///
    /// ```
    /// use bellbadger::{follow::Follower, patterns::rule_file, read};
    /// let mut follower = Follower::new(&read(&rule_file(b"a(b|d)")?)?)?;
    /// assert_eq!(follower.follow(&[0])?.lost, None);
    /// assert_eq!(follower.follow(&[255, 0])?.lost, Some(2)); // idle marks are counted
    /// # Ok::<(), bellbadger::Refused>(())
    /// ```
    pub fn follow(&mut self, chunk: &[u8]) -> Result<Followed, Refused> {
        if let Some(refused) = self.refused {
            return Err(refused);
        }
        let (data, length) = (chunk.as_ptr(), chunk.len());
        // SAFETY: the pointer leads to as many bytes as the length says, and they are only read.
        let r = unsafe { bellbadger_follow_by(*self.by, self.set, data, length) };
        if let Err(refused) = accepted(r.accepted, r.refused) {
            self.refused = Some(refused);
            return Err(refused);
        }
        self.set = r.set;
        Ok(Followed {
            accepted_so_far: r.ends == 1,
            lost: (r.lost == 1).then_some(r.at as usize),
            expected: Symbols(r.expected),
            complete: r.complete == 1,
        })
    }
}

/// Its sizes, in how many states the trace is, and the refusal that stands.
impl fmt::Debug for Follower {
    fn fmt(&self, f: &mut fmt::Formatter<'_>) -> fmt::Result {
        f.debug_struct("Follower")
            .field("states", &self.by.rule.n)
            .field("symbols", &self.by.rule.k)
            .field("reached", &self.set.count_ones())
            .field("refused", &self.refused.map(Refused::number))
            .finish_non_exhaustive()
    }
}
