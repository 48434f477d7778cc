//! The valve trace judge: a rule, a board and five calls.
//!
//! A refused call is an error that carries its number and leaves the judge as it was.
//!
//! ```
//! use bellbadger::{Judge, Refused, Verdict};
//!
//! // Rule A accepts the texts that end in 0 1.
//! let rule_a = [
//!     3, 2, 1, 0, 0, 0, 4, 0, 0, 0, 22, 0, 6, 0, 28, 0, 2, 0, 30, 0, 0, 0, 0, 0, 0, 1, 1, 0, 1, 2,
//! ];
//! let mut judge = Judge::new();
//! let loaded = judge.load(&rule_a)?;
//! assert_eq!((loaded.sets, loaded.starts), (5, 3));
//! judge.open(2)?;
//! let looked = judge.deliver(1, 0, &[1])?; // chunks come out of order
//! assert_eq!(looked.bytes, 1);
//! assert_eq!(judge.verdict()?.verdict, Verdict::Waiting(1));
//! let _looked = judge.deliver(0, 0, &[0])?;
//! let report = judge.verdict()?;
//! assert_eq!(report.verdict, Verdict::Yes(3));
//! assert!(report.is_yes());
//! // 2 bytes of text, for each 1 transition and 1 over
//! assert_eq!((report.bytes, report.quotient, report.remainder), (2, 1, 1));
//! // a later recording, with a greater revision, supersedes what stands at place 0
//! let _looked = judge.deliver(0, 1, &[1])?;
//! assert_eq!(judge.verdict()?.verdict, Verdict::No(3));
//! # Ok::<(), Refused>(())
//! ```
//!
//! A rule file can be read without a judge ([`read`]); what comes of it is a [`CheckedRule`], to
//! look at and to install into any number of judges. The first text that a rule accepts, or the
//! first that it rejects, is its sample ([`samples::sample`]). A shop owner writes a pattern, from
//! which [`patterns::rule_file`] makes the file. Two rules can be made one ([`merge::merge`], with
//! fewer states [`merge::merge_reduced`]). [`texts::make_text`] makes test texts. For a smaller
//! table on a nozzle board there is the failure form ([`form::form`]).
//!
//! Whether a changed rule still means the same, and if not the first text on which the two differ, is reported
//! by [`compare::compare`]. A rule can be made smaller without changing what it accepts ([`reduce::reduce`]).
//!
//! Where a trace went wrong is reported before all chunks are there: the place ([`Judge::diagnose`]) and the
//! byte ([`Judge::locate`]).
//!
//! A judge can be kept as bytes and had back ([`saved`]).
//!
//! Chunks on many machines, of any number and for every rule, are summarized one by one ([`summaries`]).
//! For small rules there is a mapping machine ([`mappings`]): chunks are run on whatever machines, and what
//! comes of them, eight bytes each, is put together afterwards.
//!
//! A trace that comes in order, of any length, is followed chunk by chunk ([`follow`]): where it was lost, and
//! what could come next.
//!
//! Rows of events whose columns keep to a rule too are judged by a tray ([`trays`]), which tells where it goes
//! wrong before all bands are there.
//!
//! A refusal that nobody looks at is reported by the compiler:
//!
//! ```compile_fail
//! #![deny(unused_must_use)]
//! bellbadger::Judge::new().deliver(0, 0, &[1]);
//! ```
//!
//! # Threads and stack
//!
//! No call keeps anything outside its judge. A judge goes by value within the library: a thread that
//! calls it should have a stack of 1 MB (Rust's own threads have 2 MB).
pub mod compare;
pub mod follow;
pub mod form;
pub mod losses;
pub mod mappings;
pub mod merge;
pub mod patterns;
mod raw;
pub mod reduce;
mod refused;
mod rule;
pub mod samples;
pub mod saved;
pub mod summaries;
pub mod texts;
pub mod trays;

pub use refused::{Refused, ReplayError};
pub use rule::{read, CheckedRule};

use raw::{RawChange, RawInstall, RawJudge, RawVerdict};
use std::fmt;

/// The version of the library that is linked: major and minor number.
///
/// ```
/// let (major, minor) = bellbadger::version();
/// assert!(major == 5 && minor >= 7);
/// ```
#[must_use]
pub fn version() -> (u32, u32) {
    // SAFETY: the function takes nothing and returns a number.
    let version = unsafe { raw::bellbadger_version() };
    (version >> 16, version & 0xFFFF)
}

/// What an accepted load or installation tells of the rule.
///
/// ```
/// use bellbadger::{patterns::rule_file, Judge};
/// let mut judge = Judge::new();
/// let loaded = judge.load(&rule_file(b"(a|b)*ab")?)?;
/// assert_eq!((loaded.sets, loaded.starts), (7, 3));
/// # Ok::<(), bellbadger::Refused>(())
/// ```
#[derive(Clone, Copy, Debug, PartialEq, Eq)]
#[must_use]
pub struct Loaded {
    /// The number of sets, 1 to 512.
    pub sets: u16,
    /// The number of starts (M), 0 to 32: of the states from which a final state can be reached, those
    /// that accept the same texts have one start together. 0 where the rule has no final state.
    pub starts: u8,
}

/// What an accepted delivery tells of the run.
///
/// ```
/// use bellbadger::{patterns::rule_file, Judge};
/// let mut judge = Judge::new();
/// let _loaded = judge.load(&rule_file(b"(a|b)*ab")?)?;
/// judge.open(1)?;
/// assert_eq!(judge.deliver(0, 0, &[0, 255, 1])?.bytes, 2); // without the idle mark
/// # Ok::<(), bellbadger::Refused>(())
/// ```
#[derive(Clone, Copy, Debug, PartialEq, Eq)]
#[must_use]
pub struct Looked {
    /// For how many bytes of the text any successor was looked up: the least number of them after
    /// which every run has died, else all; 0 where nothing is run.
    pub bytes: u32,
}

/// What is to be said of the trace.
///
/// ```
/// use bellbadger::{patterns::rule_file, Judge, Verdict};
/// let mut judge = Judge::new();
/// let _loaded = judge.load(&rule_file(b"(a|b)*ab")?)?;
/// judge.open(1)?;
/// assert_eq!(judge.verdict()?.verdict, Verdict::Waiting(1));
/// # Ok::<(), bellbadger::Refused>(())
/// ```
#[derive(Clone, Copy, Debug, PartialEq, Eq)]
#[must_use]
pub enum Verdict {
    /// So many places are empty.
    Waiting(u64),
    /// The trace keeps to the rule; the count.
    Yes(u64),
    /// The trace does not keep to the rule; the count.
    No(u64),
}

impl Verdict {
    /// Whether the trace keeps to the rule: not where it does not, and not where places are empty. That
    /// there is a verdict, `Ok(..)`, says nothing of that.
    ///
    /// ```
    /// # use bellbadger::Verdict;
    /// assert!(Verdict::Yes(3).is_yes());
    /// assert!(!Verdict::No(3).is_yes() && !Verdict::Waiting(1).is_yes());
    /// ```
    ///
    /// Asking is not enough; an answer that is dropped is reported by the compiler:
    ///
    /// ```compile_fail
    /// #![deny(unused_must_use)]
    /// bellbadger::Verdict::Yes(3).is_yes();
    /// ```
    #[must_use]
    pub fn is_yes(&self) -> bool {
        matches!(self, Verdict::Yes(_))
    }
}

/// A verdict, and how much work the trace costs.
///
/// Beside yes or no `bytes` is the number of text bytes, and count = quotient × bytes + remainder with
/// a remainder below bytes; for a text of 0 bytes both are 0. Beside waiting all three are 0.
///
/// ```
/// use bellbadger::{patterns::rule_file, Judge};
/// let mut judge = Judge::new();
/// let _loaded = judge.load(&rule_file(b"(a|b)*ab")?)?;
/// judge.open(1)?;
/// let _looked = judge.deliver(0, 0, &[0, 1])?;
/// let report = judge.verdict()?;
/// assert_eq!((report.bytes, report.quotient, report.remainder), (2, 1, 0));
/// # Ok::<(), bellbadger::Refused>(())
/// ```
#[derive(Clone, Copy, Debug, PartialEq, Eq)]
#[must_use]
pub struct Report {
    /// Waiting, yes or no.
    pub verdict: Verdict,
    /// How many bytes the text has.
    pub bytes: u64,
    /// The count divided by the bytes, without what is over.
    pub quotient: u64,
    /// What is over.
    pub remainder: u64,
}

impl Report {
    /// Whether the verdict is yes, as [`Verdict::is_yes`] has it.
    ///
    /// ```
    /// use bellbadger::{patterns::rule_file, Judge};
    /// let mut judge = Judge::new();
    /// let _loaded = judge.load(&rule_file(b"(a|b)*ab")?)?;
    /// judge.open(1)?;
    /// assert!(!judge.verdict()?.is_yes()); // it waits
    /// let _looked = judge.deliver(0, 0, &[0, 1])?;
    /// assert!(judge.verdict()?.is_yes());
    /// # Ok::<(), bellbadger::Refused>(())
    /// ```
    #[must_use]
    pub fn is_yes(&self) -> bool {
        self.verdict.is_yes()
    }
}

/// One rule and one board.
///
/// ```
/// use bellbadger::{patterns::rule_file, Judge};
/// let mut judge = Judge::new();
/// let _loaded = judge.load(&rule_file(b"(a|b)*ab")?)?;
/// judge.open(1)?;
/// let _looked = judge.deliver(0, 0, &[1, 0, 1])?;
/// assert!(judge.verdict()?.is_yes());
/// # Ok::<(), bellbadger::Refused>(())
/// ```
#[derive(Clone)]
pub struct Judge(Box<RawJudge>);

impl Default for Judge {
    fn default() -> Self {
        Judge::new()
    }
}

/// The sizes of the rule and of the board; 0 states: no rule, 0 places: no board.
impl fmt::Debug for Judge {
    fn fmt(&self, f: &mut fmt::Formatter<'_>) -> fmt::Result {
        let RawJudge { rule, board } = &*self.0;
        f.debug_struct("Judge")
            .field("states", &rule.n)
            .field("symbols", &rule.k)
            .field("sets", &rule.count)
            .field("starts", &rule.starts)
            .field("places", &board.places)
            .field("filled", &board.filled.iter().filter(|&&x| x != 0).count())
            .finish_non_exhaustive()
    }
}

impl Judge {
    /// A judge with no rule and no board.
    ///
    /// ```
    /// # use bellbadger::Judge;
    /// assert_eq!(Judge::new().verdict().unwrap_err().number(), 21);
    /// ```
    ///
    /// # Panics
    /// Where the library that is linked has another version or state than this wrapper was written for.
    #[must_use]
    pub fn new() -> Judge {
        fits();
        // SAFETY: the function takes nothing and returns plain numbers.
        Judge(Box::new(unsafe { raw::bellbadger_new() }))
    }

    /// Checks and builds a rule, whatever stands in it; accepted, it replaces the former one and
    /// removes the board.
    ///
    /// # Errors
    /// 3 (the number of states is not in 1..32), 4 (the number of symbols is not in 1..16), 6 (a mask names a
    /// state that does not exist), 8 (so does a target mask, or one kept for a state or a symbol that
    /// does not exist is not 0), 9 (over 512 sets).
    ///
    /// ```
    /// # use bellbadger::{CheckedRule, Judge};
    /// let mut rule = CheckedRule { n: 2, k: 1, initials: 1, finals: 2, targets: [0; 512] };
    /// rule.targets[0] = 0b10; // from state 0 by symbol 0 to state 1
    /// assert_eq!(Judge::new().install(&rule).map(|loaded| loaded.sets), Ok(2));
    /// rule.targets[1] = 0b10; // a symbol 1 that does not exist
    /// assert_eq!(Judge::new().install(&rule).unwrap_err().number(), 8);
    /// ```
    pub fn install(&mut self, rule: &CheckedRule) -> Result<Loaded, Refused> {
        // SAFETY: plain numbers.
        let r = unsafe { raw::bellbadger_install(*self.0, *rule) };
        self.loaded(&r)
    }

    /// Reads a rule file and installs the rule in it.
    ///
    /// # Errors
    /// 1 to 8: the file is no rule; 9: the rule has over 512 sets.
    ///
    /// ```
    /// # use bellbadger::Judge;
    /// let refused = Judge::new().load(b"no rule").unwrap_err();
    /// assert_eq!(refused.number(), 1);
    /// assert_eq!(refused.to_string(), "refused 1: the file is too short for a head of 10 bytes");
    /// ```
    pub fn load(&mut self, file: &[u8]) -> Result<Loaded, Refused> {
        // SAFETY: the pointer leads to as many bytes as the length says, and they are only read.
        let r = unsafe { raw::bellbadger_load(*self.0, file.as_ptr(), file.len()) };
        self.loaded(&r)
    }

    /// A board of that many empty places; an earlier one is dropped.
    ///
    /// # Errors
    /// 20 (no rule is there), 10 (the number of places is not in 1..64).
    ///
    /// ```
    /// # use bellbadger::Judge;
    /// assert_eq!(Judge::new().open(1).unwrap_err().number(), 20);
    /// ```
    pub fn open(&mut self, places: usize) -> Result<(), Refused> {
        // SAFETY: plain numbers.
        let r = unsafe { raw::bellbadger_open(*self.0, places) };
        self.changed(r)
    }

    /// Runs a chunk and keeps its end sets, count, length and revision at the place, which are counted
    /// from 0. A greater revision than the last one accepted there replaces what stands; a place that
    /// had none since the opening takes any. Byte 255 is an idle mark: it is skipped and is no part of
    /// the text, but counts in the limit.
    ///
    /// # Errors
    /// 21 (no board is open), 11 (no such place), 12 (over 65,536 bytes), 13 (a byte is no symbol
    /// and no idle mark), 22 (the revision is not greater than the last one accepted there, even if
    /// that was withdrawn).
    ///
    /// ```
    /// # use bellbadger::Judge;
    /// assert_eq!(Judge::new().deliver(0, 0, &[1]).unwrap_err().number(), 21);
    /// ```
    pub fn deliver(
        &mut self,
        place: usize,
        revision: u32,
        chunk: &[u8],
    ) -> Result<Looked, Refused> {
        let (data, length) = (chunk.as_ptr(), chunk.len());
        // SAFETY: the pointer leads to as many bytes as the length says, and they are only read.
        let r = unsafe { raw::bellbadger_deliver(*self.0, place, revision, data, length) };
        *self.0 = r.judge;
        let bytes = r.looked;
        accepted(r.accepted, r.refused).map(|()| Looked { bytes })
    }

    /// Empties a place.
    ///
    /// # Errors
    /// 21 (no board is open), 11 (no such place), 23 (the place has no chunk).
    ///
    /// ```
    /// # use bellbadger::Judge;
    /// assert_eq!(Judge::new().withdraw(0).unwrap_err().number(), 21);
    /// ```
    pub fn withdraw(&mut self, place: usize) -> Result<(), Refused> {
        // SAFETY: plain numbers.
        let r = unsafe { raw::bellbadger_withdraw(*self.0, place) };
        self.changed(r)
    }

    /// Waiting, yes or no, with the work for each byte; changes nothing.
    ///
    /// # Errors
    /// 21 (no board is open).
    ///
    /// ```
    /// # use bellbadger::Judge;
    /// assert_eq!(Judge::new().verdict().unwrap_err().number(), 21);
    /// ```
    pub fn verdict(&self) -> Result<Report, Refused> {
        // SAFETY: plain numbers.
        report(&unsafe { raw::bellbadger_verdict(*self.0) })
    }

    fn loaded(&mut self, r: &RawInstall) -> Result<Loaded, Refused> {
        *self.0 = r.judge;
        let (sets, starts) = (r.sets, r.starts);
        accepted(r.accepted, r.refused).map(|()| Loaded { sets, starts })
    }

    fn changed(&mut self, r: RawChange) -> Result<(), Refused> {
        *self.0 = r.judge;
        accepted(r.accepted, r.refused)
    }
}

/// Runs the calls that a text records on a fresh judge: the report on the verdict after them.
///
/// A line is `load HEX`, `install HEX`, `open N`, `deliver P REVISION HEX`, `withdraw P` or
/// `verdict`, with exactly one space between fields; an empty line begins a fresh judge. HEX is pairs of hex digits, or
/// `-` for no bytes; that of an installation is the 2,058 bytes of a rule by value. A recorded call that
/// is refused changes nothing, and the next line is run.
///
/// # Errors
/// The verdict is refused (21: no board is open), or a line is malformed.
///
/// ```
/// use bellbadger::{replay, ReplayError, Verdict};
///
/// let rule_a = "load 03020100000004000000160006001C0002001E0000000000000101000102";
/// let text = format!("{rule_a}\nopen 2\ndeliver 1 0 01\ndeliver 0 0 00\n");
/// assert_eq!(replay(text.as_bytes())?.verdict, Verdict::Yes(3));
/// assert_eq!(replay(b"verdict\nopen  2\n"), Err(ReplayError::Malformed { line: 2 }));
/// # Ok::<(), ReplayError>(())
/// ```
///
/// # Panics
/// Where the library that is linked has another version or state than this wrapper was written for.
pub fn replay(text: &[u8]) -> Result<Report, ReplayError> {
    fits();
    // SAFETY: the pointer leads to as many bytes as the length says, and they are only read.
    let r = unsafe { raw::bellbadger_replay(text.as_ptr(), text.len()) };
    match r.kind {
        raw::MALFORMED => Err(ReplayError::Malformed { line: r.number }),
        _ => Ok(report(&r)?),
    }
}

/// The library that is linked has the functions and the state that this wrapper was written for.
fn fits() {
    // SAFETY: the function takes nothing and returns a number.
    let size = unsafe { raw::bellbadger_state_size() };
    assert_eq!(
        (version().0, size),
        (raw::MAJOR, raw::STATE_SIZE),
        "libbellbadger.a has another version or state than this wrapper"
    );
}

fn accepted(accepted: u8, refused: u8) -> Result<(), Refused> {
    match accepted {
        1 => Ok(()),
        _ => Err(Refused::new(refused)),
    }
}

fn report(r: &RawVerdict) -> Result<Report, Refused> {
    let verdict = match r.kind {
        raw::WAITING => Verdict::Waiting(r.number),
        raw::YES => Verdict::Yes(r.number),
        raw::NO => Verdict::No(r.number),
        _ => return Err(Refused::new(r.number as u8)),
    };
    Ok(Report {
        verdict,
        bytes: r.bytes,
        quotient: r.quotient,
        remainder: r.remainder,
    })
}
