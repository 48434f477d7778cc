//! Summaries: chunks run one by one, on whatever machines, and put together afterwards, for every rule that
//! a judge takes and traces of any length.
//!
//! Each chunk of a trace has a number, from 0 on. [`Judge::summarize`] makes its [`Summary`] where the
//! chunk is, by a judge with the rule and no board; it is a value of 169 bytes, and the chunk need not
//! travel. Summaries of neighbours combine ([`Summary::then`]) in any bracketing, without a rule.
//! [`Judge::conclude`] says of the last one what a filled board with these chunks would say, every field,
//! also of more chunks than a board takes.
//!
//! ```
//! use bellbadger::summaries::Summary;
//! use bellbadger::{Judge, Refused};
//!
//! // Rule A accepts the texts that end in 0 1.
//! let rule_a = [
//!     3, 2, 1, 0, 0, 0, 4, 0, 0, 0, 22, 0, 6, 0, 28, 0, 2, 0, 30, 0, 0, 0, 0, 0, 0, 1, 1, 0, 1, 2,
//! ];
//! let mut judge = Judge::new();
//! let _loaded = judge.load(&rule_a)?;
//! let later = judge.summarize(1, &[1])?; // chunks come out of order
//! let earlier = judge.summarize(0, &[0, 255])?; // 255 is an idle mark
//! let whole = earlier.then(later);
//! assert!(judge.conclude(whole, 2)?.is_yes());
//! // as bytes it can be sent or kept
//! assert_eq!(Summary::from_bytes(&whole.to_bytes()), whole);
//! // out of order; not all of them
//! assert_eq!(judge.conclude(later.then(earlier), 2).unwrap_err().number(), 42);
//! assert_eq!(judge.conclude(whole, 3).unwrap_err().number(), 44);
//! # Ok::<(), Refused>(())
//! ```
//!
//! A chunk that is lost, doubled or out of its order ends in a refusal and never in a wrong yes. A summary by
//! another rule is recognised by the rule's digest, and refused; two rules that differ have the same digest only by
//! chance. This is a guard against mistakes and not against attackers: whoever makes up the numbers of a
//! summary can have any verdict.
use crate::raw::{RawJudge, RawVerdict};
use crate::{accepted, report, Judge, Refused, Report};
use std::fmt;

/// What chunks that follow one another come to.
///
/// It says neither yes nor no: that is for [`Judge::conclude`].
///
/// ```
/// use bellbadger::{patterns::rule_file, Judge};
/// let mut judge = Judge::new();
/// let _loaded = judge.load(&rule_file(b"(a|b)*ab")?)?;
/// let summary = judge.summarize(0, &[0, 1])?;
/// assert_eq!((summary.first, summary.end, summary.bytes), (0, 1, 2));
/// # Ok::<(), bellbadger::Refused>(())
/// ```
#[repr(C)]
#[derive(Clone, Copy, PartialEq, Eq, Hash)]
#[must_use]
pub struct Summary {
    /// The mask of the delegates of the members of state q's end set stands at q; 0 where q was not run.
    pub leads: [u32; 32],
    /// The count, as of a verdict; 2^64 − 1 says that many or more.
    pub count: u64,
    /// The number of text bytes; 2^64 − 1 says that many or more.
    pub bytes: u64,
    /// A digest of the rule as it was built: a guard against mistakes, not against attackers.
    pub rule: u64,
    /// The number of the first chunk.
    pub first: u64,
    /// The number behind the last chunk.
    pub end: u64,
    /// 0; or any other number where the chunks are not neighbours in their order, not of one rule, or one
    /// was refused.
    pub broken: u8,
}

#[repr(C)]
struct RawSummarized {
    accepted: u8,
    refused: u8,
    summary: Summary,
}

/// As the C header has it; outside/c/test_summaries.c reads every field.
const SUMMARY_SIZE: usize = 176;
const _: () = assert!(std::mem::size_of::<Summary>() == SUMMARY_SIZE);
const _: () = assert!(std::mem::size_of::<RawSummarized>() == SUMMARY_SIZE + 8);

extern "C" {
    fn bellbadger_summary_size() -> usize;
    fn bellbadger_summarize(
        judge: RawJudge,
        number: u64,
        chunk: *const u8,
        length: usize,
    ) -> RawSummarized;
    fn bellbadger_summary_combine(earlier: Summary, later: Summary) -> Summary;
    fn bellbadger_summary_conclude(judge: RawJudge, summary: Summary, chunks: u64) -> RawVerdict;
}

/// The library that is linked has the summaries that this wrapper was written for.
fn fits() {
    // SAFETY: the function takes nothing and returns a number.
    let size = unsafe { bellbadger_summary_size() };
    assert_eq!(
        size, SUMMARY_SIZE,
        "libbellbadger.a has another summary than this wrapper"
    );
}

impl Summary {
    /// How many bytes a summary has where it travels: [`Summary::to_bytes`].
    ///
    /// ```
    /// use bellbadger::{patterns::rule_file, summaries::Summary, Judge};
    /// let mut judge = Judge::new();
    /// let _loaded = judge.load(&rule_file(b"a")?)?;
    /// assert_eq!(judge.summarize(0, &[0])?.to_bytes().len(), Summary::BYTES);
    /// # Ok::<(), bellbadger::Refused>(())
    /// ```
    pub const BYTES: usize = 169;

    /// The summary of these chunks, and of those that follow them. Any two combine, in any bracketing; the
    /// order matters. It is broken where one of the two is, where the later does not begin where this one
    /// ends, and where they are by two rules.
    ///
    /// # Panics
    /// Where the library that is linked has another summary than this wrapper was written for.
    ///
    /// ```
    /// use bellbadger::{patterns::rule_file, Judge};
    /// let mut judge = Judge::new();
    /// let _loaded = judge.load(&rule_file(b"(a|b)*ab")?)?;
    /// let (one, two) = (judge.summarize(0, &[0])?, judge.summarize(1, &[1])?);
    /// assert!(judge.conclude(one.then(two), 2)?.is_yes());
    /// # Ok::<(), bellbadger::Refused>(())
    /// ```
    pub fn then(self, later: Summary) -> Summary {
        fits();
        // SAFETY: plain numbers.
        unsafe { bellbadger_summary_combine(self, later) }
    }

    /// Whether it will not be concluded, whatever it is combined with.
    ///
    /// ```
    /// use bellbadger::{patterns::rule_file, Judge};
    /// let mut judge = Judge::new();
    /// let _loaded = judge.load(&rule_file(b"(a|b)*ab")?)?;
    /// let (one, two) = (judge.summarize(0, &[0])?, judge.summarize(1, &[1])?);
    /// assert!(!one.then(two).is_broken() && two.then(one).is_broken());
    /// # Ok::<(), bellbadger::Refused>(())
    /// ```
    #[must_use]
    pub fn is_broken(&self) -> bool {
        self.broken != 0
    }

    /// The summary as bytes, little-endian and without gaps: the 32 masks of `leads`, of 4 bytes each;
    /// `count`, `bytes`, `rule`, `first` and `end`, of 8 each; `broken`, 1 byte.
    ///
    /// ```
    /// use bellbadger::{patterns::rule_file, Judge};
    /// let mut judge = Judge::new();
    /// let _loaded = judge.load(&rule_file(b"(a|b)*ab")?)?;
    /// let summary = judge.summarize(3, &[0])?;
    /// assert_eq!(summary.to_bytes()[152..160], 3_u64.to_le_bytes()); // the first chunk's number
    /// # Ok::<(), bellbadger::Refused>(())
    /// ```
    #[must_use]
    pub fn to_bytes(&self) -> [u8; Summary::BYTES] {
        let mut bytes = [0; Summary::BYTES];
        let numbers = [self.count, self.bytes, self.rule, self.first, self.end];
        let (masks, rest) = bytes.split_at_mut(128);
        for (cell, mask) in masks.chunks_exact_mut(4).zip(self.leads) {
            cell.copy_from_slice(&mask.to_le_bytes());
        }
        for (cell, number) in rest.chunks_exact_mut(8).zip(numbers) {
            cell.copy_from_slice(&number.to_le_bytes());
        }
        rest[40] = self.broken;
        bytes
    }

    /// The summary that [`Summary::to_bytes`] made the bytes of; any bytes are one.
    ///
    /// ```
    /// use bellbadger::summaries::Summary;
    /// let mut bytes = [0; Summary::BYTES];
    /// bytes[168] = 1;
    /// assert!(Summary::from_bytes(&bytes).is_broken());
    /// ```
    pub fn from_bytes(bytes: &[u8; Summary::BYTES]) -> Summary {
        let mask = |q: usize| {
            let at = 4 * q;
            u32::from_le_bytes([bytes[at], bytes[at + 1], bytes[at + 2], bytes[at + 3]])
        };
        let number = |i: usize| {
            let cell = &bytes[128 + 8 * i..136 + 8 * i];
            cell.iter()
                .rev()
                .fold(0, |number, &byte| number << 8 | u64::from(byte))
        };
        Summary {
            leads: std::array::from_fn(mask),
            count: number(0),
            bytes: number(1),
            rule: number(2),
            first: number(3),
            end: number(4),
            broken: bytes[168],
        }
    }
}

/// Its chunks, count and bytes.
impl fmt::Debug for Summary {
    fn fmt(&self, f: &mut fmt::Formatter<'_>) -> fmt::Result {
        f.debug_struct("Summary")
            .field("first", &self.first)
            .field("end", &self.end)
            .field("count", &self.count)
            .field("bytes", &self.bytes)
            .field("broken", &self.is_broken())
            .finish_non_exhaustive()
    }
}

impl Judge {
    /// The summary of the chunk with that number: chunks of a trace are numbered from 0 on. No board is
    /// needed, and nothing changes.
    ///
    /// Chunk 0 is run as at place 0 of a board, every other as at another place. Byte 255 is an idle mark, as
    /// in a delivery. No chunk can follow number 2^64 − 1, whose summary is broken.
    ///
    /// # Errors
    /// 20 (no rule is there), 12 (over 65,536 bytes), 13 (a byte is no symbol and no idle mark).
    ///
    /// ```
    /// # use bellbadger::Judge;
    /// assert_eq!(Judge::new().summarize(0, &[1]).unwrap_err().number(), 20);
    /// ```
    ///
    /// # Panics
    /// Where the library that is linked has another summary than this wrapper was written for.
    pub fn summarize(&self, number: u64, chunk: &[u8]) -> Result<Summary, Refused> {
        fits();
        // SAFETY: the pointer leads to as many bytes as the length says, and they are only read.
        let r = unsafe { bellbadger_summarize(*self.0, number, chunk.as_ptr(), chunk.len()) };
        accepted(r.accepted, r.refused).map(|()| r.summary)
    }

    /// The verdict on a trace of so many chunks, of which this is the summary: yes or no, as a filled board
    /// with these chunks has it. No board is needed, and nothing changes. Say how many chunks there are from
    /// what is known of the trace, and not from the summary.
    ///
    /// # Errors
    /// 20 (no rule is there), 42 (the summary is broken, or does not begin with chunk 0), 43 (it is by another
    /// rule), 44 (it does not end with the last chunk, or there is none: an empty trace has one empty chunk).
    ///
    /// ```
    /// # use bellbadger::{summaries::Summary, Judge};
    /// let any = Summary::from_bytes(&[0; Summary::BYTES]);
    /// assert_eq!(Judge::new().conclude(any, 1).unwrap_err().number(), 20);
    /// ```
    ///
    /// # Panics
    /// Where the library that is linked has another summary than this wrapper was written for.
    pub fn conclude(&self, summary: Summary, chunks: u64) -> Result<Report, Refused> {
        fits();
        // SAFETY: plain numbers.
        report(&unsafe { bellbadger_summary_conclude(*self.0, summary, chunks) })
    }
}
