//! Where a trace went wrong, while chunks are still missing too.
//!
//! A trace is lost at a place when all places up to it have chunks and their texts, one behind the other,
//! cannot be continued by any text to one that the rule accepts; at the first such place. No chunk at a later
//! place can mend it: no verdict is yes until a chunk at that place or before it is withdrawn or superseded,
//! or a board is opened or a rule installed anew.
//!
//! ```
//! use bellbadger::losses::Diagnosis;
//! use bellbadger::{Judge, Refused};
//!
//! // It accepts 0, 0 1 0, 0 1 0 1 0 and so on.
//! let in_turn = [
//!     3, 2, 1, 0, 0, 0, 2, 0, 0, 0, 22, 0, 4, 0, 26, 0, 4, 0, 30, 0, 4, 0, 0, 1, 1, 2, 0, 2, 1, 0, 0, 2,
//!     1, 2,
//! ];
//! let mut judge = Judge::new();
//! let _loaded = judge.load(&in_turn)?;
//! judge.open(3)?;
//! let chunk = [255, 1, 0, 0]; // an idle mark, and then 0 twice in a row
//! let _looked = judge.deliver(1, 0, &chunk)?;
//! assert_eq!(judge.diagnose()?, Diagnosis::Open { places: 0 });
//! let _looked = judge.deliver(0, 0, &[0])?;
//! // place 2 is empty still, and it is known already that there will be no yes
//! assert_eq!(judge.diagnose()?, Diagnosis::Lost { place: 1 });
//! assert_eq!(judge.locate(1, &chunk)?, Some(4));
//! assert_eq!(judge.locate(1, &[1, 0])?, None);
//! # Ok::<(), Refused>(())
//! ```
use crate::raw::RawJudge;
use crate::{accepted, Judge, Refused};

/// Where the trace is lost, or how far it is there.
///
/// Neither is a yes: a trace that is open may be lost by the next chunk, and one that is open with all its
/// places may have stopped too early. Whether to ship is for [`Judge::verdict`] to say.
///
/// ```
/// use bellbadger::{losses::Diagnosis, patterns::rule_file, Judge};
/// let mut judge = Judge::new();
/// let _loaded = judge.load(&rule_file(b"ab")?)?;
/// judge.open(2)?;
/// let _looked = judge.deliver(0, 0, &[1])?;
/// assert_eq!(judge.diagnose()?, Diagnosis::Lost { place: 0 });
/// # Ok::<(), bellbadger::Refused>(())
/// ```
#[derive(Clone, Copy, Debug, PartialEq, Eq, Hash)]
#[must_use]
pub enum Diagnosis {
    /// Nothing that comes at later places can make the verdict a yes.
    Lost {
        /// The place at which the trace is lost, counted from 0.
        place: usize,
    },
    /// The trace is not lost so far.
    Open {
        /// How many places have chunks before the first that has none.
        places: usize,
    },
}

#[repr(C)]
struct RawDiagnosis {
    kind: u8,
    number: u8,
}

#[repr(C)]
struct RawSpot {
    kind: u8,
    number: u32,
}

const _: () = assert!(std::mem::size_of::<RawDiagnosis>() == 2);
const _: () = assert!(std::mem::size_of::<RawSpot>() == 8);

const REFUSED: u8 = 0;
/// The kind of an answer that tells a loss, of both functions.
const LOST: u8 = 5;

extern "C" {
    fn bellbadger_diagnose(judge: RawJudge) -> RawDiagnosis;
    fn bellbadger_locate(judge: RawJudge, place: usize, chunk: *const u8, length: usize)
        -> RawSpot;
}

impl Judge {
    /// The place at which the trace is lost, or how far it is there; changes nothing.
    ///
    /// # Errors
    /// 21 (no board is open).
    ///
    /// ```
    /// # use bellbadger::Judge;
    /// assert_eq!(Judge::new().diagnose().unwrap_err().number(), 21);
    /// ```
    pub fn diagnose(&self) -> Result<Diagnosis, Refused> {
        // SAFETY: plain numbers.
        let r = unsafe { bellbadger_diagnose(*self.0) };
        accepted(u8::from(r.kind != REFUSED), r.number)?;
        let number = usize::from(r.number);
        Ok(match r.kind {
            LOST => Diagnosis::Lost { place: number },
            _ => Diagnosis::Open { places: number },
        })
    }

    /// The least number of the chunk's bytes after which the trace is lost, were this the chunk at the
    /// place; `None`, which is no yes, where it is lost after none of them. What stands at the place, or at later ones, is not
    /// looked at; changes nothing.
    ///
    /// Idle marks are counted: a position is one of the slice. `Some(b)` with b above 0 says that by
    /// `chunk[b - 1]`, an event and no idle mark, the trace was lost; `Some(0)` that it is lost before the
    /// chunk begins, at an earlier place or because the rule accepts nothing.
    ///
    /// # Errors
    /// 21 (no board is open), 11 (no such place), 12 (over 65,536 bytes), 13 (a byte is no symbol and no
    /// idle mark), 23 (a place before it has no chunk).
    ///
    /// ```
    /// # use bellbadger::Judge;
    /// assert_eq!(Judge::new().locate(0, &[1]).unwrap_err().number(), 21);
    /// ```
    pub fn locate(&self, place: usize, chunk: &[u8]) -> Result<Option<usize>, Refused> {
        // SAFETY: the pointer leads to as many bytes as the length says, and they are only read.
        let r = unsafe { bellbadger_locate(*self.0, place, chunk.as_ptr(), chunk.len()) };
        accepted(u8::from(r.kind != REFUSED), r.number as u8)?;
        Ok((r.kind == LOST).then_some(r.number as usize))
    }
}
