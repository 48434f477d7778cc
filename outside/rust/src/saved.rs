//! A judge as bytes, and back: to keep it over an update, to hand it to another machine.
//!
//! Saved bytes have one length, [`SAVED_SIZE`], whatever stands in the judge, and mean the same on every
//! machine. The digest at their end tells bytes that were cut or altered by mistake; it is no seal:
//! whoever wants to can make bytes that are accepted.
//!
//! ```
//! use bellbadger::{patterns::rule_file, Judge, Refused};
//!
//! let mut judge = Judge::new();
//! let _loaded = judge.load(&rule_file(b"ab")?)?;
//! judge.open(2)?;
//! let _looked = judge.deliver(0, 0, &[0])?;
//! let bytes = judge.save();
//! // later, elsewhere
//! let mut judge = Judge::restore(&bytes)?;
//! let _looked = judge.deliver(1, 0, &[1])?;
//! assert!(judge.verdict()?.is_yes());
//! assert_eq!(Judge::restore(&bytes[1..]).unwrap_err().number(), 46);
//! # Ok::<(), Refused>(())
//! ```
use crate::raw::{RawChange, RawJudge};
use crate::{accepted, fits, Judge, Refused};

/// How many bytes a saved judge has.
///
/// ```
/// use bellbadger::{saved::SAVED_SIZE, Judge};
/// assert_eq!(Judge::new().save().len(), SAVED_SIZE);
/// ```
pub const SAVED_SIZE: usize = 27838;

#[repr(C)]
struct RawSaved {
    bytes: [u8; SAVED_SIZE],
}

const _: () = assert!(std::mem::size_of::<RawSaved>() == SAVED_SIZE);

extern "C" {
    fn bellbadger_save(judge: RawJudge) -> RawSaved;
    fn bellbadger_restore(bytes: *const u8, length: usize) -> RawChange;
}

impl Judge {
    /// The judge as bytes, [`SAVED_SIZE`] of them: the rule, the board, and what stands at each place. It
    /// refuses nothing.
    ///
    /// ```
    /// use bellbadger::Judge;
    /// assert_eq!(&Judge::new().save()[..4], b"BBJ\x01");
    /// ```
    #[must_use]
    pub fn save(&self) -> Vec<u8> {
        // SAFETY: plain numbers.
        unsafe { bellbadger_save(*self.0) }.bytes.to_vec()
    }

    /// The judge that was saved as the bytes, which may be any: calls on it are answered as on the one
    /// that was saved.
    ///
    /// # Errors
    /// 46 the saved judge is cut, altered or of another version.
    ///
    /// ```
    /// use bellbadger::Judge;
    /// let mut bytes = Judge::new().save();
    /// assert!(Judge::restore(&bytes).is_ok());
    /// bytes[3] = 2;
    /// assert_eq!(Judge::restore(&bytes).unwrap_err().number(), 46);
    /// ```
    ///
    /// # Panics
    /// Where the library that is linked has another version or state than this wrapper was written for.
    pub fn restore(bytes: &[u8]) -> Result<Judge, Refused> {
        fits();
        // SAFETY: the pointer leads to so many bytes, which are only read.
        let r = unsafe { bellbadger_restore(bytes.as_ptr(), bytes.len()) };
        accepted(r.accepted, r.refused)?;
        Ok(Judge(Box::new(r.judge)))
    }
}
