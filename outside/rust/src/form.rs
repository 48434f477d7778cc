//! The failure form of a rule's next-set table: a smaller table for a nozzle board.
//!
//! ```
//! use bellbadger::{form, patterns::rule_file, Judge};
//!
//! let mut judge = Judge::new();
//! let _loaded = judge.load(&rule_file(b"(ab)*")?)?;
//! let small = form::form(&judge)?;
//! assert!(small.kept_cells() < 16 * usize::from(small.sets));
//! # Ok::<(), bellbadger::Refused>(())
//! ```
use crate::raw::RawJudge;
use crate::{accepted, fits, Judge, Refused};
use std::fmt;

/// What stands in a cell for the empty set. It is no set.
///
/// ```
/// use bellbadger::{form::{form, table, EMPTY_SET}, patterns::rule_file, Judge};
/// let mut judge = Judge::new();
/// let _loaded = judge.load(&rule_file(b"ab")?)?;
/// assert_eq!(table(&*form(&judge)?)?.next[1], EMPTY_SET); // b cannot begin
/// # Ok::<(), bellbadger::Refused>(())
/// ```
pub const EMPTY_SET: u16 = 512;

/// A next-set table in which a cell that is equal to that of a lower-numbered set, the failure set, is left
/// out and looked up there.
///
/// Any numbers may stand in one that is made by hand: it is checked by [`table`].
///
/// ```
/// use bellbadger::{form::form, patterns::rule_file, Judge};
/// let mut judge = Judge::new();
/// let _loaded = judge.load(&rule_file(b"ab")?)?;
/// let small = form(&judge)?;
/// assert_eq!((small.sets, small.symbols, small.kept[0]), (3, 16, 0xFFFF));
/// # Ok::<(), bellbadger::Refused>(())
/// ```
#[repr(C)]
#[derive(Clone, Copy, PartialEq, Eq)]
pub struct Form {
    /// The number of sets, 1 to 512.
    pub sets: u16,
    /// The number of symbols, 1 to 16.
    pub symbols: u8,
    /// For each set its failure set, which is below it; that of set 0 is not read.
    pub failure: [u16; 512],
    /// For each set the mask of its kept cells, bit s for symbol s. Set 0 keeps all.
    pub kept: [u16; 512],
    /// The kept cells, packed by set and symbol, [`EMPTY_SET`] for an empty one; the rest is not read.
    pub cells: [u16; 8192],
}

/// A next-set table as a built rule has it.
///
/// ```
/// use bellbadger::{form::{form, table}, patterns::rule_file, Judge};
/// let mut judge = Judge::new();
/// let _loaded = judge.load(&rule_file(b"ab")?)?;
/// let whole = table(&*form(&judge)?)?;
/// assert_eq!((whole.sets, whole.symbols), (3, 16));
/// # Ok::<(), bellbadger::Refused>(())
/// ```
#[repr(C)]
#[derive(Clone, Copy, PartialEq, Eq)]
pub struct Table {
    /// The number of sets, 1 to 512.
    pub sets: u16,
    /// The number of symbols, 1 to 16.
    pub symbols: u8,
    /// The cell of set t and symbol s at t × 16 + s: a set, or [`EMPTY_SET`], which also stands where
    /// there is no set or no symbol.
    pub next: [u16; 8192],
}

impl Form {
    /// How many cells are kept.
    ///
    /// ```
    /// use bellbadger::{form::form, patterns::rule_file, Judge};
    /// let mut judge = Judge::new();
    /// let _loaded = judge.load(&rule_file(b"ab")?)?;
    /// assert_eq!(form(&judge)?.kept_cells(), 19); // of 48: 16 of set 0, and what differs from it
    /// # Ok::<(), bellbadger::Refused>(())
    /// ```
    #[must_use]
    pub fn kept_cells(&self) -> usize {
        let sets = usize::from(self.sets).min(512);
        let count = |mask: &u16| mask.count_ones() as usize;
        self.kept[..sets].iter().map(count).sum()
    }
}

/// The sizes.
impl fmt::Debug for Form {
    fn fmt(&self, f: &mut fmt::Formatter<'_>) -> fmt::Result {
        f.debug_struct("Form")
            .field("sets", &self.sets)
            .field("symbols", &self.symbols)
            .field("kept_cells", &self.kept_cells())
            .finish_non_exhaustive()
    }
}

/// The sizes.
impl fmt::Debug for Table {
    fn fmt(&self, f: &mut fmt::Formatter<'_>) -> fmt::Result {
        f.debug_struct("Table")
            .field("sets", &self.sets)
            .field("symbols", &self.symbols)
            .finish_non_exhaustive()
    }
}

#[repr(C)]
struct RawForm {
    accepted: u8,
    refused: u8,
    form: Form,
}

#[repr(C)]
struct RawTable {
    accepted: u8,
    refused: u8,
    table: Table,
}

const _: () = assert!(std::mem::size_of::<RawForm>() == 18438);
const _: () = assert!(std::mem::size_of::<RawTable>() == 16390);

extern "C" {
    fn bellbadger_form(judge: RawJudge) -> RawForm;
    fn bellbadger_form_back(form: Form) -> RawTable;
}

/// The failure form of the judge's next-set table.
///
/// The failure set of a set above 0 is, of the lower-numbered sets, the one with most equal cells, empty
/// ones too, and of several the lowest; exactly the equal cells are left out. Set 0 keeps all.
///
/// # Errors
/// 20 (no rule is there).
///
/// ```
/// use bellbadger::form::{form, table, EMPTY_SET};
/// use bellbadger::{Judge, Refused};
///
/// let mut judge = Judge::new();
/// assert_eq!(form(&judge).unwrap_err().number(), 20);
/// let _loaded = judge.load(&[
///     3, 2, 1, 0, 0, 0, 4, 0, 0, 0, 22, 0, 6, 0, 28, 0, 2, 0, 30, 0, 0, 0, 0, 0, 0, 1, 1, 0, 1, 2,
/// ])?;
/// let mut small = form(&judge)?;
/// assert_eq!(small.failure[..5], [0, 0, 0, 0, 3]);
/// assert_eq!(small.kept[..5], [3, 2, 0, 3, 2]);
/// assert_eq!(small.cells[..6], [1, 0, 2, EMPTY_SET, 4, EMPTY_SET]);
/// assert_eq!(table(&small)?.next[16..18], [1, 2]);
/// small.failure[4] = 4;
/// assert_eq!(table(&small).unwrap_err().to_string(), "refused 40: not a valid form");
/// # Ok::<(), Refused>(())
/// ```
pub fn form(judge: &Judge) -> Result<Box<Form>, Refused> {
    // SAFETY: plain numbers.
    let r = unsafe { bellbadger_form(*judge.0) };
    accepted(r.accepted, r.refused).map(|()| Box::new(r.form))
}

/// The table of a form, whatever stands in it; of one that [`form`] made, the judge's own table.
///
/// # Errors
/// 40: there are not 1 to 512 sets and 1 to 16 symbols, a set above 0 has a failure set that is not below
/// it, a cell of set 0 is left out, a mask has a bit for no symbol, or a kept cell names a set that there
/// is not.
///
/// # Panics
/// Where the library that is linked has another version or state than this wrapper was written for.
///
/// ```
/// use bellbadger::{form::{form, table}, patterns::rule_file, Judge};
/// let mut judge = Judge::new();
/// let _loaded = judge.load(&rule_file(b"ab")?)?;
/// let mut small = form(&judge)?;
/// assert_eq!(table(&small)?.next[0], 1);
/// small.sets = 0;
/// assert_eq!(table(&small).unwrap_err().number(), 40);
/// # Ok::<(), bellbadger::Refused>(())
/// ```
pub fn table(form: &Form) -> Result<Box<Table>, Refused> {
    fits();
    // SAFETY: plain numbers.
    let r = unsafe { bellbadger_form_back(*form) };
    accepted(r.accepted, r.refused).map(|()| Box::new(r.table))
}
