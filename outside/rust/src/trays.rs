//! A tray: rows of 1 to 16 events, each judged by one rule, and each column of them by another.
//!
//! Rows arrive in up to 8 bands of 0 to 64 whole rows, in any order. The verdict is yes exactly when
//! every row and every column, from the first row of the first band to the last of the last, is accepted;
//! it has no count. With no rows at all each column is the empty text.
//!
//! ```
//! use bellbadger::read;
//! use bellbadger::trays::{Tray, TrayRefused, TrayVerdict};
//!
//! let ends_in_0_1 = read(&[
//!     3, 2, 1, 0, 0, 0, 4, 0, 0, 0, 22, 0, 6, 0, 28, 0, 2, 0, 30, 0, 0, 0, 0, 0, 0, 1, 1, 0, 1, 2,
//! ])?;
//! let even_0s = read(&[
//!     2, 2, 1, 0, 0, 0, 1, 0, 0, 0, 18, 0, 4, 0, 22, 0, 4, 0, 0, 1, 1, 0, 0, 0, 1, 1,
//! ])?;
//! let mut tray = Tray::new();
//! let loaded = tray.install_row(&ends_in_0_1)?;
//! assert_eq!((loaded.sets, loaded.starts), (5, 3));
//! let _loaded = tray.install_column(&even_0s)?;
//! tray.open(2, 2)?; // rows of two events, in two bands
//! tray.deliver(1, &[0, 1, 1, 1])?; // two rows; 1 1 does not end in 0 1
//! assert_eq!(tray.verdict()?, TrayVerdict::Waiting(1));
//! tray.deliver(0, &[0, 1])?;
//! assert_eq!(tray.verdict()?, TrayVerdict::No);
//! tray.withdraw(1)?;
//! tray.deliver(1, &[0, 1])?;
//! assert_eq!(tray.verdict()?, TrayVerdict::Yes); // the columns are 0 0 and 1 1
//! # Ok::<(), TrayRefused>(())
//! ```
//!
//! Where a tray goes wrong is reported while bands are still missing too ([`Tray::fault`]).
use crate::{fits, CheckedRule, Loaded, Refused};
use std::error::Error;
use std::fmt;

/// What is to be said of a tray.
///
/// ```
/// use bellbadger::{patterns::rule_file, read, trays::{Tray, TrayVerdict}};
/// let rule = read(&rule_file(b"(a|b)*")?)?;
/// let mut tray = Tray::new();
/// let (_row, _column) = (tray.install_row(&rule)?, tray.install_column(&rule)?);
/// tray.open(2, 1)?;
/// assert_eq!(tray.verdict()?, TrayVerdict::Waiting(1));
/// # Ok::<(), bellbadger::trays::TrayRefused>(())
/// ```
#[derive(Clone, Copy, Debug, PartialEq, Eq)]
#[must_use]
pub enum TrayVerdict {
    /// So many bands are empty.
    Waiting(u8),
    /// Every row and every column is accepted.
    Yes,
    /// Some row or some column is not.
    No,
}

impl TrayVerdict {
    /// Whether every row and every column is accepted: not where bands are empty. That there is a
    /// verdict, `Ok(..)`, says nothing of that.
    ///
    /// ```
    /// # use bellbadger::trays::TrayVerdict;
    /// assert!(TrayVerdict::Yes.is_yes());
    /// assert!(!TrayVerdict::No.is_yes() && !TrayVerdict::Waiting(1).is_yes());
    /// ```
    ///
    /// Asking is not enough; an answer that is dropped is reported by the compiler:
    ///
    /// ```compile_fail
    /// #![deny(unused_must_use)]
    /// bellbadger::trays::TrayVerdict::Yes.is_yes();
    /// ```
    #[must_use]
    pub fn is_yes(&self) -> bool {
        matches!(self, TrayVerdict::Yes)
    }
}

/// Where a tray goes wrong, or how far it is right.
///
/// Rows and columns are counted from 0, a row from the first of its band on. No band that is delivered later
/// mends a row or a lost column. None is a yes: a tray that is open may go wrong by the next band. Whether to
/// ship is for [`Tray::verdict`] to say, which over a full board is yes exactly where this is `Open`.
///
/// ```
/// use bellbadger::{patterns::rule_file, read, trays::{Fault, Tray}};
/// let rule = read(&rule_file(b"(a|b)*")?)?;
/// let mut tray = Tray::new();
/// let (_row, _column) = (tray.install_row(&rule)?, tray.install_column(&rule)?);
/// tray.open(2, 1)?;
/// tray.deliver(0, &[0, 2])?; // c is an event, and no part of the rule
/// assert_eq!(tray.fault()?, Fault::Row { band: 0, row: 0 });
/// # Ok::<(), bellbadger::trays::TrayRefused>(())
/// ```
#[derive(Clone, Copy, Debug, PartialEq, Eq, Hash)]
#[must_use]
pub enum Fault {
    /// The first standing row that the row rule does not accept, also behind an empty band.
    Row {
        /// The band in which it stands.
        band: usize,
        /// Which row of the band it is.
        row: usize,
    },
    /// No row is wrong, and this is the first column that is lost over the bands before the first empty one:
    /// its events there cannot be continued by any others to a text that the column rule accepts. Of a column
    /// rule that accepts nothing all three are 0, whatever stands.
    Column {
        /// The column.
        column: usize,
        /// The band with the row by which it is lost.
        band: usize,
        /// Which row of the band that is.
        row: usize,
    },
    /// All bands stand, no row is wrong and no column lost, and this is the first column that stopped too
    /// early: it is not accepted, though it could go on.
    Short {
        /// The column.
        column: usize,
    },
    /// Nothing is wrong so far.
    Open {
        /// How many bands stand before the first empty one.
        bands: usize,
    },
}

/// A call of a tray was refused; the tray is as it was.
///
/// ```
/// # use bellbadger::trays::Tray;
/// let refused = Tray::new().open(1, 1).unwrap_err();
/// assert_eq!(refused.to_string(), "refused 20: the row rule or the column rule is not there");
/// ```
#[derive(Clone, Copy, Debug, PartialEq, Eq, Hash)]
#[must_use]
pub struct TrayRefused(Refused);

impl TrayRefused {
    /// Why, by the same numbers as [`Refused::number`].
    ///
    /// ```
    /// assert_eq!(bellbadger::trays::Tray::new().withdraw(0).unwrap_err().number(), 21);
    /// ```
    #[must_use]
    pub fn number(self) -> u8 {
        self.0.number()
    }

    fn reason(self) -> &'static str {
        match self.number() {
            10 => "the number of bands is not in 1..8",
            11 => "the board has no such band",
            13 => "a byte is no symbol of the row rule, or none of the column rule",
            20 => "the row rule or the column rule is not there",
            22 => "the band is filled",
            23 => "the band is empty",
            _ => self.0.reason(),
        }
    }
}

impl fmt::Display for TrayRefused {
    fn fmt(&self, f: &mut fmt::Formatter<'_>) -> fmt::Result {
        write!(f, "refused {}: {}", self.number(), self.reason())
    }
}

impl Error for TrayRefused {}

/// So that a rule can be read and installed with `?` alike.
impl From<Refused> for TrayRefused {
    fn from(refused: Refused) -> Self {
        TrayRefused(refused)
    }
}

/// A row rule, a column rule and a board of bands.
///
/// ```
/// use bellbadger::{patterns::rule_file, read, trays::Tray};
/// let rule = read(&rule_file(b"(a|b)*")?)?;
/// let mut tray = Tray::new();
/// let (_row, _column) = (tray.install_row(&rule)?, tray.install_column(&rule)?);
/// tray.open(2, 1)?;
/// tray.deliver(0, &[0, 1])?;
/// assert!(tray.verdict()?.is_yes());
/// # Ok::<(), bellbadger::trays::TrayRefused>(())
/// ```
#[derive(Clone, PartialEq, Eq)]
pub struct Tray(Box<RawTray>);

#[repr(C)]
#[derive(Clone, Copy, PartialEq, Eq)]
struct RawBoard {
    width: u8,
    bands: u8,
    filled: [u8; 8],
    rows: [u8; 8],
    cells: [u8; 8192],
}

#[repr(C)]
#[derive(Clone, Copy, PartialEq, Eq)]
struct RawTray {
    row: CheckedRule,
    column: CheckedRule,
    board: RawBoard,
}

#[repr(C)]
struct RawInstall {
    accepted: u8,
    refused: u8,
    sets: u16,
    starts: u8,
    tray: RawTray,
}

/// Of an opening, a delivery and a withdrawal.
#[repr(C)]
struct RawChange {
    accepted: u8,
    refused: u8,
    tray: RawTray,
}

#[repr(C)]
struct RawVerdict {
    kind: u8,
    number: u8,
}

#[repr(C)]
struct RawFault {
    kind: u8,
    number: u8,
    column: u8,
    band: u8,
    row: u8,
}

/// What a fault is; the rest: a refusal.
const OPEN: u8 = 6;
const FAULT_ROW: u8 = 7;
const FAULT_COLUMN: u8 = 8;
const FAULT_SHORT: u8 = 9;

/// As the C header has it; outside/c/test_trays.c reads every field of it.
const TRAY_SIZE: usize = 12332;
const _: () = assert!(std::mem::size_of::<RawTray>() == TRAY_SIZE);
const _: () = assert!(std::mem::size_of::<RawInstall>() == TRAY_SIZE + 8);
const _: () = assert!(std::mem::size_of::<RawChange>() == TRAY_SIZE + 4);
const _: () = assert!(std::mem::size_of::<RawFault>() == 5);

extern "C" {
    fn bellbadger_tray_size() -> usize;
    fn bellbadger_tray_new() -> RawTray;
    fn bellbadger_tray_install_row(tray: RawTray, rule: CheckedRule) -> RawInstall;
    fn bellbadger_tray_install_column(tray: RawTray, rule: CheckedRule) -> RawInstall;
    fn bellbadger_tray_open(tray: RawTray, width: usize, bands: usize) -> RawChange;
    fn bellbadger_tray_deliver(
        tray: RawTray,
        band: usize,
        rows: *const u8,
        length: usize,
    ) -> RawChange;
    fn bellbadger_tray_withdraw(tray: RawTray, band: usize) -> RawChange;
    fn bellbadger_tray_verdict(tray: RawTray) -> RawVerdict;
    fn bellbadger_tray_fault(tray: RawTray) -> RawFault;
}

impl Default for Tray {
    fn default() -> Self {
        Tray::new()
    }
}

impl Tray {
    /// A tray with no rules and no board.
    ///
    /// ```
    /// # use bellbadger::trays::Tray;
    /// assert_eq!(Tray::new().verdict().unwrap_err().number(), 21);
    /// ```
    ///
    /// # Panics
    /// Where the library that is linked has another version or tray than this wrapper was written for.
    #[must_use]
    pub fn new() -> Tray {
        fits();
        // SAFETY: the function takes nothing and returns a number.
        let size = unsafe { bellbadger_tray_size() };
        assert_eq!(
            size, TRAY_SIZE,
            "libbellbadger.a has another tray than this wrapper"
        );
        // SAFETY: the function takes nothing and returns plain numbers.
        Tray(Box::new(unsafe { bellbadger_tray_new() }))
    }

    /// Checks and builds a rule for the rows, whatever stands in it; accepted, it replaces the former one
    /// and removes the board.
    ///
    /// # Errors
    /// 3, 4, 6, 8, 9 as [`Judge::install`](crate::Judge::install) has them.
    ///
    /// ```
    /// use bellbadger::{patterns::rule_file, read, trays::Tray};
    /// let rule = read(&rule_file(b"(a|b)*")?)?;
    /// let mut tray = Tray::new();
    /// assert_eq!(tray.install_row(&rule)?.starts, 1);
    /// # Ok::<(), bellbadger::trays::TrayRefused>(())
    /// ```
    pub fn install_row(&mut self, rule: &CheckedRule) -> Result<Loaded, TrayRefused> {
        // SAFETY: plain numbers.
        let r = unsafe { bellbadger_tray_install_row(*self.0, *rule) };
        self.loaded(&r)
    }

    /// The same for the columns.
    ///
    /// # Errors
    /// 3, 4, 6, 8, 9 as [`Judge::install`](crate::Judge::install) has them.
    ///
    /// ```
    /// use bellbadger::{patterns::rule_file, read, trays::Tray};
    /// let rule = read(&rule_file(b"(a|b)*")?)?;
    /// let mut tray = Tray::new();
    /// assert_eq!(tray.install_column(&rule)?.starts, 1);
    /// # Ok::<(), bellbadger::trays::TrayRefused>(())
    /// ```
    pub fn install_column(&mut self, rule: &CheckedRule) -> Result<Loaded, TrayRefused> {
        // SAFETY: plain numbers.
        let r = unsafe { bellbadger_tray_install_column(*self.0, *rule) };
        self.loaded(&r)
    }

    /// A board of that many empty bands, for rows of that width; an earlier one is dropped.
    ///
    /// # Errors
    /// 20 (either rule is absent), 38 (the width is not in 1..16), 10 (the number of bands is not in 1..8).
    ///
    /// ```
    /// use bellbadger::{patterns::rule_file, read, trays::Tray};
    /// let rule = read(&rule_file(b"(a|b)*")?)?;
    /// let mut tray = Tray::new();
    /// let (_row, _column) = (tray.install_row(&rule)?, tray.install_column(&rule)?);
    /// tray.open(16, 8)?;
    /// assert_eq!(tray.open(17, 8).unwrap_err().number(), 38);
    /// # Ok::<(), bellbadger::trays::TrayRefused>(())
    /// ```
    pub fn open(&mut self, width: usize, bands: usize) -> Result<(), TrayRefused> {
        // SAFETY: plain numbers.
        let r = unsafe { bellbadger_tray_open(*self.0, width, bands) };
        self.changed(&r)
    }

    /// Keeps rows, one behind the other, as a band; there may be none. Bands are counted from 0. There are
    /// no idle marks.
    ///
    /// # Errors
    /// 21 (no board is open), 11 (no such band), 39 (no whole rows, or over 64), 13 (a byte is no symbol
    /// of the row rule, or none of the column rule), 22 (the band is filled).
    ///
    /// ```
    /// use bellbadger::{patterns::rule_file, read, trays::Tray};
    /// let rule = read(&rule_file(b"(a|b)*")?)?;
    /// let mut tray = Tray::new();
    /// let (_row, _column) = (tray.install_row(&rule)?, tray.install_column(&rule)?);
    /// tray.open(2, 1)?;
    /// assert_eq!(tray.deliver(0, &[0]).unwrap_err().number(), 39); // half a row
    /// tray.deliver(0, &[0, 1, 1, 0])?;
    /// # Ok::<(), bellbadger::trays::TrayRefused>(())
    /// ```
    pub fn deliver(&mut self, band: usize, rows: &[u8]) -> Result<(), TrayRefused> {
        // SAFETY: the pointer leads to as many bytes as the length says, and they are only read.
        let r = unsafe { bellbadger_tray_deliver(*self.0, band, rows.as_ptr(), rows.len()) };
        self.changed(&r)
    }

    /// Empties a band.
    ///
    /// # Errors
    /// 21 (no board is open), 11 (no such band), 23 (the band is empty).
    ///
    /// ```
    /// use bellbadger::{patterns::rule_file, read, trays::Tray};
    /// let rule = read(&rule_file(b"(a|b)*")?)?;
    /// let mut tray = Tray::new();
    /// let (_row, _column) = (tray.install_row(&rule)?, tray.install_column(&rule)?);
    /// tray.open(2, 1)?;
    /// tray.deliver(0, &[0, 1])?;
    /// tray.withdraw(0)?;
    /// assert_eq!(tray.withdraw(0).unwrap_err().number(), 23);
    /// # Ok::<(), bellbadger::trays::TrayRefused>(())
    /// ```
    pub fn withdraw(&mut self, band: usize) -> Result<(), TrayRefused> {
        // SAFETY: plain numbers.
        let r = unsafe { bellbadger_tray_withdraw(*self.0, band) };
        self.changed(&r)
    }

    /// Waiting, yes or no; changes nothing.
    ///
    /// # Errors
    /// 21 (no board is open).
    ///
    /// ```
    /// use bellbadger::{patterns::rule_file, read, trays::Tray};
    /// let rule = read(&rule_file(b"(a|b)*")?)?;
    /// let mut tray = Tray::new();
    /// let (_row, _column) = (tray.install_row(&rule)?, tray.install_column(&rule)?);
    /// assert_eq!(tray.verdict().unwrap_err().number(), 21);
    /// tray.open(2, 1)?;
    /// tray.deliver(0, &[])?; // no rows: each column is the empty text
    /// assert!(tray.verdict()?.is_yes());
    /// # Ok::<(), bellbadger::trays::TrayRefused>(())
    /// ```
    pub fn verdict(&self) -> Result<TrayVerdict, TrayRefused> {
        // SAFETY: plain numbers.
        let r = unsafe { bellbadger_tray_verdict(*self.0) };
        match r.kind {
            crate::raw::WAITING => Ok(TrayVerdict::Waiting(r.number)),
            crate::raw::YES => Ok(TrayVerdict::Yes),
            crate::raw::NO => Ok(TrayVerdict::No),
            _ => Err(TrayRefused(Refused::new(r.number))),
        }
    }

    /// Where the tray goes wrong, while bands are still missing too; changes nothing.
    ///
    /// # Errors
    /// 21 (no board is open).
    ///
    /// ```
    /// # use bellbadger::read;
    /// use bellbadger::trays::{Fault, Tray, TrayRefused};
    ///
    /// # let ends_in_0_1 = read(&[
    /// #     3, 2, 1, 0, 0, 0, 4, 0, 0, 0, 22, 0, 6, 0, 28, 0, 2, 0, 30, 0, 0, 0, 0, 0, 0, 1, 1, 0, 1, 2,
    /// # ])?;
    /// // It accepts 0, 0 1 0, 0 1 0 1 0 and so on.
    /// let in_turn = read(&[
    ///     3, 2, 1, 0, 0, 0, 2, 0, 0, 0, 22, 0, 4, 0, 26, 0, 4, 0, 30, 0, 4, 0, 0, 1, 1, 2, 0, 2, 1, 0, 0,
    ///     2, 1, 2,
    /// ])?;
    /// let mut tray = Tray::new();
    /// let _loaded = tray.install_row(&ends_in_0_1)?;
    /// let _loaded = tray.install_column(&in_turn)?;
    /// tray.open(2, 3)?;
    /// tray.deliver(2, &[0, 1, 1, 1])?; // 1 1 does not end in 0 1
    /// assert_eq!(tray.fault()?, Fault::Row { band: 2, row: 1 });
    /// tray.withdraw(2)?;
    /// assert_eq!(tray.fault()?, Fault::Open { bands: 0 });
    /// tray.deliver(0, &[0, 1])?; // the second column cannot begin with 1
    /// assert_eq!(tray.fault()?, Fault::Column { column: 1, band: 0, row: 0 });
    /// # Ok::<(), TrayRefused>(())
    /// ```
    pub fn fault(&self) -> Result<Fault, TrayRefused> {
        // SAFETY: plain numbers.
        let r = unsafe { bellbadger_tray_fault(*self.0) };
        let [number, column, band, row] = [r.number, r.column, r.band, r.row].map(usize::from);
        match r.kind {
            OPEN => Ok(Fault::Open { bands: number }),
            FAULT_ROW => Ok(Fault::Row { band, row }),
            FAULT_COLUMN => Ok(Fault::Column { column, band, row }),
            FAULT_SHORT => Ok(Fault::Short { column }),
            _ => Err(TrayRefused(Refused::new(r.number))),
        }
    }

    fn loaded(&mut self, r: &RawInstall) -> Result<Loaded, TrayRefused> {
        *self.0 = r.tray;
        let (sets, starts) = (r.sets, r.starts);
        accepted(r.accepted, r.refused).map(|()| Loaded { sets, starts })
    }

    fn changed(&mut self, r: &RawChange) -> Result<(), TrayRefused> {
        *self.0 = r.tray;
        accepted(r.accepted, r.refused)
    }
}

fn accepted(accepted: u8, refused: u8) -> Result<(), TrayRefused> {
    Ok(crate::accepted(accepted, refused)?)
}

/// The states of its rules and the sizes of its board; 0 states: no such rule, 0 bands: no board.
impl fmt::Debug for Tray {
    fn fmt(&self, f: &mut fmt::Formatter<'_>) -> fmt::Result {
        let RawTray { row, column, board } = &*self.0;
        f.debug_struct("Tray")
            .field("row_states", &row.n)
            .field("column_states", &column.n)
            .field("width", &board.width)
            .field("bands", &board.bands)
            .field("filled", &board.filled.iter().filter(|&&x| x != 0).count())
            .finish_non_exhaustive()
    }
}
