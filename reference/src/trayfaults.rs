//! Where a tray goes wrong: rows and columns are cut out of the bands that stand, and each text that the words
//! speak of is looked at anew. And lists of a tray's calls by chance, with the fault after each.

use crate::automata::{automaton, file};
use crate::losses::continued;
use crate::random::Random;
use crate::lines::hex;
use crate::trays::{accepts, small, Board, Tray};

#[derive(Clone, Copy, Debug, PartialEq)]
pub enum Fault {
    /// The first standing row, by band and then row, that the row rule does not accept.
    Row(usize, usize),
    /// The first column that is lost over the bands before the first empty one, with the band and the row by
    /// which it is: what stands there cannot be continued to a text that the column rule accepts.
    Column(usize, usize, usize),
    /// All bands stand, and this is the first column that is not accepted though it could go on.
    Short(usize),
    /// None of these; so many bands stand before the first empty one.
    Open(usize),
}

/// The rows of bands, each with its band and its number there.
fn rows_of<'a>(board: &Board, bands: impl Iterator<Item = &'a Option<Vec<u8>>>) -> Vec<(usize, usize, &'a [u8])> {
    let mut rows = Vec::new();
    for (band, events) in bands.enumerate() {
        let events = events.as_deref().unwrap_or_default();
        rows.extend(events.chunks(board.width).enumerate().map(|(row, events)| (band, row, events)));
    }
    rows
}

impl Tray {
    /// 21 where no board is open.
    pub fn fault(&self) -> Result<Fault, u32> {
        let (Some(board), Some(by_row), Some(by_column)) = (&self.board, &self.row, &self.column) else { return Err(21) };
        let standing = rows_of(board, board.bands.iter());
        if let Some(&(band, row, _)) = standing.iter().find(|(_, _, events)| !accepts(by_row, events)) {
            return Ok(Fault::Row(band, row));
        }
        if !continued(&by_column.automaton, &[]) {
            return Ok(Fault::Column(0, 0, 0));
        }
        let before = board.bands.iter().take_while(|band| band.is_some()).count();
        let rows = rows_of(board, board.bands.iter().take(before));
        let column = |c: usize, count: usize| -> Vec<u8> { rows[..count].iter().map(|(_, _, events)| events[c]).collect() };
        for c in 0..board.width {
            for (at, &(band, row, _)) in rows.iter().enumerate() {
                if !continued(&by_column.automaton, &column(c, at + 1)) {
                    return Ok(Fault::Column(c, band, row));
                }
            }
        }
        let stopped = (0..board.width).find(|&c| !accepts(by_column, &column(c, rows.len())));
        Ok(match stopped {
            Some(c) if before == board.bands.len() => Fault::Short(c),
            _ => Fault::Open(before),
        })
    }

    /// Rows for a band: mostly such that each is accepted and no column is lost behind the bands that stand before.
    fn likely_rows(&self, r: &mut Random, band: usize) -> Vec<u8> {
        let (Some(board), Some(by_row), Some(by_column)) = (&self.board, &self.row, &self.column) else { return vec![0] };
        let before = board.bands.iter().take(band).flatten().flatten().copied();
        let (mut came, mut events): (Vec<u8>, Vec<u8>) = (before.collect(), Vec::new());
        let k = by_row.automaton.k.min(by_column.automaton.k);
        let careless = r.pick(&[2, 8, 100]);
        for _ in 0..if r.one_in(12) { r.range(5, 64) } else { r.below(5) } {
            let mut row = Vec::new();
            for _ in 0..10 {
                row = (0..board.width).map(|_| r.below(k) as u8).collect();
                let goes_on = |c: usize| {
                    let column = came.iter().skip(c).step_by(board.width).copied().chain([row[c]]);
                    continued(&by_column.automaton, &column.collect::<Vec<u8>>())
                };
                if r.one_in(careless) || accepts(by_row, &row) && (0..board.width).all(goes_on) { break; }
            }
            came.extend(&row);
            events.extend(row);
        }
        events
    }
}

/// A fault in words.
fn said(fault: Result<Fault, u32>) -> String {
    match fault {
        Err(number) => format!("refused {number}"),
        Ok(Fault::Row(band, row)) => format!("row {band} {row}"),
        Ok(Fault::Column(column, band, row)) => format!("column {column} {band} {row}"),
        Ok(Fault::Short(column)) => format!("short {column}"),
        Ok(Fault::Open(bands)) => format!("open {bands}"),
    }
}

/// A line that installs a rule, mostly a small one; for the columns mostly with few final states, so that some
/// stop too early.
fn installation(r: &mut Random, word: &str) -> String {
    let mut a = if r.one_in(6) { automaton(r) } else { small(r) };
    if word == "column" && r.one_in(2) {
        a.finals = 1 << r.below(a.n);
    }
    format!("{word} {}", hex(&file(&a)))
}

/// A line for a board of so many bands, or one that opens it where there is none: mostly one that is accepted.
fn next_call(r: &mut Random, tray: &Tray, opening: &str, bands: usize) -> String {
    let Some(board) = &tray.board else { return opening.to_string() };
    let (filled, empty): (Vec<usize>, Vec<usize>) = (0..bands).partition(|&band| board.bands[band].is_some());
    let one_of = |r: &mut Random, these: &[usize]| match these {
        these if !these.is_empty() && !r.one_in(12) => r.pick(these),
        _ => r.below(bands),
    };
    match r.below(40) {
        0 => installation(r, "row"),
        1 => installation(r, "column"),
        2 => opening.to_string(),
        3..=8 => format!("withdraw {}", one_of(r, &filled)),
        _ => {
            let band = one_of(r, &empty);
            format!("deliver {band} {}", hex(&tray.likely_rows(r, band)))
        }
    }
}

/// Lists of a tray's calls under a seed, each line as `trayjudge` has it; behind a tab what it is answered, and
/// behind another the fault after it. An empty line begins a fresh tray.
pub fn lists(seed: u64, count: u64) -> String {
    let mut lines = String::new();
    for stream in 0..count {
        let mut r = Random::new(seed, stream);
        let mut tray = Tray::default();
        let (widest, most) = (r.pick(&[4, 4, 4, 16]), r.pick(&[4, 4, 4, 8]));
        let (width, bands) = (r.range(1, widest), r.range(1, most));
        let opening = format!("open {width} {bands}");
        let mut first = vec![installation(&mut r, "column"), installation(&mut r, "row")];
        lines += "\n";
        for _ in 0..3 + 3 * bands {
            let call = first.pop().unwrap_or_else(|| next_call(&mut r, &tray, &opening, bands));
            let answer = tray.said(call.as_bytes()).expect("a call");
            lines += &format!("{call}\t{answer}\t{}\n", said(tray.fault()));
        }
    }
    lines
}
