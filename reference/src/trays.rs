//! Trays: rows judged by one rule and columns by another; the lines of `trayjudge`, and lists of them by
//! chance. The bands keep their bytes; rows and columns are cut out of them whenever a verdict is due.

use crate::automata::{all_states, automaton, blank, file};
use crate::lines::{answers_by, bytes, hex, number};
use crate::random::Random;
use crate::rule::{Automaton, Rule};

pub(crate) struct Board {
    pub(crate) width: usize,
    pub(crate) bands: Vec<Option<Vec<u8>>>,
}

#[derive(Default)]
pub struct Tray {
    pub(crate) row: Option<Rule>,
    pub(crate) column: Option<Rule>,
    pub(crate) board: Option<Board>,
}

pub(crate) fn accepts(rule: &Rule, text: &[u8]) -> bool {
    rule.automaton.accepts_from(rule.automaton.initial, text)
}

fn installed(rule: &Rule) -> String {
    format!("accepted {} {}", rule.sets.len(), rule.starts().len())
}

impl Tray {
    fn row(&mut self, file: &[u8]) -> Result<String, u32> {
        let rule = Rule::load(file)?;
        let answer = installed(&rule);
        (self.row, self.board) = (Some(rule), None);
        Ok(answer)
    }

    fn column(&mut self, file: &[u8]) -> Result<String, u32> {
        let rule = Rule::load(file)?;
        let answer = installed(&rule);
        (self.column, self.board) = (Some(rule), None);
        Ok(answer)
    }

    fn open(&mut self, width: u64, bands: u64) -> Result<String, u32> {
        if self.row.is_none() || self.column.is_none() { return Err(20); }
        if !(1..=16).contains(&width) { return Err(38); }
        if !(1..=8).contains(&bands) { return Err(10); }
        self.board = Some(Board { width: width as usize, bands: vec![None; bands as usize] });
        Ok("accepted".to_string())
    }

    /// The width of the board and the band with a number.
    fn band(&mut self, band: u64) -> Result<(usize, &mut Option<Vec<u8>>), u32> {
        let board = self.board.as_mut().ok_or(21u32)?;
        if band >= board.bands.len() as u64 { return Err(11); }
        Ok((board.width, &mut board.bands[band as usize]))
    }

    fn deliver(&mut self, number: u64, events: Vec<u8>) -> Result<String, u32> {
        let ks = [&self.row, &self.column].map(|rule| rule.as_ref().map_or(0, |rule| rule.automaton.k));
        let (width, band) = self.band(number)?;
        if events.len() % width != 0 || events.len() / width > 64 { return Err(39); }
        if events.iter().any(|&event| ks.iter().any(|&k| event as usize >= k)) { return Err(13); }
        if band.is_some() { return Err(22); }
        *band = Some(events);
        Ok("accepted".to_string())
    }

    fn withdraw(&mut self, number: u64) -> Result<String, u32> {
        let (_, band) = self.band(number)?;
        if band.take().is_none() { return Err(23); }
        Ok("accepted".to_string())
    }

    fn verdict(&self) -> Result<String, u32> {
        let board = self.board.as_ref().ok_or(21u32)?;
        let empty = board.bands.iter().filter(|band| band.is_none()).count();
        if empty > 0 {
            return Ok(format!("waiting {empty}"));
        }
        let events: Vec<u8> = board.bands.iter().flatten().flatten().copied().collect();
        let rows: Vec<&[u8]> = events.chunks(board.width).collect();
        let column = |c: usize| -> Vec<u8> { rows.iter().map(|row| row[c]).collect() };
        let (by_row, by_column) = (self.row.as_ref().ok_or(21u32)?, self.column.as_ref().ok_or(21u32)?);
        let yes = rows.iter().all(|row| accepts(by_row, row)) && (0..board.width).all(|c| accepts(by_column, &column(c)));
        Ok(if yes { "yes" } else { "no" }.to_string())
    }

    /// What the call that a line says answers, or none if the line is malformed.
    fn call(&mut self, line: &[u8]) -> Option<Result<String, u32>> {
        let fields: Vec<&[u8]> = line.split(|&c| c == b' ').collect();
        Some(match fields.as_slice() {
            [b"row", file] => self.row(&bytes(file)?),
            [b"column", file] => self.column(&bytes(file)?),
            [b"open", width, bands] => self.open(number(width)?, number(bands)?),
            [b"deliver", band, events] => self.deliver(number(band)?, bytes(events)?),
            [b"withdraw", band] => self.withdraw(number(band)?),
            [b"verdict"] => self.verdict(),
            _ => return None,
        })
    }

    /// What the tray says to a line, or none if the line is malformed.
    pub fn said(&mut self, line: &[u8]) -> Option<String> {
        Some(self.call(line)?.unwrap_or_else(|number| format!("refused {number}")))
    }
}

/// The answers to the lines of a text.
pub fn answers(text: &[u8]) -> String {
    answers_by(text, Tray::said)
}

/// A rule of a few states and symbols, of which most are final and most have arcs, so that not every verdict
/// is no.
pub(crate) fn small(r: &mut Random) -> Automaton {
    let mut a = blank(r.range(1, 4), r.range(2, 4));
    let all = all_states(a.n);
    a.initial = 1;
    a.finals = if r.one_in(3) { r.range(0, all as usize) as u32 } else { all };
    for cell in a.targets.iter_mut().flatten() {
        *cell = if r.one_in(12) { 0 } else { r.range(1, all as usize) as u32 };
    }
    a
}

/// A rule file, mostly of a small rule, now and then with a byte changed.
fn some_file(r: &mut Random) -> Vec<u8> {
    let a = if r.one_in(5) { automaton(r) } else { small(r) };
    let mut file = file(&a);
    if r.one_in(16) {
        let at = r.below(file.len());
        file[at] = r.below(256) as u8;
    }
    file
}

/// Whole rows of events below k, now and then with something wrong.
fn some_band(r: &mut Random, width: usize, k: usize) -> Vec<u8> {
    let rows = if r.one_in(8) { r.range(60, 66) } else { r.below(5) };
    let mut events: Vec<u8> = (0..rows * width).map(|_| r.below(k) as u8).collect();
    if r.one_in(8) {
        events.push(0);
    }
    if r.one_in(8) && !events.is_empty() {
        let at = r.below(events.len());
        events[at] = r.pick(&[k as u8, 16, 255]);
    }
    events
}

/// A line that says no call, lines behind it, which are skipped, and mostly an empty line or two and what a list
/// begins with.
fn ended(r: &mut Random, afresh: &str) -> String {
    let outside = ["open 1", "verdict ", "deliver 0", "deliver 0 0", "row", "withdraw 0 0", "0001", " "];
    let mut text = r.pick(&outside).to_string() + "\n";
    for _ in 0..r.below(4) {
        text += r.pick(&["verdict", "verdict", "deliver 0 -", "withdraw 0", "open 1 1", "row", "0001"]);
        text += "\n";
    }
    match r.below(8) {
        0 => text,
        1 => text + "\n\n" + afresh,
        2 => text + "\n",
        _ => text + "\n" + afresh,
    }
}

/// A list of lines, ended by an empty one.
pub fn list(seed: u64, index: u64) -> String {
    let mut r = Random::new(seed, index);
    let (width, bands, k) = (r.range(1, 5), r.range(1, 4), r.range(1, 2));
    let mut text = String::new();
    for word in ["row", "column"] {
        text += &format!("{word} {}\n", hex(&some_file(&mut r)));
    }
    text += &format!("open {width} {bands}\n");
    let afresh = text.clone();
    for _ in 0..30 {
        let band = r.below(bands + 1);
        text += &match r.below(16) {
            0 => format!("row {}\nverdict\nopen {width} {bands}\n", hex(&some_file(&mut r))),
            1 => format!("column {}\nverdict\nopen {width} {bands}\n", hex(&some_file(&mut r))),
            2 if r.one_in(4) => format!("open {} {}\n", r.below(18), r.below(10)),
            3 => format!("withdraw {band}\n"),
            4..=6 => "verdict\n".to_string(),
            7 => ended(&mut r, &afresh),
            _ => format!("deliver {band} {}\n", hex(&some_band(&mut r, width, k))),
        };
    }
    text + "verdict\n\n"
}
