//! The judge and its five calls, of which load has two forms: a file that is read and installed, or
//! a checked rule that is installed. The board keeps the chunks themselves; counts and the verdict are
//! worked out anew whenever they are due.

use crate::checked::CheckedRule;
use crate::rule::Rule;

#[derive(Clone, Debug, PartialEq)]
pub enum Call {
    Load(Vec<u8>),
    Install(Box<CheckedRule>),
    Open(u64),
    /// A place, the revision of the recording, and the chunk.
    Deliver(u64, u32, Vec<u8>),
    Withdraw(u64),
    Verdict,
}

#[derive(Clone, Debug, PartialEq)]
pub enum Answer {
    /// A rule was loaded or installed: the number of its sets, and M.
    Installed(usize, usize),
    /// A delivery was accepted: for so many bytes of its text a successor is looked up.
    Delivered(usize),
    Accepted,
    Waiting(usize),
    Yes(Work),
    No(Work),
    Refused(u32),
}

/// What a trace costs: the count, the bytes of the text, and the count divided by them.
#[derive(Clone, Debug, PartialEq)]
pub struct Work {
    pub count: u64,
    pub bytes: u64,
    pub quotient: u64,
    pub remainder: u64,
}

impl Work {
    pub fn new(count: u64, bytes: u64) -> Work {
        let (quotient, remainder) = if bytes == 0 { (0, 0) } else { (count / bytes, count % bytes) };
        Work { count, bytes, quotient, remainder }
    }
}

use Answer::{Accepted, Delivered, Installed, No, Refused, Waiting, Yes};

/// What a controller writes while no valve moves.
pub const IDLE: u8 = 255;

/// The text of a chunk: idle marks are skipped.
pub fn text(chunk: &[u8]) -> Vec<u8> {
    chunk.iter().copied().filter(|&byte| byte != IDLE).collect()
}

/// A place has the last revision accepted there since the opening, if there was one, and its standing
/// chunk, or none.
#[derive(Clone, Debug, Default, PartialEq)]
pub struct Place {
    pub last: Option<u32>,
    pub chunk: Option<Vec<u8>>,
}

pub type Board = Vec<Place>;

#[derive(Default)]
pub struct Judge {
    rule: Option<Rule>,
    board: Option<Board>,
}

/// The sum of the counts of the standing chunks.
fn total(rule: &Rule, board: &Board) -> u64 {
    let count = |(place, held): (usize, &Place)| match &held.chunk {
        Some(chunk) => rule.count(place, &text(chunk)),
        None => 0,
    };
    board.iter().enumerate().map(count).sum()
}

impl Judge {
    pub fn call(&mut self, call: &Call) -> Answer {
        match call {
            Call::Load(file) => self.take(Rule::load(file)),
            Call::Install(value) => self.take(Rule::install(value)),
            Call::Open(places) => self.open(*places),
            Call::Deliver(place, revision, chunk) => self.deliver(*place, *revision, chunk),
            Call::Withdraw(place) => self.withdraw(*place),
            Call::Verdict => self.verdict(),
        }
    }

    /// The rule, where there is one.
    pub fn rule(&self) -> Option<&Rule> {
        self.rule.as_ref()
    }

    /// The board, where there is one.
    pub fn board(&self) -> Option<&Board> {
        self.board.as_ref()
    }

    /// A rule that is accepted replaces the former one and removes the board.
    fn take(&mut self, rule: Result<Rule, u32>) -> Answer {
        match rule {
            Err(number) => Refused(number),
            Ok(rule) => {
                let answer = Installed(rule.sets.len(), rule.starts().len());
                self.rule = Some(rule);
                self.board = None;
                answer
            }
        }
    }

    fn open(&mut self, places: u64) -> Answer {
        if self.rule.is_none() { return Refused(20); }
        if places < 1 || places > 64 { return Refused(10); }
        self.board = Some(vec![Place::default(); places as usize]);
        Accepted
    }

    fn deliver(&mut self, place: u64, revision: u32, chunk: &[u8]) -> Answer {
        let (Some(rule), Some(board)) = (&self.rule, &mut self.board) else { return Refused(21) };
        if place >= board.len() as u64 { return Refused(11); }
        if chunk.len() > 65_536 { return Refused(12); }
        let foreign = |&byte: &u8| byte != IDLE && byte as usize >= rule.automaton.k;
        if chunk.iter().any(foreign) { return Refused(13); }
        let place = place as usize;
        if board[place].last.is_some_and(|last| revision <= last) { return Refused(22); }
        board[place] = Place { last: Some(revision), chunk: Some(chunk.to_vec()) };
        Delivered(rule.looked(place, &text(chunk)))
    }

    fn withdraw(&mut self, place: u64) -> Answer {
        let Some(board) = &mut self.board else { return Refused(21) };
        if place >= board.len() as u64 { return Refused(11); }
        let place = place as usize;
        if board[place].chunk.is_none() { return Refused(23); }
        board[place].chunk = None;
        Accepted
    }

    /// Whether the automaton accepts the chunks, without their idle marks, joined to one text.
    fn verdict(&self) -> Answer {
        let (Some(rule), Some(board)) = (&self.rule, &self.board) else { return Refused(21) };
        let empty = board.iter().filter(|place| place.chunk.is_none()).count();
        if empty > 0 {
            return Waiting(empty);
        }
        let whole: Vec<u8> = board.iter().flat_map(|place| &place.chunk).flat_map(|chunk| text(chunk)).collect();
        let work = Work::new(total(rule, board), whole.len() as u64);
        if rule.automaton.accepts_from(rule.automaton.initial, &whole) {
            Yes(work)
        } else {
            No(work)
        }
    }
}
