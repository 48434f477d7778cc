//! Lists of calls as text: one call a line, one answer a line.

use crate::checked::CheckedRule;
use crate::judge::{Answer, Call, Judge, Work};
use crate::losses::asked;

/// One or more pairs of hex digits, or `-` for no bytes.
pub fn bytes(field: &[u8]) -> Option<Vec<u8>> {
    if field == b"-" {
        return Some(Vec::new());
    }
    if field.is_empty() || field.len() % 2 != 0 {
        return None;
    }
    let digit = |c: u8| (c as char).to_digit(16);
    field.chunks(2).map(|pair| Some((digit(pair[0])? * 16 + digit(pair[1])?) as u8)).collect()
}

/// 1 to 20 decimal digits with a value below 2^64.
pub fn number(field: &[u8]) -> Option<u64> {
    if field.is_empty() || field.len() > 20 || !field.iter().all(u8::is_ascii_digit) {
        return None;
    }
    let value = field.iter().fold(0u128, |value, &c| 10 * value + (c - b'0') as u128);
    u64::try_from(value).ok()
}

/// 1 to 20 decimal digits with a value below 2^32.
fn small(field: &[u8]) -> Option<u32> {
    u32::try_from(number(field)?).ok()
}

/// The call that a line records, or none if the line is malformed.
pub fn call(line: &[u8]) -> Option<Call> {
    let fields: Vec<&[u8]> = line.split(|&c| c == b' ').collect();
    match fields.as_slice() {
        [b"load", file] => Some(Call::Load(bytes(file)?)),
        [b"install", value] => Some(Call::Install(Box::new(CheckedRule::from_bytes(&bytes(value)?)?))),
        [b"open", places] => Some(Call::Open(number(places)?)),
        [b"deliver", place, revision, chunk] => Some(Call::Deliver(number(place)?, small(revision)?, bytes(chunk)?)),
        [b"withdraw", place] => Some(Call::Withdraw(number(place)?)),
        [b"verdict"] => Some(Call::Verdict),
        _ => None,
    }
}

/// The bytes in hex digits, or `-` where there are none.
pub fn hex(bytes: &[u8]) -> String {
    match bytes {
        [] => "-".to_string(),
        bytes => bytes.iter().map(|byte| format!("{byte:02X}")).collect(),
    }
}

/// The plainest line that records a call.
pub fn line(call: &Call) -> Vec<u8> {
    let line = match call {
        Call::Load(file) => format!("load {}", hex(file)),
        Call::Install(value) => format!("install {}", hex(&value.bytes())),
        Call::Open(places) => format!("open {places}"),
        Call::Deliver(place, revision, chunk) => format!("deliver {place} {revision} {}", hex(chunk)),
        Call::Withdraw(place) => format!("withdraw {place}"),
        Call::Verdict => "verdict".to_string(),
    };
    line.into_bytes()
}

/// The four numbers of a yes or no.
fn numbers(work: Work) -> String {
    format!("{} {} {} {}", work.count, work.bytes, work.quotient, work.remainder)
}

/// What a call answered.
pub fn answer(answer: Answer) -> String {
    match answer {
        Answer::Installed(sets, starts) => format!("accepted {sets} {starts}"),
        Answer::Delivered(looked) => format!("accepted {looked}"),
        Answer::Accepted => "accepted".to_string(),
        Answer::Waiting(empty) => format!("waiting {empty}"),
        Answer::Yes(work) => format!("yes {}", numbers(work)),
        Answer::No(work) => format!("no {}", numbers(work)),
        Answer::Refused(number) => format!("refused {number}"),
    }
}

/// The lines of a text: each is ended by a line feed, the last one, if not empty, by the text's end.
pub fn lines(text: &[u8]) -> Vec<&[u8]> {
    let mut lines: Vec<&[u8]> = text.split(|&c| c == b'\n').collect();
    if lines.last().is_some_and(|last| last.is_empty()) {
        lines.pop();
    }
    lines
}

/// Lines that follow one another, from a fresh state; and whether a malformed one has ended them.
#[derive(Default)]
pub struct List<State> {
    state: State,
    ended: bool,
}

impl<State: Default> List<State> {
    /// The answer to a line, of which `said` is what the state says, none if the line is malformed. That ends
    /// the list, and what follows is skipped; an empty line has an empty answer, and all begins afresh.
    pub fn answer(&mut self, line: &[u8], said: impl FnOnce(&mut State, &[u8]) -> Option<String>) -> String {
        if line.is_empty() {
            *self = List::default();
            return String::new();
        }
        if self.ended {
            return "skipped".to_string();
        }
        let said = said(&mut self.state, line);
        self.ended = said.is_none();
        said.unwrap_or("malformed".to_string())
    }
}

/// The answers to the lines of a text, of which `said` is what the state says to each.
pub fn answers_by<State: Default>(text: &[u8], said: fn(&mut State, &[u8]) -> Option<String>) -> String {
    let mut list = List::default();
    lines(text).into_iter().map(|line| list.answer(line, said) + "\n").collect()
}

/// What the judge says to a line, a call or a question, or none if the line is malformed.
pub fn said(judge: &mut Judge, line: &[u8]) -> Option<String> {
    asked(judge, line).or_else(|| Some(answer(judge.call(&call(line)?))))
}

/// The answers to the lines of a text.
pub fn answers(text: &[u8]) -> String {
    answers_by(text, said)
}
