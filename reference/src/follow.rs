//! A trace that comes in order, followed chunk by chunk, and the lines of `tracefollow`. The follower keeps the whole text that came, and
//! each answer is worked out anew from it.

use crate::automata::{automaton, file};
use crate::checked::{read, CheckedRule};
use crate::judge::{text, IDLE};
use crate::lines::{answers_by, bytes, hex};
use crate::random::Random;
use crate::rule::{members, Automaton};

pub struct Follower {
    automaton: Automaton,
    came: Vec<u8>,
}

#[derive(Clone, Debug, PartialEq)]
pub struct Followed {
    /// An accepting run over all that came exists.
    pub accepted: bool,
    /// The least number of bytes of the chunk, idle marks counted, with which the trace has no accepted
    /// continuation; none where all of it has one.
    pub lost: Option<usize>,
    /// The symbols with which the trace could have gone on: before the byte by which it was lost, or here.
    pub expected: Vec<u8>,
    /// The trace could have ended there.
    pub complete: bool,
}

/// Whether some text can follow so that the automaton accepts both together.
pub fn continues(a: &Automaton, text: &[u8]) -> bool {
    members(a.after(a.initial, text)).any(|q| a.live(q))
}

impl Follower {
    /// A trace of which nothing came yet, or the number of the first condition that holds: 3, 4, 6 or 8.
    pub fn new(rule: &CheckedRule) -> Result<Follower, u32> {
        Ok(Follower { automaton: rule.automaton()?, came: Vec::new() })
    }

    /// The set that all that came leads to.
    pub fn set(&self) -> u32 {
        self.automaton.after(self.automaton.initial, &self.came)
    }

    /// The chunk comes; or 12 or 13, and nothing came.
    pub fn follow(&mut self, chunk: &[u8]) -> Result<Followed, u32> {
        let a = &self.automaton;
        if chunk.len() > 65_536 { return Err(12); }
        if chunk.iter().any(|&byte| byte != IDLE && byte as usize >= a.k) { return Err(13); }
        let up_to = |bytes: usize| [self.came.clone(), text(&chunk[..bytes])].concat();
        let accepted = |text: &[u8]| a.accepts_from(a.initial, text);
        let lost = (0..=chunk.len()).find(|&bytes| !continues(a, &up_to(bytes)));
        let there = up_to(lost.map_or(chunk.len(), |bytes| bytes.saturating_sub(1)));
        let could_stand = |s: &u8| continues(a, &[there.as_slice(), &[*s]].concat());
        let whole = up_to(chunk.len());
        let followed = Followed {
            accepted: accepted(&whole),
            lost,
            expected: (0..a.k as u8).filter(could_stand).collect(),
            complete: accepted(&there),
        };
        self.came = whole;
        Ok(followed)
    }
}

/// An answer in words: yes or no to what came; at how many bytes it was lost, or -; the symbols that could
/// have stood there; whether it was complete there.
fn said(answer: &Result<Followed, u32>) -> String {
    let followed = match answer {
        Err(number) => return format!("refused {number}"),
        Ok(followed) => followed,
    };
    let yes = if followed.accepted { "yes" } else { "no" };
    let lost = followed.lost.map_or("-".to_string(), |bytes| bytes.to_string());
    let complete = if followed.complete { "complete" } else { "incomplete" };
    format!("{yes} {lost} {} {complete}", hex(&followed.expected))
}

/// A rule by value; now and then one number in it is another.
pub fn any_rule(r: &mut Random) -> CheckedRule {
    let rule = CheckedRule::of(&automaton(r));
    changed(r, rule)
}

/// A rule by value of which now and then one number is another.
pub(crate) fn changed(r: &mut Random, mut rule: CheckedRule) -> CheckedRule {
    match r.below(40) {
        0 => rule.n = r.below(40) as u8,
        1 => rule.k = r.below(20) as u8,
        2 => rule.initial ^= 1 << r.below(32),
        3 => rule.finals ^= 1 << r.below(32),
        4 => rule.targets[r.below(32)][r.below(16)] ^= 1 << r.below(32),
        _ => (),
    }
    rule
}

/// Bytes with which the trace goes on: mostly such that it has an accepted continuation, some idle marks,
/// seldom one that is no symbol; and seldom a chunk that is too long.
fn any_chunk(r: &mut Random, follower: &Follower) -> Vec<u8> {
    let (a, mut trace, mut chunk) = (&follower.automaton, follower.came.clone(), Vec::new());
    if r.one_in(400) {
        return vec![IDLE; 65_537];
    }
    for _ in 0..r.below(10) {
        let right = |s: &u8| continues(a, &[trace.as_slice(), &[*s]].concat());
        let right: Vec<u8> = (0..a.k as u8).filter(right).collect();
        let byte = match r.below(40) {
            0 if r.one_in(4) => r.range(a.k, 254) as u8,
            1..=8 => IDLE,
            9..=39 if !right.is_empty() => r.pick(&right),
            _ => r.below(a.k) as u8,
        };
        chunk.push(byte);
        trace.extend((byte < a.k as u8).then_some(byte));
    }
    chunk
}

/// Traces under a seed, a line for each rule and each chunk with its answer: `rule HEX` with the 2,058 bytes
/// of the value, and `chunk HEX`.
pub fn traces(seed: u64, count: u64) -> String {
    let mut lines = String::new();
    for stream in 0..count {
        let mut r = Random::new(seed, stream);
        let rule = CheckedRule::of(&automaton(&mut r));
        let rule = changed(&mut r, rule);
        let follower = Follower::new(&rule);
        let answer = follower.as_ref().map_or_else(|number| format!("refused {number}"), |_| "accepted".to_string());
        lines += &format!("rule {} {answer}\n", hex(&rule.bytes()));
        let Ok(mut follower) = follower else { continue };
        for _ in 0..r.range(1, 8) {
            let chunk = any_chunk(&mut r, &follower);
            lines += &format!("chunk {} {}\n", hex(&chunk), said(&follower.follow(&chunk)));
        }
    }
    lines
}

/// What is said to a line of `tracefollow`, which keeps the trace of the last accepted rule; or none if the
/// line is malformed.
fn line_said(trace: &mut Option<Follower>, line: &[u8]) -> Option<String> {
    let fields: Vec<&[u8]> = line.split(|&c| c == b' ').collect();
    let answer = match fields.as_slice() {
        [b"rule", file] => read(&bytes(file)?).and_then(|rule| Follower::new(&rule)).map(|begun| {
            *trace = Some(begun);
            "accepted".to_string()
        }),
        [b"next", chunk] => {
            let chunk = bytes(chunk)?;
            trace.as_mut().ok_or(20).and_then(|trace| trace.follow(&chunk)).map(|followed| line_of(&followed))
        }
        _ => return None,
    };
    Some(answer.unwrap_or_else(|number| format!("refused {number}")))
}

/// The line of a chunk that was followed: `lost B MASK`, `yes MASK` or `no MASK`.
fn line_of(followed: &Followed) -> String {
    let mask: u32 = followed.expected.iter().map(|s| 1 << s).sum();
    match (followed.lost, followed.accepted) {
        (Some(bytes), _) => format!("lost {bytes} {mask:04X}"),
        (None, true) => format!("yes {mask:04X}"),
        (None, false) => format!("no {mask:04X}"),
    }
}

/// The answers to the lines of a text.
pub fn answers(text: &[u8]) -> String {
    answers_by(text, line_said)
}

/// Lists of lines for `tracefollow` under a seed: rules, some of them refused, and chunks; now and then a
/// malformed line, and an empty one.
pub fn lists(seed: u64, count: u64) -> String {
    let mut lines = String::new();
    for stream in 0..count {
        let mut r = Random::new(seed, stream);
        let a = automaton(&mut r);
        let mut rule = file(&a);
        if r.one_in(8) {
            let at = r.below(rule.len());
            rule[at] ^= 1 << r.below(8);
        }
        let mut trace = Follower { automaton: a, came: Vec::new() };
        lines += &format!("rule {}\n", hex(&rule));
        for _ in 0..r.range(1, 8) {
            let chunk = any_chunk(&mut r, &trace);
            let _ = trace.follow(&chunk);
            lines += &format!("next {}\n", hex(&chunk));
            if r.one_in(100) {
                lines += "next 0\n";
            }
        }
        if r.one_in(2) {
            lines += "\n";
        }
    }
    lines
}
