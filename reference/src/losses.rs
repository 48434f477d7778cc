//! Where a trace is lost: the chunks that stand are read anew from the first place on.

use crate::checked::CheckedRule;
use crate::follow::any_rule;
use crate::judge::{text, Call, Judge, IDLE};
use crate::lines::{answer, bytes, hex, line, number};
use crate::random::Random;
use crate::rule::Automaton;
use std::collections::BTreeMap;

#[derive(Clone, Copy, Debug, PartialEq)]
pub enum Diagnosis {
    /// The texts of the places up to this one cannot be continued to a text that the rule accepts.
    Lost(usize),
    /// They can, up to the first empty place: so many come before it.
    Open(usize),
}

/// Whether arcs by whatever symbols lead from the set to a final state.
fn leads_on(a: &Automaton, set: u32) -> bool {
    let mut reached = set;
    loop {
        let further = (0..a.k as u8).fold(reached, |set, s| set | a.successor(reached, s));
        if further == reached {
            return reached & a.finals != 0;
        }
        reached = further;
    }
}

/// Whether some text can follow so that the automaton accepts both together.
pub fn continued(a: &Automaton, text: &[u8]) -> bool {
    leads_on(a, a.after(a.initial, text))
}

/// 21 where no board is open.
pub fn diagnose(judge: &Judge) -> Result<Diagnosis, u32> {
    let (Some(rule), Some(board)) = (judge.rule(), judge.board()) else { return Err(21) };
    let mut joined = Vec::new();
    for (place, held) in board.iter().enumerate() {
        let Some(chunk) = &held.chunk else { return Ok(Diagnosis::Open(place)) };
        joined.extend(text(chunk));
        if !continued(&rule.automaton, &joined) {
            return Ok(Diagnosis::Lost(place));
        }
    }
    Ok(Diagnosis::Open(board.len()))
}

/// The least number of bytes of the chunk, idle marks counted, that cannot be continued behind the texts of
/// the places before; none where all can. Or the number of the first condition that holds: 21, 11, 12, 13,
/// and 23 where a place before is empty.
pub fn locate(judge: &Judge, place: u64, chunk: &[u8]) -> Result<Option<usize>, u32> {
    let (Some(rule), Some(board)) = (judge.rule(), judge.board()) else { return Err(21) };
    if place >= board.len() as u64 { return Err(11); }
    if chunk.len() > 65_536 { return Err(12); }
    let foreign = |&byte: &u8| byte != IDLE && byte as usize >= rule.automaton.k;
    if chunk.iter().any(foreign) { return Err(13); }
    let mut joined = Vec::new();
    for held in &board[..place as usize] {
        let Some(chunk) = &held.chunk else { return Err(23) };
        joined.extend(text(chunk));
    }
    let mut set = rule.automaton.after(rule.automaton.initial, &joined);
    for (bytes, &byte) in chunk.iter().enumerate() {
        if !leads_on(&rule.automaton, set) {
            return Ok(Some(bytes));
        }
        if byte != IDLE {
            set = rule.automaton.successor(set, byte);
        }
    }
    Ok((!leads_on(&rule.automaton, set)).then_some(chunk.len()))
}

/// A diagnosis in words.
fn diagnosed(answer: Result<Diagnosis, u32>) -> String {
    match answer {
        Ok(Diagnosis::Lost(place)) => format!("lost {place}"),
        Ok(Diagnosis::Open(places)) => format!("open {places}"),
        Err(number) => format!("refused {number}"),
    }
}

/// What is located, in words.
fn located(answer: Result<Option<usize>, u32>) -> String {
    match answer {
        Ok(Some(bytes)) => format!("after {bytes}"),
        Ok(None) => "nowhere".to_string(),
        Err(number) => format!("refused {number}"),
    }
}

/// What is said to a line that asks where the trace is lost, or none if the line asks nothing.
pub fn asked(judge: &Judge, line: &[u8]) -> Option<String> {
    let fields: Vec<&[u8]> = line.split(|&c| c == b' ').collect();
    match fields.as_slice() {
        [b"diagnose"] => Some(diagnosed(diagnose(judge))),
        [b"locate", place, chunk] => Some(located(locate(judge, number(place)?, &bytes(chunk)?))),
        _ => None,
    }
}

/// A rule by value, mostly one that accepts some text.
fn some_rule(r: &mut Random) -> Call {
    let accepts = |rule: &CheckedRule| rule.automaton().is_ok_and(|a| continued(&a, &[]));
    let mut rule = any_rule(r);
    while !accepts(&rule) && !r.one_in(6) {
        rule = any_rule(r);
    }
    Call::Install(Box::new(rule))
}

/// Bytes behind a set: idle marks, and symbols with which the trace can mostly be continued.
fn some_bytes(r: &mut Random, a: &Automaton, mut set: u32, length: usize) -> Vec<u8> {
    let (mut right, mut bytes, stray) = (BTreeMap::new(), Vec::new(), r.pick(&[8, 60, 40_000]));
    for _ in 0..length {
        let leads = |&s: &u8| leads_on(a, a.successor(set, s));
        let right: &Vec<u8> = right.entry(set).or_insert_with(|| (0..a.k as u8).filter(leads).collect());
        let byte = match r.below(8) {
            0 => IDLE,
            _ if right.is_empty() || r.one_in(stray) => r.below(a.k) as u8,
            _ => r.pick(right),
        };
        bytes.push(byte);
        set = a.after(set, &text(&[byte]));
    }
    bytes
}

/// Some of the places up to the first that is empty, and seldom another, or one that does not exist.
fn some_place(r: &mut Random, judge: &Judge) -> usize {
    let places = judge.board().map_or(1, |board| board.len());
    match (diagnose(judge), r.below(12)) {
        (_, 0) => r.pick(&[places, places + 1, usize::MAX]),
        (_, 1) => r.below(places),
        (Ok(Diagnosis::Lost(place)), 2..=8) => place,
        (Ok(Diagnosis::Lost(place)), _) => r.range(0, place),
        (Ok(Diagnosis::Open(filled)), _) => r.range(filled.saturating_sub(2), filled.min(places - 1)),
        (Err(_), _) => r.below(places),
    }
}

/// A chunk for a place: the one that stands there, a part of it with other bytes behind, or other bytes; now and
/// then one that is refused.
fn some_chunk(r: &mut Random, judge: &Judge, place: usize, longest: usize) -> Vec<u8> {
    let (Some(rule), Some(board)) = (judge.rule(), judge.board()) else { return vec![0; r.below(3)] };
    let a = &rule.automaton;
    let before: Vec<u8> = board.iter().take(place).flat_map(|held| &held.chunk).flat_map(|chunk| text(chunk)).collect();
    let length = r.pick(&[0, 1, 2, 4, 9, longest]);
    let mut chunk = some_bytes(r, a, a.after(a.initial, &before), length);
    let standing = board.get(place).and_then(|held| held.chunk.as_ref());
    match (standing, r.below(20)) {
        (Some(standing), 0..=9) => standing.clone(),
        (Some(standing), 10..=12) => [&standing[..r.range(0, standing.len().min(100))], &chunk].concat(),
        (_, 13) => {
            chunk.insert(r.range(0, chunk.len()), r.pick(&[a.k as u8, 16, 254]));
            chunk
        }
        (_, 14) if r.one_in(20) => vec![r.pick(&[0, 254, IDLE]); r.pick(&[65_536, 65_537])],
        _ => chunk,
    }
}

/// The next call; until there are a rule and a board, mostly one that makes them.
pub(crate) fn some_call(r: &mut Random, judge: &Judge, longest: usize) -> Call {
    if judge.rule().is_none() && !r.one_in(10) { return some_rule(r); }
    let places = r.pick(&[1, 2, 3, 3, 4, 6, 64]);
    if judge.board().is_none() && !r.one_in(10) { return Call::Open(places); }
    let (place, anywhere) = (some_place(r, judge), r.below(judge.board().map_or(1, |board| board.len())));
    match r.below(40) {
        0 => some_rule(r),
        1 => Call::Open(r.pick(&[0, 65, places, places])),
        2..=4 => Call::Withdraw(place as u64),
        5 => Call::Verdict,
        _ => {
            let place = r.pick(&[place, anywhere]);
            let last = judge.board().and_then(|board| board.get(place)?.last).unwrap_or(0);
            let revision = if r.one_in(6) { last } else { last.saturating_add(1) };
            Call::Deliver(place as u64, revision, some_chunk(r, judge, place, longest))
        }
    }
}

/// Lists of calls under a seed: a line for each call with its answer, then one for the diagnosis and one for what is
/// located in a chunk. Each list begins with a fresh judge, behind an empty line.
pub fn traces(seed: u64, count: u64) -> String {
    let mut out = String::new();
    for stream in 0..count {
        let (mut r, mut judge) = (Random::new(seed, stream), Judge::default());
        let longest = if r.one_in(40) { r.pick(&[4_096, 65_535, 65_536]) } else { 40 };
        out += "\n";
        for _ in 0..r.range(4, 24) {
            let call = some_call(&mut r, &judge, longest);
            out += &format!("{} = {}\n", String::from_utf8_lossy(&line(&call)), answer(judge.call(&call)));
            out += &format!("diagnose = {}\n", diagnosed(diagnose(&judge)));
            let place = some_place(&mut r, &judge);
            let chunk = some_chunk(&mut r, &judge, place, longest);
            out += &format!("locate {place} {} = {}\n", hex(&chunk), located(locate(&judge, place as u64, &chunk)));
        }
    }
    out
}
