//! Summaries of chunks, combined and concluded.

use crate::automata::automaton;
use crate::checked::CheckedRule;
use crate::judge::{text, Answer, Work, IDLE};
use crate::random::Random;
use crate::rule::{members, Rule};

/// What chunks that follow one another come to.
#[derive(Clone, Debug, PartialEq)]
pub struct Summary {
    /// For each of 32 states the delegates of the members of its end set; none where it was not run.
    pub leads: [u32; 32],
    pub count: u64,
    pub bytes: u64,
    /// The digest of the rule.
    pub rule: u64,
    /// The number of the first chunk, and the number behind the last.
    pub first: u64,
    pub end: u64,
    pub broken: u8,
}

/// The delegates of the members of a set.
fn delegates(rule: &Rule, set: u32) -> u32 {
    members(set).filter_map(|q| rule.delegates[q]).fold(0, |mask, d| mask | 1 << d)
}

/// The numbers of a rule as it is built, in the order of the digest: the states from n on have delegate 0,
/// and 512 is the number of what is no set.
fn numbers(rule: &Rule) -> Vec<u64> {
    let a = &rule.automaton;
    let number = |set: u32| rule.sets.iter().position(|&other| other == set).unwrap_or(512) as u64;
    let mut all = vec![a.n as u64, a.k as u64, a.initial.into(), a.finals.into()];
    all.extend((0..32).map(|q| if q < a.n { rule.delegates[q].unwrap_or(32) as u64 } else { 0 }));
    all.extend((0..32).map(|q| number(1 << q)));
    all.push(rule.sets.len() as u64);
    all.extend(rule.sets.iter().map(|&set| u64::from(set)));
    for &set in &rule.sets {
        all.extend((0..16).map(|s| if s < a.k { number(a.successor(set, s as u8)) } else { 512 }));
    }
    all
}

/// The digest of a rule.
pub fn digest(rule: &Rule) -> u64 {
    let modulus = 1u128 << 64;
    let half = |h: u128, x: u64| {
        let t = (h * 131_073 + u128::from(x)) % modulus;
        (t + t / (1 << 23)) % modulus
    };
    let next = |h: u128, x: u64| half(half(h, x % 65_536), x / 65_536);
    numbers(rule).into_iter().fold(0, next) as u64
}

/// The summary of the chunk with a number, or 12 or 13.
pub fn summarize(rule: &Rule, number: u64, chunk: &[u8]) -> Result<Summary, u32> {
    if chunk.len() > 65_536 { return Err(12); }
    let foreign = |&byte: &u8| byte != IDLE && byte as usize >= rule.automaton.k;
    if chunk.iter().any(foreign) { return Err(13); }
    let (place, text) = ((number > 0) as usize, text(chunk));
    let mut leads = [0; 32];
    for d in rule.starts_at(place) {
        leads[d] = delegates(rule, rule.run(d, &text).0);
    }
    Ok(Summary {
        leads,
        count: rule.count(place, &text),
        bytes: text.len() as u64,
        rule: digest(rule),
        first: number,
        end: number.saturating_add(1),
        broken: (number == u64::MAX) as u8,
    })
}

/// What a refused chunk leaves.
pub fn nothing() -> Summary {
    Summary { leads: [0; 32], count: 0, bytes: 0, rule: 0, first: 0, end: 0, broken: 1 }
}

/// The summary of chunks, and of those behind them.
pub fn combine(a: &Summary, b: &Summary) -> Summary {
    let fits = a.broken == 0 && b.broken == 0 && a.end == b.first && a.rule == b.rule;
    Summary {
        leads: a.leads.map(|set| members(set).fold(0, |union, x| union | b.leads[x])),
        count: a.count.saturating_add(b.count),
        bytes: a.bytes.saturating_add(b.bytes),
        rule: a.rule,
        first: a.first,
        end: b.end,
        broken: !fits as u8,
    }
}

/// The verdict on so many chunks, or 42, 43 or 44.
pub fn conclude(rule: &Rule, s: &Summary, chunks: u64) -> Answer {
    if s.broken != 0 || s.first != 0 { return Answer::Refused(42); }
    if s.rule != digest(rule) { return Answer::Refused(43); }
    if s.end != chunks || chunks == 0 { return Answer::Refused(44); }
    let reached = members(delegates(rule, rule.automaton.initial)).fold(0, |union, d| union | s.leads[d]);
    let work = Work::new(s.count, s.bytes);
    if reached & rule.automaton.finals != 0 { Answer::Yes(work) } else { Answer::No(work) }
}

/// The verdict on chunks by their texts joined, and the counts of the chunks added up.
pub fn judged(rule: &Rule, chunks: &[Vec<u8>]) -> Answer {
    let texts: Vec<Vec<u8>> = chunks.iter().map(|chunk| text(chunk)).collect();
    let count = texts.iter().enumerate().map(|(place, text)| rule.count(place, text)).sum();
    let whole = texts.concat();
    let work = Work::new(count, whole.len() as u64);
    if rule.automaton.accepts_from(rule.automaton.initial, &whole) { Answer::Yes(work) } else { Answer::No(work) }
}

impl Summary {
    /// As bytes that travel: little-endian, without gaps, in the order of the fields.
    pub fn bytes(&self) -> Vec<u8> {
        let mut bytes: Vec<u8> = self.leads.iter().flat_map(|mask| mask.to_le_bytes()).collect();
        for number in [self.count, self.bytes, self.rule, self.first, self.end] {
            bytes.extend(number.to_le_bytes());
        }
        bytes.push(self.broken);
        bytes
    }
}

fn hex(bytes: &[u8]) -> String {
    match bytes {
        [] => "-".to_string(),
        _ => bytes.iter().map(|byte| format!("{byte:02X}")).collect(),
    }
}

fn said(answer: &Answer) -> String {
    let numbers = |word: &str, w: &Work| format!("{word} {} {} {} {}", w.count, w.bytes, w.quotient, w.remainder);
    match answer {
        Answer::Yes(work) => numbers("yes", work),
        Answer::No(work) => numbers("no", work),
        Answer::Refused(number) => format!("refused {number}"),
        other => panic!("{other:?}"),
    }
}

/// Bytes, mostly such that the automaton can go on from some state, some idle marks; seldom one that is no
/// symbol, or too many.
fn any_chunk(r: &mut Random, rule: &Rule) -> Vec<u8> {
    let a = &rule.automaton;
    if r.one_in(600) {
        return vec![IDLE; 65_537];
    }
    let (mut set, mut chunk) = (1 << r.below(a.n), Vec::new());
    for _ in 0..r.below(12) {
        let right: Vec<u8> = (0..a.k as u8).filter(|&s| a.successor(set, s) != 0).collect();
        let byte = match r.below(50) {
            0 if r.one_in(8) => r.range(a.k, 254) as u8,
            1..=8 => IDLE,
            9..=49 if !right.is_empty() => r.pick(&right),
            _ => r.below(a.k) as u8,
        };
        chunk.push(byte);
        if (byte as usize) < a.k {
            set = a.successor(set, byte);
        }
    }
    chunk
}

/// A rule that is installed.
fn any_rule(r: &mut Random) -> (CheckedRule, Rule) {
    loop {
        let value = CheckedRule::of(&automaton(r));
        if let Ok(rule) = Rule::install(&value) {
            return (value, rule);
        }
    }
}

/// Which summaries are put together: all in order, or with one that is lost, doubled, exchanged or by the
/// other rule.
fn any_list(r: &mut Random, chunks: usize) -> Vec<(bool, usize)> {
    let mut list: Vec<(bool, usize)> = (0..chunks).map(|c| (false, c)).collect();
    let at = r.below(chunks);
    match r.below(12) {
        0 => drop(list.remove(at)),
        1 => list.insert(at, list[at]),
        2 => list.swap(at, r.below(chunks)),
        3 => list[at].0 = true,
        4 => list.iter_mut().for_each(|one| one.0 = true),
        5 => r.shuffle(&mut list),
        _ => (),
    }
    if list.is_empty() { vec![(false, 0)] } else { list }
}

/// Traces under a seed, line by line with what is due:
/// - `rules HEX HEX`, two rules by value;
/// - `chunk RULE NUMBER HEX ANSWER`, a chunk by the first or the second rule and its summary as bytes, or
///   `refused N`, after which it is `nothing`;
/// - `list ITEMS POSITIONS CHUNKS SUMMARY ANSWER`, where an item is a rule and a chunk, a position says which of the
///   summaries left is combined with the next, and the answer is the conclusion by the first rule.
pub fn traces(seed: u64, count: u64) -> String {
    let mut lines = String::new();
    for stream in 0..count {
        let mut r = Random::new(seed, stream);
        let rules = [any_rule(&mut r), any_rule(&mut r)];
        lines += &format!("rules {} {}\n", hex(&rules[0].0.bytes()), hex(&rules[1].0.bytes()));
        let most = if r.one_in(10) { 80 } else { 9 };
        let chunks: Vec<Vec<u8>> = (0..r.range(1, most)).map(|_| any_chunk(&mut r, &rules[0].1)).collect();
        let far = if r.one_in(20) { u64::MAX - r.below(chunks.len()) as u64 } else { 0 };
        let mut made: [Vec<Summary>; 2] = [Vec::new(), Vec::new()];
        for (by, (_, rule)) in rules.iter().enumerate() {
            for (number, chunk) in chunks.iter().enumerate() {
                let number = far.saturating_add(number as u64);
                let summary = summarize(rule, number, chunk);
                let answer = summary.as_ref().map_or_else(|number| format!("refused {number}"), |s| hex(&s.bytes()));
                lines += &format!("chunk {by} {number} {} {answer}\n", hex(chunk));
                made[by].push(summary.unwrap_or_else(|_| nothing()));
            }
        }
        for _ in 0..3 {
            let list = any_list(&mut r, chunks.len());
            let asked = match r.below(20) {
                0 => chunks.len() as u64 + 1,
                1 => chunks.len() as u64 - 1,
                _ => chunks.len() as u64,
            };
            let mut left: Vec<Summary> = list.iter().map(|&(other, c)| made[other as usize][c].clone()).collect();
            let mut positions = Vec::new();
            while left.len() > 1 {
                let at = r.below(left.len() - 1);
                let later = left.remove(at + 1);
                left[at] = combine(&left[at], &later);
                positions.push(at.to_string());
            }
            let items: Vec<String> = list.iter().map(|&(other, c)| format!("{}.{c}", other as usize)).collect();
            let positions = if positions.is_empty() { "-".to_string() } else { positions.join(",") };
            let answer = said(&conclude(&rules[0].1, &left[0], asked));
            lines += &format!("list {} {positions} {asked} {} {answer}\n", items.join(","), hex(&left[0].bytes()));
        }
    }
    lines
}
