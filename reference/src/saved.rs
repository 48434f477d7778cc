//! A judge as bytes, and back: the numbers that stand in a judge are worked out anew from its rule and its chunks,
//! written one after the other, and read again.

use crate::judge::{text, Judge};
use crate::lines::{answer, line};
use crate::losses::some_call;
use crate::random::Random;
use crate::rule::Rule;

/// How many bytes a saved judge has, the last eight of which are the digest of the others.
pub const SIZE: usize = 27_838;

/// The numbers in their order: how many there are, and in how many bytes each. n, k, startcount; setcount; initials
/// and finals; delegates; singles; sets; the table; places and filled; counts; lengths; revisions; end sets.
const FIELDS: [(usize, usize); 12] = [
    (3, 1), (1, 2), (2, 4), (32, 1), (32, 2), (512, 4), (8192, 2), (65, 1), (64, 4), (64, 4), (64, 8), (2048, 4),
];

/// What stands before the numbers: mark, version and length.
fn head() -> Vec<u8> {
    let mut head = b"BBJ\x01".to_vec();
    head.extend((SIZE as u32).to_le_bytes());
    head
}

fn digest(bytes: &[u8]) -> u64 {
    bytes.iter().fold(0u64, |h, &x| {
        let sum = h.wrapping_mul(131_073).wrapping_add(x as u64 + 1);
        let upper = sum >> 32;
        (sum.wrapping_add(upper * upper) << 32) | upper
    })
}

/// The cells, and behind them as many others as there is room for.
fn filled(mut cells: Vec<u64>, room: usize, other: u64) -> Vec<u64> {
    cells.resize(room, other);
    cells
}

/// The numbers of a rule; 512 stands for the empty set, and 32 for no delegate.
fn of_rule(rule: &Rule) -> Vec<u64> {
    let a = &rule.automaton;
    let number = |set: u32| rule.sets.iter().position(|&s| s == set).unwrap_or(512) as u64;
    let row = |&set: &u32| filled((0..a.k as u8).map(|s| number(a.successor(set, s))).collect(), 16, 512);
    let delegate = |d: &Option<usize>| d.map_or(32, |d| d as u64);
    let alone = [a.n, a.k, rule.starts().len(), rule.sets.len(), a.initial as usize, a.finals as usize];
    let mut numbers: Vec<u64> = alone.iter().map(|&x| x as u64).collect();
    numbers.extend(filled(rule.delegates.iter().map(delegate).collect(), 32, 0));
    numbers.extend(filled((0..a.n).map(|q| number(1 << q)).collect(), 32, 512));
    numbers.extend(filled(rule.sets.iter().map(|&set| set as u64).collect(), 512, 0));
    numbers.extend(filled(rule.sets.iter().flat_map(row).collect(), 8192, 512));
    numbers
}

/// The numbers of a judge, all of them 0 in a fresh one.
pub fn numbers(judge: &Judge) -> Vec<u64> {
    let Some(rule) = judge.rule() else { return vec![0; 11_079] };
    let mut numbers = of_rule(rule);
    let Some(board) = judge.board() else { return filled(numbers, 11_079, 0) };
    numbers.push(board.len() as u64);
    let texts: Vec<Option<Vec<u8>>> = board.iter().map(|held| held.chunk.as_ref().map(|chunk| text(chunk))).collect();
    let each = |of: &dyn Fn(usize, &[u8]) -> u64| -> Vec<u64> {
        let cells = texts.iter().enumerate().map(|(p, held)| held.as_ref().map_or(0, |text| of(p, text)));
        filled(cells.collect(), 64, 0)
    };
    numbers.extend(each(&|_, _| 1));
    numbers.extend(each(&|place, text| rule.count(place, text)));
    numbers.extend(each(&|_, text| text.len() as u64));
    numbers.extend(filled(board.iter().map(|held| held.last.map_or(0, |last| last as u64 + 1)).collect(), 64, 0));
    for place in 0..64 {
        let mut ends = vec![0; 32];
        if let Some(Some(text)) = texts.get(place) {
            for d in rule.starts_at(place) {
                ends[d] = rule.run(d, text).0 as u64;
            }
        }
        numbers.extend(ends);
    }
    numbers
}

/// The numbers as bytes, with what stands before and behind them.
pub fn save(numbers: &[u64]) -> Vec<u8> {
    let (mut bytes, mut at) = (head(), 0);
    for (count, width) in FIELDS {
        for number in &numbers[at..at + count] {
            bytes.extend(&number.to_le_bytes()[..width]);
        }
        at += count;
    }
    bytes.extend(digest(&bytes).to_le_bytes());
    bytes
}

/// The numbers that were saved as the bytes; or 46.
pub fn restore(bytes: &[u8]) -> Result<Vec<u64>, u32> {
    if bytes.len() != SIZE || bytes[..8] != head() { return Err(46); }
    let (content, sum) = bytes.split_at(SIZE - 8);
    if digest(content).to_le_bytes() != *sum { return Err(46); }
    let (mut numbers, mut rest) = (Vec::new(), &content[8..]);
    for (count, width) in FIELDS {
        for _ in 0..count {
            let (number, further) = rest.split_at(width);
            numbers.push(number.iter().rev().fold(0, |x, &byte| x << 8 | byte as u64));
            rest = further;
        }
    }
    Ok(numbers)
}

/// A change of saved bytes, in words, and what comes of it: bytes cut, longer, or of which one is another.
fn change(r: &mut Random, saved: &[u8]) -> (String, Vec<u8>) {
    let mut bytes = saved.to_vec();
    let at = match r.below(4) {
        0 => r.below(8),
        1 => SIZE - 1 - r.below(16),
        _ => r.below(SIZE),
    };
    match r.below(4) {
        0 => {
            bytes.truncate(at);
            (format!("cut {at}"), bytes)
        }
        1 => {
            bytes.push(at as u8);
            (format!("longer {}", at as u8), bytes)
        }
        _ => {
            bytes[at] = bytes[at].wrapping_add(r.range(1, 255) as u8);
            (format!("altered {at} {}", bytes[at]), bytes)
        }
    }
}

/// What restoring answers, in words.
fn said(answer: Result<Vec<u64>, u32>) -> String {
    answer.map_or_else(|number| format!("refused {number}"), |_| "accepted".to_string())
}

/// Lists of calls under a seed: a line for each call with its answer; now and then the judge is saved, in hex, and
/// restored, with and without a change of the bytes. Each list begins with a fresh judge, behind an empty line.
pub fn traces(seed: u64, count: u64) -> String {
    let mut out = String::new();
    for stream in 0..count {
        let (mut r, mut judge) = (Random::new(seed, stream), Judge::default());
        out += "\n";
        for _ in 0..r.range(4, 24) {
            let call = some_call(&mut r, &judge, 40);
            out += &format!("{} = {}\n", String::from_utf8_lossy(&line(&call)), answer(judge.call(&call)));
            if !r.one_in(6) { continue; }
            let saved = save(&numbers(&judge));
            out += &format!("save = {}\n", saved.iter().map(|byte| format!("{byte:02x}")).collect::<String>());
            for _ in 0..r.below(4) {
                let (words, bytes) = change(&mut r, &saved);
                out += &format!("{words} = {}\n", said(restore(&bytes)));
            }
            out += &format!("whole = {}\n", said(restore(&saved)));
        }
    }
    out
}
