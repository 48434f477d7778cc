//! Files that a load refuses, and values that an installation refuses.

use crate::automata::{automaton, blank, exactly, file};
use crate::checked::CheckedRule;
use crate::random::Random;
use crate::rule::Automaton;

/// An automaton with arcs, fewer than 32 states and a file of moderate size, so that every fault
/// can be put in; with more than 512 sets if so wanted.
fn base(r: &mut Random, many_sets: bool) -> Automaton {
    loop {
        let a = if many_sets && r.one_in(2) { exactly(r, 513) } else { automaton(r) };
        let length = file(&a).len();
        if a.n < 32 && length > 10 + 4 * a.n && length < 2000 && many_sets == a.sets(512).is_none() {
            return a;
        }
    }
}

/// A file in which all of the given conditions, 1 to 9, hold; others may hold too.
pub fn faulty(r: &mut Random, numbers: &[u32]) -> Vec<u8> {
    let wanted = |number: u32| numbers.contains(&number);
    let a = base(r, wanted(9));
    let mut file = file(&a);
    let (n, k, arcs) = (a.n, a.k, 10 + 4 * a.n);
    if wanted(8) {
        spoil_arc(r, &mut file, n, k);
    }
    if wanted(7) {
        let pair = 10 + 4 * r.below(n);
        match r.below(9) {
            6 => insert(r, &mut file, n, 1, true),
            7 => insert(r, &mut file, n, 2, false),
            8 => {
                // All sections two bytes further on: the first offset alone is wrong.
                file.splice(arcs..arcs, [0, 0]);
                (0..n).for_each(|q| add(&mut file, 10 + 4 * q, 2));
            }
            0 => file[pair + r.below(2)] ^= 1 << r.below(8),
            1 => file[pair + 2] ^= 1,
            2 => file[pair + 2 + r.below(2)] ^= 2 << r.below(7),
            3 => file.push(r.below(256) as u8),
            4 => file.extend([0, 0]),
            _ => file.truncate(r.range(arcs, file.len() - 1)),
        }
    }
    if wanted(6) {
        let bit = if r.one_in(2) { n } else { r.range(n, 31) };
        file[r.pick(&[2, 6]) + bit / 8] |= 1 << (bit % 8);
    }
    if wanted(5) {
        file.truncate(if r.one_in(2) { arcs - 1 } else { r.range(10, arcs - 1) });
    }
    if wanted(4) {
        file[1] = r.pick(&[0, 17, 18, 32, 255]);
    }
    if wanted(3) {
        file[0] = r.pick(&[0, 33, 34, 64, 255]);
    }
    if wanted(2) {
        file.resize(if r.one_in(2) { 32_907 } else { r.range(32_907, 33_500) }, 0);
    }
    if wanted(1) {
        file.truncate(if r.one_in(2) { 9 } else { r.below(10) });
    }
    file
}

/// Adds to a number of two bytes.
fn add(file: &mut [u8], at: usize, more: u16) {
    let sum = u16::from_le_bytes([file[at], file[at + 1]]) + more;
    file[at..at + 2].copy_from_slice(&sum.to_le_bytes());
}

/// Puts bytes behind a section and moves the later offsets: one byte counted in the section's
/// length makes just that length odd, two bytes that are not counted make just a gap.
fn insert(r: &mut Random, file: &mut Vec<u8>, n: usize, bytes: usize, counted: bool) {
    let q = r.below(n);
    let pair = 10 + 4 * q;
    let end = u16::from_le_bytes([file[pair], file[pair + 1]]) + u16::from_le_bytes([file[pair + 2], file[pair + 3]]);
    file.splice(end as usize..end as usize, vec![0; bytes]);
    if counted {
        add(file, pair + 2, bytes as u16);
    }
    (q + 1..n).for_each(|later| add(file, 10 + 4 * later, bytes as u16));
}

/// A symbol or target that is too large, two arcs out of order, or one arc twice.
fn spoil_arc(r: &mut Random, file: &mut [u8], n: usize, k: usize) {
    let two = |file: &[u8], at: usize| file[at] as usize + 256 * file[at + 1] as usize;
    let mut seconds = Vec::new();
    for q in 0..n {
        let (offset, length) = (two(file, 10 + 4 * q), two(file, 12 + 4 * q));
        seconds.extend((offset..offset + length).step_by(2).skip(1));
    }
    let arc = 10 + 4 * n + 2 * r.below((file.len() - 10 - 4 * n) / 2);
    match r.below(4) {
        0 => file[arc] = r.pick(&[k as u8, 255]),
        1 => file[arc + 1] = r.pick(&[n as u8, 255]),
        _ if seconds.is_empty() => file[arc + 1] = n as u8,
        2 => {
            let second = r.pick(&seconds);
            file.copy_within(second - 2..second, second);
        }
        _ => {
            let second = r.pick(&seconds);
            file.swap(second - 2, second);
            file.swap(second - 1, second + 1);
        }
    }
}

/// A file that is most likely refused: one or two faults, a good file with a byte changed, or
/// bytes by chance.
pub fn likely_refused(r: &mut Random) -> Vec<u8> {
    let number = |r: &mut Random| match r.range(1, 9) as u32 {
        2 if !r.one_in(8) => 8,
        number => number,
    };
    match r.below(8) {
        0..=2 => {
            let number = number(r);
            faulty(r, &[number])
        }
        3..=5 => {
            let numbers = [number(r), number(r)];
            faulty(r, &numbers)
        }
        6 => {
            let mut file = file(&base(r, false));
            let at = r.below(file.len());
            file[at] ^= 1 << r.below(8);
            file
        }
        _ => {
            let (length, bound) = (r.below(60), r.pick(&[3, 33, 256]));
            (0..length).map(|_| r.below(bound) as u8).collect()
        }
    }
}

/// A number from the first on, below the end: the first itself as often as any.
fn from(r: &mut Random, first: usize, end: usize) -> usize {
    if r.one_in(2) { first } else { r.range(first, end - 1) }
}

/// A value in which all of the given conditions, of 3, 4, 6, 8 and 9, hold; others may hold too.
pub fn faulty_value(r: &mut Random, numbers: &[u32]) -> CheckedRule {
    let wanted = |number: u32| numbers.contains(&number);
    let a = base(r, wanted(9));
    let mut value = CheckedRule::of(&a);
    if wanted(8) {
        spoil_target(r, &mut value, a.n, a.k);
    }
    if wanted(6) {
        let bit = 1 << from(r, a.n, 32);
        *if r.one_in(2) { &mut value.initial } else { &mut value.finals } |= bit;
    }
    if wanted(4) {
        value.k = r.pick(&[0, 17, 18, 32, 255]);
    }
    if wanted(3) {
        value.n = r.pick(&[0, 33, 34, 40, 64, 255]);
    }
    value
}

/// A bit at n or above, or a mask of states that there are where the state or the symbol is outside.
fn spoil_target(r: &mut Random, value: &mut CheckedRule, n: usize, k: usize) {
    let (mut q, mut s, mut mask) = (r.below(n), r.below(k), 1 << r.below(n));
    match r.below(4) {
        0 if k < 16 => s = from(r, k, 16),
        1 if n < 32 => q = from(r, n, 32),
        2 if k < 16 && n < 32 => (q, s) = (from(r, n, 32), from(r, k, 16)),
        _ if n < 32 => mask = 1 << from(r, n, 32),
        _ => s = from(r, k, 16),
    }
    value.targets[q][s] |= mask;
}

/// A value that is most likely refused: one or two faults, one fault at 32 states, a good value with a
/// bit changed or with one state or symbol more or less, or numbers by chance.
pub fn likely_refused_value(r: &mut Random) -> CheckedRule {
    match r.below(10) {
        0..=3 => {
            let number = r.pick(&[3, 4, 6, 8, 8, 9]);
            faulty_value(r, &[number])
        }
        4 | 5 => {
            let numbers = [r.pick(&[3, 4, 6, 8, 9]), r.pick(&[3, 4, 6, 8, 9])];
            faulty_value(r, &numbers)
        }
        6 => {
            let k = r.range(1, 15);
            let mut value = CheckedRule::of(&blank(32, k));
            spoil_target(r, &mut value, 32, k);
            value
        }
        7 => {
            let mut bytes = CheckedRule::of(&base(r, false)).bytes();
            let at = if r.one_in(2) { r.below(10) } else { r.below(bytes.len()) };
            bytes[at] ^= 1 << r.below(8);
            CheckedRule::from_bytes(&bytes).unwrap()
        }
        8 => {
            let mut value = CheckedRule::of(&base(r, false));
            let number = if r.one_in(2) { &mut value.n } else { &mut value.k };
            *number = if r.one_in(2) { *number - 1 } else { *number + 1 };
            value
        }
        _ => {
            let (n, k) = (r.pick(&[1, 8, 31, 32, 32]), r.pick(&[1, 15, 16, 16]));
            let few = r.next() as u32;
            let mut mask = || (r.next() & r.next()) as u32 & few;
            let targets = [[0; 16]; 32].map(|row| row.map(|_: u32| mask()));
            CheckedRule { n, k, initial: mask(), finals: mask(), targets }
        }
    }
}
