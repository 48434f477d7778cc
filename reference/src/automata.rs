//! Random automata of many kinds, and the file of an automaton.

use crate::random::Random;
use crate::rule::{members, Automaton};

/// The file of an automaton.
pub fn file(a: &Automaton) -> Vec<u8> {
    let mut file = vec![a.n as u8, a.k as u8];
    file.extend(a.initial.to_le_bytes());
    file.extend(a.finals.to_le_bytes());
    let mut arcs = Vec::new();
    for q in 0..a.n {
        let before = arcs.len();
        for s in 0..a.k {
            arcs.extend(members(a.targets[q][s]).flat_map(|t| [s as u8, t as u8]));
        }
        file.extend(((10 + 4 * a.n + before) as u16).to_le_bytes());
        file.extend(((arcs.len() - before) as u16).to_le_bytes());
    }
    file.extend(arcs);
    file
}

/// An automaton without arcs, initial or final states.
pub fn blank(n: usize, k: usize) -> Automaton {
    Automaton { n, k, initial: 0, finals: 0, targets: vec![vec![0; k]; n] }
}

fn size(r: &mut Random, most: usize) -> usize {
    match r.below(6) {
        0 => r.range(1, 3.min(most)),
        1 => most,
        2 => r.range(1, most),
        _ => r.range(1, 8.min(most)),
    }
}

fn subset(r: &mut Random, n: usize) -> u32 {
    (0..n).fold(0, |set, q| set | (r.below(2) as u32) << q)
}

/// Each arc is there with a chance of so many in a thousand.
fn arcs(r: &mut Random, n: usize, k: usize, chance: usize) -> Automaton {
    let mut a = blank(n, k);
    for q in 0..n {
        for s in 0..k {
            for t in 0..n {
                if r.below(1000) < chance {
                    a.targets[q][s] |= 1 << t;
                }
            }
        }
    }
    a
}

/// As many s-arcs from a state as the degree says, in hundredths, on average.
fn sparse(r: &mut Random, n: usize, k: usize, degree: usize) -> Automaton {
    arcs(r, n, k, 10 * degree / n)
}

/// States without arcs to them, without arcs from them, or with neither.
fn with_loose_states(r: &mut Random, n: usize, k: usize) -> Automaton {
    let degree = r.range(80, 250);
    let mut a = sparse(r, n, k, degree);
    let (unreached, stuck) = (subset(r, n) & subset(r, n), subset(r, n) & subset(r, n));
    for q in 0..n {
        for s in 0..k {
            a.targets[q][s] &= if stuck >> q & 1 == 1 { 0 } else { !unreached };
        }
    }
    a
}

fn deterministic(r: &mut Random, n: usize, k: usize) -> Automaton {
    let mut a = blank(n, k);
    let gaps = r.one_in(2);
    for q in 0..n {
        for s in 0..k {
            if !(gaps && r.one_in(4)) {
                a.targets[q][s] = 1 << r.below(n);
            }
        }
    }
    a
}

/// Copies of the states of a smaller automaton. A target is replaced by one, some or all of its
/// copies, so copies are alike; now and then one arc or one final state is changed afterwards.
fn with_copies(r: &mut Random, n: usize, k: usize) -> Automaton {
    let few = r.range(1, n.min(6));
    let degree = r.range(60, 140);
    let mut small = if r.one_in(2) { deterministic(r, few, k) } else { sparse(r, few, k, degree) };
    small.finals = subset(r, few);
    let owner: Vec<usize> = (0..n).map(|q| if q < few { q } else { r.below(few) }).collect();
    let way = r.below(3);
    let mut a = blank(n, k);
    for q in 0..n {
        a.finals |= (small.finals >> owner[q] & 1) << q;
        for s in 0..k {
            for target in members(small.targets[owner[q]][s]) {
                let copies: Vec<usize> = (0..n).filter(|&c| owner[c] == target).collect();
                let some = subset(r, n);
                for &c in copies.iter().filter(|&&c| way == 0 || way == 1 && some >> c & 1 == 1) {
                    a.targets[q][s] |= 1 << c;
                }
                a.targets[q][s] |= 1 << r.pick(&copies);
            }
        }
    }
    match r.below(6) {
        0 => a.finals ^= 1 << r.below(n),
        1 => a.targets[r.below(n)][r.below(k)] ^= 1 << r.below(n),
        _ => (),
    }
    a
}

/// The j-th symbol from the end is 1: about 2^j sets.
pub fn from_the_end(j: usize, k: usize) -> Automaton {
    let mut a = blank(j + 1, k);
    for s in 0..k {
        for q in 1..j {
            a.targets[q][s] = 1 << (q + 1);
        }
        a.targets[0][s] = if s == 1 { 3 } else { 1 };
    }
    (a.initial, a.finals) = (1, 1 << j);
    a
}

/// Cycles of the given lengths by symbol 0, all but one state of each final; the last state but
/// one enters all of them at once, the last one loops and is final. The text that tells these
/// two apart may be nearly as long as the product of the lengths.
fn cycles(r: &mut Random, lengths: &[usize], k: usize) -> Automaton {
    let around: usize = lengths.iter().sum();
    let mut a = blank(around + 2, k);
    let mut first = 0;
    for &length in lengths {
        for q in 0..length {
            a.targets[first + q][0] = 1 << (first + (q + 1) % length);
        }
        a.finals |= ((1 << length) - 1 ^ 1 << r.below(length)) << first;
        a.targets[around][0] |= 1 << first;
        first += length;
    }
    a.targets[around + 1][0] = 1 << (around + 1);
    a.finals |= 3 << around;
    a.initial = if r.one_in(3) { 3 << around } else { 1 << around };
    a
}

/// The states of one beside those of the other, no arcs between them: the numbers of sets add up.
fn beside(a: &Automaton, b: &Automaton) -> Automaton {
    let mut both = blank(a.n + b.n, a.k);
    both.initial = a.initial | b.initial << a.n;
    both.finals = a.finals | b.finals << a.n;
    for (q, by_symbol) in a.targets.iter().enumerate() {
        both.targets[q] = by_symbol.clone();
    }
    for (q, by_symbol) in b.targets.iter().enumerate() {
        both.targets[a.n + q] = by_symbol.iter().map(|set| set << a.n).collect();
    }
    both
}

/// States from which no final state can be reached, few or nearly all: arcs lead to them and among
/// them, none from them to the others, so the texts that the others accept stay as they are. Now and
/// then a final state has no arcs; initial states may be among the dead ones alone.
fn with_dead_states(r: &mut Random, n: usize, k: usize) -> Automaton {
    let dead = r.range(1, n - 1);
    let (live, degree) = (n - dead, r.range(60, 200));
    let mut leading = match r.below(3) {
        0 => with_copies(r, live, k),
        1 => deterministic(r, live, k),
        _ => sparse(r, live, k, degree),
    };
    leading.finals |= 1 << r.below(live) | if r.one_in(2) { subset(r, live) } else { 0 };
    let leading_nowhere = if r.one_in(2) { deterministic(r, dead, k) } else { sparse(r, dead, k, degree) };
    let mut a = beside(&leading, &leading_nowhere);
    let strays = r.pick(&[2, 4, 20]);
    for q in 0..live {
        for s in 0..k {
            if r.one_in(strays) {
                a.targets[q][s] |= 1 << (live + r.below(dead));
            }
        }
    }
    if r.one_in(3) {
        let q = r.pick(&members(a.finals).collect::<Vec<usize>>());
        a.targets[q].fill(0);
    }
    a.initial = match r.below(6) {
        0 => 1 << (live + r.below(dead)),
        1 | 2 => 1 << r.below(live) | 1 << (live + r.below(dead)),
        _ => 0,
    };
    a
}

/// Single states without arcs, and perhaps one more with arcs to several of them by each of the
/// first symbols: as many sets as wanted, if at most so many states are enough.
fn padding(sets: usize, k: usize, most: usize) -> Option<Automaton> {
    for single in 1..=most {
        if single == sets {
            return Some(blank(single, k));
        }
        let groups: Vec<u32> = (1..1 << single.min(6)).filter(|g: &u32| g.count_ones() > 1).collect();
        if single < most && single < sets && sets - single - 1 <= groups.len().min(k) {
            let mut a = blank(single + 1, k);
            for s in 0..sets - single - 1 {
                a.targets[single][s] = groups[s];
            }
            return Some(a);
        }
    }
    None
}

/// An automaton with exactly so many sets (some hundreds).
pub fn exactly(r: &mut Random, sets: usize) -> Automaton {
    loop {
        let k = if r.one_in(3) { r.range(2, 16) } else { 2 };
        let mut a = match r.below(4) {
            0 => from_the_end(8, k),
            1 => cycles(r, &[4, 9, 11], k),
            _ => {
                let (n, degree) = (r.range(9, 13), r.range(90, 170));
                sparse(r, n, k, degree)
            }
        };
        let Some(mut have) = a.sets(sets).map(|sets| sets.len()) else { continue };
        if have < sets / 3 {
            continue;
        }
        while have < sets {
            let most = 32 - a.n;
            let largest = (1..9).rev().find(|j| j + 1 <= most && (1 << j) + j <= sets - have);
            let more = match (padding(sets - have, k, most), largest) {
                (Some(padding), _) => padding,
                (None, Some(j)) => from_the_end(r.range(j.max(2) - 1, j), k),
                (None, None) => break,
            };
            a = beside(&a, &more);
            have = a.sets(sets).map_or(sets + 1, |sets| sets.len());
        }
        if have == sets {
            return a;
        }
    }
}

/// The same automaton with its states in another order.
pub fn reordered(r: &mut Random, a: &Automaton) -> Automaton {
    let mut place: Vec<usize> = (0..a.n).collect();
    r.shuffle(&mut place);
    let moved = |set: u32| members(set).fold(0, |moved, q| moved | 1 << place[q]);
    let mut b = blank(a.n, a.k);
    (b.initial, b.finals) = (moved(a.initial), moved(a.finals));
    for q in 0..a.n {
        b.targets[place[q]] = a.targets[q].iter().map(|&set| moved(set)).collect();
    }
    b
}

fn any_kind(r: &mut Random) -> Automaton {
    let (n, k) = (size(r, 32), size(r, 16));
    let few = n.min(12);
    match r.below(17) {
        0 => {
            let degree = r.range(20, 100);
            sparse(r, n, k, degree)
        }
        1 | 2 => {
            let (n, degree) = (if r.one_in(4) { n } else { few }, r.range(80, 200));
            sparse(r, n, k.min(4), degree)
        }
        3 => {
            let chance = r.range(250, 900);
            arcs(r, few, k, chance)
        }
        4 if r.one_in(12) => arcs(r, 32, 16, 1000),
        4 if r.one_in(6) => arcs(r, n, k, 1000),
        4 | 5 => with_loose_states(r, few, k),
        6 | 7 | 8 => with_copies(r, n, k.min(5)),
        9 | 10 => deterministic(r, n, k),
        14 | 15 => with_dead_states(r, few.max(2), k.min(5)),
        16 => with_dead_states(r, n.max(2), k.min(3)),
        11 => {
            let j = if r.one_in(5) { r.range(9, 31) } else { r.range(1, 8) };
            from_the_end(j, k)
        }
        12 => {
            let lengths: [&[usize]; 5] = [&[2, 3], &[3, 5, 7], &[13, 16], &[4, 7, 9], &[4, 9, 11]];
            let lengths = r.pick(&lengths);
            cycles(r, lengths, k)
        }
        _ if r.one_in(3) => {
            let sets = r.pick(&[500, 510, 511, 512, 512, 512, 513, 513, 514]);
            exactly(r, sets)
        }
        _ => blank(n, k),
    }
}

/// An automaton of any kind, also with more than 512 sets.
pub fn automaton(r: &mut Random) -> Automaton {
    let mut a = any_kind(r);
    if a.initial == 0 {
        a.initial = if r.one_in(3) { subset(r, a.n) } else { 1 << r.below(a.n) };
    }
    if a.finals == 0 {
        a.finals = if r.one_in(2) { subset(r, a.n) } else { 1 << r.below(a.n) };
    }
    match r.below(30) {
        0 => a.initial = 0,
        1 | 2 => a.finals = 0,
        3 => (a.initial, a.finals) = (0, 0),
        4 => a.initial = all_states(a.n),
        5 => a.finals = all_states(a.n),
        _ => (),
    }
    if r.one_in(4) { a } else { reordered(r, &a) }
}

/// The same automaton with a state more: one that nothing leads to, one that leads to itself alone, or a copy of
/// a state, to which arcs lead beside it. It accepts the same texts.
pub fn with_a_state_more(r: &mut Random, a: &Automaton) -> Automaton {
    let (more, q) = (a.n, r.below(a.n));
    let mut b = a.clone();
    b.n += 1;
    let any_set = |r: &mut Random| (r.next() & r.next()) as u32 & ((1u64 << more) - 1) as u32;
    match r.below(3) {
        0 => {
            b.targets.push((0..a.k).map(|_| any_set(r)).collect());
            b.finals |= (r.below(2) as u32) << more;
        }
        1 => {
            b.targets.push(vec![1 << more; a.k]);
            b.targets[q][r.below(a.k)] |= 1 << more;
            b.initial |= (r.below(2) as u32) << more;
        }
        _ => {
            b.targets.push(a.targets[q].clone());
            b.finals |= (a.finals >> q & 1) << more;
            b.initial |= (a.initial >> q & 1) << more;
            for p in 0..b.n {
                for s in 0..a.k {
                    if b.targets[p][s] >> q & 1 == 1 && r.one_in(2) { b.targets[p][s] |= 1 << more; }
                }
            }
        }
    }
    b
}

/// The same automaton with one of its numbers another.
pub fn with_a_change(r: &mut Random, a: &Automaton) -> Automaton {
    let (mut b, q, s, p) = (a.clone(), r.below(a.n), r.below(a.k), r.below(a.n));
    match r.below(6) {
        0 => b.finals ^= 1 << q,
        1 => b.initial ^= 1 << q,
        2 => b.targets[q][s] = 0,
        _ => b.targets[q][s] ^= 1 << p,
    }
    b
}

/// An automaton with so many symbols.
pub fn with_symbols(k: usize, mut a: Automaton) -> Automaton {
    for row in &mut a.targets { row.resize(k, 0); }
    a.k = k;
    a
}

/// The mask with a bit for every state.
pub fn all_states(n: usize) -> u32 {
    ((1u64 << n) - 1) as u32
}
