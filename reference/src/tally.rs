//! What the compared lists reached: how often each call had each kind of answer, and the edges.

use crate::automata::all_states;
use crate::checked::{read, CheckedRule, BYTES};
use crate::judge::Call;
use crate::lines::call;
use crate::rule::members;
use std::collections::BTreeMap;

#[derive(Default)]
pub struct Tally {
    pub calls: usize,
    counts: BTreeMap<String, usize>,
    /// The last revision accepted at each place that had one, and whether a chunk stands there.
    places: BTreeMap<u64, (u32, bool)>,
}

impl Tally {
    fn add(&mut self, what: &str) {
        *self.counts.entry(what.to_string()).or_default() += 1;
    }

    /// Counts a line and its answer.
    pub fn line(&mut self, line: &[u8], answer: &str) {
        if line.is_empty() {
            return self.places.clear();
        }
        self.calls += 1;
        let call = call(line);
        if answer == "skipped" {
            return self.add(if call.is_some() { "skipped: a call" } else { "skipped: no call" });
        }
        if answer == "malformed" {
            self.value_of_another_size(line);
            return self.add(answer);
        }
        let words: Vec<&str> = answer.split(' ').collect();
        let kind = if words[0] == "refused" { answer } else { words[0] };
        let accepted = words[0] == "accepted";
        let verb = line.split(|&c| c == b' ').next().unwrap();
        self.add(&format!("{} {kind}", String::from_utf8_lossy(verb)));
        let Some(call) = call else { return };
        match call {
            Call::Load(file) => {
                if accepted {
                    self.places.clear();
                }
                if file.len() == 32_907 || accepted && file.len() == 32_906 {
                    self.add(&format!("edge: file of {} bytes", file.len()));
                }
                if accepted || answer == "refused 9" {
                    self.rule(&read(&file).unwrap(), &words);
                }
            }
            Call::Install(value) if accepted || answer == "refused 9" => {
                if accepted {
                    self.places.clear();
                }
                self.rule(&value, &words)
            }
            Call::Install(value) => self.refused_value(&value, answer),
            Call::Open(places) => {
                if accepted {
                    self.places.clear();
                }
                if places == 64 || places == 65 {
                    self.add(&format!("edge: open {places}"));
                }
            }
            Call::Withdraw(place) if accepted => {
                self.places.entry(place).and_modify(|(_, stands)| *stands = false);
            }
            Call::Deliver(place, revision, chunk) => {
                if accepted || answer == "refused 22" {
                    self.revision(place, revision, accepted);
                }
                let length = chunk.len();
                if accepted && (length == 0 || length == 65_536) || length == 65_537 {
                    self.add(&format!("edge: chunk of {length} bytes"));
                }
                if accepted {
                    let marks = chunk.iter().filter(|&&byte| byte == 255).count();
                    self.marks(marks, length);
                    self.looked(words[1].parse().unwrap(), length - marks);
                }
            }
            _ => (),
        }
    }

    /// Counts a delivery that only its revision can refuse: how it is beside the last one accepted
    /// there, and whether that one still stands.
    fn revision(&mut self, place: u64, revision: u32, accepted: bool) {
        let what = match self.places.get(&place) {
            None => "the first at its place".to_string(),
            Some(&(last, stands)) => {
                let beside = match revision.cmp(&last) {
                    std::cmp::Ordering::Less => "lower",
                    std::cmp::Ordering::Equal => "equal",
                    std::cmp::Ordering::Greater => "greater",
                };
                format!("{beside}, {}", if stands { "a chunk stands" } else { "after a withdrawal" })
            }
        };
        self.add(&format!("revision: {what}"));
        if accepted && (revision == 0 || revision == u32::MAX) {
            self.add(&format!("edge: revision {revision}"));
        }
        if accepted {
            self.places.insert(place, (revision, true));
        }
    }

    /// Counts an accepted chunk that has idle marks, or nothing else.
    fn marks(&mut self, marks: usize, length: usize) {
        match marks {
            0 => (),
            _ if marks == length => self.add("chunk: idle marks alone"),
            _ => self.add("chunk: idle marks and text"),
        }
    }

    /// Counts an accepted text of so many bytes whose runs all died, or that nothing was run from.
    fn looked(&mut self, looked: usize, length: usize) {
        match looked {
            _ if looked == length => (),
            0 => self.add("chunk: nothing runs"),
            1 => self.add("chunk: every run dies at the first byte"),
            _ => self.add("chunk: every run dies later, before the last byte"),
        }
    }

    /// Counts a malformed line whose value has a byte more or less than is due.
    fn value_of_another_size(&mut self, line: &[u8]) {
        let Some(hex) = line.strip_prefix(b"install ") else { return };
        if hex.len() == 2 * BYTES - 2 || hex.len() == 2 * BYTES + 2 {
            self.add(&format!("edge: value of {} bytes", hex.len() / 2));
        }
    }

    /// Counts what is noteworthy in a value that was refused: which number of states is too large by
    /// far, and which target masks are wrong where they alone are.
    fn refused_value(&mut self, value: &CheckedRule, answer: &str) {
        let (n, k) = (value.n as usize, value.k as usize);
        if n == 40 {
            self.add("value: 40 states");
        }
        if answer != "refused 8" {
            return;
        }
        let mut wrong = [0; 3];
        for (q, by_symbol) in value.targets.iter().enumerate() {
            for (s, &mask) in by_symbol.iter().enumerate() {
                let faults = [mask & !all_states(n) != 0, q >= n && mask != 0, s >= k && mask != 0];
                (0..3).filter(|&i| faults[i]).for_each(|i| wrong[i] += 1);
            }
        }
        let what = match wrong {
            [_, 0, 0] => "value: a target at n or above and no other fault",
            [0, _, 0] => "value: a mask for no state and no other fault",
            [0, 0, _] => "value: a mask for no symbol and no other fault",
            _ => return,
        };
        self.add(what);
        if n == 32 {
            self.add("value: a mask for no symbol of 32 states");
        }
    }

    /// Counts what is noteworthy in a rule that was built or has more than 512 sets.
    fn rule(&mut self, value: &CheckedRule, words: &[&str]) {
        let a = value.automaton().unwrap();
        let sets = a.sets(1000).map_or(1001, |sets| sets.len());
        match sets {
            400..=509 => self.add("sets 400 to 509"),
            510..=514 => self.add(&format!("sets {sets}")),
            515..=1000 => self.add("sets 515 to 1000"),
            1001.. => self.add("sets over 1000"),
            _ => (),
        }
        if words[0] != "accepted" {
            return;
        }
        let live = (0..a.n).filter(|&q| a.live(q)).fold(0, |set, q| set | 1 << q);
        let without_arcs = |q: usize| a.targets[q].iter().all(|&targets| targets == 0);
        let checks = [
            ("rule: fewer starts than states", words[2] != a.n.to_string()),
            ("rule: 32 states", a.n == 32),
            ("rule: 16 symbols", a.k == 16),
            ("rule: no initial state", a.initial == 0),
            ("rule: no final state", a.finals == 0),
            ("rule: all states final", a.finals == all_states(a.n)),
            ("rule: a final state without arcs", members(a.finals).any(without_arcs)),
            ("rule: a dead state", live != all_states(a.n)),
            ("rule: more dead states than live ones", 2 * live.count_ones() < a.n as u32),
            ("rule: dead and live initial states", a.initial & live != 0 && a.initial & !live != 0),
            ("rule: dead initial states alone", a.initial != 0 && a.initial & live == 0),
        ];
        for (what, holds) in checks {
            if holds {
                self.add(what);
            }
        }
    }

    pub fn print(&self) {
        for (what, count) in &self.counts {
            println!("  {count:>8}  {what}");
        }
    }
}
