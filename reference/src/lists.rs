//! Random lists of calls, as lines.

use crate::automata::{automaton, file};
use crate::checked::{CheckedRule, BYTES};
use crate::chunks::LONGEST;
use crate::faults::{likely_refused, likely_refused_value};
use crate::malformed::malformed;
use crate::random::Random;
use crate::rule::Automaton;
use std::collections::BTreeMap;

/// A list of calls in the making. What it remembers only guides the choice of the next call.
pub struct Maker {
    pub(crate) r: Random,
    lines: Vec<Vec<u8>>,
    pub(crate) rule: Automaton,
    pub(crate) places: usize,
    /// The highest revision written for each place since the opening.
    revisions: BTreeMap<u64, u32>,
    /// How many more chunks may be long.
    pub(crate) long: usize,
}

/// The list with a number under a seed.
pub fn list(seed: u64, index: u64) -> Vec<Vec<u8>> {
    let mut r = Random::new(seed, index);
    let rule = automaton(&mut r);
    let long = if r.one_in(50) { 3 } else { 0 };
    let mut maker = Maker { r, lines: Vec::new(), rule, places: 1, revisions: BTreeMap::new(), long };
    if maker.r.one_in(40) {
        maker.lines.push(Vec::new());
    }
    if maker.r.one_in(6) {
        maker.some_calls(4);
    }
    for _ in 0..maker.r.pick(&[1, 1, 1, 2, 3]) {
        maker.round();
    }
    maker.lines
}

/// The text of lists, with an empty line between two.
pub fn text(lists: &[Vec<Vec<u8>>]) -> Vec<u8> {
    let mut text = Vec::new();
    for (i, list) in lists.iter().enumerate() {
        if i > 0 {
            text.push(b'\n');
        }
        for line in list {
            text.extend(line);
            text.push(b'\n');
        }
    }
    text
}

impl Maker {
    fn line(&mut self, line: String) {
        self.lines.push(line.into_bytes());
    }

    fn hex(&mut self, bytes: &[u8]) -> String {
        if bytes.is_empty() {
            return "-".to_string();
        }
        let way = self.r.below(3);
        let mut hex = String::new();
        for byte in bytes {
            let upper = way == 0 || way == 1 && self.r.one_in(2);
            hex += &if upper { format!("{byte:02X}") } else { format!("{byte:02x}") };
        }
        hex
    }

    /// A number in decimal, now and then with zeros in front.
    fn number(&mut self, value: u64) -> String {
        let width = if self.r.one_in(25) { self.r.range(1, 20) } else { 1 };
        format!("{value:0width$}")
    }

    /// A number that is small again if its upper bits are lost, or just too large.
    fn large(&mut self, low: usize) -> u64 {
        let low = low as u64;
        let power = 1u64 << self.r.pick(&[8, 16, 31, 32, 63]);
        self.r.pick(&[power, power + low, power | 1, u64::MAX, u64::MAX - low, 100])
    }

    fn load(&mut self, file: &[u8]) {
        let file = self.hex(file);
        self.line(format!("load {file}"));
    }

    fn install(&mut self, bytes: &[u8]) {
        let value = self.hex(bytes);
        self.line(format!("install {value}"));
    }

    /// Loads the file of a rule, or installs its value.
    fn give(&mut self, rule: &Automaton) {
        if self.r.one_in(3) {
            self.install(&CheckedRule::of(rule).bytes());
        } else {
            self.load(&file(rule));
        }
    }

    /// Loads or installs a rule, rarely one with too many sets.
    fn give_rule(&mut self) {
        loop {
            let rule = automaton(&mut self.r);
            let large = file(&rule).len() > 2000 && !self.r.one_in(10);
            let many = rule.sets(512).is_none();
            if many && self.r.one_in(4) {
                self.give(&rule);
            }
            if !many && !large {
                self.give(&rule);
                self.rule = rule;
                return;
            }
        }
    }

    fn load_refused(&mut self) {
        let file = likely_refused(&mut self.r);
        self.load(&file);
    }

    fn install_refused(&mut self) {
        let value = likely_refused_value(&mut self.r);
        self.install(&value.bytes());
    }

    /// Bytes that are no value, since they are too few or too many, or are those of a file; or the bytes
    /// of a value where those of a file are due.
    fn value_out_of_place(&mut self) {
        let mut bytes = CheckedRule::of(&self.rule).bytes();
        let length = match self.r.below(12) {
            0 | 1 => {
                self.install(&file(&self.rule));
                return self.ended();
            }
            2 | 3 => return self.load(&bytes),
            4 => self.r.pick(&[0, 1, 10, BYTES / 2, 2 * BYTES, LONGEST, LONGEST + 1000]),
            5 => self.r.pick(&[BYTES - 2, BYTES + 2, BYTES - 4, BYTES + 4]),
            _ => self.r.pick(&[BYTES - 1, BYTES + 1]),
        };
        bytes.resize(length, 0);
        self.install(&bytes);
        self.ended();
    }

    fn open(&mut self, places: u64) {
        let places = self.number(places);
        self.line(format!("open {places}"));
    }

    fn open_board(&mut self) {
        self.places = match self.r.below(24) {
            0 => 64,
            1 => self.r.range(1, 64),
            2..=5 => 1,
            _ => self.r.range(1, 6),
        };
        self.open(self.places as u64);
        self.revisions.clear();
    }

    fn open_refused(&mut self) {
        let large = self.large(1);
        let places = self.r.pick(&[0, 0, 65, 65, 66, large, large]);
        self.open(places);
    }

    /// A revision for a place: any where none was written yet, else most likely a greater one.
    fn revision(&mut self, place: u64) -> u32 {
        let any = self.r.next() as u32;
        let Some(&last) = self.revisions.get(&place) else {
            return self.r.pick(&[0, 0, 0, 1, 1, 2, 7, 255, 256, 65_536, 1 << 31, u32::MAX - 1, u32::MAX, any, any]);
        };
        let above = last.saturating_add(1);
        match self.r.below(16) {
            0 | 1 => last,
            2 => last.saturating_sub(1),
            3 => self.r.pick(&[0, 0, last / 2, any, last ^ 1 << 31]),
            4 => u32::MAX,
            5 => last.max(any),
            _ => above,
        }
    }

    fn deliver(&mut self, place: u64, chunk: &[u8]) {
        let revision = self.revision(place);
        self.revisions.entry(place).and_modify(|last| *last = revision.max(*last)).or_insert(revision);
        let (place, revision, chunk) = (self.number(place), self.number(revision as u64), self.hex(chunk));
        self.line(format!("deliver {place} {revision} {chunk}"));
    }

    /// A delivery whose revision is left out, too large or no number.
    fn deliver_malformed(&mut self, place: u64, chunk: &[u8]) {
        let large = (1u64 << 32) + self.r.pick(&[0, 0, 0, 1, 7, u32::MAX as u64]);
        let (place, large, chunk) = (self.number(place), self.number(large), self.hex(chunk));
        let line = match self.r.below(8) {
            0..=2 => format!("deliver {place} {chunk}"),
            3..=5 => format!("deliver {place} {large} {chunk}"),
            6 => format!("deliver {place} {chunk} 0"),
            _ => format!("deliver {place} - {chunk}"),
        };
        self.line(line);
        self.ended();
    }

    /// A delivery that was broken into lines, as `xxd -p` breaks digits or anywhere: the first may well be a
    /// delivery of fewer bytes, and the next says no call.
    fn deliver_broken(&mut self, place: u64, chunk: &[u8]) {
        let digits = self.hex(chunk);
        let anywhere = self.r.range(1, digits.len());
        let (first, rest) = digits.split_at(self.r.pick(&[60, anywhere]).min(digits.len()));
        let (place, revision) = (self.number(place), self.revision(place));
        self.line(format!("deliver {place} {revision} {first}"));
        rest.as_bytes().chunks(60).take(3).for_each(|part| self.lines.push(part.to_vec()));
        self.ended();
    }

    /// What follows a line that says no call: lines that are skipped, whatever they say, and mostly an empty one
    /// or two, after which the rule is given and a board opened anew.
    fn ended(&mut self) {
        for _ in 0..self.r.below(4) {
            match self.r.below(3) {
                0 => self.verdict(),
                1 => self.lines.push(self.lines[self.r.below(self.lines.len())].clone()),
                _ => self.lines.extend(malformed(&mut self.r, &self.lines)),
            }
        }
        if self.r.one_in(8) {
            return;
        }
        for _ in 0..self.r.pick(&[1, 1, 1, 2]) {
            self.lines.push(Vec::new());
        }
        if self.r.one_in(8) {
            return;
        }
        self.give(&self.rule.clone());
        self.open(self.places as u64);
        self.revisions.clear();
    }

    fn withdraw(&mut self, place: u64) {
        let place = self.number(place);
        self.line(format!("withdraw {place}"));
    }

    fn verdict(&mut self) {
        self.line("verdict".to_string());
    }

    /// Asks where the trace is lost, or where in a chunk, mostly the one that was sent to the place.
    fn ask(&mut self, place: u64, chunk: &[u8]) {
        if self.r.one_in(2) {
            return self.line("diagnose".to_string());
        }
        let place = match self.r.below(8) {
            0 => self.no_place(),
            1 => self.place(),
            _ => place,
        };
        let mut chunk = if self.r.one_in(3) { self.chunk() } else { chunk.to_vec() };
        if self.r.one_in(12) {
            chunk.push(self.rule.k as u8);
        }
        let (place, chunk) = (self.number(place), self.hex(&chunk));
        self.line(format!("locate {place} {chunk}"));
    }

    fn place(&mut self) -> u64 {
        self.r.below(self.places) as u64
    }

    /// A place that the board does not have.
    fn no_place(&mut self) -> u64 {
        let low = self.r.below(self.places);
        let large = self.large(low);
        let places = self.places as u64;
        self.r.pick(&[places, places, places + 1, large, large])
    }

    /// A rule, an opening, chunks for the places in any order, verdicts, and changes afterwards.
    fn round(&mut self) {
        if self.r.one_in(3) {
            self.load_refused();
        }
        if self.r.one_in(6) {
            self.install_refused();
        }
        self.give_rule();
        if self.r.one_in(5) {
            self.some_calls(3);
        }
        for _ in 0..self.r.pick(&[1, 1, 1, 2]) {
            self.open_board();
            self.fill();
            if self.r.one_in(2) {
                self.change();
            }
        }
    }

    fn fill(&mut self) {
        let chunks = self.chunks();
        let mut order: Vec<usize> = (0..self.places).collect();
        if !self.r.one_in(3) {
            self.r.shuffle(&mut order);
        }
        if self.r.one_in(8) {
            order.pop();
        }
        for place in order {
            if self.r.one_in(8) {
                self.some_calls(2);
            }
            self.deliver(place as u64, &chunks[place]);
            if self.r.one_in(4) {
                self.ask(place as u64, &chunks[place]);
            }
            if self.r.one_in(10) {
                self.resend(place as u64, &chunks[place]);
            }
        }
        self.verdict();
    }

    /// A chunk is sent again, after more of the buffer was read: longer, or another, or the same.
    fn resend(&mut self, place: u64, chunk: &[u8]) {
        let more = self.chunk();
        let chunk = match self.r.below(4) {
            0 => chunk.to_vec(),
            1 => more,
            _ if chunk.len() + more.len() > LONGEST => more,
            _ => [chunk, &more].concat(),
        };
        self.deliver(place, &chunk);
        if self.r.one_in(3) {
            self.verdict();
        }
    }

    /// Chunks are withdrawn or not, and others delivered.
    fn change(&mut self) {
        for _ in 0..self.r.range(1, 5) {
            let place = self.place();
            if !self.r.one_in(3) {
                self.withdraw(place);
            }
            if self.r.one_in(3) {
                self.some_calls(2);
            }
            let chunk = self.chunk();
            self.deliver(place, &chunk);
            self.verdict();
        }
    }

    fn some_calls(&mut self, most: usize) {
        for _ in 0..self.r.range(1, most) {
            self.any_call();
        }
    }

    /// Any call, most likely out of place.
    fn any_call(&mut self) {
        let (place, no_place) = (self.place(), self.no_place());
        match self.r.below(23) {
            0..=3 => self.verdict(),
            4 | 5 => self.withdraw(place),
            6 => self.withdraw(no_place),
            7 | 8 => {
                let chunk = self.chunk();
                self.deliver(place, &chunk)
            }
            9 => {
                let chunk = self.chunk();
                self.deliver(no_place, &chunk)
            }
            10 | 11 => {
                let chunk = self.bad_chunk();
                self.deliver(place, &chunk)
            }
            12 => {
                let chunk = self.bad_chunk();
                self.deliver(no_place, &chunk)
            }
            13 if self.r.one_in(8) => {
                let chunk = self.too_long_chunk();
                let place = self.r.pick(&[place, place, place, no_place]);
                self.deliver(place, &chunk)
            }
            13 | 14 => self.open_refused(),
            15 => self.load_refused(),
            16 if self.r.one_in(4) => self.open_board(),
            16 if self.r.one_in(4) => self.give_rule(),
            17 => self.install_refused(),
            18 if self.r.one_in(3) => self.value_out_of_place(),
            19 => {
                let chunk = self.chunk();
                self.deliver_malformed(place, &chunk)
            }
            20 => {
                let chunk = self.chunk();
                let times = if chunk.len() < 100 { self.r.pick(&[1, 10, 40]) } else { 1 };
                self.deliver_broken(place, &chunk.repeat(times))
            }
            _ => {
                if let Some(line) = malformed(&mut self.r, &self.lines) {
                    self.lines.push(line);
                    self.ended();
                }
            }
        }
    }
}
