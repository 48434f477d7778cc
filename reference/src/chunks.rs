//! Random chunks for a list of calls in the making.

use crate::lists::Maker;

/// The most bytes that a chunk may have.
pub const LONGEST: usize = 65_536;
const IDLE: u8 = 255;

impl Maker {
    fn length(&mut self) -> usize {
        if self.long > 0 && self.r.one_in(2) {
            self.long -= 1;
            return self.r.pick(&[LONGEST - 1, LONGEST, LONGEST, LONGEST, 256, 4095, 4096, 20_000]);
        }
        match self.r.below(20) {
            0 => self.r.range(0, 300),
            1..=4 => self.r.range(0, 40),
            5..=7 => 0,
            _ => self.r.range(0, 8),
        }
    }

    /// A text: mostly of symbols that keep the set from a start, or from the initial states, alive.
    fn walk(&mut self, from: u32, length: usize) -> Vec<u8> {
        let (mut set, stray) = (from, self.r.pick(&[2, 10, 1000]));
        let mut text = Vec::new();
        for _ in 0..length {
            let mut s = self.r.below(self.rule.k) as u8;
            for _ in 0..self.rule.k {
                if self.rule.successor(set, s) != 0 || self.r.one_in(stray) {
                    break;
                }
                s = (s + 1) % self.rule.k as u8;
            }
            set = self.rule.successor(set, s);
            text.push(s);
        }
        text
    }

    /// A chunk with that text, now and then with idle marks, a row of them or some here and there;
    /// none beyond the limit.
    fn marked(&mut self, text: Vec<u8>) -> Vec<u8> {
        let spare = LONGEST.saturating_sub(text.len());
        let mut chunk = text;
        if spare == 0 || !self.r.one_in(3) {
            return chunk;
        }
        if self.r.one_in(2) {
            let marks = self.r.pick(&[1, 2, 8, chunk.len() + 2]).min(spare);
            let at = self.r.below(chunk.len() + 1);
            chunk.splice(at..at, vec![IDLE; marks]);
            return chunk;
        }
        for _ in 0..self.r.range(1, 8).min(spare) {
            let at = self.r.below(chunk.len() + 1);
            chunk.insert(at, IDLE);
        }
        chunk
    }

    pub(crate) fn chunk(&mut self) -> Vec<u8> {
        let from = 1 << self.r.below(self.rule.n);
        let length = self.length();
        let text = self.walk(from, length);
        self.marked(text)
    }

    /// A chunk with a byte at or above k: the first, the last or any.
    pub(crate) fn bad_chunk(&mut self) -> Vec<u8> {
        let mut chunk = self.chunk();
        chunk.push(0);
        let at = self.r.below(chunk.len());
        let at = self.r.pick(&[0, chunk.len() - 1, at]);
        chunk[at] = self.r.pick(&[self.rule.k as u8, self.rule.k as u8, 16, 127, 128, 254]);
        chunk
    }

    pub(crate) fn too_long_chunk(&mut self) -> Vec<u8> {
        let length = LONGEST + self.r.pick(&[1, 1, 1, 1, 2, 1000, 300_000]);
        let mut chunk = self.walk(self.rule.initial, length);
        match self.r.below(6) {
            0 | 1 => chunk[LONGEST] = IDLE,
            2 => chunk.fill(IDLE),
            _ => (),
        }
        chunk
    }

    /// Chunks for all places whose text is, if luck will have it, accepted or not as wished, with
    /// idle marks.
    pub(crate) fn chunks(&mut self) -> Vec<Vec<u8>> {
        let wish = !self.r.one_in(3);
        let mut chunks: Vec<Vec<u8>> = Vec::new();
        for _ in 0..if self.long > 0 { 1 } else { 8 } {
            let lengths: Vec<usize> = (0..self.places).map(|_| self.length()).collect();
            let text = self.walk(self.rule.initial, lengths.iter().sum());
            let mut rest = &text[..];
            chunks.clear();
            for length in lengths {
                chunks.push(rest[..length].to_vec());
                rest = &rest[length..];
            }
            if self.rule.accepts_from(self.rule.initial, &text) == wish {
                break;
            }
        }
        chunks.into_iter().map(|chunk| self.marked(chunk)).collect()
    }
}
