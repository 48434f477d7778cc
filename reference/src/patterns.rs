//! Patterns for shop owners (request R-6), from the request's words: the grammar by recursive
//! descent, and for each letter what may still come after it.

use crate::automata::{blank, file};
use crate::rule::Automaton;
use std::rc::Rc;

/// A letter has its place from the left, counted from 1, and its symbol.
#[derive(Clone, Debug, PartialEq)]
pub enum Pattern {
    Empty,
    Letter(usize, u8),
    Then(Rc<Pattern>, Rc<Pattern>),
    Or(Rc<Pattern>, Rc<Pattern>),
    Star(Rc<Pattern>),
}

use Pattern::*;

struct Reader<'a> {
    bytes: &'a [u8],
    letters: Vec<u8>,
}

impl Reader<'_> {
    /// Takes the byte if it comes next.
    fn take(&mut self, byte: u8) -> bool {
        let there = self.bytes.first() == Some(&byte);
        if there {
            self.bytes = &self.bytes[1..];
        }
        there
    }

    fn alternatives(&mut self) -> Option<Pattern> {
        let mut pattern = self.sequence()?;
        while self.take(b'|') {
            pattern = Or(Rc::new(pattern), Rc::new(self.sequence()?));
        }
        Some(pattern)
    }

    fn sequence(&mut self) -> Option<Pattern> {
        let mut pattern = Empty;
        while let Some(b'(' | b'a'..=b'p') = self.bytes.first() {
            pattern = Then(Rc::new(pattern), Rc::new(self.item()?));
        }
        Some(pattern)
    }

    fn item(&mut self) -> Option<Pattern> {
        let mut pattern = if self.take(b'(') {
            let inside = self.alternatives()?;
            if !self.take(b')') {
                return None;
            }
            inside
        } else {
            let symbol = self.bytes[0] - b'a';
            self.bytes = &self.bytes[1..];
            self.letters.push(symbol);
            Letter(self.letters.len(), symbol)
        };
        while self.take(b'*') {
            pattern = Star(Rc::new(pattern));
        }
        Some(pattern)
    }
}

/// The pattern that the bytes are, and its letters; none where they are outside the grammar.
pub fn parse(bytes: &[u8]) -> Option<(Pattern, Vec<u8>)> {
    let mut reader = Reader { bytes, letters: Vec::new() };
    let pattern = reader.alternatives()?;
    reader.bytes.is_empty().then_some((pattern, reader.letters))
}

impl Pattern {
    fn may_be_empty(&self) -> bool {
        match self {
            Empty | Star(_) => true,
            Letter(..) => false,
            Then(p, q) => p.may_be_empty() && q.may_be_empty(),
            Or(p, q) => p.may_be_empty() || q.may_be_empty(),
        }
    }

    /// The letters with which a text can begin.
    fn first(&self) -> Vec<(usize, u8)> {
        match self {
            Empty => Vec::new(),
            Letter(place, symbol) => vec![(*place, *symbol)],
            Then(p, q) if p.may_be_empty() => [p.first(), q.first()].concat(),
            Then(p, _) | Star(p) => p.first(),
            Or(p, q) => [p.first(), q.first()].concat(),
        }
    }

    /// What may still come after the letter at a place, if it is here: the rest of this pattern, and
    /// then what comes behind it.
    fn after(&self, place: usize, behind: Pattern) -> Option<Pattern> {
        match self {
            Empty => None,
            Letter(here, _) => (*here == place).then_some(behind),
            Then(p, q) => p
                .after(place, Then(q.clone(), Rc::new(behind.clone())))
                .or_else(|| q.after(place, behind)),
            Or(p, q) => p.after(place, behind.clone()).or_else(|| q.after(place, behind)),
            Star(p) => p.after(place, Then(Rc::new(self.clone()), Rc::new(behind))),
        }
    }

    /// Whether the text is one of the pattern's, by the clauses of the textbook.
    pub fn matches(&self, text: &[u8]) -> bool {
        match self {
            Empty => text.is_empty(),
            Letter(_, symbol) => text == [*symbol],
            Then(p, q) => (0..=text.len()).any(|i| p.matches(&text[..i]) && q.matches(&text[i..])),
            Or(p, q) => p.matches(text) || q.matches(text),
            Star(p) => {
                text.is_empty() || (1..=text.len()).any(|i| p.matches(&text[..i]) && self.matches(&text[i..]))
            }
        }
    }

    /// State 0 is the start, state i the i-th letter; from each lead the letters that may come next.
    pub fn automaton(&self, letters: &[u8]) -> Automaton {
        let mut a = blank(letters.len() + 1, 16);
        a.initial = 1;
        for q in 0..a.n {
            let rest = if q == 0 { self.clone() } else { self.after(q, Empty).unwrap() };
            a.finals |= (rest.may_be_empty() as u32) << q;
            for (place, symbol) in rest.first() {
                a.targets[q][symbol as usize] |= 1 << place;
            }
        }
        a
    }
}

/// The rule file of a pattern, or the number of the first condition that holds, 30 to 32.
pub fn rule_file(bytes: &[u8]) -> Result<Vec<u8>, u32> {
    if bytes.len() > 128 {
        return Err(30);
    }
    let Some((pattern, letters)) = parse(bytes) else { return Err(31) };
    if letters.len() > 31 {
        return Err(32);
    }
    Ok(file(&pattern.automaton(&letters)))
}

/// The answer to a line.
pub fn answer(line: &[u8]) -> String {
    match rule_file(line) {
        Ok(file) => file.iter().map(|byte| format!("{byte:02X}")).collect(),
        Err(number) => format!("refused {number}"),
    }
}
