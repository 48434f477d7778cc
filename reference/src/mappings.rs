//! The mapping machine, and the lines of `profileprint` and `mapjudge`.

use crate::checked::{read, CheckedRule};
use crate::judge::{text, IDLE};
use crate::lines::{answers_by, bytes};
use crate::rule::{members, Automaton};

/// From each of eight states to a set, as a mask: the mask of state q stands at q.
pub type Mapping = [u8; 8];

pub struct Profile {
    pub automaton: Automaton,
    /// The mapping with number i is `mappings[i]`.
    pub mappings: Vec<Mapping>,
    /// `next[i][s]` is the number of the mapping that mapping i leads to by symbol s.
    pub next: Vec<Vec<usize>>,
}

/// A mapping of the rule's states that is made state by state; the others lead nowhere.
fn each(n: usize, set: impl Fn(usize) -> u32) -> Mapping {
    std::array::from_fn(|q| if q < n { set(q) as u8 } else { 0 })
}

/// The earlier one's applied first: each state leads to all that its set leads to.
pub fn compose(earlier: &Mapping, later: &Mapping) -> Mapping {
    earlier.map(|set| members(u32::from(set)).fold(0, |union, q| union | later[q]))
}

impl Profile {
    /// Checks a rule that is given by value and builds its machine; or the number of the first
    /// condition that holds: 3, 4, 6, 8, 33 or 34.
    pub fn build(value: &CheckedRule) -> Result<Profile, u32> {
        let automaton = value.automaton()?;
        let n = automaton.n;
        if n > 8 { return Err(33); }
        let mut mappings = vec![each(n, |q| 1 << q)];
        let mut next: Vec<Vec<usize>> = Vec::new();
        while next.len() < mappings.len() {
            let mapping = mappings[next.len()];
            let mut row = Vec::new();
            for s in 0..automaton.k as u8 {
                let found = each(n, |q| automaton.successor(u32::from(mapping[q]), s));
                let number = mappings.iter().position(|other| *other == found);
                row.push(number.unwrap_or(mappings.len()));
                if number.is_none() {
                    mappings.push(found);
                }
            }
            if mappings.len() > 512 { return Err(34); }
            next.push(row);
        }
        Ok(Profile { automaton, mappings, next })
    }

    /// The mapping of a chunk, or 12 or 13.
    pub fn run(&self, chunk: &[u8]) -> Result<Mapping, u32> {
        if chunk.len() > 65_536 { return Err(12); }
        let foreign = |&byte: &u8| byte != IDLE && byte as usize >= self.automaton.k;
        if chunk.iter().any(foreign) { return Err(13); }
        let last = text(chunk).iter().fold(0, |number, &s| self.next[number][s as usize]);
        Ok(self.mappings[last])
    }

    /// Yes where a final state is in the set of an initial one.
    pub fn verdict(&self, mapping: &Mapping) -> bool {
        members(self.automaton.initial).any(|q| u32::from(mapping[q]) & self.automaton.finals != 0)
    }

    /// The profile as `profileprint` shows it.
    pub fn print(&self) -> String {
        let mut text = format!("mappings {}\n", self.mappings.len());
        for (i, mapping) in self.mappings.iter().enumerate() {
            text += &format!("{i} {}", digits(mapping));
            for number in &self.next[i] {
                text += &format!(" {number}");
            }
            text += "\n";
        }
        text
    }
}

/// What `profileprint` prints of a file.
pub fn printed(file: &[u8]) -> String {
    match read(file).and_then(|rule| Profile::build(&rule)) {
        Ok(profile) => profile.print(),
        Err(number) => format!("refused {number}\n"),
    }
}

/// Sixteen upper-case hex digits.
pub fn digits(mapping: &Mapping) -> String {
    mapping.iter().map(|mask| format!("{mask:02X}")).collect()
}

/// The mapping that exactly sixteen hex digits say.
fn mapping(field: &[u8]) -> Option<Mapping> {
    bytes(field)?.try_into().ok()
}

/// What a line of `mapjudge` asks for.
enum Asked {
    Build(Vec<u8>),
    Run(Vec<u8>),
    Compose(Mapping, Mapping),
    Verdict(Mapping),
}

fn asked(line: &[u8]) -> Option<Asked> {
    let fields: Vec<&[u8]> = line.split(|&c| c == b' ').collect();
    match fields.as_slice() {
        [b"build", file] => Some(Asked::Build(bytes(file)?)),
        [b"run", chunk] => Some(Asked::Run(bytes(chunk)?)),
        [b"compose", f, g] => Some(Asked::Compose(mapping(f)?, mapping(g)?)),
        [b"verdict", f] => Some(Asked::Verdict(mapping(f)?)),
        _ => None,
    }
}

fn refused(number: u32) -> String {
    format!("refused {number}")
}

/// What is said to a line of `mapjudge`, which keeps the profile of the last accepted build; or none if the
/// line is malformed.
fn said(profile: &mut Option<Profile>, line: &[u8]) -> Option<String> {
    let no_profile = || "no profile".to_string();
    Some(match asked(line)? {
        Asked::Build(file) => match read(&file).and_then(|rule| Profile::build(&rule)) {
            Ok(built) => format!("accepted {}", profile.insert(built).mappings.len()),
            Err(number) => refused(number),
        },
        Asked::Run(chunk) => profile.as_ref().map_or_else(no_profile, |profile| match profile.run(&chunk) {
            Ok(mapping) => digits(&mapping),
            Err(number) => refused(number),
        }),
        Asked::Compose(f, g) => digits(&compose(&f, &g)),
        Asked::Verdict(f) => profile.as_ref().map_or_else(no_profile, |profile| {
            if profile.verdict(&f) { "yes".to_string() } else { "no".to_string() }
        }),
    })
}

/// The answers to the lines of a text.
pub fn answers(text: &[u8]) -> String {
    answers_by(text, said)
}
