//! The errors: a refused call, and what may be wrong with a recorded list.
use std::error::Error;
use std::fmt;

/// A call was refused; the judge is as it was. Of reading: the file is no rule, the pattern none.
///
/// ```
/// # use bellbadger::Judge;
/// let refused = Judge::new().open(1).unwrap_err();
/// assert_eq!(refused.number(), 20);
/// assert_eq!(refused.to_string(), "refused 20: no rule is there");
/// ```
#[derive(Clone, Copy, Debug, PartialEq, Eq, Hash)]
#[must_use]
pub struct Refused(u8);

impl Refused {
    pub(crate) fn new(number: u8) -> Refused {
        Refused(number)
    }

    /// Why: 1 to 13 and 30 to 45 for what is wrong with the input, 20 to 23 for what stands in the way.
    ///
    /// ```
    /// assert_eq!(bellbadger::read(&[]).unwrap_err().number(), 1);
    /// ```
    #[must_use]
    pub fn number(self) -> u8 {
        self.0
    }

    pub(crate) fn reason(self) -> &'static str {
        match self.0 {
            1 => "the file is too short for a head of 10 bytes",
            2 => "the file is longer than any rule (32,906 bytes)",
            3 => "the number of states is not in 1..32",
            4 => "the number of symbols is not in 1..16",
            5 => "the file ends within the list of pairs",
            6 => "a mask names a state that does not exist",
            7 => "a pair has a wrong offset or an odd length, or the sections do not end where the file does",
            8 => "an arc has a state, a symbol or a target that does not exist, or arcs are not strictly ascending",
            9 => "the rule has over 512 sets",
            10 => "the number of places is not in 1..64",
            11 => "the board has no such place",
            12 => "the chunk has over 65,536 bytes",
            13 => "a byte is no symbol of the rule and no idle mark",
            20 => "no rule is there",
            21 => "no board is open",
            22 => "the revision is not greater than the last one accepted at the place",
            23 => "the place, or to locate a loss one before it, has no chunk",
            30 => "the pattern has over 128 bytes",
            31 => "the bytes are no pattern",
            32 => "the pattern has more than 31 letters",
            33 => "the rule has more than eight states",
            34 => "the rule has more than 512 mappings",
            35 => "more than 512 sets are reached from the set of initial states",
            36 => "the rules have different numbers of symbols",
            37 => "the two rules made one take more than 32 states",
            38 => "the width is not in 1..16",
            39 => "the band is not whole rows, or has over 64",
            40 => "not a valid form",
            41 => "the seed is 0",
            42 => "the summary is broken, or does not begin with chunk 0",
            43 => "the summary is by another rule",
            44 => "the summary does not end with the last chunk, or there is none",
            45 => "within 512 pairs of sets the rules do not differ, and there are more",
            46 => "the saved judge is cut, altered or of another version",
            _ => "for a reason that this wrapper does not know",
        }
    }
}

impl fmt::Display for Refused {
    fn fmt(&self, f: &mut fmt::Formatter<'_>) -> fmt::Result {
        write!(f, "refused {}: {}", self.number(), self.reason())
    }
}

impl Error for Refused {}

/// A recorded list of calls has no verdict.
///
/// ```
/// use bellbadger::{replay, ReplayError};
/// assert_eq!(replay(b"load\n").unwrap_err(), ReplayError::Malformed { line: 1 });
/// assert_eq!(replay(b"verdict\n").unwrap_err().to_string(), "refused 21: no board is open");
/// ```
#[derive(Clone, Copy, Debug, PartialEq, Eq, Hash)]
#[must_use]
pub enum ReplayError {
    /// The verdict after the calls is refused.
    Refused(Refused),
    /// The first line that is no call, counted from 1.
    Malformed {
        /// Its number.
        line: u64,
    },
}

impl fmt::Display for ReplayError {
    fn fmt(&self, f: &mut fmt::Formatter<'_>) -> fmt::Result {
        match self {
            ReplayError::Refused(refused) => refused.fmt(f),
            ReplayError::Malformed { line } => write!(f, "line {line} is malformed"),
        }
    }
}

impl Error for ReplayError {}

impl From<Refused> for ReplayError {
    fn from(refused: Refused) -> Self {
        ReplayError::Refused(refused)
    }
}

#[cfg(test)]
mod tests {
    use super::Refused;
    use std::collections::BTreeSet;

    /// Each of the paper's numbers has words of its own.
    #[test]
    fn every_number_has_its_words() {
        let numbers = (1..=13).chain(20..=23).chain(30..=46);
        let words: BTreeSet<&str> = numbers
            .chain([99])
            .map(|number| Refused::new(number).reason())
            .collect();
        assert_eq!(words.len(), 34 + 1);
    }
}
