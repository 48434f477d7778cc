//! A checked rule as a value, and reading one from a file.

use crate::rule::Automaton;

/// How many bytes a value has in a line of calls.
pub const BYTES: usize = 2_058;

/// What reading answers and installing takes. Whoever makes one by hand may put any numbers in it.
#[derive(Clone, Debug, PartialEq)]
pub struct CheckedRule {
    pub n: u8,
    pub k: u8,
    pub initial: u32,
    pub finals: u32,
    /// `targets[q][s]` is the target mask of state q and symbol s; there are masks for 32 states and
    /// 16 symbols.
    pub targets: [[u32; 16]; 32],
}

impl CheckedRule {
    /// The value of an automaton.
    pub fn of(a: &Automaton) -> CheckedRule {
        let mut targets = [[0; 16]; 32];
        for q in 0..a.n {
            targets[q][..a.k].copy_from_slice(&a.targets[q]);
        }
        CheckedRule { n: a.n as u8, k: a.k as u8, initial: a.initial, finals: a.finals, targets }
    }

    /// The automaton of a value, or the number of the first condition that holds: 3, 4, 6 or 8.
    pub fn automaton(&self) -> Result<Automaton, u32> {
        let (n, k) = (self.n as usize, self.k as usize);
        if n < 1 || n > 32 { return Err(3); }
        if k < 1 || k > 16 { return Err(4); }
        let beyond = |mask: u32| (n..32).any(|q| mask >> q & 1 == 1);
        if beyond(self.initial) || beyond(self.finals) { return Err(6); }
        for (q, by_symbol) in self.targets.iter().enumerate() {
            for (s, &mask) in by_symbol.iter().enumerate() {
                let outside = q >= n || s >= k;
                if beyond(mask) || outside && mask != 0 { return Err(8); }
            }
        }
        let targets = self.targets[..n].iter().map(|by_symbol| by_symbol[..k].to_vec()).collect();
        Ok(Automaton { n, k, initial: self.initial, finals: self.finals, targets })
    }

    /// n, k, the masks of initial and final states, then the target masks, state by state.
    pub fn bytes(&self) -> Vec<u8> {
        let mut bytes = vec![self.n, self.k];
        bytes.extend(self.initial.to_le_bytes());
        bytes.extend(self.finals.to_le_bytes());
        bytes.extend(self.targets.iter().flatten().flat_map(|mask| mask.to_le_bytes()));
        bytes
    }

    /// The value in bytes, of which there have to be 2,058.
    pub fn from_bytes(bytes: &[u8]) -> Option<CheckedRule> {
        if bytes.len() != BYTES {
            return None;
        }
        let four = |at: usize| (0..4).fold(0, |mask, i| mask | (bytes[at + i] as u32) << (8 * i));
        let mut targets = [[0; 16]; 32];
        for q in 0..32 {
            for s in 0..16 {
                targets[q][s] = four(10 + 4 * (q * 16 + s));
            }
        }
        Some(CheckedRule { n: bytes[0], k: bytes[1], initial: four(2), finals: four(6), targets })
    }
}

/// Reads a file: the rule in it, or the number of the first condition that holds, 1 to 8.
pub fn read(file: &[u8]) -> Result<CheckedRule, u32> {
    let two = |at: usize| file[at] as usize + 256 * file[at + 1] as usize;
    let four = |at: usize| two(at) as u64 + 65_536 * two(at + 2) as u64;

    if file.len() < 10 { return Err(1); }
    if file.len() > 32_906 { return Err(2); }
    let (n, k) = (file[0] as usize, file[1] as usize);
    if n < 1 || n > 32 { return Err(3); }
    if k < 1 || k > 16 { return Err(4); }
    if file.len() < 10 + 4 * n { return Err(5); }
    let (initial, finals) = (four(2), four(6));
    if initial >> n != 0 || finals >> n != 0 { return Err(6); }
    let offset = |q: usize| two(10 + 4 * q);
    let length = |q: usize| two(12 + 4 * q);
    let end = |q: usize| offset(q) + length(q);
    let due = |q: usize| if q == 0 { 10 + 4 * n } else { end(q - 1) };
    let ill_paired = |q: usize| offset(q) != due(q) || length(q) % 2 != 0;
    if (0..n).any(ill_paired) || end(n - 1) != file.len() { return Err(7); }
    let arcs = |q: usize| -> Vec<(u8, u8)> {
        file[offset(q)..end(q)].chunks(2).map(|arc| (arc[0], arc[1])).collect()
    };
    let too_large = |q: usize| arcs(q).iter().any(|&(s, t)| s as usize >= k || t as usize >= n);
    let out_of_order = |q: usize| arcs(q).windows(2).any(|two| two[1] <= two[0]);
    if (0..n).any(|q| too_large(q) || out_of_order(q)) { return Err(8); }

    let mut targets = [[0; 16]; 32];
    for q in 0..n {
        for (s, t) in arcs(q) {
            targets[q][s as usize] |= 1 << t;
        }
    }
    Ok(CheckedRule { n: file[0], k: file[1], initial: initial as u32, finals: finals as u32, targets })
}
