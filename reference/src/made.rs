//! Made test texts, and the lines of `maketext`.

use crate::lines::number;

/// Marsaglia's 64-bit xorshift: the value after another.
fn after(mut value: u64) -> u64 {
    value ^= value << 13;
    value ^= value >> 7;
    value ^= value << 17;
    value
}

/// So many symbols below k; or the number of the first condition that holds: 4, then 41.
pub fn make(k: u64, seed: u64, length: usize) -> Result<Vec<u8>, u32> {
    if !(1..=16).contains(&k) { return Err(4); }
    if seed == 0 { return Err(41); }
    let values = std::iter::successors(Some(after(seed)), |&value| Some(after(value)));
    Ok(values.take(length).map(|value| (value % k) as u8).collect())
}

/// K, the seed and the length that a line has, or none if the line is malformed.
fn parse(line: &[u8]) -> Option<(u64, u64, u64)> {
    let fields: Vec<&[u8]> = line.split(|&c| c == b' ').collect();
    let [k, seed, length] = fields.as_slice() else { return None };
    let (k, seed, length) = (number(k)?, number(seed)?, number(length)?);
    (length <= 65_536).then_some((k, seed, length))
}

/// The answer to a line.
pub fn answer(line: &[u8]) -> String {
    let Some((k, seed, length)) = parse(line) else { return "malformed".to_string() };
    match make(k, seed, length as usize) {
        Ok(text) if text.is_empty() => "-".to_string(),
        Ok(text) => text.iter().map(|byte| format!("{byte:02X}")).collect(),
        Err(number) => format!("refused {number}"),
    }
}
