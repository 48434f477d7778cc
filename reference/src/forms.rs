//! The failure form of a next-set table and the way back, what `ruleform` prints, and the lines of
//! `formtable`.

use crate::lines::{bytes, number};
use crate::rule::Rule;

/// A cell of a table: a set, or none for the empty one.
type Cell = Option<usize>;

/// The form: for each set its failure set, the symbols whose cells it keeps, and these cells.
#[derive(Clone, Debug, PartialEq)]
pub struct Form {
    pub symbols: usize,
    pub sets: Vec<Set>,
}

#[derive(Clone, Debug, PartialEq)]
pub struct Set {
    pub failure: usize,
    pub kept: Vec<(usize, Cell)>,
}

/// The table of a rule: a row for each set.
pub fn table(rule: &Rule) -> Vec<Vec<Cell>> {
    let number = |set: u32| rule.sets.iter().position(|&other| other == set);
    let row = |&set: &u32| (0..rule.automaton.k).map(|s| number(rule.automaton.successor(set, s as u8))).collect();
    rule.sets.iter().map(row).collect()
}

/// The form of a table.
pub fn form(table: &[Vec<Cell>]) -> Form {
    let equal = |t: usize, u: usize| table[t].iter().zip(&table[u]).filter(|(x, y)| x == y).count();
    let set = |t: usize| {
        let all: Vec<(usize, Cell)> = table[t].iter().copied().enumerate().collect();
        let Some(most) = (0..t).map(|u| equal(t, u)).max() else { return Set { failure: 0, kept: all } };
        let failure = (0..t).find(|&u| equal(t, u) == most).unwrap();
        let kept = all.into_iter().filter(|&(s, cell)| cell != table[failure][s]).collect();
        Set { failure, kept }
    };
    Form { symbols: table[0].len(), sets: (0..table.len()).map(set).collect() }
}

fn written(cell: Cell) -> String {
    cell.map_or("-".to_string(), |set| set.to_string())
}

/// What `ruleform` prints for a rule file.
pub fn printed(file: &[u8]) -> String {
    let form = match Rule::load(file) {
        Ok(rule) => form(&table(&rule)),
        Err(number) => return format!("refused {number}\n"),
    };
    let count: usize = form.sets.iter().map(|set| set.kept.len()).sum();
    let mut text = format!("sets {} symbols {} kept {count}\n", form.sets.len(), form.symbols);
    for (t, set) in form.sets.iter().enumerate() {
        let mask: u32 = set.kept.iter().map(|&(s, _)| 1 << s).sum();
        text += &format!("{t} {} {mask:04X}", set.failure);
        for &(_, cell) in &set.kept {
            text += &format!(" {}", written(cell));
        }
        text += "\n";
    }
    text
}

/// A form as its numbers, whatever they are: so many sets and symbols, failure sets, masks and packed
/// cells; zeros follow those that are there.
#[derive(Clone, Debug, PartialEq)]
pub struct Numbers {
    pub sets: u64,
    pub symbols: u64,
    pub failure: Vec<u16>,
    pub masks: Vec<u16>,
    pub cells: Vec<u16>,
}

/// The numbers of a form.
pub fn numbers(form: &Form) -> Numbers {
    let mask = |set: &Set| set.kept.iter().map(|&(s, _)| 1u16 << s).sum();
    let cell = |&(_, cell): &(usize, Cell)| cell.map_or(512, |set| set as u16);
    Numbers {
        sets: form.sets.len() as u64,
        symbols: form.symbols as u64,
        failure: form.sets.iter().map(|set| set.failure as u16).collect(),
        masks: form.sets.iter().map(mask).collect(),
        cells: form.sets.iter().flat_map(|set| &set.kept).map(cell).collect(),
    }
}

/// The table of a form, or 40.
pub fn back(form: &Numbers) -> Result<Vec<Vec<Cell>>, u32> {
    if !(1..=512).contains(&form.sets) || !(1..=16).contains(&form.symbols) { return Err(40); }
    let (sets, symbols) = (form.sets as usize, form.symbols as usize);
    let at = |list: &[u16], i: usize| list.get(i).copied().unwrap_or(0) as usize;
    let mut place = 0;
    let mut table: Vec<Vec<Cell>> = Vec::new();
    for t in 0..sets {
        let (mask, failure) = (at(&form.masks, t), at(&form.failure, t));
        if t > 0 && failure >= t || mask >> symbols != 0 { return Err(40); }
        let mut row = Vec::new();
        for s in 0..symbols {
            if mask >> s & 1 == 1 {
                match at(&form.cells, place) {
                    512 => row.push(None),
                    set if set < sets => row.push(Some(set)),
                    _ => return Err(40),
                }
                place += 1;
            } else if t > 0 {
                row.push(table[failure][s]);
            } else {
                return Err(40);
            }
        }
        table.push(row);
    }
    Ok(table)
}

/// 16-bit numbers, the low byte first, at most so many.
fn words(field: &[u8], most: usize) -> Option<Vec<u16>> {
    let bytes = bytes(field)?;
    let word = |pair: &[u8]| pair[0] as u16 + 256 * pair[1] as u16;
    (bytes.len() % 2 == 0 && bytes.len() <= 2 * most).then(|| bytes.chunks(2).map(word).collect())
}

/// The form that a line has, or none if the line is malformed.
fn parse(line: &[u8]) -> Option<Numbers> {
    let fields: Vec<&[u8]> = line.split(|&c| c == b' ').collect();
    let [sets, symbols, failure, masks, cells] = fields.as_slice() else { return None };
    let (sets, symbols) = (number(sets)?, number(symbols)?);
    let (failure, masks, cells) = (words(failure, 512)?, words(masks, 512)?, words(cells, 8192)?);
    Some(Numbers { sets, symbols, failure, masks, cells })
}

/// The answer to a line of `formtable`.
pub fn answer(line: &[u8]) -> String {
    let Some(form) = parse(line) else { return "malformed".to_string() };
    match back(&form) {
        Ok(table) => table.concat().into_iter().map(written).collect::<Vec<_>>().join(" "),
        Err(number) => format!("refused {number}"),
    }
}
