//! Shows a difference: each line of a list with the two answers beside it.

use crate::lines::lines;

/// A longer field is cut.
const WIDEST: usize = 56;

/// A field as it is printed: on one line, in ASCII, and not too wide.
fn shown(field: &[u8]) -> String {
    if field.is_empty() {
        return "(empty line)".to_string();
    }
    let text = field.escape_ascii().to_string();
    if text.len() <= WIDEST {
        return text;
    }
    let note = format!(".. ({} characters)", field.len());
    format!("{}{note}", &text[..WIDEST - note.len()])
}

/// The lines of a text, the answers of the reference and of the program; what differs is marked.
pub fn table(text: &[u8], ours: &[u8], theirs: &[u8]) -> String {
    let (calls, left, right) = (lines(text), lines(ours), lines(theirs));
    let mut rows = vec![[" ", "line", "reference", "program"].map(String::from)];
    for i in 0..calls.len().max(left.len()).max(right.len()) {
        let answer = |answers: &[&[u8]]| answers.get(i).map_or("(nothing)".to_string(), |answer| shown(answer));
        let mark = if left.get(i) == right.get(i) { " " } else { ">" };
        let call = calls.get(i).map_or(String::new(), |call| shown(call));
        rows.push([mark.to_string(), call, answer(&left), answer(&right)]);
    }
    let width = |column: usize| rows.iter().map(|row| row[column].len()).max().unwrap_or(0);
    let (second, third) = (width(1), width(2));
    let mut table = String::new();
    for [mark, call, left, right] in &rows {
        let row = format!("{mark} {call:second$}  {left:third$}  {right}");
        table += row.trim_end();
        table += "\n";
    }
    if !text.ends_with(b"\n") {
        table += "(no line feed after the last line)\n";
    }
    if left == right {
        table += "> the answers differ in the line feed after the last one\n";
    }
    table
}
