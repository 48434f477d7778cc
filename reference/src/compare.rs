//! Runs both sides on a text of calls, and finds the first difference.

use crate::judge::Judge;
use crate::lines;
use crate::shrink::{shrink, Lines};
use std::io::{Read, Write};
use std::panic::{catch_unwind, AssertUnwindSafe};
use std::process::{Command, Stdio};

/// What the program prints for a text. A program that fails says so in a last line.
pub fn program_answers(program: &str, text: &[u8]) -> Vec<u8> {
    let mut child = Command::new(program)
        .stdin(Stdio::piped())
        .stdout(Stdio::piped())
        .spawn()
        .unwrap_or_else(|error| panic!("{program}: {error}"));
    let mut input = child.stdin.take().unwrap();
    let mut printed = Vec::new();
    std::thread::scope(|scope| {
        // A program that ends early leaves input unread; its answers then show that.
        scope.spawn(move || drop(input.write_all(text)));
        child.stdout.take().unwrap().read_to_end(&mut printed).unwrap();
    });
    let status = child.wait().unwrap();
    if !status.success() {
        printed.extend(format!("({status})\n").into_bytes());
    }
    printed
}

/// What the reference answers to a text. If it panics, that is its last answer.
pub fn reference_answers(text: &[u8]) -> Vec<u8> {
    answers_or_panic(text, lines::said)
}

/// The answers to the lines of a text, up to the first on which the judge panics.
pub fn answers_or_panic(text: &[u8], said: fn(&mut Judge, &[u8]) -> Option<String>) -> Vec<u8> {
    let mut list = lines::List::default();
    let mut answers = Vec::new();
    for line in lines::lines(text) {
        match catch_unwind(AssertUnwindSafe(|| list.answer(line, said))) {
            Ok(answer) => answers.extend((answer + "\n").into_bytes()),
            Err(_) => {
                answers.extend(b"(panic)\n");
                break;
            }
        }
    }
    answers
}

/// The number of the first line on which the two texts of answers differ.
pub fn first_difference(ours: &[u8], theirs: &[u8]) -> Option<usize> {
    if ours == theirs {
        return None;
    }
    let (ours, theirs) = (lines::lines(ours), lines::lines(theirs));
    let same = ours.iter().zip(&theirs).take_while(|(a, b)| a == b).count();
    Some(same)
}

/// The text of a list, its last line ended by a line feed or by the text's end.
fn joined(list: &Lines, line_feed: bool) -> Vec<u8> {
    let mut text = list.join(&b'\n');
    if line_feed {
        text.push(b'\n');
    }
    text
}

/// Whether the two differ on a text.
fn differs(program: &str, text: &[u8]) -> bool {
    program_answers(program, text) != reference_answers(text)
}

/// A small text for a difference on a line: made from the list alone that has the line, else from
/// all lines up to it, else (a program may fail without answers) from the whole text.
pub fn smallest(program: &str, text: &[u8], line: usize) -> Vec<u8> {
    let all: Lines = lines::lines(text).iter().map(|line| line.to_vec()).collect();
    let line_feed = line + 1 < all.len() || text.ends_with(b"\n");
    let up_to = all[..all.len().min(line + 1)].to_vec();
    let start = up_to.iter().rposition(|line| line.is_empty()).map_or(0, |at| at + 1);
    let shows = |list: &Lines| differs(program, &joined(list, line_feed));
    for list in [up_to[start..].to_vec(), up_to, all] {
        if shows(&list) {
            return joined(&shrink(&list, &shows), line_feed);
        }
    }
    text.to_vec()
}
