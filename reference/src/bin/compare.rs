//! Compares another program with the reference: `compare PROGRAM SEED LISTS FILE`. A list that
//! shows a difference is made small, printed with the answers of both, and written whole to FILE.

use reference::compare::{first_difference, program_answers, reference_answers, smallest};
use reference::table::table;
use reference::{lines, lists, tally::Tally};

/// How many lists one run of the program gets.
const TOGETHER: u64 = 200;

fn main() {
    let words: Vec<String> = std::env::args().skip(1).collect();
    let (program, seed, count, file) = match words.as_slice() {
        [program, seed, count, file] => (program, seed.parse::<u64>(), count.parse::<u64>(), file),
        _ => usage(),
    };
    let (Ok(seed), Ok(count)) = (seed, count) else { usage() };
    let mut tally = Tally::default();
    for first in (0..count).step_by(TOGETHER as usize) {
        let text = lists_from(seed, first, count.min(first + TOGETHER));
        let ours = reference_answers(&text);
        let theirs = program_answers(program, &text);
        if let Some(line) = first_difference(&ours, &theirs) {
            let agreed = lines::lines(&text)[..line].iter().filter(|line| !line.is_empty()).count();
            println!("seed {seed}: {} calls agreed, then a difference", tally.calls + agreed);
            difference(program, &text, line, file);
        }
        let answers = String::from_utf8(ours).expect("answers are ASCII");
        for (line, answer) in lines::lines(&text).iter().zip(answers.lines()) {
            tally.line(line, answer);
        }
    }
    tally.print();
    println!("seed {seed}: {count} lists, {} calls compared, no difference", tally.calls);
}

fn usage() -> ! {
    eprintln!("usage: compare PROGRAM SEED LISTS FILE");
    std::process::exit(2);
}

/// The text of some lists; of every second text the last line is ended by the end of the input.
fn lists_from(seed: u64, first: u64, last: u64) -> Vec<u8> {
    let together: Vec<_> = (first..last).map(|index| lists::list(seed, index)).collect();
    let mut text = lists::text(&together);
    if first / TOGETHER % 2 == 1 {
        text.pop();
    }
    text
}

/// Makes the list that shows a difference small, prints it with both answers, writes it to a file.
fn difference(program: &str, text: &[u8], line: usize, file: &str) -> ! {
    // a panic of the reference was told once; each smaller list would tell it again
    std::panic::set_hook(Box::new(|_| ()));
    let text = smallest(program, text, line);
    print!("{}", table(&text, &reference_answers(&text), &program_answers(program, &text)));
    match std::fs::write(file, &text) {
        Ok(()) => println!("the same list with its lines whole: {file}\ntry it with: {program} < {file}"),
        Err(error) => println!("the list could not be written to {file}: {error}"),
    }
    std::process::exit(1);
}
