//! The parser, the stored batch, and what makes a difference small and shows it.

use reference::automata::{blank, file};
use reference::checked::CheckedRule;
use reference::compare::{answers_or_panic, first_difference};
use reference::judge::Call;
use reference::lines::{answers, call, line, lines, said};
use reference::shrink::shrink;
use reference::table::table;

#[test]
fn calls() {
    assert_eq!(call(b"load 0aFf"), Some(Call::Load(vec![0x0A, 0xFF])));
    assert_eq!(call(b"load -"), Some(Call::Load(vec![])));
    assert_eq!(call(b"open 00000000000000000064"), Some(Call::Open(64)));
    assert_eq!(call(b"open 18446744073709551615"), Some(Call::Open(u64::MAX)));
    assert_eq!(call(b"deliver 7 0 -"), Some(Call::Deliver(7, 0, vec![])));
    assert_eq!(call(b"deliver 0 9 0001"), Some(Call::Deliver(0, 9, vec![0, 1])));
    assert_eq!(call(b"deliver 0 00000000004294967295 -"), Some(Call::Deliver(0, u32::MAX, vec![])));
    assert_eq!(call(b"withdraw 0"), Some(Call::Withdraw(0)));
    assert_eq!(call(b"verdict"), Some(Call::Verdict));
}

#[test]
fn a_call_is_read_as_it_was_written() {
    for plain in [&b"load 0AFF"[..], b"load -", b"open 64", b"deliver 7 0 -", b"deliver 0 9 0001", b"withdraw 0", b"verdict"] {
        assert_eq!(line(&call(plain).unwrap()), plain);
    }
}

#[test]
fn malformed_lines() {
    let malformed: [&[u8]; 41] = [
        b" ", b"load", b"load ", b"load 0", b"load 000", b"load 0g", b"load --", b"load -00", b"load 00 00",
        b"load  00", b" load 00", b"load 00 ", b"load 00\r", b"Load 00", b"open", b"open ", b"open +1",
        b"open -1", b"open 18446744073709551616", b"open 99999999999999999999", b"open 000000000000000000001",
        b"open 1\r", b"open 1 1", b"deliver 0", b"deliver 0 ", b"deliver  0 0 00", b"deliver - 0 00",
        b"deliver 0 00", b"deliver 0 -", b"deliver 0 4294967296 00", b"deliver 0 18446744073709551616 00", b"deliver 0 - 00",
        b"deliver 0 000000000000000000000 00", b"deliver 0 0 00 00", b"deliver 0 0", b"deliver 0 0 ",
        b"withdraw", b"withdraw a", b"verdict ", b"verdict\r", b"\xFF",
    ];
    for line in malformed {
        assert_eq!(call(line), None, "{line:?}");
    }
}

#[test]
fn ends_of_lines() {
    assert_eq!(lines(b""), Vec::<&[u8]>::new());
    assert_eq!(lines(b"\n"), vec![b""]);
    assert_eq!(lines(b"a\n\nb"), vec![b"a" as &[u8], b"", b"b"]);
    assert_eq!(lines(b"a\n"), vec![b"a"]);
    assert_eq!(answers(b"verdict\n\nverdict"), "refused 21\n\nrefused 21\n");
}

const RULE: &str = "load 010101000000010000000e000000";

#[test]
fn an_empty_line_starts_afresh() {
    let text = format!("{RULE}\nopen 1\ndeliver 0 0 -\nverdict\n\nverdict\n");
    assert_eq!(answers(text.as_bytes()), "accepted 1 1\naccepted\naccepted 0\nyes 0 0 0 0\n\nrefused 21\n");
}

/// Whatever stands behind it is skipped, calls, verdicts and other malformed lines, and does nothing; of what
/// stands before it nothing is left after the empty line.
#[test]
fn a_malformed_line_ends_its_list() {
    let text = format!("{RULE}\nopen 1\ndeliver 0 0 -\nverdict \nverdict\n{RULE}\nopen 1\nverdict \nverdict\n\n\nverdict\n");
    let due = "accepted 1 1\naccepted\naccepted 0\nmalformed\nskipped\nskipped\nskipped\nskipped\nskipped\n\n\nrefused 21\n";
    assert_eq!(answers(text.as_bytes()), due);
    let text = format!("x\n{RULE}\n\n{RULE}\nx\n\nopen 1\nx\nx\n\n{RULE}\nx");
    assert_eq!(
        answers(text.as_bytes()),
        "malformed\nskipped\n\naccepted 1 1\nmalformed\n\nrefused 20\nmalformed\nskipped\n\naccepted 1 1\nmalformed\n"
    );
}

/// The digits of a delivery, broken after thirty bytes: the first line is a delivery, and no verdict is on it.
#[test]
fn a_delivery_in_two_lines_has_no_verdict() {
    let text = format!("{RULE}\nopen 1\ndeliver 0 0 {}\n{}\nverdict\n", "00".repeat(30), "00".repeat(2));
    assert_eq!(answers(text.as_bytes()), "accepted 1 1\naccepted\naccepted 1\nmalformed\nskipped\n");
}

/// The lists that are made have malformed lines with calls, verdicts and malformed lines behind them, and empty
/// lines, one and two, after which it goes on.
#[test]
fn lists_are_ended_and_begun_afresh() {
    let all: Vec<Vec<u8>> = (0..400).flat_map(|index| reference::lists::list(7, index)).collect();
    let said = answers(&all.iter().flat_map(|line| [line, &b"\n"[..]].concat()).collect::<Vec<u8>>());
    let said: Vec<&str> = said.lines().collect();
    assert_eq!(said.len(), all.len());
    let count = |due: [&str; 2]| said.windows(2).filter(|two| two[0] == due[0] && two[1].starts_with(due[1])).count();
    for two in [["malformed", "skipped"], ["skipped", "skipped"], ["", "accepted "]] {
        assert!(count(two) > 100, "{two:?} {}", count(two));
    }
    for two in [["skipped", ""], ["malformed", ""], ["", ""]] {
        assert!(count(two) > 30, "{two:?} {}", count(two));
    }
    let lines = |said_of: &dyn Fn(usize) -> bool, of: &dyn Fn(&[u8]) -> bool| (0..all.len()).filter(|&i| said_of(i) && of(&all[i])).count();
    let skipped = |i: usize| said[i] == "skipped";
    assert!(lines(&skipped, &|line| line == b"verdict") > 100 && lines(&skipped, &|line| call(line).is_none()) > 100);
    let broken = |i: usize| said[i].starts_with("accepted") && said.get(i + 1) == Some(&"malformed");
    assert!(lines(&broken, &|line| matches!(call(line), Some(Call::Deliver(_, _, chunk)) if chunk.len() == 30)) > 3);
}

#[test]
fn the_stored_batch() {
    let ours = answers(include_bytes!("../batch.calls"));
    let differs = first_difference(ours.as_bytes(), include_bytes!("../batch.answers"));
    assert_eq!(differs, None, "the first line that differs, counted from 0");
}

#[test]
fn shrinking_leaves_what_matters() {
    let list: Vec<Vec<u8>> = (0..40).map(|i| format!("deliver {i} 5 00010203{i:02}05").into_bytes()).collect();
    let wrong = |list: &Vec<Vec<u8>>| {
        let has = |line: &Vec<u8>, part: &[u8]| line.windows(part.len()).any(|window| window == part);
        list.iter().any(|line| has(line, b"deliver 7 ") && has(line, b"03")) && list.iter().any(|line| has(line, b"deliver 23 "))
    };
    assert_eq!(shrink(&list, &wrong), vec![b"deliver 7 0 03".to_vec(), b"deliver 23 0 -".to_vec()]);
}

/// A line that installs bytes.
fn install(bytes: &[u8]) -> String {
    format!("install {}", bytes.iter().map(|byte| format!("{byte:02X}")).collect::<String>())
}

#[test]
fn a_value_has_2058_bytes() {
    let value = CheckedRule::of(&blank(1, 1));
    let mut bytes = value.bytes();
    let plain = install(&bytes);
    assert_eq!(call(plain.as_bytes()), Some(Call::Install(Box::new(value))));
    assert_eq!(line(&call(plain.to_lowercase().as_bytes()).unwrap()), plain.as_bytes());
    for other in [plain.clone() + " ", plain.clone() + "0", plain.replace(' ', "  "), plain[..plain.len() - 1].to_string()] {
        assert_eq!(call(other.as_bytes()), None);
    }
    bytes.pop();
    assert_eq!(call(install(&bytes).as_bytes()), None);
    bytes.extend([0, 0]);
    assert_eq!(call(install(&bytes).as_bytes()), None);
    assert_eq!((call(b"install -"), call(b"install 00"), call(b"install")), (None, None, None));
}

/// The lines of a text.
fn list(text: &str) -> Vec<Vec<u8>> {
    text.lines().map(|line| line.as_bytes().to_vec()).collect()
}

#[test]
fn shrinking_makes_numbers_smaller() {
    let large = |list: &Vec<Vec<u8>>| list.iter().any(|line| matches!(call(line), Some(Call::Withdraw(100..))));
    assert_eq!(shrink(&list("withdraw 18446744073709551615"), &large), list("withdraw 100"));
    assert_eq!(shrink(&list("withdraw 00000000000000000107"), &large), list("withdraw 100"));
}

/// Of a line that ends the list a byte is left, and of what is skipped a line.
#[test]
fn shrinking_makes_an_ended_list_smaller() {
    let skipped = |list: &Vec<Vec<u8>>| answers(&list.join(&b'\n')).contains("skipped");
    assert_eq!(shrink(&list("open 1\nwithdraw 0 \nopen 2\n\nverdict\nopen 1 1\nverdict"), &skipped), list("1\nverdict"));
}

/// Two revisions that have to be equal, or one greater, come down together.
#[test]
fn shrinking_makes_revisions_smaller() {
    let load = String::from_utf8(line(&Call::Load(file(&blank(1, 1))))).unwrap();
    let refused = |list: &Vec<Vec<u8>>| answers(&list.join(&b'\n')).contains("refused 22");
    let text = format!("{load}\nopen 1\ndeliver 0 70 00\ndeliver 0 70 -");
    let least = format!("{load}\nopen 1\ndeliver 0 0 -\ndeliver 0 0 -");
    assert_eq!(shrink(&list(&text), &refused), list(&least));
    let replaced = |list: &Vec<Vec<u8>>| answers(&list.join(&b'\n')).matches("accepted 0").count() == 2;
    let text = format!("{load}\nopen 1\ndeliver 0 70 00\ndeliver 0 4294967295 -");
    let least = format!("{load}\nopen 1\ndeliver 0 0 -\ndeliver 0 1 -");
    assert_eq!(shrink(&list(&text), &replaced), list(&least));
}

/// Five places and a rule of six states and four symbols, of which one of each is enough for a yes
/// with a count: whatever place, state and symbol it is, what is left has number 0.
#[test]
fn shrinking_makes_places_symbols_and_rules_smaller() {
    let mut rule = blank(6, 4);
    (rule.initial, rule.finals) = (0b111000, 0b011100);
    rule.targets.iter_mut().flatten().for_each(|targets| *targets = 0b111111);
    let load = String::from_utf8(line(&Call::Load(file(&rule)))).unwrap();
    let text = format!("{load}\nopen 5\ndeliver 4 0 -\ndeliver 3 7 03\ndeliver 2 1 010203\ndeliver 1 0 -\ndeliver 0 9 -\nverdict");
    let counted = |list: &Vec<Vec<u8>>| {
        let answers = answers(&list.join(&b'\n'));
        answers.lines().any(|answer| answer.starts_with("yes ") && !answer.starts_with("yes 0 "))
    };
    let mut least = blank(1, 1);
    (least.initial, least.finals, least.targets[0][0]) = (1, 1, 1);
    let least = String::from_utf8(line(&Call::Load(file(&least)))).unwrap();
    assert_eq!(shrink(&list(&text), &counted), list(&format!("{least}\nopen 1\ndeliver 0 0 00\nverdict")));
}

/// Where an installation is not what differs, a load of the same rule is plainer; where it is, the
/// smallest value is left.
#[test]
fn shrinking_makes_installations_smaller() {
    let mut rule = blank(6, 4);
    (rule.initial, rule.finals) = (0b111000, 0b011100);
    rule.targets.iter_mut().flatten().for_each(|targets| *targets = 0b111111);
    let installation = install(&CheckedRule::of(&rule).bytes());
    let accepted = |list: &Vec<Vec<u8>>| answers(&list.join(&b'\n')).contains("accepted");
    let least = String::from_utf8(line(&Call::Load(file(&blank(1, 1))))).unwrap();
    assert_eq!(shrink(&list(&installation), &accepted), list(&least));
    let of_a_value = |list: &Vec<Vec<u8>>| accepted(list) && list.iter().any(|line| line.starts_with(b"install"));
    assert_eq!(shrink(&list(&installation), &of_a_value), list(&install(&CheckedRule::of(&blank(1, 1)).bytes())));
    let mut value = CheckedRule::of(&rule);
    (value.targets[5][3], value.targets[31][15]) = (0xFFFF_FFFF, 0xFFFF_FFFF);
    let refused_8 = |list: &Vec<Vec<u8>>| answers(&list.join(&b'\n')).contains("refused 8");
    let shrunk = shrink(&list(&install(&value.bytes())), &refused_8);
    let Some(Call::Install(left)) = call(&shrunk[0]) else { panic!("no value is left") };
    let bits: u32 = left.targets.into_iter().flatten().map(u32::count_ones).sum();
    assert_eq!((left.n, left.k, left.initial, left.finals, bits), (1, 1, 0, 0, 1));
}

#[test]
fn the_bytes_of_a_file_that_is_no_rule_are_made_smaller() {
    let refused_3 = |list: &Vec<Vec<u8>>| answers(&list.join(&b'\n')).contains("refused 3");
    assert_eq!(shrink(&list("load FF0102030405060708090A0B"), &refused_3), list("load 00000000000000000000"));
}

#[test]
fn a_panic_is_an_answer_and_the_last() {
    let or_panic = |judge: &mut _, line: &[u8]| {
        assert!(line != b"open 7", "planted");
        said(judge, line)
    };
    assert_eq!(answers_or_panic(b"open 1\n\nopen 7\nopen 1\n", or_panic), b"refused 20\n\n(panic)\n");
    assert_eq!(answers_or_panic(b"open 1\nopen 1", or_panic), b"refused 20\nrefused 20\n");
}

#[test]
fn answers_stand_beside_their_lines() {
    let long = format!("load {}", "00".repeat(40));
    let shown = table(format!("{long}\nopen\t1\n\nverdict").as_bytes(), b"refused 3\nmalformed\n\nno 0\n", b"refused 3\naccepted\n");
    let expected = "
  line                                                      reference     program
  load 000000000000000000000000000000000.. (85 characters)  refused 3     refused 3
> open\\t1                                                   malformed     accepted
> (empty line)                                              (empty line)  (nothing)
> verdict                                                   no 0          (nothing)
(no line feed after the last line)
";
    assert_eq!(shown, expected[1..]);
    assert!(table(b"verdict\n", b"no 0\n", b"no 0").contains("> the answers differ in the line feed"));
}
