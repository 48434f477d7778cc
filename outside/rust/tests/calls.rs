//! The judge through the wrapper: table P, refusals and their words, the largest count, recorded
//! lists, and what a judge shows of itself.
use bellbadger::{compare, form, mappings, merge, patterns, reduce, samples, trays};
use bellbadger::{
    read, replay, version, Judge, Loaded, Looked, Refused, ReplayError, Report, Verdict,
};
use std::fmt::Debug;

const A: [u8; 30] = [
    0x03, 0x02, 0x01, 0, 0, 0, 0x04, 0, 0, 0, 0x16, 0, 0x06, 0, 0x1C, 0, 0x02, 0, 0x1E, 0, 0, 0, 0,
    0, 0, 1, 1, 0, 1, 2,
];
const B: [u8; 30] = [
    0x03, 0x01, 0x01, 0, 0, 0, 0x06, 0, 0, 0, 0x16, 0, 0x04, 0, 0x1A, 0, 0x02, 0, 0x1C, 0, 0x02, 0,
    0, 1, 0, 2, 0, 0, 0, 0,
];

/// The number of a refusal.
fn number<T: Debug>(answer: Result<T, Refused>) -> u8 {
    answer.unwrap_err().number()
}

/// A verdict with the bytes, the quotient and the remainder beside it.
fn reported(verdict: Verdict, numbers: [u64; 3]) -> Report {
    let [bytes, quotient, remainder] = numbers;
    Report {
        verdict,
        bytes,
        quotient,
        remainder,
    }
}

fn waiting(places: u64) -> Report {
    reported(Verdict::Waiting(places), [0, 0, 0])
}

/// What is reported on a rule and the chunks of its places, delivered the last first.
fn judged(rule: &[u8], chunks: &[&[u8]]) -> Result<Report, Refused> {
    let mut judge = Judge::new();
    let _sizes = judge.load(rule)?;
    judge.open(chunks.len())?;
    for (place, chunk) in chunks.iter().enumerate().rev() {
        assert_eq!(judge.verdict()?, waiting(place as u64 + 1));
        let _looked = judge.deliver(place, 0, chunk)?;
    }
    judge.verdict()
}

#[test]
fn table_p() {
    assert_eq!(Judge::new().load(&A), Ok(Loaded { sets: 5, starts: 3 }));
    assert_eq!(Judge::new().load(&B), Ok(Loaded { sets: 4, starts: 2 }));
    let yes = |count, numbers| Ok(reported(Verdict::Yes(count), numbers));
    let no = |count, numbers| Ok(reported(Verdict::No(count), numbers));
    assert_eq!(judged(&A, &[&[0], &[1]]), yes(3, [2, 1, 1]));
    assert_eq!(judged(&A, &[&[1], &[0]]), no(2, [2, 1, 0]));
    assert_eq!(judged(&A, &[&[]]), no(0, [0, 0, 0]));
    assert_eq!(judged(&B, &[&[0], &[0, 0]]), yes(5, [3, 1, 2]));
    assert_eq!(judged(&B, &[&[0, 0], &[0]]), yes(4, [3, 1, 1]));
    assert_eq!(judged(&B, &[&[0, 0, 0]]), yes(3, [3, 1, 0]));
    assert_eq!(judged(&B, &[&[], &[], &[]]), no(0, [0, 0, 0]));
    let mut p10 = A;
    p10[6] = 8;
    assert_eq!(number(Judge::new().load(&p10)), 6);
}

#[test]
fn refusals_of_the_calls() {
    let mut judge = Judge::new();
    assert_eq!(number(judge.verdict()), 21);
    assert_eq!(number(judge.open(1)), 20);
    assert_eq!(number(judge.deliver(0, 0, &[])), 21);
    assert_eq!(number(judge.withdraw(0)), 21);
    assert!(judge.load(&A).is_ok());
    for places in [0, 65, usize::MAX] {
        assert_eq!(number(judge.open(places)), 10);
    }
    assert_eq!(judge.open(64), Ok(()));
    assert_eq!(number(judge.deliver(64, 0, &[])), 11);
    assert_eq!(number(judge.withdraw(usize::MAX)), 11);
    assert_eq!(number(judge.deliver(63, 0, &[0; 65537])), 12);
    assert_eq!(number(judge.deliver(63, 0, &[0, 2])), 13);
    assert_eq!(number(judge.withdraw(63)), 23);
    assert_eq!(
        judge.deliver(63, 0, &[0; 65536]),
        Ok(Looked { bytes: 65536 })
    );
    assert_eq!(number(judge.deliver(63, 0, &[])), 22);
    assert_eq!(judge.verdict(), Ok(waiting(63)));
    assert_eq!(number(judge.load(&A[..9])), 1);
    assert_eq!(number(judge.load(&[0; 32907])), 2);
    assert_eq!(judge.verdict(), Ok(waiting(63)));
}

/// `Ok` is no yes, and neither is waiting nor no: this would catch a verdict that passes for one.
#[test]
fn only_yes_is_yes() {
    let said = |verdict: Verdict| (verdict.is_yes(), reported(verdict, [2, 1, 1]).is_yes());
    assert_eq!(said(Verdict::Yes(3)), (true, true));
    for other in [Verdict::No(3), Verdict::Waiting(1), Verdict::Waiting(64)] {
        assert_eq!(said(other), (false, false));
    }
    for (chunks, yes) in [(&[0, 1], true), (&[1, 0], false)] {
        assert_eq!(judged(&A, &[chunks]).map(|report| report.is_yes()), Ok(yes));
    }
    let text =
        "load 03020100000004000000160006001C0002001E0000000000000101000102\nopen 1\ndeliver 0 0 ";
    for (chunk, yes) in [("0001", true), ("0100", false)] {
        let record = format!("{text}{chunk}");
        assert_eq!(
            replay(record.as_bytes()).map(|report| report.is_yes()),
            Ok(yes)
        );
    }
}

/// Every call on the stack that is asked for: on too small a one the process ends by a signal.
#[test]
fn on_a_stack_of_1_mb() {
    let record = b"load 03020100000004000000160006001C0002001E0000000000000101000102\nopen 1\ndeliver 0 0 FF";
    let calls = move || {
        let mut judge = Judge::new();
        let rule = read(&A)?;
        assert_eq!(judge.load(&A), judge.install(&rule));
        judge.open(1)?;
        assert_eq!(judge.deliver(0, 0, &[255, 0, 1]), Ok(Looked { bytes: 2 }));
        assert!(judge.verdict()?.is_yes());
        judge.withdraw(0)?;
        assert_eq!(replay(record).map(|report| report.is_yes()), Ok(false));
        let profile = mappings::Profile::build(&rule)?;
        assert!(profile.accepts(profile.run(&[255, 0])?.then(profile.run(&[1])?)));
        assert_eq!(
            samples::sample(samples::Wish::Accepted, &rule)?,
            Some(vec![0, 1])
        );
        assert_eq!(patterns::rule_file(b"(a|b)*ab")?.len(), 50);
        assert_eq!(merge::merge(merge::Way::Either, &rule, &rule)?.n, 6);
        assert_eq!(merge::merge_reduced(merge::Way::Either, &rule, &rule)?.n, 3);
        assert!(compare::compare(&rule, &rule)?.is_same());
        assert_eq!(reduce::reduce(&rule)?.rule, rule);
        let made = form::form(&judge)?;
        assert_eq!(form::table(&made)?.sets, 5);
        let mut tray = trays::Tray::new();
        for answer in [tray.install_row(&rule), tray.install_column(&rule)] {
            assert!(answer.is_ok());
        }
        assert!(tray.open(2, 1).is_ok() && tray.deliver(0, &[0, 1]).is_ok());
        assert_eq!(tray.verdict(), Ok(trays::TrayVerdict::No));
        assert_eq!(tray.fault(), Ok(trays::Fault::Short { column: 0 }));
        assert!(tray.withdraw(0).is_ok());
        Ok::<(), Refused>(())
    };
    let thread = std::thread::Builder::new().stack_size(1 << 20).spawn(calls);
    assert_eq!(thread.expect("a thread").join().expect("no panic"), Ok(()));
}

/// 32 states that lead round and accept different texts each: 32 starts, each of which counts every byte.
#[test]
fn the_sum_of_the_counts() {
    let mut file = vec![32, 1, 1, 0, 0, 0, 1, 0, 0, 0];
    for q in 0..32u16 {
        file.extend((138 + 2 * q).to_le_bytes());
        file.extend([2, 0]);
    }
    for q in 0..32u8 {
        file.extend([0, (q + 1) % 32]);
    }
    let mut judge = Judge::new();
    assert_eq!(
        judge.load(&file),
        Ok(Loaded {
            sets: 32,
            starts: 32
        })
    );
    assert_eq!(judge.open(64), Ok(()));
    for place in 0..64 {
        assert_eq!(
            judge.deliver(place, 0, &[0; 65536]),
            Ok(Looked { bytes: 65536 })
        );
    }
    // place 0 is run from one start, the other 63 from 32: 2,017 for every 64 bytes
    let verdict = Verdict::Yes(65536 + 63 * 32 * 65536);
    let numbers = [64 * 65536, 31, 33 * 65536];
    assert_eq!(judge.verdict(), Ok(reported(verdict, numbers)));
}

/// Runs of rule A from 0 never die; where 1 leads nowhere, they die at the first 1, which is looked
/// up; without an initial state nothing is run at place 0.
#[test]
fn looked_up() {
    let dies = [
        2, 2, 1, 0, 0, 0, 1, 0, 0, 0, 18, 0, 2, 0, 20, 0, 2, 0, 0, 1, 0, 0,
    ];
    let nothing_runs = [1, 2, 0, 0, 0, 0, 1, 0, 0, 0, 14, 0, 2, 0, 0, 0];
    for (rule, chunk, bytes) in [
        (&A[..], &[1, 1, 1], 3),
        (&dies[..], &[1, 0, 0], 1),
        (&dies[..], &[0, 1, 0], 2),
        (&dies[..], &[0, 0, 1], 3),
        (&dies[..], &[0, 0, 0], 3),
        (&nothing_runs[..], &[0, 0, 0], 0),
    ] {
        let mut judge = Judge::new();
        assert!(judge.load(rule).is_ok() && judge.open(1).is_ok());
        assert_eq!(judge.deliver(0, 0, chunk), Ok(Looked { bytes }));
    }
}

#[test]
fn idle_marks() {
    assert_eq!(
        judged(&A, &[&[255, 0, 255], &[255; 9], &[1, 255]]),
        Ok(reported(Verdict::Yes(3), [2, 1, 1]))
    );
    let mut judge = Judge::new();
    assert!(judge.load(&A).is_ok() && judge.open(1).is_ok());
    assert_eq!(number(judge.deliver(0, 0, &[255; 65537])), 12);
    assert_eq!(number(judge.deliver(0, 0, &[255, 254])), 13);
    assert_eq!(number(judge.deliver(0, 0, &[255, 2])), 13);
    assert_eq!(judge.deliver(0, 0, &[255; 65536]), Ok(Looked { bytes: 0 }));
    assert_eq!(number(judge.deliver(0, 0, &[255])), 22);
}

#[test]
fn a_later_recording_supersedes() {
    let mut judge = Judge::new();
    assert!(judge.load(&A).is_ok() && judge.open(1).is_ok());
    assert_eq!(judge.deliver(0, 5, &[0]), Ok(Looked { bytes: 1 }));
    assert_eq!(number(judge.deliver(0, 5, &[0, 1])), 22);
    assert_eq!(number(judge.deliver(0, 9, &[2])), 13);
    assert_eq!(judge.deliver(0, 6, &[0, 1]), Ok(Looked { bytes: 2 }));
    let yes = Ok(reported(Verdict::Yes(2), [2, 1, 0]));
    assert_eq!(judge.verdict(), yes);
    assert_eq!(judge.withdraw(0), Ok(()));
    let refused = judge.deliver(0, 6, &[0, 1]).unwrap_err();
    let words = "refused 22: the revision is not greater than the last one accepted at the place";
    assert_eq!(refused.to_string(), words);
    assert_eq!(judge.verdict(), Ok(waiting(1)));
    assert_eq!(judge.deliver(0, u32::MAX, &[0, 1]), Ok(Looked { bytes: 2 }));
    assert_eq!(judge.verdict(), yes);
    assert_eq!(number(judge.deliver(0, u32::MAX, &[])), 22);
    assert!(judge.open(1).is_ok());
    assert_eq!(judge.deliver(0, 0, &[]), Ok(Looked { bytes: 0 }));
}

#[test]
fn two_orders_of_deliveries_end_in_the_same_verdict() {
    let given: [(usize, u32, &[u8]); 4] =
        [(0, 3, &[1, 1]), (1, 0, &[]), (0, 7, &[0]), (1, 9, &[1])];
    for order in [[0, 1, 2, 3], [3, 2, 1, 0], [2, 0, 3, 1], [1, 3, 0, 2]] {
        let mut judge = Judge::new();
        assert!(judge.load(&A).is_ok() && judge.open(2).is_ok());
        for i in order {
            let (place, revision, chunk) = given[i];
            let delivered = judge.deliver(place, revision, chunk);
            assert!(delivered.is_ok() || number(delivered) == 22);
        }
        assert_eq!(judge.verdict(), Ok(reported(Verdict::Yes(3), [2, 1, 1])));
    }
}

#[test]
fn recorded_lists() {
    let text = "load 03020100000004000000160006001C0002001E0000000000000101000102\nopen 2\ndeliver 1 0 01\ndeliver 0 0 00";
    assert_eq!(
        replay(text.as_bytes()),
        Ok(reported(Verdict::Yes(3), [2, 1, 1]))
    );
    let later = text.replace("deliver 0 0 00", "deliver 0 0 01\ndeliver 0 1 00");
    assert_eq!(replay(later.as_bytes()), replay(text.as_bytes()));
    for wrong in ["deliver 0 00", "deliver 0 4294967296 00"] {
        let malformed = replay(text.replace("deliver 0 0 00", wrong).as_bytes());
        assert_eq!(malformed, Err(ReplayError::Malformed { line: 4 }));
    }
    assert!(matches!(replay(b""), Err(ReplayError::Refused(refused)) if refused.number() == 21));
    assert_eq!(
        replay(b"").unwrap_err().to_string(),
        "refused 21: no board is open"
    );
    let malformed = replay(b"verdict\nverdict \n").unwrap_err();
    assert_eq!(malformed, ReplayError::Malformed { line: 2 });
    assert_eq!(malformed.to_string(), "line 2 is malformed");
}

/// An error of a caller's own can take a refusal in.
#[test]
fn a_refusal_is_an_error() {
    fn called() -> Result<(), Box<dyn std::error::Error>> {
        Judge::new().open(1)?;
        Ok(())
    }
    assert_eq!(
        called().unwrap_err().to_string(),
        "refused 20: no rule is there"
    );
}

#[test]
fn what_a_judge_shows() {
    let mut judge = Judge::new();
    assert!(judge.load(&A).is_ok() && judge.open(2).is_ok() && judge.deliver(1, 0, &[]).is_ok());
    let shown = "Judge { states: 3, symbols: 2, sets: 5, starts: 3, places: 2, filled: 1, .. }";
    assert_eq!(format!("{judge:?}"), shown);
    assert_eq!(version(), (5, 8));
}
