//! Summaries: worked by hand, refusals in their order, bytes there and back, any bracketing, the report of
//! a filled board, and lists of chunks in which something went wrong.
use bellbadger::summaries::Summary;
use bellbadger::{CheckedRule, Judge, Refused, Report, Verdict};
use std::fmt::Debug;
use std::thread;

/// A rule with the targets of each state by each symbol.
fn rule<const K: usize>(initials: u32, finals: u32, rows: &[[u32; K]]) -> CheckedRule {
    let mut targets = [0; 512];
    for (state, row) in rows.iter().enumerate() {
        targets[16 * state..16 * state + K].copy_from_slice(row);
    }
    CheckedRule {
        n: rows.len() as u8,
        k: K as u8,
        initials,
        finals,
        targets,
    }
}

/// Texts that end in 0 1.
fn rule_a() -> CheckedRule {
    rule(1, 4, &[[3, 1], [0, 4], [0, 0]])
}

/// States 1 and 2 are alike: delegates 0 1 1.
fn rule_b() -> CheckedRule {
    rule(1, 6, &[[6], [1], [1]])
}

fn by(rule: &CheckedRule) -> Judge {
    let mut judge = Judge::new();
    let _loaded = judge.install(rule).expect("the rule is installed");
    judge
}

fn number<T: Debug>(answer: Result<T, Refused>) -> u8 {
    answer.unwrap_err().number()
}

#[test]
fn worked_by_hand() {
    let judge = by(&rule_a());
    let zero = judge.summarize(0, &[0, 255]).unwrap();
    let one = judge.summarize(1, &[255, 1]).unwrap();
    assert_eq!(
        (zero.leads[..3].to_vec(), zero.count, zero.bytes),
        (vec![3, 0, 0], 1, 1)
    );
    assert_eq!(
        (one.leads[..3].to_vec(), one.count, one.bytes),
        (vec![1, 4, 0], 2, 1)
    );
    assert_eq!((zero.first, zero.end, zero.broken), (0, 1, 0));
    assert_eq!((one.first, one.end, one.broken), (1, 2, 0));
    let whole = zero.then(one);
    assert_eq!((whole.leads[0], whole.first, whole.end), (5, 0, 2));
    assert_eq!((whole.rule, one.rule), (zero.rule, zero.rule));
    let report = judge.conclude(whole, 2).unwrap();
    assert_eq!(report.verdict, Verdict::Yes(3));
    assert_eq!((report.bytes, report.quotient, report.remainder), (2, 1, 1));
    assert_eq!(judge.conclude(zero, 1).unwrap().verdict, Verdict::No(1));
    assert_eq!(
        format!("{whole:?}"),
        "Summary { first: 0, end: 2, count: 3, bytes: 2, broken: false, .. }"
    );
    let last = judge.summarize(u64::MAX, &[0]).unwrap();
    assert!(last.is_broken() && !judge.summarize(u64::MAX - 1, &[0]).unwrap().is_broken());
    let b = by(&rule_b()).summarize(7, &[0]).unwrap();
    assert_eq!((b.leads[..3].to_vec(), b.count), (vec![2, 1, 0], 2));
}

#[test]
fn refusals_in_their_order() {
    let (judge, fresh) = (by(&rule_a()), Judge::new());
    assert_eq!(number(fresh.summarize(0, &[2; 65_537])), 20);
    assert_eq!(number(judge.summarize(0, &[2; 65_537])), 12);
    assert_eq!(number(judge.summarize(9, &[2; 65_536])), 13);
    assert_eq!(number(judge.summarize(9, &[254])), 13);
    assert_eq!(judge.summarize(9, &[255; 65_536]).unwrap().bytes, 0);
    let whole = judge.summarize(0, &[0]).unwrap();
    let mut wrong = whole;
    (wrong.broken, wrong.rule, wrong.end) = (1, whole.rule ^ 1, 5);
    assert_eq!(number(fresh.conclude(wrong, 1)), 20);
    assert_eq!(number(judge.conclude(wrong, 1)), 42);
    (wrong.broken, wrong.first) = (0, 1);
    assert_eq!(number(judge.conclude(wrong, 1)), 42);
    wrong.first = 0;
    assert_eq!(number(judge.conclude(wrong, 1)), 43);
    wrong.rule = whole.rule;
    for (summary, chunks) in [(wrong, 1), (whole, 2), (whole, 0)] {
        assert_eq!(number(judge.conclude(summary, chunks)), 44);
    }
    let refused = judge.conclude(whole, 2).unwrap_err();
    assert_eq!(
        refused.to_string(),
        "refused 44: the summary does not end with the last chunk, or there is none"
    );
}

/// 0 and then 1, which the rule rejects. By another rule's delegates, 0 1 1, it would be a yes.
#[test]
fn no_wrong_yes() {
    let (judge, other) = (by(&rule(1, 2, &[[4, 0], [0, 2], [2, 0]])), by(&rule_b()));
    let (zero, one) = (
        judge.summarize(0, &[0]).unwrap(),
        judge.summarize(1, &[1]).unwrap(),
    );
    assert!(!judge.conclude(zero.then(one), 2).unwrap().is_yes());
    assert_eq!(number(other.conclude(zero.then(one), 2)), 43);
    let others = other.summarize(1, &[0]).unwrap();
    assert_eq!(number(judge.conclude(zero.then(others), 2)), 42);
    assert_eq!(number(other.conclude(zero.then(others), 2)), 42);
}

/// Xorshift.
struct Random(u64);

impl Random {
    fn next(&mut self) -> u64 {
        self.0 ^= self.0 << 13;
        self.0 ^= self.0 >> 7;
        self.0 ^= self.0 << 17;
        self.0
    }

    fn below(&mut self, limit: u64) -> usize {
        ((self.next() >> 11) % limit) as usize
    }

    /// Any summary, its chunks and its rule mostly such that two fit each other.
    fn summary(&mut self) -> Summary {
        let mut summary = Summary::from_bytes(&std::array::from_fn(|_| self.below(256) as u8));
        summary.rule = self.below(2) as u64;
        (summary.first, summary.end) = (self.below(2) as u64, self.below(2) as u64);
        summary.broken *= u8::from(self.below(3) == 0);
        summary
    }

    fn rule(&mut self) -> CheckedRule {
        let (n, k) = (1 + self.below(5), 1 + self.below(3));
        let mut mask = || (self.below(1 << n) & self.below(1 << n)) as u32;
        let mut targets = [0; 512];
        for q in 0..n {
            targets[16 * q..16 * q + k].fill_with(&mut mask);
        }
        let (initials, finals) = (mask() | 1, mask() | mask());
        CheckedRule {
            n: n as u8,
            k: k as u8,
            initials,
            finals,
            targets,
        }
    }

    fn chunks(&mut self, k: u8, most: u64) -> Vec<Vec<u8>> {
        let chunk = |random: &mut Random| {
            let byte = |random: &mut Random| match random.below(6) {
                0 => 255,
                _ => random.below(u64::from(k)) as u8,
            };
            (0..random.below(6)).map(|_| byte(random)).collect()
        };
        (0..1 + self.below(most)).map(|_| chunk(self)).collect()
    }

    /// Combined two at a time, anywhere, until one is left.
    fn in_any_bracketing(&mut self, mut summaries: Vec<Summary>) -> Summary {
        while summaries.len() > 1 {
            let at = self.below(summaries.len() as u64 - 1);
            let later = summaries.remove(at + 1);
            summaries[at] = summaries[at].then(later);
        }
        summaries[0]
    }
}

#[test]
fn any_values_combine_and_travel() {
    let mut random = Random(88_172_645_463_325_252);
    let mut broken = 0;
    for _ in 0..5000 {
        let (a, b, c) = (random.summary(), random.summary(), random.summary());
        assert_eq!(a.then(b).then(c), a.then(b.then(c)));
        assert_eq!(Summary::from_bytes(&a.to_bytes()), a);
        broken += usize::from(a.then(b).is_broken());
    }
    assert!((1000..4900).contains(&broken), "{broken}");
    let mut leads = [0; 32];
    (leads[0], leads[31]) = (0x0403_0201, 0x8000_0000);
    let layout = Summary {
        leads,
        count: 5,
        bytes: 6 << 8,
        rule: 7 << 56,
        first: 8,
        end: 9,
        broken: 10,
    };
    let bytes = layout.to_bytes();
    assert_eq!((&bytes[..4], bytes[127]), (&[1, 2, 3, 4][..], 0x80));
    assert_eq!((bytes[128], bytes[137], bytes[151]), (5, 6, 7));
    assert_eq!((bytes[152], bytes[160], bytes[168]), (8, 9, 10));
    assert_eq!(bytes.iter().filter(|&&byte| byte != 0).count(), 11);
}

fn filled(judge: &Judge, chunks: &[Vec<u8>]) -> Report {
    let mut judge = judge.clone();
    judge.open(chunks.len()).unwrap();
    for (place, chunk) in chunks.iter().enumerate() {
        let _looked = judge.deliver(place, 0, chunk).unwrap();
    }
    judge.verdict().unwrap()
}

fn summaries(judge: &Judge, chunks: &[Vec<u8>]) -> Vec<Summary> {
    let numbered = chunks.iter().enumerate();
    numbered
        .map(|(number, chunk)| judge.summarize(number as u64, chunk).unwrap())
        .collect()
}

#[test]
fn as_a_filled_board() {
    let mut random = Random(2_463_534_242);
    let mut said = [0, 0];
    for _ in 0..1000 {
        let rule = random.rule();
        let judge = by(&rule);
        let chunks = random.chunks(rule.k, 12);
        let whole = random.in_any_bracketing(summaries(&judge, &chunks));
        let report = judge.conclude(whole, chunks.len() as u64).unwrap();
        assert_eq!(report, filled(&judge, &chunks));
        said[usize::from(report.is_yes())] += 1;
    }
    assert!(said[0] > 100 && said[1] > 100, "{said:?}");
}

/// Chunks are lost, doubled, exchanged, or by another rule: it is refused with the number that is due.
#[test]
fn gone_wrong() {
    let mut random = Random(1234);
    let (judge, other) = (by(&rule_a()), by(&rule(1, 2, &[[3, 1], [0, 4], [0, 0]])));
    for _ in 0..500 {
        let mut chunks = random.chunks(2, 6);
        chunks.push(vec![0, 1]);
        let n = chunks.len() as u64;
        let all = summaries(&judge, &chunks);
        assert!(judge
            .conclude(random.in_any_bracketing(all.clone()), n)
            .unwrap()
            .is_yes());
        let at = random.below(n);
        let mut refused = |due: u8, change: &dyn Fn(&mut Vec<Summary>)| {
            let mut list = all.clone();
            change(&mut list);
            if list != all && !list.is_empty() {
                let whole = random.in_any_bracketing(list);
                assert_eq!(number(judge.conclude(whole, n)), due);
            }
        };
        let due = if at as u64 == n - 1 { 44 } else { 42 };
        refused(due, &|list| {
            let _lost = list.remove(at);
        });
        refused(42, &|list| list.insert(at, list[at]));
        refused(42, &|list| list.swap(at, 0));
        let others = other.summarize(at as u64, &chunks[at]).unwrap();
        refused(42, &|list| list[at] = others);
        refused(43, &|list| *list = summaries(&other, &chunks));
    }
}

/// One judge for many threads, each of which has a part of the chunks; more of them than a board takes.
#[test]
fn chunks_on_threads() {
    let judge = by(&rule_a());
    let chunk = |number: u64| {
        if number == 999 {
            vec![0, 1]
        } else {
            vec![0; 50]
        }
    };
    let parts: Vec<Summary> = thread::scope(|scope| {
        let part = |from: u64| {
            let judge = &judge;
            let summarize = move |number| judge.summarize(number, &chunk(number)).unwrap();
            scope.spawn(move || {
                (from..from + 125)
                    .map(summarize)
                    .reduce(Summary::then)
                    .unwrap()
            })
        };
        let threads: Vec<_> = (0..8).map(|i| part(125 * i)).collect();
        threads
            .into_iter()
            .map(|thread| thread.join().unwrap())
            .collect()
    });
    let whole = parts.into_iter().reduce(Summary::then).unwrap();
    let report = judge.conclude(whole, 1000).unwrap();
    assert!(report.is_yes());
    assert_eq!(report.bytes, 999 * 50 + 2);
}
