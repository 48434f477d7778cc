//! The mapping machine: profiles, chunks, composition, and the same yes or no as a filled board.
use bellbadger::mappings::{Mapping, Profile};
use bellbadger::{read, CheckedRule, Judge, Refused, Verdict};
use std::fmt::Debug;
use std::thread;

const A: [u8; 30] = [
    0x03, 0x02, 0x01, 0, 0, 0, 0x04, 0, 0, 0, 0x16, 0, 0x06, 0, 0x1C, 0, 0x02, 0, 0x1E, 0, 0, 0, 0,
    0, 0, 1, 1, 0, 1, 2,
];

/// The number of a refusal.
fn number<T: Debug>(answer: Result<T, Refused>) -> u8 {
    answer.unwrap_err().number()
}

/// Rule A by value, changed.
fn changed(change: impl Fn(&mut CheckedRule)) -> CheckedRule {
    let mut rule = read(&A).expect("rule A is read");
    change(&mut rule);
    rule
}

fn profile_a() -> Profile {
    Profile::build(&changed(|_| ())).expect("rule A has a profile")
}

/// The mapping of three states.
fn of(first: u8, second: u8, third: u8) -> Mapping {
    let masks = [first, second, third, 0, 0, 0, 0, 0];
    Mapping { masks }
}

#[test]
fn chunks_of_rule_a() {
    let profile = profile_a();
    assert_eq!(profile.count(), 5);
    assert_eq!(
        format!("{profile:?}"),
        "Profile { states: 3, symbols: 2, mappings: 5, .. }"
    );
    let (zero, one) = (profile.run(&[0]).unwrap(), profile.run(&[1]).unwrap());
    assert_eq!((zero, one), (of(3, 0, 0), of(1, 4, 0)));
    assert_eq!(profile.run(&[]), Ok(of(1, 2, 4)));
    assert_eq!(profile.run(&[255]), Ok(of(1, 2, 4)));
    assert_eq!(profile.run(&[255, 0, 255, 1]), Ok(zero.then(one)));
    assert_eq!(zero.then(one), of(5, 0, 0));
    assert!(profile.accepts(zero.then(one)) && !profile.accepts(one.then(zero)));
    assert!(!profile.accepts(of(0, 4, 4)) && !profile.accepts(of(0xF8, 0xFF, 0xFF)));
    assert_eq!(one.to_string(), "0104000000000000");
    assert_eq!(format!("{one:?}"), "Mapping(0104000000000000)");
}

#[test]
fn what_is_refused() {
    assert_eq!(number(profile_a().run(&[0, 2])), 13);
    assert_eq!(number(profile_a().run(&[254])), 13);
    assert_eq!(number(profile_a().run(&[255; 65537])), 12);
    assert_eq!(profile_a().run(&[0; 65536]), Ok(of(3, 0, 0)));
    let build = |change: fn(&mut CheckedRule)| number(Profile::build(&changed(change)));
    assert_eq!(build(|rule| (rule.n, rule.k) = (33, 0)), 3);
    assert_eq!(build(|rule| (rule.k, rule.finals) = (17, 8)), 4);
    assert_eq!(build(|rule| rule.initials = 8), 6);
    assert_eq!(build(|rule| rule.targets[2] = 1), 8);
    assert_eq!(build(|rule| rule.n = 9), 33);
    assert!(Profile::build(&changed(|rule| rule.n = 8)).is_ok());
}

/// Each symbol leads each state to itself, and one of the first three to one of the next three too: nine
/// symbols have 512 mappings, a tenth that leads nowhere makes 513.
#[test]
fn as_many_mappings_as_there_may_be() {
    let mut targets = [0; 512];
    for q in 0..8 {
        for s in 0..9 {
            let too = if s / 3 == q { 8 << (s % 3) } else { 0 };
            targets[16 * q + s] = 1 << q | too;
        }
    }
    let (n, k, initials, finals) = (8, 9, 1, 1);
    let mut rule = CheckedRule {
        n,
        k,
        initials,
        finals,
        targets,
    };
    assert_eq!(
        Profile::build(&rule).map(|profile| profile.count()),
        Ok(512)
    );
    rule.k = 10;
    let refused = Profile::build(&rule).unwrap_err();
    assert_eq!(
        refused.to_string(),
        "refused 34: the rule has more than 512 mappings"
    );
    rule.n = 9;
    assert_eq!(number(Profile::build(&rule)), 33);
}

/// Xorshift.
struct Random(u64);

impl Random {
    fn below(&mut self, limit: u64) -> usize {
        self.0 ^= self.0 << 13;
        self.0 ^= self.0 >> 7;
        self.0 ^= self.0 << 17;
        (self.0 % limit) as usize
    }

    fn mapping(&mut self) -> Mapping {
        let masks = std::array::from_fn(|_| self.below(256) as u8);
        Mapping { masks }
    }

    fn rule(&mut self) -> CheckedRule {
        let (n, k) = (1 + self.below(5), 1 + self.below(2));
        let mut targets = [0; 512];
        for q in 0..n {
            for target in &mut targets[16 * q..16 * q + k] {
                *target = (self.below(1 << n) & self.below(1 << n)) as u32;
            }
        }
        let (initials, finals) = (self.below(1 << n) as u32, self.below(1 << n) as u32);
        CheckedRule {
            n: n as u8,
            k: k as u8,
            initials,
            finals,
            targets,
        }
    }
}

#[test]
fn any_values_compose_in_any_bracketing() {
    let mut random = Random(88172645463325252);
    for _ in 0..5000 {
        let (f, g, h) = (random.mapping(), random.mapping(), random.mapping());
        assert_eq!(f.then(g).then(h), f.then(g.then(h)));
    }
}

#[test]
fn as_a_filled_board() {
    let mut random = Random(2463534242);
    let mut said = [0, 0];
    for _ in 0..1000 {
        let rule = random.rule();
        let Ok(profile) = Profile::build(&rule) else {
            continue;
        };
        let places = 1 + random.below(6);
        let mut judge = Judge::new();
        let _loaded = judge.install(&rule).unwrap();
        judge.open(places).unwrap();
        let mut last: Option<Mapping> = None;
        for place in 0..places {
            let length = random.below(5);
            let chunk: Vec<u8> = (0..length)
                .map(|_| match random.below(6) {
                    0 => 255,
                    _ => random.below(u64::from(rule.k)) as u8,
                })
                .collect();
            let _looked = judge.deliver(place, 0, &chunk).unwrap();
            let mapping = profile.run(&chunk).unwrap();
            last = Some(last.map_or(mapping, |earlier| earlier.then(mapping)));
        }
        let yes = profile.accepts(last.unwrap());
        let verdict = judge.verdict().unwrap().verdict;
        assert_eq!(yes, matches!(verdict, Verdict::Yes(_)));
        assert_eq!(!yes, matches!(verdict, Verdict::No(_)));
        said[usize::from(yes)] += 1;
    }
    assert!(said[0] > 100 && said[1] > 100, "{said:?}");
}

/// One profile for many threads, each of which runs a chunk.
#[test]
fn chunks_on_threads() {
    let profile = profile_a();
    let chunks: Vec<Vec<u8>> = (0..8).map(|i| vec![u8::from(i == 7); 1000]).collect();
    let mappings: Vec<Mapping> = thread::scope(|scope| {
        let runs: Vec<_> = chunks
            .iter()
            .map(|chunk| scope.spawn(|| profile.run(chunk).unwrap()))
            .collect();
        runs.into_iter().map(|run| run.join().unwrap()).collect()
    });
    let last = mappings.into_iter().reduce(Mapping::then).unwrap();
    assert_eq!(profile.run(&chunks[..7].concat()), Ok(of(3, 0, 0)));
    assert_eq!(last, of(1, 0, 0));
    assert!(!profile.accepts(last));
}
