//! A judge as bytes, through the wrapper: the head and the digest from the words of the format, cut,
//! altered and longer bytes, and calls that go on as they would have.
use bellbadger::saved::SAVED_SIZE;
use bellbadger::{Judge, Verdict};

const RULE_A: [u8; 30] = [
    3, 2, 1, 0, 0, 0, 4, 0, 0, 0, 22, 0, 6, 0, 28, 0, 2, 0, 30, 0, 0, 0, 0, 0, 0, 1, 1, 0, 1, 2,
];

/// A judge with a rule, a board of three places and a chunk.
fn judge() -> Judge {
    let mut judge = Judge::new();
    let _loaded = judge.load(&RULE_A).unwrap();
    judge.open(3).unwrap();
    let _looked = judge.deliver(1, 4, &[0, 1, 255]).unwrap();
    judge
}

fn digest(bytes: &[u8]) -> u64 {
    bytes.iter().fold(0u64, |h, &x| {
        let sum = h.wrapping_mul(131073).wrapping_add(u64::from(x) + 1);
        let upper = sum >> 32;
        (sum.wrapping_add(upper * upper) << 32) | upper
    })
}

/// The bytes with the digest that they should have.
fn sealed(mut bytes: Vec<u8>) -> Vec<u8> {
    let sum = digest(&bytes[..SAVED_SIZE - 8]);
    bytes[SAVED_SIZE - 8..].copy_from_slice(&sum.to_le_bytes());
    bytes
}

fn refused(bytes: &[u8]) {
    assert_eq!(Judge::restore(bytes).unwrap_err().number(), 46);
}

#[test]
fn the_format() {
    for bytes in [Judge::new().save(), judge().save()] {
        assert_eq!(bytes.len(), 27838);
        assert_eq!(&bytes[..8], b"BBJ\x01\xbe\x6c\x00\x00");
        assert_eq!(sealed(bytes.clone()), bytes);
    }
    let bytes = judge().save();
    assert_eq!(&bytes[8..12], [3, 2, 3, 5]);
    assert_eq!((bytes[18549], &bytes[18550..18553]), (3, &[0u8, 1, 0][..]));
    // one more than the revision, in eight bytes
    assert_eq!(&bytes[19126 + 8..19126 + 16], [5, 0, 0, 0, 0, 0, 0, 0]);
    let fresh = Judge::new().save();
    assert!(fresh[8..SAVED_SIZE - 8].iter().all(|&x| x == 0));
    assert_eq!(
        &fresh[SAVED_SIZE - 8..],
        [60, 45, 45, 236, 48, 133, 245, 115]
    );
}

#[test]
fn had_back() {
    let saved = judge().save();
    let mut back = Judge::restore(&saved).unwrap();
    assert_eq!(back.save(), saved);
    assert_eq!(back.deliver(1, 4, &[0]).unwrap_err().number(), 22);
    for place in [0, 2] {
        let _looked = back.deliver(place, 0, &[]).unwrap();
    }
    let report = back.verdict().unwrap();
    assert_eq!((report.verdict, report.bytes), (Verdict::Yes(2), 2));
}

#[test]
fn refusals() {
    let saved = judge().save();
    for length in [0, 7, 8, SAVED_SIZE - 8, SAVED_SIZE - 1] {
        refused(&saved[..length]);
    }
    refused(&[&saved[..], &[0]].concat());
    for at in (0..SAVED_SIZE).step_by(97) {
        let mut altered = saved.clone();
        altered[at] ^= 1 << (at % 8);
        refused(&altered);
    }
    // mark, version and length, with the digest right
    for at in 0..8 {
        let mut altered = saved.clone();
        altered[at] ^= 3;
        refused(&sealed(altered));
    }
    // any numbers may stand in a judge
    let mut other = saved;
    other[8..SAVED_SIZE - 8].fill(255);
    let other = sealed(other);
    assert_eq!(Judge::restore(&other).unwrap().save(), other);
}
