//! Trays through the wrapper: worked by hand, each refusal in its order with the tray as it was, and
//! random trays beside a plain search.
use bellbadger::trays::{Tray, TrayRefused, TrayVerdict};
use bellbadger::{read, CheckedRule, Judge, Loaded};
use std::fmt::Debug;

/// A rule over k symbols, with the targets of each state by each.
fn rule(k: u8, initials: u32, finals: u32, rows: &[&[u32]]) -> CheckedRule {
    let mut targets = [0; 512];
    for (state, row) in rows.iter().enumerate() {
        targets[16 * state..16 * state + row.len()].copy_from_slice(row);
    }
    CheckedRule {
        n: rows.len() as u8,
        k,
        initials,
        finals,
        targets,
    }
}

/// What ends in 0 1.
fn a() -> CheckedRule {
    rule(2, 1, 4, &[&[3, 1], &[0, 4], &[0, 0]])
}

/// What has an even number of 0s.
fn e() -> CheckedRule {
    rule(2, 1, 1, &[&[2, 1], &[1, 2]])
}

/// Over k symbols, every text.
fn every(k: u8) -> CheckedRule {
    rule(k, 1, 1, &[&vec![1; usize::from(k)]])
}

fn with(row: &CheckedRule, column: &CheckedRule, width: usize, bands: usize) -> Tray {
    let mut tray = Tray::new();
    let _loaded = tray.install_row(row).expect("the row rule is installed");
    let _loaded = tray
        .install_column(column)
        .expect("the column rule is installed");
    tray.open(width, bands).expect("the board is opened");
    tray
}

/// The call is refused with the number, and the tray is as it was.
fn refused<T: Debug>(
    tray: &mut Tray,
    number: u8,
    call: impl FnOnce(&mut Tray) -> Result<T, TrayRefused>,
) {
    let before = tray.clone();
    let refused = call(tray).expect_err("the call is refused");
    assert_eq!(refused.number(), number, "{refused}");
    assert!(*tray == before, "{refused} left another tray");
}

#[test]
fn bands_in_any_order() {
    let mut tray = with(&a(), &e(), 2, 2);
    assert_eq!(tray.verdict(), Ok(TrayVerdict::Waiting(2)));
    tray.deliver(1, &[0, 1]).unwrap();
    assert_eq!(tray.verdict(), Ok(TrayVerdict::Waiting(1)));
    tray.deliver(0, &[0, 1]).unwrap();
    assert_eq!(tray.verdict(), Ok(TrayVerdict::Yes));
    tray.withdraw(1).unwrap();
    tray.deliver(1, &[0, 1, 0, 1]).unwrap(); // one 0 too many in the first column
    assert_eq!(tray.verdict(), Ok(TrayVerdict::No));
    tray.withdraw(0).unwrap();
    tray.deliver(0, &[]).unwrap(); // a band of no rows
    assert_eq!(tray.verdict(), Ok(TrayVerdict::Yes));
    tray.withdraw(1).unwrap();
    tray.deliver(1, &[0, 1, 0, 0]).unwrap(); // a row that does not end in 0 1
    assert_eq!(tray.verdict(), Ok(TrayVerdict::No));
}

/// `Ok` is no yes, and neither is waiting nor no: this would catch a verdict that passes for one.
#[test]
fn only_yes_is_yes() {
    let mut tray = with(&a(), &e(), 2, 1);
    let yes = |tray: &Tray| tray.verdict().map(|verdict| verdict.is_yes());
    assert_eq!(yes(&tray), Ok(false));
    assert_eq!(tray.deliver(0, &[0, 1]), Ok(()));
    assert_eq!(yes(&tray), Ok(false));
    assert_eq!(tray.withdraw(0), Ok(()));
    assert_eq!(tray.deliver(0, &[0, 1, 0, 1]), Ok(()));
    assert_eq!(yes(&tray), Ok(true));
}

#[test]
fn no_rows_at_all() {
    for (column, due) in [(e(), TrayVerdict::Yes), (a(), TrayVerdict::No)] {
        let mut tray = with(&a(), &column, 3, 8);
        (0..8).for_each(|band| tray.deliver(band, &[]).unwrap());
        assert_eq!(tray.verdict(), Ok(due));
    }
}

#[test]
fn either_installation_removes_the_board() {
    let installed = Judge::new().install(&a());
    let mut tray = with(&e(), &e(), 2, 1);
    tray.deliver(0, &[0, 1]).unwrap();
    let told: Result<Loaded, u8> = tray.install_row(&a()).map_err(TrayRefused::number);
    assert_eq!(told, installed.map_err(|refused| refused.number()));
    assert_eq!(tray.verdict().map_err(TrayRefused::number), Err(21));
    tray.open(2, 1).unwrap();
    let _loaded = tray.install_column(&a()).unwrap();
    assert_eq!(tray.verdict().map_err(TrayRefused::number), Err(21));
    tray.open(2, 1).unwrap();
    tray.deliver(0, &[0, 1]).unwrap(); // the columns are 0 and 1
    assert_eq!(tray.verdict(), Ok(TrayVerdict::No));
}

#[test]
fn refused_rules() {
    let mut many = rule(2, 1, 1 << 10, &[&[1, 3]]);
    many.n = 11; // the tenth symbol from the end is 1: over 512 sets
    (1..10).for_each(|q| many.targets[16 * q..16 * q + 2].fill(2 << q));
    let mut target = a();
    target.targets[2] = 1;
    let no_rules = [
        (CheckedRule { n: 33, k: 0, ..a() }, 3),
        (CheckedRule { k: 17, ..a() }, 4),
        (CheckedRule { finals: 8, ..a() }, 6),
        (target, 8),
        (many, 9),
    ];
    let mut tray = with(&a(), &e(), 2, 2);
    tray.deliver(0, &[0, 1]).unwrap();
    for (rule, number) in no_rules {
        refused(&mut tray, number, |tray| tray.install_row(&rule));
        refused(&mut tray, number, |tray| tray.install_column(&rule));
    }
    assert_eq!(tray.verdict(), Ok(TrayVerdict::Waiting(1)));
}

#[test]
fn refusals_in_their_order() {
    let mut tray = Tray::new();
    for rules in 0..2 {
        refused(&mut tray, 20, |tray| tray.open(0, 0));
        refused(&mut tray, 21, |tray| tray.deliver(9, &[255; 3]));
        refused(&mut tray, 21, |tray| tray.withdraw(9));
        refused(&mut tray, 21, |tray| tray.verdict());
        if rules == 0 {
            let _loaded = tray.install_column(&e()).unwrap();
        }
    }
    let _loaded = tray.install_row(&a()).unwrap();
    for width in [0, 17, 257, usize::MAX] {
        refused(&mut tray, 38, |tray| tray.open(width, 0));
    }
    for bands in [0, 9, 257, usize::MAX] {
        refused(&mut tray, 10, |tray| tray.open(16, bands));
    }
    tray.open(2, 2).unwrap();
    for band in [2, 8, 256, usize::MAX] {
        refused(&mut tray, 11, |tray| tray.deliver(band, &[255; 3]));
        refused(&mut tray, 11, |tray| tray.withdraw(band));
    }
    refused(&mut tray, 23, |tray| tray.withdraw(0));
    tray.deliver(0, &[1; 128]).unwrap(); // 64 rows
    for rows in [&[255; 1][..], &[255; 3], &[255; 130]] {
        refused(&mut tray, 39, |tray| tray.deliver(0, rows));
    }
    refused(&mut tray, 13, |tray| tray.deliver(0, &[255; 128]));
    refused(&mut tray, 22, |tray| tray.deliver(0, &[1; 128]));
    refused(&mut tray, 22, |tray| tray.deliver(0, &[]));
}

/// 13 is a byte at or above either rule's k; 255 is no idle mark.
#[test]
fn foreign_bytes() {
    for byte in 0..=255 {
        for (row, column) in [(2, 16), (16, 2), (3, 3)] {
            let mut tray = with(&every(row), &every(column), 1, 1);
            let told = tray.deliver(0, &[byte]).map_err(TrayRefused::number);
            let due = if byte < row.min(column) {
                Ok(())
            } else {
                Err(13)
            };
            assert_eq!(told, due, "{byte} by {row} and {column}");
        }
    }
}

/// The words are those of a tray.
#[test]
fn words() {
    let mut tray = with(&a(), &e(), 2, 1);
    tray.deliver(0, &[]).unwrap();
    for (call, due) in [
        (tray.open(0, 1), "refused 38: the width is not in 1..16"),
        (
            tray.open(1, 9),
            "refused 10: the number of bands is not in 1..8",
        ),
        (
            tray.deliver(0, &[1]),
            "refused 39: the band is not whole rows, or has over 64",
        ),
        (tray.deliver(0, &[]), "refused 22: the band is filled"),
    ] {
        assert_eq!(call.unwrap_err().to_string(), due);
    }
    let unread = read(b"").map_err(TrayRefused::from).unwrap_err();
    assert_eq!(unread.number(), 1);
    assert_eq!(
        format!("{tray:?}"),
        "Tray { row_states: 3, column_states: 2, width: 2, bands: 1, filled: 1, .. }"
    );
}

/// Marsaglia's xorshift.
struct Chance(u64);

impl Chance {
    fn below(&mut self, bound: usize) -> usize {
        self.0 ^= self.0 << 13;
        self.0 ^= self.0 >> 7;
        self.0 ^= self.0 << 17;
        (self.0 >> 16) as usize % bound
    }

    /// Most say yes to a text unless they die in it.
    fn rule(&mut self) -> CheckedRule {
        let n = 1 + self.below(4);
        let mut made = rule(2, 1, self.below(1 << n) as u32, &vec![&[][..]; n]);
        if self.below(3) > 0 {
            made.finals = (1 << n) - 1;
        }
        for cell in 0..2 * n {
            let at = cell / 2 * 16 + cell % 2;
            made.targets[at] = match self.below(12) {
                0 => 0,
                _ => 1 << self.below(n) | self.below(1 << n) as u32,
            };
        }
        made
    }
}

fn accepts(rule: &CheckedRule, text: impl Iterator<Item = u8>) -> bool {
    let reached = text.fold(rule.initials, |from, symbol| {
        let states = (0..rule.n).filter(|q| from >> q & 1 == 1);
        states.fold(0, |to, q| to | rule.target_mask(q, symbol))
    });
    reached & rule.finals != 0
}

#[test]
fn as_a_plain_search() {
    let mut chance = Chance(88_172_645_463_325_252);
    let mut said = [0, 0];
    for _ in 0..500 {
        let (row, column) = (chance.rule(), chance.rule());
        let (width, bands) = (1 + chance.below(5), 1 + chance.below(8));
        let band_rows: Vec<Vec<u8>> = (0..bands)
            .map(|_| {
                let rows = chance.below(4) * width;
                (0..rows).map(|_| chance.below(2) as u8).collect()
            })
            .collect();
        let mut tray = with(&row, &column, width, bands);
        let first = chance.below(bands); // begins anywhere
        for band in (0..bands).map(|band| (band + first) % bands) {
            tray.deliver(band, &band_rows[band]).unwrap();
        }
        let all = band_rows.concat();
        let rows_pass = all
            .chunks(width)
            .all(|events| accepts(&row, events.iter().copied()));
        let columns_pass =
            (0..width).all(|c| accepts(&column, all.iter().skip(c).step_by(width).copied()));
        let yes = rows_pass && columns_pass;
        let due = if yes {
            TrayVerdict::Yes
        } else {
            TrayVerdict::No
        };
        assert_eq!(tray.verdict(), Ok(due));
        said[usize::from(yes)] += 1;
    }
    assert!(said[0] > 50 && said[1] > 50, "{said:?}");
}
