//! Where a tray goes wrong, through the wrapper: worked by hand, refusals, and small random trays beside the
//! words: all texts that might follow are tried.
use bellbadger::trays::Fault::{self, Column, Open, Row, Short};
use bellbadger::trays::{Tray, TrayRefused, TrayVerdict};
use bellbadger::CheckedRule;

/// A rule over 0 and 1, with the targets of each state by both.
fn rule(initials: u32, finals: u32, rows: &[[u32; 2]]) -> CheckedRule {
    let mut targets = [0; 512];
    for (state, row) in rows.iter().enumerate() {
        targets[16 * state..16 * state + 2].copy_from_slice(row);
    }
    CheckedRule {
        n: rows.len() as u8,
        k: 2,
        initials,
        finals,
        targets,
    }
}

/// What ends in 0 1.
fn ends() -> CheckedRule {
    rule(1, 4, &[[3, 1], [0, 4], [0, 0]])
}

/// 0, 0 1 0, 0 1 0 1 0 and so on; what comes out of order leads to state 2 and stays there.
fn in_turn() -> CheckedRule {
    rule(1, 2, &[[2, 4], [4, 1], [4, 4]])
}

fn all() -> CheckedRule {
    rule(1, 1, &[[1, 1]])
}

fn opened(row: &CheckedRule, column: &CheckedRule, width: usize, bands: usize) -> Tray {
    let mut tray = Tray::new();
    let _loaded = tray.install_row(row).expect("a row rule");
    let _loaded = tray.install_column(column).expect("a column rule");
    tray.open(width, bands).expect("a board");
    tray
}

#[test]
fn rows_behind_an_empty_band_too() {
    let mut tray = opened(&ends(), &all(), 2, 4);
    assert_eq!(tray.fault(), Ok(Open { bands: 0 }));
    tray.deliver(3, &[0, 1, 1, 1, 0, 0]).unwrap();
    assert_eq!(tray.fault(), Ok(Row { band: 3, row: 1 }));
    tray.deliver(0, &[0, 1]).unwrap();
    assert_eq!(tray.fault(), Ok(Row { band: 3, row: 1 }));
    tray.deliver(1, &[0, 1, 0, 1, 1, 0]).unwrap();
    assert_eq!(tray.fault(), Ok(Row { band: 1, row: 2 }));
    tray.withdraw(1).unwrap();
    tray.withdraw(3).unwrap();
    assert_eq!(tray.fault(), Ok(Open { bands: 1 }));
}

#[test]
fn columns_before_the_first_empty_band() {
    let mut tray = opened(&all(), &in_turn(), 3, 3);
    tray.deliver(1, &[0, 1, 0]).unwrap();
    assert_eq!(tray.fault(), Ok(Open { bands: 0 }));
    tray.deliver(0, &[0, 0, 0, 1, 1, 1]).unwrap();
    let lost = Column {
        column: 1,
        band: 1,
        row: 0,
    };
    assert_eq!(tray.fault(), Ok(lost));
    assert_eq!(tray.verdict(), Ok(TrayVerdict::Waiting(1)));
    tray.withdraw(1).unwrap();
    tray.deliver(1, &[]).unwrap(); // a band of no rows loses nothing
    assert_eq!(tray.fault(), Ok(Open { bands: 2 }));
    tray.deliver(2, &[]).unwrap(); // each column is 0 1
    assert_eq!(tray.fault(), Ok(Short { column: 0 }));
    assert_eq!(tray.verdict(), Ok(TrayVerdict::No));
    tray.withdraw(2).unwrap();
    tray.deliver(2, &[0, 0, 0]).unwrap();
    assert_eq!(tray.fault(), Ok(Open { bands: 3 }));
    assert_eq!(tray.verdict(), Ok(TrayVerdict::Yes));
}

#[test]
fn a_column_rule_that_accepts_nothing() {
    let lost = Column {
        column: 0,
        band: 0,
        row: 0,
    };
    let mut tray = opened(&ends(), &rule(1, 0, &[[1, 1]]), 2, 2);
    assert_eq!(tray.fault(), Ok(lost));
    tray.deliver(1, &[0, 1]).unwrap();
    assert_eq!(tray.fault(), Ok(lost));
    tray.deliver(0, &[0, 1, 1, 0]).unwrap();
    assert_eq!(tray.fault(), Ok(Row { band: 0, row: 1 }));
}

#[test]
fn refused_without_a_board() {
    let number = |tray: &Tray| tray.fault().map_err(TrayRefused::number);
    let mut tray = Tray::new();
    assert_eq!(number(&tray), Err(21));
    let _loaded = tray.install_row(&ends()).unwrap();
    let _loaded = tray.install_column(&ends()).unwrap();
    assert_eq!(number(&tray), Err(21));
    tray.open(1, 1).unwrap();
    assert_eq!(number(&tray), Ok(Open { bands: 0 }));
    let _loaded = tray.install_row(&ends()).unwrap();
    let refused = tray.fault().unwrap_err();
    assert_eq!(refused.to_string(), "refused 21: no board is open");
}

fn accepts(rule: &CheckedRule, text: &[u8]) -> bool {
    let reached = text.iter().fold(rule.initials, |from, &symbol| {
        let states = (0..rule.n).filter(|q| from >> q & 1 == 1);
        states.fold(0, |to, q| to | rule.target_mask(q, symbol))
    });
    reached & rule.finals != 0
}

/// Whether a text can follow so that the rule accepts both: one that is shorter than there are states.
fn continued(rule: &CheckedRule, text: &[u8]) -> bool {
    let mut texts = vec![text.to_vec()];
    for _ in 0..rule.n {
        if texts.iter().any(|text| accepts(rule, text)) {
            return true;
        }
        let longer = |text: &Vec<u8>| [0, 1].map(|symbol| [text.as_slice(), &[symbol]].concat());
        texts = texts.iter().flat_map(longer).collect();
    }
    false
}

/// The words, one after the other.
fn due(row: &CheckedRule, column: &CheckedRule, width: usize, bands: &[Option<Vec<u8>>]) -> Fault {
    for (band, rows) in bands.iter().enumerate() {
        let mut rows = rows.iter().flat_map(|events| events.chunks(width));
        if let Some(row) = rows.position(|events| !accepts(row, events)) {
            return Row { band, row };
        }
    }
    if !continued(column, &[]) {
        return Column {
            column: 0,
            band: 0,
            row: 0,
        };
    }
    let standing: Vec<&Vec<u8>> = bands.iter().map_while(Option::as_ref).collect();
    let columns: Vec<Vec<(usize, usize, u8)>> = (0..width)
        .map(|c| {
            let cells = |(band, events): (usize, &&Vec<u8>)| -> Vec<(usize, usize, u8)> {
                let rows = events.chunks(width).enumerate();
                rows.map(|(row, events)| (band, row, events[c])).collect()
            };
            standing.iter().enumerate().flat_map(cells).collect()
        })
        .collect();
    let text =
        |cells: &[(usize, usize, u8)]| -> Vec<u8> { cells.iter().map(|cell| cell.2).collect() };
    for (c, cells) in columns.iter().enumerate() {
        for (at, &(band, row, _)) in cells.iter().enumerate() {
            if !continued(column, &text(&cells[..=at])) {
                return Column {
                    column: c,
                    band,
                    row,
                };
            }
        }
    }
    let short = columns
        .iter()
        .position(|cells| !accepts(column, &text(cells)));
    match short {
        Some(column) if standing.len() == bands.len() => Short { column },
        _ => Open {
            bands: standing.len(),
        },
    }
}

#[test]
fn beside_the_words() {
    let mut seed = 88_172_645_463_325_252_u64;
    let mut below = |n: u64| {
        seed ^= seed << 13;
        seed ^= seed >> 7;
        seed ^= seed << 17;
        ((seed >> 33) % n) as u32
    };
    let mut seen = [0; 4];
    for _ in 0..3000 {
        // most rows are accepted, and most columns can go on
        let mut any_rule = |every: bool| {
            let n = 1 + below(3);
            let all = (1 << n) - 1;
            let rows: Vec<[u32; 2]> = (0..n)
                .map(|_| [0; 2].map(|_| if below(8) == 0 { 0 } else { 1 + below(all) }))
                .collect();
            let finals = below(all + 1);
            rule(1, if every { all as u32 } else { finals }, &rows)
        };
        let (row, column) = (any_rule(true), any_rule(false));
        let (width, count) = (1 + below(3) as usize, 1 + below(4) as usize);
        let mut tray = opened(&row, &column, width, count);
        let mut bands: Vec<Option<Vec<u8>>> = vec![None; count];
        for _ in 0..3 * count {
            let band = below(count as u64) as usize;
            if bands[band].is_some() && below(4) > 0 {
                continue;
            }
            if bands[band].take().is_some() {
                tray.withdraw(band).unwrap();
            } else {
                let events = (0..below(3) as usize * width).map(|_| below(2) as u8);
                let events: Vec<u8> = events.collect();
                tray.deliver(band, &events).unwrap();
                bands[band] = Some(events);
            }
            let due = due(&row, &column, width, &bands);
            assert_eq!(
                tray.fault(),
                Ok(due),
                "{row:?} {column:?} {width} {bands:?}"
            );
            if bands.iter().all(Option::is_some) {
                let yes = tray.verdict().expect("a verdict").is_yes();
                assert_eq!(yes, matches!(due, Open { .. }));
            }
            seen[match due {
                Row { .. } => 0,
                Column { .. } => 1,
                Short { .. } => 2,
                Open { .. } => 3,
            }] += 1;
        }
    }
    assert!(seen.iter().all(|&times| times > 200), "{seen:?}");
}
