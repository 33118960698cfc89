//! Random sessions with fixed seeds, and a look at the table: everything has to have come up.
use differential::session::session;
use differential::tally::Tally;

// For each kind the refusals that it can get from a sound base.
const ROWS: [(u32, &[usize]); 13] = [
    (1, &[3, 4, 10]),
    (2, &[3, 4, 5, 6, 9, 13, 14]),
    (3, &[3, 4, 5, 6, 9, 13, 14]),
    (4, &[3, 4, 7, 8, 13]),
    (5, &[3, 4, 5, 6, 13]),
    (6, &[3, 4, 5, 6, 13]),
    (7, &[3, 4, 5, 6, 8, 12, 13]),
    (8, &[3, 4, 7, 8]),
    (9, &[3, 4, 6, 8, 10, 13]),
    (10, &[3, 4, 6, 8, 11, 13]),
    (11, &[3, 4, 6, 8, 10, 13]),
    (12, &[3, 4, 6, 8, 11]),
    (13, &[3]),
];

#[test]
fn sessions() {
    let mut tally = Tally::default();
    let mut seed = 1_000_000;
    while tally.requests() < 160_000 {
        match session(seed) {
            Ok(more) => tally.add(&more),
            Err(failure) => panic!("{failure:?}"),
        }
        seed += 1;
    }
    println!("seeds 1000000 to {}\n{tally}", seed - 1);
    for (kind, rows) in ROWS {
        let accepted = tally.count(kind, 0);
        assert!(kind == 13 || accepted > 1_000, "kind {kind} was accepted {accepted} times");
        for row in rows {
            assert!(tally.count(kind, *row) > 0, "kind {kind} never got {row}");
        }
    }
    for (row, least) in [(0, 20_000), (2, 100), (3, 1_000), (6, 1_000), (13, 5_000)] {
        let count = tally.sheets(row);
        assert!(count > least, "sheets with {row}: {count}");
    }
}
