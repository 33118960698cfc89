//! The simple engine beside the main one and beside the oracle's, over bases with few instants, sound and damaged.
use differential::session::simple_session;
use differential::tally::Tally;

#[test]
fn simple_engine() {
    let mut tally = Tally::default();
    for seed in 5_000_000..5_001_700 {
        match simple_session(seed) {
            Ok(more) => tally.add(&more),
            Err(failure) => panic!("{failure:?}"),
        }
    }
    println!("{tally}");
    let [no, yes] = tally.simply(15).0;
    assert!(no > 20_000 && yes > 5_000, "{no} no, {yes} yes");
    for (row, least) in [(2, 10_000), (3, 1_000), (6, 1_000), (15, 10_000)] {
        let count = tally.simply(row).1;
        assert!(count > least, "refused with {row}: {count}");
    }
}
