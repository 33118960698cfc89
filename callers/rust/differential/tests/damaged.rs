//! Bases that no request made: sound or not, both sides say the same.
use differential::session::{damaged_session, flipped_session, Failure};
use differential::tally::Tally;

fn all(outcomes: impl Iterator<Item = Result<Tally, Box<Failure>>>) -> Tally {
    let mut tally = Tally::default();
    for outcome in outcomes {
        match outcome {
            Ok(more) => tally.add(&more),
            Err(failure) => panic!("{failure:?}"),
        }
    }
    println!("{tally}");
    tally
}

#[test]
fn damaged_and_composed() {
    let tally = all((2_000_000..2_000_120).map(|seed| damaged_session(seed, 120)));
    assert!(tally.sound > 2_000 && tally.judged - tally.sound > 10_000);
}

#[test]
fn every_bit_flipped() {
    let tally = all((3_000_000..3_000_004).map(flipped_session));
    assert!(tally.sound > 100 && tally.judged - tally.sound > 10_000);
}
