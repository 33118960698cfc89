//! Random sessions with rules for all meters of their authors, and how often such a rule decides.
use differential::session::{all_meters_session, small_all_meters_session, Failure};
use differential::tally::Tally;

fn compare(name: &str, session: fn(u64) -> Result<Tally, Box<Failure>>, first: u64, requests: u64) -> Tally {
    let mut tally = Tally::default();
    let mut seed = first;
    while tally.requests() < requests {
        match session(seed) {
            Ok(more) => tally.add(&more),
            Err(failure) => panic!("{failure:?}"),
        }
        seed += 1;
    }
    println!("{name}, seeds {first} to {}\n{tally}", seed - 1);
    assert!(tally.starred > 1_000, "bases with starred objects: {}", tally.starred);
    assert!(tally.decided > 500, "questions that they decide: {}", tally.decided);
    tally
}

#[test]
fn all_meters() {
    let tally = compare("allmeters", all_meters_session, 8_000_000, 60_000);
    assert!(tally.closed_by_star > 500, "circles through a starred object: {}", tally.closed_by_star);
    assert!(tally.narrowed > 100, "withdrawals from their authors: {}", tally.narrowed);
}

#[test]
fn small_all_meters() {
    compare("smallallmeters", small_all_meters_session, 9_000_000, 30_000);
}
