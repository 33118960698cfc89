//! Random sessions in which denials stand beside rules that look at rights, and how often that came up.
use differential::session::in_force_session;
use differential::tally::Tally;

#[test]
fn rights_in_force() {
    let mut tally = Tally::default();
    let mut seed = 6_000_000;
    while tally.requests() < 60_000 {
        match in_force_session(seed) {
            Ok(more) => tally.add(&more),
            Err(failure) => panic!("{failure:?}"),
        }
        seed += 1;
    }
    println!("seeds 6000000 to {}\n{tally}", seed - 1);
    assert!(tally.linked > 1_000, "bases with links: {}", tally.linked);
    assert!(tally.denied > 1_000, "rights held and denied: {}", tally.denied);
    assert!(tally.closed_by_link > 1_000, "rules refused for links alone: {}", tally.closed_by_link);
}
