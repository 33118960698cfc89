//! Random sessions in lines of text with fixed seeds, some of them unreadable, in buffers around the text's length.
use differential::session::text_session;
use differential::tally::Tally;

#[test]
fn lines_of_text() {
    let mut tally = Tally::default();
    let mut seed = 4_000_000;
    while tally.texts().0 < 100_000 {
        match text_session(seed) {
            Ok(more) => tally.add(&more),
            Err(failure) => panic!("{failure:?}"),
        }
        seed += 1;
    }
    println!("seeds 4000000 to {}\n{tally}", seed - 1);
    let (_, unreadable, refused) = tally.texts();
    assert!(unreadable > 5_000 && refused > 20_000);
}
