//! A round's questions: lists of none, one and many, byte lists that are one byte short, that fit and that are longer,
//! over sound and damaged bases.
use differential::session::round_session;
use differential::tally::Tally;

#[test]
fn rounds() {
    let mut tally = Tally::default();
    for seed in 4_000_000..4_000_120 {
        let counts: &[usize] = if seed % 12 == 0 { &[0, 1, 500, 501] } else { &[0, 1, 7, 30] };
        match round_session(seed, counts) {
            Ok(more) => tally.add(&more),
            Err(failure) => panic!("{failure:?}"),
        }
    }
    println!("{tally}");
    let (answered, questions, unsound, short) = tally.rounds();
    assert!(answered > 1_000 && questions > 20_000 && unsound > 500 && short > 300);
    // bytes of every sort: no, yes, refused with 3, refused with 6; and of no other
    let sorts = [0, 1, 19, 22].map(|byte| tally.round_bytes(byte));
    println!("bytes of rounds, 0, 1, 19 and 22: {sorts:?}");
    assert!(sorts.iter().all(|&count| count > 50), "{sorts:?}");
    assert_eq!(sorts.iter().sum::<u64>(), questions);
}
