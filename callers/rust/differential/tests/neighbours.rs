//! Two estates in one base: pairs of histories that differ next door, and questions about the block to both. The theorem
//! is `theorems/Isolation`; this looks at the library from outside, and at the oracle, which nothing is proved of.
use differential::neighbours::{estates, Compared, Keeper, Library};
use oracle::Oracle;

fn compare<K: Keeper>(name: &str, seeds: core::ops::Range<u64>) {
    let mut compared = Compared::default();
    for seed in seeds.clone() {
        match estates::<K>(seed) {
            Ok(more) => compared.add(&more),
            Err(difference) => panic!("{name}: {difference}"),
        }
    }
    println!("{name}, seeds {} to {}\n{compared}", seeds.start, seeds.end - 1);
    assert!(compared.pairs > 5_000 && compared.apart > compared.pairs * 9 / 10, "pairs that differ next door");
    assert!(compared.relabelled > compared.pairs / 2, "pairs with other labels");
    assert!(compared.starred > 1_000, "pairs with starred objects");
    assert!(compared.starred_apart > 500, "pairs with other starred objects next door");
    assert!(compared.watched > 1_000, "pairs with rules next door that look at the block");
    assert!(compared.may.iter().all(|&count| count > 1_000), "MAY");
    assert!(compared.when.iter().all(|&count| count > 1_000) && compared.runs > 2_000, "WHEN");
    assert!(compared.rounds.iter().all(|&count| count > 500) && compared.questions > 10_000, "rounds");
}

#[test]
fn library() {
    compare::<Library>("the library", 10_000_000..10_000_400);
}

#[test]
fn oracle() {
    compare::<Oracle>("the oracle", 10_000_000..10_000_400);
}
