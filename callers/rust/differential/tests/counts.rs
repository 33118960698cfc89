//! The sessions that lead to the counts.
use differential::counts;

fn check(name: &str, outcome: counts::Outcome) {
    match outcome {
        Ok(tally) => println!("{name}\n{tally}"),
        Err(failure) => panic!("{failure:?}"),
    }
}

#[test]
fn lines() {
    check("lines", counts::lines());
}

#[test]
fn splits() {
    check("splits", counts::splits());
}

#[test]
fn cascades() {
    check("cascades", counts::cascades());
}

#[test]
fn chain() {
    check("chain", counts::chain());
}

#[test]
fn ladder() {
    check("ladder", counts::ladder());
}

#[test]
fn rules() {
    check("rules", counts::rules());
}

#[test]
fn circles() {
    check("circles", counts::circles());
}

#[test]
fn privileges() {
    check("privileges", counts::privileges());
}

#[test]
fn runs() {
    check("runs", counts::runs());
}

#[test]
fn labels() {
    check("labels", counts::labels());
}
