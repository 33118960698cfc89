//! `long REQUESTS SEED`: random sessions, every fourth with denials beside rules and every fourth with rules for all
//! meters, until so many requests were compared, and a table of what came up.
use differential::session::{all_meters_session, in_force_session, session};
use differential::tally::Tally;
use std::process::ExitCode;
use std::time::Instant;

fn main() -> ExitCode {
    let numbers: Vec<u64> = std::env::args().skip(1).filter_map(|word| word.parse().ok()).collect();
    let &[requests, first] = numbers.as_slice() else {
        eprintln!("long REQUESTS SEED");
        return ExitCode::from(2);
    };
    let began = Instant::now();
    let mut tally = Tally::default();
    let mut told = 0;
    let mut seed = first << 32;
    println!("sessions from seed {seed} on");
    while tally.requests() < requests {
        let compared = match seed % 4 {
            1 => all_meters_session(seed),
            3 => in_force_session(seed),
            _ => session(seed),
        };
        match compared {
            Ok(more) => tally.add(&more),
            Err(failure) => {
                println!("{failure:?}\n{tally}\n1 difference");
                return ExitCode::FAILURE;
            }
        }
        seed += 1;
        if tally.requests() / 100_000 > told {
            told = tally.requests() / 100_000;
            println!("{} requests, {} s, next seed {seed}", tally.requests(), began.elapsed().as_secs());
        }
    }
    println!("{tally}\n{} questions, {} s\n0 differences", tally.questions(), began.elapsed().as_secs());
    ExitCode::SUCCESS
}
