//! Runs every case of a directory (NAME.in and NAME.out) through the oracle and compares the output:
//! `cargo run --release --example cases -- [--coarse] DIRECTORY`

use std::path::PathBuf;
use std::time::Instant;

fn main() {
    let mut fine = true;
    let mut directory = None;
    for argument in std::env::args().skip(1) {
        if argument == "--coarse" {
            fine = false;
        } else {
            directory = Some(PathBuf::from(argument));
        }
    }
    let mut inputs: Vec<PathBuf> = std::fs::read_dir(directory.expect("name the directory of the cases"))
        .expect("the directory of cases")
        .map(|entry| entry.expect("an entry").path())
        .filter(|path| path.extension().is_some_and(|extension| extension == "in"))
        .collect();
    inputs.sort();
    let (mut good, mut bad) = (0, 0);
    for path in &inputs {
        let input = std::fs::read(path).expect("input");
        let expected = std::fs::read(path.with_extension("out")).expect("output");
        let began = Instant::now();
        let output = oracle::session::run(&input, fine);
        let took = began.elapsed();
        let name = path.file_stem().unwrap().to_string_lossy();
        if output == expected {
            good += 1;
            println!("{name}: agrees, {took:.2?}");
        } else {
            bad += 1;
            println!("{name}: DIFFERS, {took:.2?}");
            let asked = oracle::session::lines(&input);
            let ours = oracle::session::lines(&output);
            let theirs = oracle::session::lines(&expected);
            for i in 0..ours.len().max(theirs.len()) {
                if ours.get(i) != theirs.get(i) {
                    let text = |line: Option<&&[u8]>| {
                        line.map_or("(nothing)".into(), |l| String::from_utf8_lossy(l).to_string())
                    };
                    println!("  line {}: {}", i + 1, text(asked.get(i)));
                    println!("    expected {}\n    ours     {}", text(theirs.get(i)), text(ours.get(i)));
                    break;
                }
            }
        }
    }
    println!("{good} agree, {bad} differ");
    std::process::exit(i32::from(bad > 0));
}
