//! `lines COUNT SEED`: the random sessions of the test `lines_of_text` from that seed on that start with an empty base, so many
//! lines or more, as the oracle's example `replies` reads them. A line that is not printable ASCII of at most 96 bytes is left
//! out: it is refused and changes nothing, and callers with rules of their own for lines do not take it.
use differential::session::text_lines;
use std::io::Write;
use std::process::ExitCode;

fn is_printable(line: &[u8]) -> bool {
    line.len() <= 96 && line.iter().all(|byte| (b' '..=b'~').contains(byte))
}

fn main() -> ExitCode {
    let numbers: Vec<u64> = std::env::args().skip(1).filter_map(|word| word.parse().ok()).collect();
    let &[count, first] = numbers.as_slice() else {
        eprintln!("lines COUNT SEED");
        return ExitCode::from(2);
    };
    let mut output = std::io::BufWriter::new(std::io::stdout());
    let mut printed = 0;
    for seed in first.. {
        let lines = match text_lines(seed) {
            Ok(lines) => lines.unwrap_or_default(),
            Err(failure) => {
                eprintln!("{failure:?}");
                return ExitCode::FAILURE;
            }
        };
        let lines: Vec<_> = lines.into_iter().filter(|line| is_printable(line)).collect();
        writeln!(output, "{}", lines.len()).expect("output");
        for line in &lines {
            output.write_all(line).and_then(|()| output.write_all(b"\n")).expect("output");
        }
        printed += lines.len() as u64;
        if printed >= count {
            break;
        }
    }
    ExitCode::SUCCESS
}
