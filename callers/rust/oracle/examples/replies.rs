//! Sessions through the oracle, for other programs to compare: `cargo run --release --example replies < SESSIONS`. A session
//! is a number of lines, told on a line before them. For each line the reply is printed, and behind a tab the base's bytes
//! after it in hexadecimal, without the zeros at their end, if they are others than before it.

use oracle::session::{answer, cells, lines, read, Asked};
use oracle::Oracle;
use std::io::{Read, Write};

fn main() {
    let mut input = Vec::new();
    std::io::stdin().read_to_end(&mut input).expect("sessions on standard input");
    let mut output = std::io::BufWriter::new(std::io::stdout());
    let all = lines(&input);
    let mut rest = all.as_slice();
    while let Some((count, behind)) = rest.split_first() {
        let count: usize = std::str::from_utf8(count).ok().and_then(|c| c.parse().ok()).expect("a number of lines");
        let session: Vec<Asked> = behind[..count].iter().map(|line| read(line)).collect();
        rest = &behind[count..];
        let mut base = Oracle::empty(cells(&session));
        let mut before = base.to_bytes();
        for asked in &session {
            let reply = answer(&mut base, asked);
            let bytes = base.to_bytes();
            write!(output, "{reply}\t").expect("output");
            if bytes != before {
                let end = bytes.iter().rposition(|&byte| byte != 0).map_or(0, |last| last + 1);
                for byte in &bytes[..end] {
                    write!(output, "{byte:02x}").expect("output");
                }
            }
            writeln!(output).expect("output");
            before = bytes;
        }
    }
}
