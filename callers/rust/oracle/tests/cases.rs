//! The stored sessions of the program `vectors`, and the pairs of the scope; with fine and with coarse cells.

use std::path::PathBuf;

/// The cases of a transcript, as input and output: `# title` opens one, `> ` is a line and `< ` its reply.
fn cases(text: &str) -> Vec<(String, String, String)> {
    let mut cases: Vec<(String, String, String)> = Vec::new();
    for line in text.lines().filter(|line| !line.is_empty()) {
        let (mark, rest) = line.split_at(2);
        match mark {
            "# " => cases.push((rest.to_string(), String::new(), String::new())),
            "> " => cases.last_mut().expect("a case").1 += &format!("{rest}\n"),
            "< " => cases.last_mut().expect("a case").2 += &format!("{rest}\n"),
            _ => panic!("no line of a transcript: {line}"),
        }
    }
    cases
}

#[test]
fn stored_sessions_agree() {
    let data = PathBuf::from(env!("CARGO_MANIFEST_DIR")).join("../../../crates/vectors/data");
    let mut count = 0;
    for name in ["scope.txt", "report.txt", "turns.txt", "table.txt", "shared.txt", "inforce.txt", "allmeters.txt"] {
        let text = std::fs::read_to_string(data.join(name)).expect(name);
        for (title, input, output) in cases(&text) {
            for fine in [true, false] {
                let ours = String::from_utf8(oracle::session::run(input.as_bytes(), fine)).unwrap();
                assert_eq!(ours, output, "{name}, {title}, fine {fine}");
            }
            count += 1;
        }
    }
    assert!(count > 100, "{count} cases");
}

/// Session S of 01 and the pairs behind it that fit in a line.
#[test]
fn session_s() {
    let input = b"4 1 NEW 7\n4 1 GRANTADM 7 5\n5 1 GRANT 1 7 2 50 200 y\n50 5 GRANT 1 7 2 80 150 y\n\
55 2 GRANT 1 7 3 55 180 y\n60 3 DENY 1 7 4 60 70\n61 1 REVOKEP 1 7 2 60 200\nMAY 3 1 7 79\nWHEN 3 1 7\n\
61 3 GRANT 1 7 9 61 90 n\n60 1 REVOKE 1\n";
    let output = "done 0 0\ndone 0 0\ndone 1 1\ndone 2 2\ndone 3 3\ndone 4 4\ndone 0 4\nno\n\
55-59 80-150\nrefused 9\nrefused 4\n";
    assert_eq!(String::from_utf8(oracle::session::run(input, true)).unwrap(), output);
}

#[test]
fn the_other_pairs() {
    let run = |input: &str| {
        let output = String::from_utf8(oracle::session::run(input.as_bytes(), true)).unwrap();
        output.lines().last().unwrap().to_string()
    };
    let base = "0 1 NEW 7\n0 1 NEW 8\n";
    // "owner gives 2, 2 gives 3, 3 gives 2 at times 1, 2, 3 [...] withdrawing the first leaves 0 lines"
    let circle = "1 1 GRANT 1 7 2 10 20 y\n2 2 GRANT 1 7 3 10 20 y\n3 3 GRANT 1 7 2 10 20 y\n4 1 REVOKE 1";
    assert_eq!(run(&format!("{base}{circle}")), "done 0 0");
    let denial = "0 1 GRANT 1 7 2 40 100 n\n0 1 DENY 1 7 2 50 70\nWHEN 2 1 7";
    assert_eq!(run(&format!("{base}{denial}")), "40-49 71-100");
    let two = "0 1 GRANT 1 7 2 10 40 n\n0 1 GRANT 1 7 2 50 100 n\n";
    let rule = |op: &str| format!("0 1 ADDRULE 3 1 8 + {op} 2 1 7 + * * 10 90\nWHEN 3 1 8");
    assert_eq!(run(&format!("{base}{two}{}", rule("WHENEVER"))), "10-40 50-90");
    assert_eq!(run(&format!("{base}{two}{}", rule("ASLONGAS"))), "10-40");
    let not = "0 1 GRANT 1 7 2 10 50 n\n0 1 GRANT 1 7 2 80 90 n\n\
0 1 ADDRULE 3 1 8 + WHENEVERNOT 2 1 7 + * * 30 inf\nWHEN 3 1 8";
    assert_eq!(run(&format!("{base}{not}")), "51-79 91-inf");
    let unless = "0 1 GRANT 1 7 2 120 inf n\n0 1 ADDRULE 3 1 8 + UNLESS 2 1 7 + * * 40 300\nWHEN 3 1 8";
    assert_eq!(run(&format!("{base}{unless}")), "40-119");
    assert_eq!(run(&format!("{base}0 1 GRANT 1 7 2 50 50 n\nWHEN 2 1 7")), "50-50");
    let cut = "0 1 GRANT 1 7 2 50 51 n\n0 1 REVOKEP 1 7 2 50 50\nWHEN 2 1 7";
    assert_eq!(run(&format!("{base}{cut}")), "51-51");
    let same_time = "3 1 GRANT 1 7 2 5 9 y\n3 2 GRANT 1 7 3 5 9 n";
    assert_eq!(run(&format!("{base}{same_time}")), "refused 9");
    let itself = "0 1 ADDRULE 3 1 8 + WHENEVERNOT 3 1 8 + * * 1 2";
    assert_eq!(run(&format!("{base}{itself}")), "refused 12");
    let mut full = base.to_string();
    for _ in 0..1024 {
        full.push_str("0 1 GRANT 1 7 2 1 2 n\n");
    }
    assert_eq!(run(&full), "done 1024 1024");
    full.push_str("0 1 GRANT 1 7 2 1 2 n\n");
    assert_eq!(run(&full), "refused 13");
}

/// An endpoint inside a cell is a fault of the test.
#[test]
#[should_panic(expected = "fault of the test")]
fn endpoint_inside_a_cell() {
    let mut base = oracle::Oracle::empty(oracle::Cells::window(0, 4));
    for line in ["0 1 NEW 7", "0 1 GRANT 1 7 2 1 9 y"] {
        oracle::session::answer(&mut base, &oracle::session::read(line.as_bytes()));
    }
}
