//! The records of bases that random sessions leave, in pages of several lengths, against a reading of the bytes.
use access_base::{raw, records, Body, BODY_NUMBERS, BYTES, TEXT_BYTES};
use differential::image::{Contents, Holder, Line, Rule};
use differential::session::text_lines;

fn holders(of: &[Holder]) -> Vec<Vec<u32>> {
    of.iter().map(|x| vec![x.object, x.subject]).collect()
}

fn line(x: &Line) -> Vec<u32> {
    vec![x.label, x.grantor, x.subject, x.object, x.mode, x.flags & 1, x.flags >> 1 & 1, x.at, x.start, x.end]
}

fn rule(x: &Rule) -> Vec<u32> {
    let option = if x.flags & 8 != 0 { 2 } else { x.flags >> 2 & 1 };
    let left = [x.left_subject, x.left_mode, x.left_object, x.flags & 1];
    let right = [x.right_subject, x.right_mode, x.right_object, x.flags >> 1 & 1];
    [&[x.label, x.author], &left[..], &[x.operator], &right[..], &[x.grantor, option, x.start, x.end]].concat()
}

fn expected(base: &[u8], body: Body) -> Vec<Vec<u32>> {
    let contents = Contents::read(base);
    let counts = [
        contents.owners.len(),
        contents.administrators.len(),
        contents.referrers.len(),
        contents.lines.len(),
        contents.rules.len(),
    ];
    match body {
        Body::Heading => {
            let front = [contents.clock, contents.last_label];
            vec![front.into_iter().chain(counts.map(|count| count as u32)).collect()]
        }
        Body::Objects => holders(&contents.owners),
        Body::Administrators => holders(&contents.administrators),
        Body::Referrers => holders(&contents.referrers),
        Body::Authorizations => contents.lines.iter().map(line).collect(),
        Body::Rules => contents.rules.iter().map(rule).collect(),
    }
}

// Each page is the front of the list, and what is behind it is as it was.
fn compare(base: &[u8], body: Body) -> usize {
    let all = expected(base, body);
    let width = body.width();
    let mut list = vec![0; BODY_NUMBERS];
    assert_eq!(records(base, body, 0, &mut list).expect("a long list"), all.concat());
    for first in [0, 1, all.len() / 2, all.len(), all.len() + 1] {
        for length in [width - 1, width, width + 1, 3 * width, 64] {
            let mut list = vec![u32::MAX; length];
            let reply = raw::records(base, body as u32, first as u32, &mut list);
            let page = all.iter().skip(first).take(length / width).cloned().collect::<Vec<_>>();
            let refusal = if first > all.len() { 3 } else { 13 * u32::from(length < width) };
            let numbers = if refusal == 0 { page.concat() } else { Vec::new() };
            let count = if refusal == 0 { page.len() as u32 } else { 0 };
            assert_eq!(
                (reply.refusal, reply.label, reply.number),
                (refusal, 0, count),
                "{body:?} from {first}, {length}"
            );
            assert_eq!(list[..numbers.len()], numbers);
            assert!(list[numbers.len()..].iter().all(|&number| number == u32::MAX));
        }
    }
    all.len()
}

#[test]
fn records_of_random_bases() {
    let mut counts = [0; 6];
    let (mut base, mut out) = (vec![0; BYTES], vec![0; TEXT_BYTES]);
    for seed in 4_000_000..4_000_060 {
        let Some(lines) = text_lines(seed).unwrap_or_else(|failure| panic!("{failure:?}")) else { continue };
        raw::create(&mut base);
        for line in &lines {
            raw::text(&mut base, line, &mut out);
        }
        for (count, body) in counts.iter_mut().zip(Body::ALL) {
            *count += compare(&base, body);
        }
    }
    println!("records of each body: {counts:?}");
    assert!(counts.iter().all(|&count| count > 40));
    assert_eq!(raw::records(&base, 6, 0, &mut [0; 64]).refusal, 3);
    base[0] ^= 1;
    assert_eq!(raw::records(&base, 6, 0, &mut [0; 64]).refusal, 2);
}
