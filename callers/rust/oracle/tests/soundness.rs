//! Each sentence of soundness broken by hand, one at a time; and what the readings A74 to A85 allow.

use oracle::*;

/// A base put together from plain numbers.
#[derive(Clone)]
struct Book {
    clock: u32,
    last: u32,
    objects: Vec<(u32, u32)>,
    administrators: Vec<(u32, u32)>,
    referrers: Vec<(u32, u32)>,
    /// label, granter, subject, object, mode, flags, zero, granted-at, start, end
    lines: Vec<[u32; 10]>,
    /// label, author, left subject, left object, right subject, right object, right granter, left mode,
    /// right mode, operator, flags, zero, start, end
    rules: Vec<[u32; 14]>,
}

impl Book {
    fn bytes(&self) -> Vec<u8> {
        let mut bodies: [Vec<u8>; 5] = Default::default();
        let two = |body: &mut Vec<u8>, n: u32| body.extend_from_slice(&(n as u16).to_le_bytes());
        let four = |body: &mut Vec<u8>, n: u32| body.extend_from_slice(&n.to_le_bytes());
        for (body, pairs) in [&self.objects, &self.administrators, &self.referrers].iter().enumerate() {
            for &&(a, b) in &pairs.iter().collect::<Vec<_>>() {
                two(&mut bodies[body], a);
                two(&mut bodies[body], b);
            }
        }
        for line in &self.lines {
            for &n in &line[0..4] {
                two(&mut bodies[3], n);
            }
            bodies[3].push(line[4] as u8);
            bodies[3].push(line[5] as u8);
            two(&mut bodies[3], line[6]);
            for &n in &line[7..] {
                four(&mut bodies[3], n);
            }
        }
        for rule in &self.rules {
            for &n in &rule[0..7] {
                two(&mut bodies[4], n);
            }
            for &n in &rule[7..11] {
                bodies[4].push(n as u8);
            }
            two(&mut bodies[4], rule[11]);
            for &n in &rule[12..] {
                four(&mut bodies[4], n);
            }
        }
        let mut bytes = b"MRB1".to_vec();
        four(&mut bytes, self.clock);
        two(&mut bytes, self.last);
        two(&mut bytes, 0);
        let mut at = 32;
        for (body, width) in bodies.iter().zip([4, 4, 4, 24, 28]) {
            two(&mut bytes, at);
            two(&mut bytes, body.len() as u32 / width);
            at += body.len() as u32;
        }
        for body in &bodies {
            bytes.extend_from_slice(body);
        }
        bytes.resize(SIZE, 0);
        bytes
    }
}

/// Owner 1 of 7 and 8; 5 administers 7; 6 refers 8 and administers 7. Lines: owner to 2 in two pieces, 2 to
/// 3 within them, 3 denies 4, owner to 9 up to the last instant. Rules: by 6, left 7, right 8; starred by 1.
fn book() -> Book {
    Book {
        clock: 50,
        last: 20,
        objects: vec![(7, 1), (8, 1), (9, 2)],
        administrators: vec![(7, 5), (7, 6)],
        referrers: vec![(8, 6)],
        lines: vec![
            [2, 1, 2, 7, 1, 2, 0, 10, 10, 19],
            [2, 1, 2, 7, 1, 2, 0, 10, 21, 30],
            [3, 2, 3, 7, 1, 2, 0, 11, 12, 19],
            [4, 3, 4, 7, 1, 1, 0, 12, 12, 15],
            [9, 1, 9, 8, 8, 0, 0, 50, 60, LAST],
        ],
        rules: vec![
            // label author ls lo rs ro rg lm rm op fl 0 start end
            [5, 6, 3, 7, 9, 8, 0, 1, 8, 1, 8, 0, 5, 90],
            [7, 1, 0, 8, 0, 7, 2, 0, 0, 3, 4, 0, 5, LAST],
        ],
    }
}

fn sound(book: &Book) -> bool {
    let bytes = book.bytes();
    match Oracle::from_bytes(&bytes, &[]) {
        Some(base) => {
            assert_eq!(base.to_bytes(), bytes);
            true
        }
        None => false,
    }
}

#[test]
fn the_book_is_sound() {
    assert!(sound(&book()));
    let base = Oracle::from_bytes(&book().bytes(), &[]).unwrap();
    assert_eq!(base.when(2, 1, 7, 9), Ok(vec![(10, 19), (21, 30)]));
    // line 3, and rule 5: rule 7 gives 9 mode 8 on meter 8 from 5 on, as 2 never gave 9 mode 8 on meter 7
    assert_eq!(base.when(3, 1, 7, 9), Ok(vec![(5, 90)]));
    // rule 7: mode and subject starred, right granter 2, transferable: 3 holds that on 12 to 19
    assert_eq!(base.when(3, 1, 8, 9), Ok(vec![(5, 11), (20, LAST)]));
}

#[test]
fn the_empty_base() {
    let bytes = Oracle::empty(Cells::window(0, 4)).to_bytes();
    assert_eq!(bytes.len(), SIZE);
    let mut expected = b"MRB1".to_vec();
    expected.extend_from_slice(&[0; 8]);
    for _ in 0..5 {
        expected.extend_from_slice(&[32, 0, 0, 0]);
    }
    expected.resize(SIZE, 0);
    assert_eq!(bytes, expected);
    assert!(Oracle::from_bytes(&bytes, &[]).is_some());
}

/// Every number of the book set to a bad value, each alone.
#[test]
fn broken_one_at_a_time() {
    type Change = fn(&mut Book);
    let broken: &[(&str, Change)] = &[
        ("objects rise", |b| b.objects.swap(0, 1)),
        ("object twice", |b| b.objects.insert(1, (7, 1))),
        ("object twice, other owner", |b| b.objects.insert(1, (7, 2))),
        ("object 0", |b| b.objects.insert(0, (0, 1))),
        ("object 129", |b| b.objects.push((129, 1))),
        ("owner 0", |b| b.objects[2].1 = 0),
        ("owner 1024", |b| b.objects[2].1 = 1024),
        ("administrators rise by subject", |b| b.administrators.swap(0, 1)),
        ("administrator twice", |b| b.administrators.insert(1, (7, 5))),
        ("administrators rise by object", |b| b.administrators.insert(0, (8, 5))),
        ("administrator 0", |b| b.administrators.insert(0, (7, 0))),
        ("administrator 1024", |b| b.administrators.push((7, 1024))),
        ("administrator of no object", |b| b.administrators.push((10, 5))),
        ("administrator of object 0", |b| b.administrators.insert(0, (0, 5))),
        ("owner administers", |b| b.administrators.insert(0, (7, 1))),
        ("referrer twice", |b| b.referrers.push((8, 6))),
        ("referrers rise", |b| b.referrers.push((8, 5))),
        ("referrer 0", |b| b.referrers.insert(0, (8, 0))),
        ("referrer of no object", |b| b.referrers.push((10, 6))),
        ("owner refers", |b| b.referrers.push((9, 2))),
        ("lines rise by label", |b| b.lines.swap(2, 3)),
        ("lines rise by start", |b| b.lines.swap(0, 1)),
        ("line twice", |b| b.lines.push([9, 1, 9, 8, 8, 0, 0, 50, 60, LAST])),
        ("line label 0", |b| b.lines[0][0] = 0),
        ("line granter 0", |b| b.lines[4][1] = 0),
        ("line granter 1024", |b| b.lines[4][1] = 1024),
        ("line subject 0", |b| b.lines[4][2] = 0),
        ("line subject 1024", |b| b.lines[4][2] = 1024),
        ("line object 0", |b| b.lines[4][3] = 0),
        ("line object that does not exist", |b| b.lines[4][3] = 10),
        ("line mode 0", |b| b.lines[4][4] = 0),
        ("line mode 9", |b| b.lines[4][4] = 9),
        ("line flag 2", |b| b.lines[4][5] = 4),
        ("line flag 7", |b| b.lines[4][5] = 128),
        ("denial transferable", |b| b.lines[4][5] = 3),
        ("line zero", |b| b.lines[4][6] = 1),
        ("line zero, high byte", |b| b.lines[4][6] = 256),
        ("granted above clock", |b| b.lines[4][7] = 51),
        ("granted above start", |b| b.lines[4][8] = 49),
        ("start above end", |b| b.lines[4][9] = 59),
        ("label above last", |b| b.last = 8),
        ("pieces differ in granter", |b| b.lines[1][1] = 5),
        ("pieces differ in subject", |b| b.lines[1][2] = 5),
        ("pieces differ in object", |b| b.lines[1][3] = 8),
        ("pieces differ in mode", |b| b.lines[1][4] = 2),
        ("pieces differ in option", |b| b.lines[1][5] = 0),
        ("pieces differ in sign", |b| b.lines[1][5] = 1),
        ("pieces differ in granted-at", |b| b.lines[1][7] = 9),
        ("pieces touch", |b| b.lines[1][8] = 20),
        ("pieces meet", |b| b.lines[1][8] = 19),
        ("line not covered by its backing", |b| b.lines[2][9] = 20),
        ("line starts before its backing", |b| b.lines[0][8] = 13),
        ("second hop broken", |b| b.lines[3][9] = 20),
        ("backing not transferable", |b| b.lines[2][5] = 0),
        ("backing is a denial", |b| b.lines[2][5] = 1),
        ("backing granted at the same time", |b| b.lines[3][7] = 11),
        ("backing granted later", |b| b.lines[3][7] = 10),
        ("granter holds nothing", |b| b.lines[4][1] = 9),
        ("rules rise", |b| b.rules.swap(0, 1)),
        ("rule twice", |b| {
            let rule = b.rules[1];
            b.rules.push(rule)
        }),
        ("rule label 0", |b| b.rules[0][0] = 0),
        ("rule shares a label", |b| b.rules[0][0] = 4),
        ("rule label above last", |b| b.rules[1][0] = 21),
        ("author 0", |b| b.rules[1][1] = 0),
        ("author 1024", |b| b.rules[1][1] = 1024),
        ("author without left power", |b| b.rules[0][1] = 2),
        ("author refers left only", |b| {
            b.rules[0][3] = 8;
            b.rules[0][5] = 7
        }),
        ("author without right power", |b| b.rules[0][1] = 5),
        ("left subject 1024", |b| b.rules[0][2] = 1024),
        ("left subject starred alone", |b| b.rules[0][2] = 0),
        ("left object starred alone", |b| b.rules[1][3] = 0),
        ("left object 129", |b| b.rules[1][3] = 129),
        ("left object that does not exist", |b| b.rules[1][3] = 10),
        ("right subject 1024", |b| b.rules[0][4] = 1024),
        ("right subject starred alone", |b| b.rules[0][4] = 0),
        ("right object starred alone", |b| b.rules[1][5] = 0),
        ("right object 129", |b| b.rules[1][5] = 129),
        ("starred objects, author 0", |b| {
            b.rules[0][1] = 0;
            (b.rules[0][3], b.rules[0][5]) = (0, 0)
        }),
        ("starred objects, author 1024", |b| {
            b.rules[0][1] = 1024;
            (b.rules[0][3], b.rules[0][5]) = (0, 0)
        }),
        ("right object that does not exist", |b| b.rules[1][5] = 10),
        ("right granter 1024", |b| b.rules[0][6] = 1024),
        ("left mode 9", |b| b.rules[0][7] = 9),
        ("left mode starred alone", |b| b.rules[0][7] = 0),
        ("right mode 9", |b| b.rules[0][8] = 9),
        ("right mode starred alone", |b| b.rules[0][8] = 0),
        ("operator 0", |b| b.rules[0][9] = 0),
        ("operator 5", |b| b.rules[0][9] = 5),
        ("rule flag 4", |b| b.rules[0][10] = 16),
        ("rule flag 7", |b| b.rules[0][10] = 128),
        ("option starred and transferable", |b| b.rules[0][10] = 12),
        ("right denial transferable", |b| b.rules[1][10] = 6),
        ("rule zero", |b| b.rules[0][11] = 1),
        ("rule start above end", |b| b.rules[0][12] = 91),
        // rule 7 (left 8, WHENEVERNOT) fed by rule 5 (left 3 1 7 +, by 6) if granter and option fit; rule 5
        // is fed by rule 7 (8 is its right object, subject and mode starred).
        ("circle", |b| {
            b.rules[1][6] = 0;
            b.rules[1][10] = 8
        }),
        ("circle through the author", |b| {
            b.rules[1][6] = 6;
            b.rules[1][10] = 0
        }),
        // rule 7 looks at 7 for everybody; granter and option do not matter to a link
        ("circle with a link", |b| b.rules[0][10] = 9),
        ("circle with a link and without a negated operator", |b| {
            b.rules[0][10] = 9;
            b.rules[1][9] = 2
        }),
        ("circle of two links", |b| {
            b.rules[0][10] = 9;
            b.rules[1][9] = 1;
            b.rules[1][10] = 5
        }),
        ("link to itself", |b| {
            b.rules[1][3] = 7;
            b.rules[1][9] = 1;
            b.rules[1][10] = 5
        }),
        // rule 5 meets any object; rule 7 looks at those of 1, and granter and option fit
        ("circle through a starred object", |b| {
            (b.rules[0][3], b.rules[0][5]) = (0, 0);
            b.rules[1][6] = 6;
            b.rules[1][10] = 0
        }),
        ("circle through two starred objects, of authors without a common meter", |b| {
            b.rules[0][1] = 1000;
            (b.rules[0][3], b.rules[0][5]) = (0, 0);
            (b.rules[1][3], b.rules[1][5]) = (0, 0);
            b.rules[1][6] = 0;
            b.rules[1][10] = 8
        }),
        ("circle of one with a starred object", |b| {
            (b.rules[1][3], b.rules[1][5]) = (0, 0);
            b.rules[1][6] = 1;
            b.rules[1][10] = 0
        }),
        ("link to itself with a starred object", |b| {
            (b.rules[1][3], b.rules[1][5]) = (0, 0);
            b.rules[1][9] = 1;
            b.rules[1][10] = 5
        }),
        ("circle of one", |b| {
            b.rules[1][3] = 7;
            b.rules[1][6] = 1;
            b.rules[1][10] = 0
        }),
    ];
    for (name, change) in broken {
        let mut book = book();
        change(&mut book);
        assert!(!sound(&book), "{name}");
    }
    println!("{} ways to break it", broken.len());
}

#[test]
fn allowed() {
    type Change = fn(&mut Book);
    let allowed: &[(&str, Change)] = &[
        ("last label the last", |b| b.last = 65535),
        ("label equal to last", |b| b.last = 9),
        ("clock the last instant", |b| b.clock = LAST),
        ("granted-at falls with the label", |b| b.lines[4][7] = 0),
        ("backing by an administrator", |b| b.lines[3][1] = 5),
        ("two instants missing", |b| b.lines[1][8] = 22),
        ("one instant", |b| b.lines[1][8] = 30),
        ("administrator also referrer", |b| b.referrers.insert(0, (7, 6))),
        ("owner as subject and granter", |b| b.lines[4][2] = 1),
        ("right denial with starred option", |b| b.rules[0][10] = 10),
        ("right denial without option", |b| b.rules[0][10] = 2),
        ("left denial that the other looks past: at a denial, by another granter", |b| {
            b.rules[0][10] = 9;
            b.rules[1][10] = 2
        }),
        ("both denials: a link that leads back nowhere", |b| b.rules[0][10] = 3),
        ("circle through a denial without a link", |b| {
            b.rules[0][10] = 9;
            b.rules[1][6] = 0;
            b.rules[1][9] = 1;
            b.rules[1][10] = 10
        }),
        ("rule starts before the clock", |b| b.rules[0][12] = 0),
        ("rule of one instant", |b| b.rules[0][12] = 90),
        ("granter named", |b| b.rules[0][6] = 1023),
        ("option wanted: fed by no rule, so no circle", |b| {
            b.rules[1][6] = 0;
            b.rules[1][10] = 4
        }),
        ("circle without a negated operator", |b| {
            b.rules[1][6] = 0;
            b.rules[1][10] = 8;
            b.rules[1][9] = 2
        }),
        ("other sign, so no circle", |b| {
            b.rules[1][6] = 0;
            b.rules[1][10] = 10
        }),
        ("starred objects", |b| (b.rules[1][3], b.rules[1][5]) = (0, 0)),
        ("starred objects of an author without powers", |b| {
            b.rules[1][1] = 1000;
            (b.rules[1][3], b.rules[1][5]) = (0, 0)
        }),
        ("starred objects, both rules", |b| {
            (b.rules[0][3], b.rules[0][5]) = (0, 0);
            (b.rules[1][3], b.rules[1][5]) = (0, 0)
        }),
        ("starred objects and no objects", |b| {
            b.objects.clear();
            b.administrators.clear();
            b.referrers.clear();
            b.lines.clear();
            b.rules[0] = [5, 1000, 3, 0, 9, 0, 0, 1, 8, 1, 8, 0, 5, 90];
            (b.rules[1][3], b.rules[1][5]) = (0, 0)
        }),
        ("object 128 and owner 1023", |b| b.objects.push((128, 1023))),
        ("no lines, labels used up", |b| b.lines.clear()),
        ("nothing but objects", |b| {
            b.lines.clear();
            b.rules.clear();
            b.administrators.clear();
            b.referrers.clear()
        }),
    ];
    for (name, change) in allowed {
        let mut book = book();
        change(&mut book);
        assert!(sound(&book), "{name}");
    }
    println!("{} ways that are allowed", allowed.len());
}

#[test]
fn header_and_tail() {
    let good = book().bytes();
    let base = Oracle::from_bytes(&good, &[]).unwrap();
    // The mark, the two zeros, offsets and counts: any other value is unsound.
    for at in (0..4).chain(10..32) {
        for change in 1..=255u8 {
            let mut bytes = good.clone();
            bytes[at] = bytes[at].wrapping_add(change);
            assert!(Oracle::from_bytes(&bytes, &[]).is_none(), "byte {at}");
        }
    }
    // Every byte behind the last body.
    let end = 32 + 4 * (3 + 2 + 1) + 24 * 5 + 28 * 2;
    for at in end..SIZE {
        let mut bytes = good.clone();
        bytes[at] = 1;
        assert!(Oracle::from_bytes(&bytes, &[]).is_none(), "byte {at}");
    }
    assert_eq!(base.to_bytes(), good);
}

/// Counts at their most, and one more.
#[test]
fn counts() {
    let mut full = Book {
        clock: 0,
        last: 65535,
        objects: (1..=128).map(|object| (object, 1)).collect(),
        administrators: (1..=128).map(|object| (object, 2)).collect(),
        referrers: (1..=128).map(|object| (object, 3)).collect(),
        lines: (0..1024).map(|i| [1000, 1, 2, 1, 1, 2, 0, 0, 2 * i, 2 * i]).collect(),
        rules: (0..64).map(|i| [2000 + i, 1, 4, 1, 5, 2, 0, 1, 1, 1, 8, 0, i, LAST - i]).collect(),
    };
    assert!(sound(&full));
    let base = Oracle::from_bytes(&full.bytes(), &[]).unwrap();
    assert_eq!(base.lines(), 1024);
    assert_eq!(base.when(2, 1, 1, 1023), Err(13));
    assert_eq!(base.when(2, 1, 1, 1024).unwrap().len(), 1024);
    for body in 0..5 {
        let mut most = full.clone();
        // make room, so that the length stays good
        most.lines.truncate(900);
        let room = most.clone();
        match body {
            1 => most.administrators.push((128, 4)),
            2 => most.referrers.push((128, 4)),
            3 => {
                most = full.clone();
                most.rules.clear();
                most.lines.push([1000, 1, 2, 1, 1, 2, 0, 0, 5000, 5000])
            }
            4 => most.rules.push([2064, 1, 4, 1, 5, 2, 0, 1, 1, 1, 8, 0, 0, 0]),
            _ => most.objects.push((129, 1)),
        }
        assert!(sound(&room));
        assert!(!sound(&most), "body {body}");
    }
    full.rules.pop();
    assert!(sound(&full));
}
