//! Bases that no request made: damaged, cut, composed of random records, or nearly full.
use crate::image::{number, put, Holder, Image, Line, Rule, LINES, RULES};
use crate::random::Random;
use crate::world::{World, WILD};
use access_base::{BYTES, LAST};

// The fields of each record: where they start and how wide they are.
const HOLDER: &[(usize, usize)] = &[(0, 2), (2, 2)];
const LINE: &[(usize, usize)] = &[(0, 2), (2, 2), (4, 2), (6, 2), (8, 1), (9, 1), (10, 2), (12, 4), (16, 4), (20, 4)];
const RULE: &[(usize, usize)] = &[
    (0, 2),
    (2, 2),
    (4, 2),
    (6, 2),
    (8, 2),
    (10, 2),
    (12, 2),
    (14, 1),
    (15, 1),
    (16, 1),
    (17, 1),
    (18, 2),
    (20, 4),
    (24, 4),
];
const FIELDS: [&[(usize, usize)]; 5] = [HOLDER, HOLDER, HOLDER, LINE, RULE];

/// A base with something changed that may or may not leave it sound.
pub fn damaged(base: &[u8], random: &mut Random) -> Vec<u8> {
    let mut bytes = base.to_vec();
    match random.below(12) {
        0..=2 => flip(&mut bytes, random),
        3 => {
            flip(&mut bytes, random);
            flip(&mut bytes, random);
        }
        4 => {
            let (at, width) = (somewhere(&bytes, random), random.pick(&[1, 2, 4]));
            put(&mut bytes, at.min(BYTES - width), width, random.pick(&WILD));
        }
        5..=8 => return changed_field(base, random),
        9 => return moved_record(base, random),
        10 => return changed_head(base, random),
        _ => return cut(base, random),
    }
    bytes
}

// Mostly where the records are.
fn somewhere(bytes: &[u8], random: &mut Random) -> usize {
    let used = Image::read(bytes).bodies.iter().flatten().map(Vec::len).sum::<usize>() + 32;
    match random.below(10) {
        0 => random.below(BYTES),
        1 | 2 => random.below(32),
        3 => used.min(BYTES - 1),
        _ => random.below(used.min(BYTES)),
    }
}

fn flip(bytes: &mut [u8], random: &mut Random) {
    let at = somewhere(bytes, random);
    let one_bit = 1 << random.below(8);
    bytes[at] ^= if random.percent(60) { one_bit } else { random.between(1, 255) as u8 };
}

// A random body that has records, and one of them.
fn record(image: &Image, random: &mut Random) -> Option<(usize, usize)> {
    let filled: Vec<usize> = (0..5).filter(|&i| !image.bodies[i].is_empty()).collect();
    let body = random.pick_any(&filled)?;
    Some((body, random.below(image.bodies[body].len())))
}

// One field gets a near value, another record's, or a wild one; often it stays sound.
fn changed_field(base: &[u8], random: &mut Random) -> Vec<u8> {
    let mut image = Image::read(base);
    let Some((body, i)) = record(&image, random) else { return changed_head(base, random) };
    let (at, width) = random.pick(FIELDS[body]);
    let old = number(&image.bodies[body][i], at, width);
    let other = random.below(image.bodies[body].len());
    let value = match random.below(6) {
        0 => old.wrapping_add(1),
        1 => old.wrapping_sub(1),
        2 | 3 => number(&image.bodies[body][other], at, width),
        4 => random.between(0, 8),
        _ => random.pick(&WILD),
    };
    put(&mut image.bodies[body][i], at, width, value);
    image.write()
}

// A record is gone, there twice, or out of its order.
fn moved_record(base: &[u8], random: &mut Random) -> Vec<u8> {
    let mut image = Image::read(base);
    let Some((body, i)) = record(&image, random) else { return changed_head(base, random) };
    let records = &mut image.bodies[body];
    let other = random.below(records.len());
    match random.below(4) {
        0 | 1 => {
            records.remove(i);
        }
        2 => records.insert(other, records[i].clone()),
        _ => records.swap(i, other),
    }
    image.write()
}

// Clock, last label, an offset or a count.
fn changed_head(base: &[u8], random: &mut Random) -> Vec<u8> {
    let mut bytes = base.to_vec();
    let entries = (0..10).map(|i| (12 + 2 * i, 2));
    let front = [(0, 4), (4, 4), (4, 4), (8, 2), (8, 2), (10, 2)];
    let fields: Vec<(usize, usize)> = front.into_iter().chain(entries).collect();
    let (at, width) = random.pick(&fields);
    let old = number(&bytes, at, width);
    let wild = random.pick(&WILD);
    let value = random.pick(&[old.wrapping_add(1), old.wrapping_sub(1), wild, 32, old.wrapping_add(24)]);
    put(&mut bytes, at, width, value);
    bytes
}

/// A buffer of another length with a base's bytes at its front.
pub fn cut(base: &[u8], random: &mut Random) -> Vec<u8> {
    let any = random.below(2 * BYTES);
    let length = random.pick(&[0, 1, 31, 32, BYTES - 1, BYTES + 1, 2 * BYTES, any]);
    let mut bytes = base.to_vec();
    bytes.resize(length, if random.percent(50) { 0 } else { 0xa5 });
    bytes
}

/// A base of random records in good order, of which some are sound, also ones that no requests lead to.
pub fn composed(world: &World, random: &mut Random) -> Vec<u8> {
    let mut image = Image { clock: random.between(world.first, world.last), ..Image::default() };
    if random.percent(30) {
        image.clock = LAST;
    }
    let mut objects = world.objects.clone();
    objects.sort_unstable();
    let owners: Vec<Holder> =
        objects.iter().map(|&object| Holder { object, subject: random.pick(&world.subjects) }).collect();
    image.bodies[0] = owners.iter().map(Holder::write).collect();
    let mut roots = owners.clone();
    for body in [1, 2] {
        let holders = privileged(&owners, world, random);
        image.bodies[body] = holders.iter().map(Holder::write).collect();
        roots.extend(if body == 1 { holders } else { Vec::new() });
    }
    let mut label = 0;
    for _ in 0..random.below(14) {
        label += random.between(1, 2);
        if random.percent(75) {
            lines(&mut image, label, &roots, world, random);
        } else {
            let rule = rule(label, &roots, world, random).write();
            image.bodies[RULES].push(rule);
        }
    }
    image.last_label = if random.percent(90) { label + random.between(0, 1) } else { label.saturating_sub(1) } as u16;
    image.write()
}

// Pairs that rise; the owner rarely among them.
fn privileged(owners: &[Holder], world: &World, random: &mut Random) -> Vec<Holder> {
    let mut holders = Vec::new();
    let mut subjects = world.subjects.clone();
    subjects.sort_unstable();
    for owner in owners {
        for &subject in &subjects {
            let share = if subject == owner.subject { 2 } else { 30 };
            if random.percent(share) {
                holders.push(Holder { object: owner.object, subject });
            }
        }
    }
    holders
}

// One to three lines of a label.
fn lines(image: &mut Image, label: u32, roots: &[Holder], world: &World, random: &mut Random) {
    let root = random.pick(roots);
    let grantor = if random.percent(65) { root.subject } else { random.pick(&world.subjects) };
    let flags = if random.percent(1) { 3 } else { random.pick(&[0, 1, 2, 2, 2]) };
    let too_late = u32::from(random.percent(3));
    let at = random.between(world.first, image.clock.min(world.last).saturating_add(too_late));
    let mut line = Line {
        label,
        grantor,
        subject: random.pick(&world.subjects),
        object: root.object,
        mode: random.pick(&world.modes),
        flags,
        at,
        start: at.saturating_add(random.between(0, 3)),
        end: 0,
    };
    loop {
        line.end = if random.percent(25) { LAST } else { line.start.saturating_add(random.between(0, 20)) };
        image.bodies[LINES].push(line.write());
        let gap = if random.percent(10) { 1 } else { random.between(2, 4) };
        match line.end.checked_add(gap) {
            Some(next) if random.percent(25) => line.start = next,
            _ => return,
        }
    }
}

fn rule(label: u32, roots: &[Holder], world: &World, random: &mut Random) -> Rule {
    let (left, right) = (random.pick(roots), random.pick(roots));
    let start = random.between(world.first, world.last);
    let end = if random.percent(30) { LAST } else { start.saturating_add(random.between(0, 20)) };
    let flags: &[u32] = if random.percent(3) { &[6, 7, 12, 16] } else { &[0, 1, 2, 3, 4, 5, 8, 8, 9, 10, 11] };
    let mut rule = Rule {
        label,
        author: if random.percent(90) { left.subject } else { random.pick(&world.subjects) },
        left_subject: random.pick(&world.subjects),
        left_object: left.object,
        right_subject: random.pick(&world.subjects),
        right_object: if random.percent(60) { left.object } else { right.object },
        grantor: if random.percent(70) { 0 } else { random.pick(&world.subjects) },
        left_mode: random.pick(&world.modes),
        right_mode: random.pick(&world.modes),
        operator: random.between(1, 4),
        flags: random.pick(flags),
        start,
        end,
    };
    if random.percent(25) {
        (rule.left_subject, rule.right_subject) = (0, 0);
    }
    if random.percent(25) {
        (rule.left_mode, rule.right_mode) = (0, 0);
    }
    if random.percent(world.starred) {
        (rule.left_object, rule.right_object) = (0, 0);
    }
    rule
}

// A meter and its owner that the world does not talk about, unless by chance.
const APART: Holder = Holder { object: 127, subject: 1_000 };

/// A base in which labels, administrators, referrers, rules or lines are nearly used up; with `over` 1 there may be
/// one too many, with 0 the base is sound.
pub fn crowded(world: &World, random: &mut Random, over: u32) -> Vec<u8> {
    let mut image = Image { clock: world.first, last_label: 2_000, ..Image::default() };
    image.bodies[0] = vec![APART.write()];
    let short = if random.percent(60) { 0 } else { random.between(1, 5) };
    match random.weighted(&[22, 14, 14, 14, 22, 14]) {
        0 => image.last_label = 65_535 - 2 * short as u16,
        body @ 1..=2 => {
            let holder = |subject| Holder { object: APART.object, subject }.write();
            image.bodies[body] = (1..=128 + over - short).map(holder).collect();
        }
        3 => {
            let rule = |label| apart_rule(label, world, random).write();
            image.bodies[RULES] = (1..=64 + over - short).map(rule).collect();
        }
        4 => {
            let line = |label| apart_line(label, world, random).write();
            image.bodies[LINES] = (1..=1_024 + over - short).map(line).collect();
        }
        _ => leaning(&mut image, world, random),
    }
    image.write()
}

// Some 512 lines that lean on the first one, and at both ends on two others: without the first there are twice as
// many.
fn leaning(image: &mut Image, world: &World, random: &mut Random) {
    let administrator = Holder { object: APART.object, subject: 999 };
    image.bodies[1] = vec![administrator.write()];
    image.clock = world.first + 1;
    let holder = random.pick(&world.subjects);
    let first_grantor = random.pick(&[APART, administrator]).subject;
    let (start, end) = (world.first + 2, world.first + 12);
    let whole = Line { grantor: first_grantor, subject: holder, flags: 2, start, end, ..apart_line(1, world, random) };
    let front = Line { label: 2, grantor: APART.subject, end: start + 3, ..whole };
    let back = Line { label: 3, grantor: APART.subject, start: end - 3, ..whole };
    image.bodies[LINES] = [whole, front, back].iter().map(Line::write).collect();
    for label in 4..random.between(512, 518) {
        let (subject, flags) = (random.pick(&world.subjects), random.pick(&[0, 1]));
        let line = Line { label, grantor: holder, subject, flags, at: world.first + 1, ..whole };
        image.bodies[LINES].push(line.write());
    }
}

// A denial on the right and a grant on the left: such rules never feed each other.
fn apart_rule(label: u32, world: &World, random: &mut Random) -> Rule {
    Rule {
        label,
        author: APART.subject,
        left_subject: random.pick(&world.subjects),
        left_object: APART.object,
        right_subject: random.pick(&world.subjects),
        right_object: APART.object,
        grantor: 0,
        left_mode: random.pick(&world.modes),
        right_mode: random.pick(&world.modes),
        operator: random.between(1, 4),
        flags: 2,
        start: world.first + random.between(0, 4),
        end: random.pick(&[world.last, LAST]),
    }
}

fn apart_line(label: u32, world: &World, random: &mut Random) -> Line {
    let start = random.between(world.first, world.last - 4);
    Line {
        label,
        grantor: APART.subject,
        subject: random.pick(&world.subjects),
        object: APART.object,
        mode: random.pick(&world.modes),
        flags: random.pick(&[0, 1, 2]),
        at: world.first,
        start,
        end: random.between(start, world.last),
    }
}
