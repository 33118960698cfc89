//! What is held, a second time and without ranks: lines and rules are read from the bytes, every star is
//! expanded over all subjects, modes and objects of the world, and the negated rules are settled by an alternating
//! fixed point (if nothing is on a forbidden circle, it ends in one set, which is the one built by ranks).

mod common;
use common::*;
use oracle::*;
use std::collections::BTreeSet;

/// subject, mode, object, denial, granter, transferable, instant
type Fact = (u32, u32, u32, bool, u32, bool, u32);

struct Single {
    operator: u32,
    start: u32,
    end: u32,
    author: u32,
    left: (u32, u32, u32, bool),
    right: (u32, u32, u32, bool),
    grantor: u32, // 0 is the star
    option: Option<bool>,
}

fn read(bytes: &[u8], world: &World) -> (BTreeSet<Fact>, Vec<Single>) {
    let two = |at: usize| u32::from(bytes[at]) + 256 * u32::from(bytes[at + 1]);
    let four = |at: usize| two(at) + 65536 * two(at + 2);
    let subjects = world.subjects + 1;
    let modes = world.modes + 1;
    // a meter's owner or administrator
    let controls = |subject: u32, object: u32| {
        let listed = |body: usize| (0..two(14 + 4 * body) as usize).map(move |i| two(12 + 4 * body) as usize + 4 * i);
        (listed(0).chain(listed(1))).any(|at| two(at) == object && two(at + 2) == subject)
    };
    let mut facts = BTreeSet::new();
    for i in 0..two(26) as usize {
        let at = two(24) as usize + 24 * i;
        let flags = bytes[at + 9];
        for t in world.first..world.first + world.cells {
            if four(at + 16) <= t && t <= four(at + 20) {
                let (negative, option) = (flags & 1 != 0, flags & 2 != 0);
                let mode = u32::from(bytes[at + 8]);
                facts.insert((two(at + 4), mode, two(at + 6), negative, two(at + 2), option, t));
            }
        }
    }
    let mut singles = Vec::new();
    for i in 0..two(30) as usize {
        let at = two(28) as usize + 28 * i;
        let flags = bytes[at + 17];
        let (ls, rs) = (two(at + 4), two(at + 8));
        let (lm, rm) = (u32::from(bytes[at + 14]), u32::from(bytes[at + 15]));
        let (lo, ro, author) = (two(at + 6), two(at + 10), two(at + 2));
        let objects: Vec<u32> = (1..=128).filter(|&o| if lo == 0 { controls(author, o) } else { lo == o }).collect();
        for s in 1..=subjects {
            for m in 1..=modes {
                // an unstarred rule once only
                if (ls != 0 && s > 1) || (lm != 0 && m > 1) {
                    continue;
                }
                let put = |number: u32, star: u32| if number == 0 { star } else { number };
                singles.extend(objects.iter().map(|&o| Single {
                    operator: u32::from(bytes[at + 16]),
                    start: four(at + 20),
                    end: four(at + 24),
                    author,
                    left: (put(ls, s), put(lm, m), o, flags & 1 != 0),
                    right: (put(rs, s), put(rm, m), put(ro, o), flags & 2 != 0),
                    grantor: two(at + 12),
                    option: if flags & 8 != 0 { None } else { Some(flags & 4 != 0) },
                }));
            }
        }
    }
    (facts, singles)
}

fn holds(facts: &BTreeSet<Fact>, rule: &Single, t: u32) -> bool {
    let (subject, mode, object, negative) = rule.right;
    let low = (subject, mode, object, negative, 0, false, 0);
    let high = (subject, mode, object, negative, u32::MAX, true, u32::MAX);
    facts.range(low..=high).any(|&(_, _, _, _, grantor, option, at)| {
        at == t
            && (rule.grantor == 0 || rule.grantor == grantor)
            && (rule.option.is_none() || rule.option == Some(option))
    })
}

/// Is a denial of the right side's subject, mode and object held, whoever gave it? Not asked of a denial.
fn denied(facts: &BTreeSet<Fact>, rule: &Single, t: u32) -> bool {
    let (subject, mode, object, negative) = rule.right;
    let low = (subject, mode, object, true, 0, false, 0);
    let high = (subject, mode, object, true, u32::MAX, true, u32::MAX);
    !negative && facts.range(low..=high).any(|fact| fact.6 == t)
}

/// The smallest set with the lines, closed under the rules, where "not held" is asked of `other`; so is "not
/// denied" where a positive right side has to be in force.
fn closure(lines: &BTreeSet<Fact>, rules: &[Single], other: &BTreeSet<Fact>, world: &World) -> BTreeSet<Fact> {
    let mut facts = lines.clone();
    loop {
        let mut new = Vec::new();
        for rule in rules {
            for t in world.first..world.first + world.cells {
                if t < rule.start || t > rule.end {
                    continue;
                }
                let in_force = |u: u32| holds(&facts, rule, u) && !denied(other, rule, u);
                let out_of_force = |u: u32| !holds(other, rule, u) || denied(&facts, rule, u);
                let gives = match rule.operator {
                    WHENEVER => in_force(t),
                    ASLONGAS => (rule.start..=t).all(in_force),
                    WHENEVERNOT => out_of_force(t),
                    _ => (rule.start..=t).all(out_of_force),
                };
                let (subject, mode, object, negative) = rule.left;
                let fact = (subject, mode, object, negative, rule.author, false, t);
                if gives && !facts.contains(&fact) {
                    new.push(fact);
                }
            }
        }
        if new.is_empty() {
            return facts;
        }
        facts.extend(new);
    }
}

/// The simple engine's MAY is the main one's, unless a circle is there.
#[test]
fn simple_is_main() {
    let (mut answered, mut yes, mut circular, mut denied, mut starred) = (0, 0, 0, 0, 0);
    for seed in 0..1_500u64 {
        let mut world = [SMALL, MIDDLE][seed as usize % 2];
        (world.cells, world.wild) = (10, 100_000);
        let mut dice = Dice(77 + seed);
        let mut base = begun(&world, &mut dice);
        for _ in 0..30 + seed % 40 {
            let q = world.request(&mut dice, &base);
            if base.rules() < 6 || q.kind != ADDRULE {
                base.request(&q);
            }
        }
        for _ in 0..40 {
            let (subject, mode) = (1 + dice.below(world.subjects), 1 + dice.below(world.modes));
            let (object, instant) = (1 + dice.below(world.objects), world.instant(&mut dice));
            let main = base.may(subject, mode, object, instant);
            match base.simple_may(subject, mode, object, instant, 20_000) {
                Some(Err(15)) => circular += 1,
                Some(reply) => {
                    assert_eq!(reply, main);
                    answered += 1;
                    yes += u32::from(main == Ok(true));
                    starred += u32::from(base.starred_decides(subject, mode, object));
                    denied += u32::from(base.looks_at_denied(subject, mode, object));
                }
                None => {}
            }
        }
    }
    println!("{answered} answered, {yes} yes, {denied} with a right held and denied; {circular} circular");
    println!("{starred} decided by a starred object");
    assert!(answered > 20_000 && yes > 2_000 && denied > 500 && circular > 2_000 && starred > 500);
}

#[test]
fn held_without_strata() {
    let (mut bases, mut questions, mut yes, mut negated, mut starred) = (0, 0, 0, 0, 0);
    for seed in 0..700u64 {
        let mut world = [SMALL, MIDDLE, TOP][seed as usize % 3];
        world.cells = 10;
        if world.first > 0 {
            world.first = LAST - 10; // the loops above add one to the last instant
        }
        world.wild = 100_000;
        let mut dice = Dice(2024 + seed);
        let mut base = begun(&world, &mut dice);
        for step in 0..120 {
            let mut q = world.request(&mut dice, &base);
            q.end = if q.end == LAST { LAST } else { q.end };
            if base.rules() >= 8 && q.kind == ADDRULE {
                continue;
            }
            base.request(&q);
            if step % 40 != 39 {
                continue;
            }
            let (lines, rules) = read(&base.to_bytes(), &world);
            bases += 1;
            starred += base.starred();
            negated += rules.iter().filter(|rule| rule.operator > 2).count();
            let mut low = lines.clone();
            let held = loop {
                let high = closure(&lines, &rules, &low, &world);
                let next = closure(&lines, &rules, &high, &world);
                if next == low {
                    assert_eq!(low, high);
                    break low;
                }
                low = next;
            };
            for subject in 1..=world.subjects + 1 {
                for mode in 1..=world.modes + 1 {
                    for object in 1..=world.objects {
                        for t in world.first..world.first + world.cells {
                            let Ok(answer) = base.may(subject, mode, object, t) else { continue };
                            let any = |negative: bool| {
                                let low = (subject, mode, object, negative, 0, false, 0);
                                let high = (subject, mode, object, negative, u32::MAX, true, u32::MAX);
                                held.range(low..=high).any(|fact| fact.6 == t)
                            };
                            assert_eq!(answer, any(false) && !any(true));
                            questions += 1;
                            yes += u32::from(answer);
                        }
                    }
                }
            }
        }
    }
    println!("{bases} bases, {negated} single negated rules, {starred} rules with starred objects");
    println!("{questions} questions, {yes} yes");
    assert!(bases > 1000 && yes > 10_000 && starred > 1000);
}
