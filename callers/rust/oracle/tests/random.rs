//! Random sessions: bytes and back, refusals, cells, stars, and an account fed by requests alone.

mod common;
use common::*;
use oracle::*;
use std::collections::{BTreeMap, BTreeSet};

fn extra(world: &World) -> Vec<u32> {
    (0..=world.cells).filter_map(|i| world.first.checked_add(i)).collect()
}

/// from_bytes(to_bytes(state)) is the same state, after each step; refusals change nothing; `lines` is the
/// count in the bytes; MAY agrees with WHEN; 9 comes exactly with an uncovered cell.
#[test]
fn bytes_and_back() {
    let mut seen: BTreeMap<u32, u32> = BTreeMap::new();
    let mut most_lines = 0;
    let mut steps = 0;
    for (w, world) in [SMALL, MIDDLE, TOP, BIG].into_iter().enumerate() {
        for seed in 0..60 {
            let mut dice = Dice(1 + seed + 1000 * w as u64);
            let mut base = begun(&world, &mut dice);
            for _ in 0..250 {
                let q = world.request(&mut dice, &base);
                let before = base.to_bytes();
                let old = base.clone();
                let reply = base.request(&q);
                let after = base.to_bytes();
                steps += 1;
                match reply {
                    Reply::Refused(row) => {
                        *seen.entry(row).or_default() += 1;
                        assert_eq!(before, after);
                        assert_eq!(old, base);
                        if row == 9 {
                            let open = old.uncovered(&q);
                            assert!(open.contains(&true));
                            let instants = (0..open.len()).map(|cell| old.cells().first(cell));
                            let gaps: Vec<u32> = instants.zip(&open).filter(|(_, &is)| is).map(|(t, _)| t).collect();
                            assert!(gaps.iter().all(|&t| q.start <= t && t <= q.end));
                            assert_eq!(old.earliest_uncovered(&q), gaps.iter().min().copied());
                        }
                    }
                    Reply::Done { lines, .. } => {
                        *seen.entry(0).or_default() += 1;
                        most_lines = most_lines.max(lines);
                        let counted = u32::from(after[26]) + 256 * u32::from(after[27]);
                        assert_eq!(lines, counted);
                        assert_eq!(base.clock(), q.now);
                    }
                }
                let back = Oracle::from_bytes(&after, &[]).expect("a sound base");
                assert_eq!(back.to_bytes(), after);
                let same_cells = Oracle::from_bytes(&after, &extra(&world)).expect("a sound base");
                if world.first == 0 || same_cells.cells() == base.cells() {
                    assert_eq!(same_cells, base);
                }
                let subject = 1 + dice.below(world.subjects + 1);
                let mode = 1 + dice.below(world.modes + 1);
                let object = 1 + dice.below(world.objects);
                let runs = base.when(subject, mode, object, 1100);
                assert_eq!(back.when(subject, mode, object, 1100), runs);
                if let Ok(runs) = &runs {
                    for cell in 0..base.cells().count() {
                        let instant = base.cells().first(cell);
                        let in_run = runs.iter().any(|&(a, b)| a <= instant && instant <= b);
                        assert_eq!(base.may(subject, mode, object, instant), Ok(in_run));
                        assert_eq!(back.may(subject, mode, object, instant), Ok(in_run));
                    }
                    assert_eq!(base.when(subject, mode, object, runs.len()).as_ref(), Ok(runs));
                    if !runs.is_empty() {
                        assert_eq!(base.when(subject, mode, object, runs.len() - 1), Err(13));
                    }
                }
            }
        }
    }
    println!("{steps} steps, rows {seen:?} (0 is done), most lines {most_lines}");
    for row in [0, 3, 4, 5, 6, 7, 8, 9, 10, 11, 12] {
        assert!(seen.contains_key(&row), "row {row} never came");
    }
}

/// The cut of the timeline does not matter, as long as it is fine enough.
#[test]
fn cells_do_not_matter() {
    for world in [SMALL, MIDDLE, TOP] {
        for seed in 0..100 {
            let mut dice = Dice(77 + seed);
            let mut base = begun(&world, &mut dice);
            let begin = base.to_bytes();
            let mut session = Vec::new();
            let mut boundaries = Vec::new();
            for _ in 0..60 {
                let mut q = world.request(&mut dice, &base);
                // few different endpoints, so that the coarse cells are really coarser
                q.start -= (q.start - world.first) % 5;
                q.end -= q.end.wrapping_sub(world.first) % 3;
                boundaries.push(q.start);
                boundaries.extend(q.end.checked_add(1));
                let reply = base.request(&q);
                session.push((q, reply, base.to_bytes()));
            }
            let mut coarse = Oracle::from_bytes(&begin, &boundaries).expect("sound");
            assert!(coarse.cells().count() < base.cells().count());
            for (q, reply, bytes) in &session {
                assert_eq!(coarse.request(q), *reply);
                assert_eq!(&coarse.to_bytes(), bytes);
            }
            for object in 1..=world.objects {
                for subject in 1..=world.subjects {
                    for mode in 1..=world.modes {
                        assert_eq!(coarse.when(subject, mode, object, 1100), base.when(subject, mode, object, 1100));
                    }
                }
            }
        }
    }
}

/// Stars expanded over many subjects and all modes give the same as over the pairs that matter.
#[test]
fn pairs_that_matter_are_enough() {
    let mut some = 0;
    for (seed, world) in (0..400).flat_map(|seed| [(seed, SMALL), (seed, MIDDLE)]) {
        let mut dice = Dice(4242 + seed);
        let mut base = begun(&world, &mut dice);
        let mut asked = 0;
        while asked < 3 {
            for _ in 0..40 {
                let q = world.request(&mut dice, &base);
                base.request(&q);
            }
            asked += 1;
            if base.rules() > 14 {
                break;
            }
            let subjects: Vec<u32> = (1..=world.subjects + 2).chain([1023]).collect();
            for object in 1..=world.objects {
                let subject = subjects[dice.below(subjects.len() as u32) as usize];
                let mode = 1 + dice.below(world.modes + 1);
                if let Ok(runs) = base.when(subject, mode, object, 1100) {
                    assert_eq!(base.when_over_all(subject, mode, object, &subjects), runs);
                    some += usize::from(!runs.is_empty() && base.rules() > 0);
                }
            }
        }
    }
    assert!(some > 500, "{some}");
    // A few over all of 1 to 1,023.
    let everybody: Vec<u32> = (1..=1023).collect();
    let mut asked = 0;
    for seed in 0.. {
        let mut dice = Dice(99 + seed);
        let mut base = begun(&SMALL, &mut dice);
        for _ in 0..40 {
            let q = SMALL.request(&mut dice, &base);
            base.request(&q);
        }
        if base.rules() == 0 || base.rules() > 2 {
            continue;
        }
        for subject in [1, 2, 600] {
            if let Ok(runs) = base.when(subject, 1, 1, 1100) {
                assert_eq!(base.when_over_all(subject, 1, 1, &everybody), runs);
                asked += 1;
            }
        }
        if asked > 12 {
            break;
        }
    }
}

/// An account as in the paragraph on demand 3: fed the accepted requests alone, entries by label from 1 up;
/// after each accepted request all entries lose unbacked instants. Backing goes the other way here: from
/// the lines of owners and administrators on, in rising order of granted-at.
#[derive(Default)]
struct Account {
    last: u32,
    owners: BTreeMap<u32, u32>,
    administrators: BTreeSet<(u32, u32)>,
    entries: Vec<(u32, Request, Vec<bool>)>,
}

impl Account {
    fn feed(&mut self, q: &Request, cells: &Cells) {
        let span = |cell: usize| q.start <= cells.first(cell) && cells.first(cell) <= q.end;
        match q.kind {
            NEW => {
                self.owners.insert(q.object, q.requester);
            }
            GRANT | DENY => {
                self.last += 1;
                self.entries.push((self.last, *q, (0..cells.count()).map(span).collect()));
            }
            ADDRULE => self.last += 1,
            GRANTADM => {
                self.administrators.insert((q.object, q.subject));
            }
            REVOKEADM => {
                self.administrators.remove(&(q.object, q.subject));
                for (_, line, when) in &mut self.entries {
                    if line.object == q.object && line.requester == q.subject {
                        when.fill(false);
                    }
                }
            }
            REVOKE => {
                for (label, _, when) in &mut self.entries {
                    if *label == q.label {
                        when.fill(false);
                    }
                }
            }
            REVOKEP | REVOKEN => {
                for (_, line, when) in &mut self.entries {
                    if line.requester == q.requester
                        && (line.mode, line.object, line.subject) == (q.mode, q.object, q.subject)
                        && (line.kind == DENY) == (q.kind == REVOKEN)
                    {
                        for cell in 0..cells.count() {
                            if span(cell) {
                                when[cell] = false;
                            }
                        }
                    }
                }
            }
            _ => {}
        }
        let mut order: Vec<usize> = (0..self.entries.len()).collect();
        order.sort_by_key(|&i| self.entries[i].1.now);
        for cell in 0..cells.count() {
            let mut supported: Vec<usize> = Vec::new();
            for &i in &order {
                let (_, line, when) = &self.entries[i];
                let privileged = self.owners.get(&line.object) == Some(&line.requester)
                    || self.administrators.contains(&(line.object, line.requester));
                let carried = supported.iter().any(|&j| {
                    let from = &self.entries[j].1;
                    from.kind == GRANT
                        && from.option
                        && from.subject == line.requester
                        && from.object == line.object
                        && from.mode == line.mode
                        && from.now < line.now
                });
                if when[cell] && (privileged || carried) {
                    supported.push(i);
                } else {
                    self.entries[i].2[cell] = false;
                }
            }
        }
    }

    /// The lines body: the longest runs of each entry.
    fn lines(&self, cells: &Cells) -> Vec<u8> {
        let mut bytes = Vec::new();
        for (label, line, when) in &self.entries {
            let mut cell = 0;
            while cell < when.len() {
                if !when[cell] {
                    cell += 1;
                    continue;
                }
                let start = cells.first(cell);
                while cell + 1 < when.len() && when[cell + 1] {
                    cell += 1;
                }
                for number in [*label, line.requester, line.subject, line.object] {
                    bytes.extend_from_slice(&(number as u16).to_le_bytes());
                }
                let flags = if line.kind == DENY { 1 } else { 2 * u8::from(line.option) };
                bytes.extend_from_slice(&[line.mode as u8, flags, 0, 0]);
                for number in [line.now, start, cells.last(cell)] {
                    bytes.extend_from_slice(&number.to_le_bytes());
                }
                cell += 1;
            }
        }
        bytes
    }
}

#[test]
fn account_agrees() {
    for (w, world) in [SMALL, MIDDLE, TOP, BIG].into_iter().enumerate() {
        for seed in 0..60 {
            let mut dice = Dice(5 + seed + 1000 * w as u64);
            let mut base = Oracle::empty(world.cut());
            let mut account = Account::default();
            for _ in 0..150 {
                let q = world.request(&mut dice, &base);
                if let Reply::Done { .. } = base.request(&q) {
                    account.feed(&q, base.cells());
                    let bytes = base.to_bytes();
                    let at = |i: usize| usize::from(bytes[i]) + 256 * usize::from(bytes[i + 1]);
                    let body = &bytes[at(24)..at(24) + 24 * at(26)];
                    assert_eq!(body, &account.lines(base.cells())[..]);
                }
            }
        }
    }
}

/// Bytes changed at random: no panic, and what is taken as sound stands for exactly these bytes.
#[test]
fn changed_bytes() {
    let mut sound = 0;
    let mut unsound = 0;
    let mut dice = Dice(31337);
    for seed in 0..200 {
        let world = [SMALL, MIDDLE, TOP, BIG][seed % 4];
        let mut base = begun(&world, &mut dice);
        for _ in 0..120 {
            let q = world.request(&mut dice, &base);
            base.request(&q);
        }
        let good = base.to_bytes();
        let used = good.iter().rposition(|&byte| byte != 0).unwrap() as u32 + 6;
        for _ in 0..400 {
            let mut bytes = good.clone();
            for _ in 0..1 + dice.below(3) {
                let at = if dice.one_in(20) { dice.below(SIZE as u32) } else { dice.below(used) };
                let byte = &mut bytes[at as usize];
                *byte = match dice.below(5) {
                    0 => dice.below(256) as u8,
                    1 => byte.wrapping_add(1),
                    2 => byte.wrapping_sub(1),
                    3 => *byte ^ (1 << dice.below(8)),
                    _ => 0,
                };
            }
            match Oracle::from_bytes(&bytes, &[]) {
                Some(base) => {
                    sound += 1;
                    assert_eq!(base.to_bytes(), bytes);
                }
                None => unsound += 1,
            }
        }
    }
    println!("{sound} sound, {unsound} not");
    assert!(sound > 1000 && unsound > 1000);
    for _ in 0..2000 {
        let mut bytes = vec![0; SIZE];
        bytes[..4].copy_from_slice(b"MRB1");
        for byte in &mut bytes[4..] {
            *byte = dice.below(256) as u8;
        }
        assert!(Oracle::from_bytes(&bytes, &[]).is_none());
    }
    for length in [0, 1, 3, 4, 31, 32, SIZE - 1, SIZE + 1, 65536] {
        assert!(Oracle::from_bytes(&vec![0; length], &[]).is_none());
        let mut bytes = Oracle::empty(Cells::window(0, 1)).to_bytes();
        bytes.resize(length, 0);
        assert!(Oracle::from_bytes(&bytes, &[]).is_none());
    }
}

/// Bases near every count: 13 comes, and leaves everything.
#[test]
fn nearly_full() {
    let mut seen: BTreeMap<(u32, u32), u32> = BTreeMap::new();
    for seed in 0..6 {
        let world = World { first: 0, cells: 30, objects: 3, subjects: 5, modes: 1, tick: 60, wild: 500 };
        let mut dice = Dice(808 + seed);
        let mut base = begun(&world, &mut dice);
        while base.lines() < 1020 {
            let mut q = world.request(&mut dice, &base);
            if matches!(q.kind, GRANT | DENY) {
                q.end = q.end.max(q.start + 5);
                if q.end > 29 {
                    q.end = LAST;
                }
                base.request(&q);
            } else if q.kind == NEW || q.kind == GRANTADM {
                base.request(&q);
            }
        }
        for _ in 0..400 {
            let q = world.request(&mut dice, &base);
            if matches!(q.kind, REVOKEADM | REVOKE) && !dice.one_in(6) {
                continue;
            }
            let old = base.clone();
            let reply = base.request(&q);
            if let Reply::Refused(row) = reply {
                *seen.entry((q.kind, row)).or_default() += 1;
                assert_eq!(old, base);
            }
            assert!(base.lines() <= 1024 && base.rules() <= 64);
        }
        let bytes = base.to_bytes();
        assert_eq!(Oracle::from_bytes(&bytes, &[]).expect("sound").to_bytes(), bytes);
    }
    let thirteen: Vec<_> = seen.iter().filter(|(key, _)| key.1 == 13).collect();
    println!("13 by kind: {thirteen:?}");
    assert!(!thirteen.is_empty());
}
