//! Random sessions, for the tests and the speed example.
#![allow(dead_code)]

use oracle::session::blank;
use oracle::*;

pub struct Dice(pub u64);

impl Dice {
    pub fn next(&mut self) -> u64 {
        // xorshift64*
        self.0 ^= self.0 >> 12;
        self.0 ^= self.0 << 25;
        self.0 ^= self.0 >> 27;
        self.0.wrapping_mul(0x2545_F491_4F6C_DD1D) >> 16
    }
    pub fn below(&mut self, n: u32) -> u32 {
        (self.next() % u64::from(n)) as u32
    }
    pub fn one_in(&mut self, n: u32) -> bool {
        self.below(n) == 0
    }
}

/// What a random session draws from.
#[derive(Clone, Copy)]
pub struct World {
    pub first: u32,
    pub cells: u32,
    pub objects: u32,
    pub subjects: u32,
    pub modes: u32,
    /// One request in so many lets the time go on.
    pub tick: u32,
    /// One field in so many is wild.
    pub wild: u32,
}

impl World {
    pub fn cut(&self) -> Cells {
        Cells::window(self.first, self.cells)
    }
    /// An instant of the window.
    pub fn instant(&self, dice: &mut Dice) -> u32 {
        self.first + dice.below(self.cells)
    }
    fn number(&self, dice: &mut Dice, most: u32) -> u32 {
        if dice.one_in(self.wild) {
            [0, 1023, 1024, 128, 129, 8, 9, 65535, 65536, LAST, LAST - 1][dice.below(11) as usize]
        } else {
            1 + dice.below(most)
        }
    }
    pub fn request(&self, dice: &mut Dice, base: &Oracle) -> Request {
        let mut q = blank();
        q.now = base.clock().max(self.first);
        if dice.one_in(self.tick) && q.now - self.first + 1 < self.cells {
            q.now += 1;
        }
        if dice.one_in(40) {
            q.now = self.instant(dice);
            if q.now > base.clock() && !dice.one_in(4) {
                q.now = base.clock();
            }
        }
        // Subject 1 asks most, so that more is accepted.
        q.requester = if dice.one_in(2) { 1 } else { self.number(dice, self.subjects) };
        q.kind = match dice.below(100) {
            0..=3 => NEW,
            4..=42 => GRANT,
            43..=50 => DENY,
            51..=57 => REVOKE,
            58..=65 => REVOKEP,
            66..=70 => REVOKEN,
            71..=84 => ADDRULE,
            85..=87 => DROPRULE,
            88..=91 => GRANTADM,
            92..=94 => REVOKEADM,
            95..=97 => GRANTREF,
            _ => REVOKEREF,
        };
        if dice.one_in(200) {
            q.kind = [0, 13, LAST][dice.below(3) as usize];
        }
        q.label = 1 + dice.below(base.last_label() + 2);
        if dice.one_in(self.wild) {
            q.label = self.number(dice, 1);
        }
        q.mode = self.number(dice, self.modes);
        q.object = self.number(dice, self.objects);
        q.subject = self.number(dice, self.subjects);
        q.start = self.instant(dice);
        q.end = if dice.one_in(8) { LAST } else { self.instant(dice) };
        if q.end < q.start && !dice.one_in(10) {
            (q.start, q.end) = (q.end, q.start);
        }
        if matches!(q.kind, GRANT | DENY | ADDRULE) && q.start < q.now && !dice.one_in(10) {
            q.start = q.now;
            q.end = q.end.max(q.now);
        }
        if q.start < self.first {
            q.start = self.first;
        }
        q.option = !dice.one_in(3);
        let star_subject = dice.one_in(3);
        let star_mode = dice.one_in(4);
        let star_object = dice.one_in(3);
        let side = |dice: &mut Dice| Side {
            subject: if star_subject && !dice.one_in(self.wild) {
                Term::Any
            } else {
                Term::Number(self.number(dice, self.subjects))
            },
            mode: if star_mode && !dice.one_in(self.wild) {
                Term::Any
            } else {
                Term::Number(self.number(dice, self.modes))
            },
            object: if star_object && !dice.one_in(self.wild) {
                Term::Any
            } else {
                Term::Number(self.number(dice, self.objects))
            },
            negative: dice.one_in(4),
        };
        q.rule = Rule {
            left: side(dice),
            operator: if dice.one_in(self.wild) { 5 * dice.below(2) } else { 1 + dice.below(4) },
            right: side(dice),
            grantor: if dice.one_in(2) { Term::Any } else { Term::Number(self.number(dice, self.subjects)) },
            option: [OptionTerm::Either, OptionTerm::Without, OptionTerm::With][dice.below(3) as usize],
        };
        q
    }
}

/// A base with its objects made; some by subject 2.
pub fn begun(world: &World, dice: &mut Dice) -> Oracle {
    let mut base = Oracle::empty(world.cut());
    for object in 1..=world.objects {
        if !dice.one_in(8) {
            let mut q = blank();
            q.now = world.first;
            q.kind = NEW;
            q.requester = 1 + u32::from(dice.one_in(4));
            q.object = object;
            assert_eq!(base.request(&q), Reply::Done { label: 0, lines: 0 });
        }
    }
    base
}

pub const SMALL: World = World { first: 0, cells: 16, objects: 2, subjects: 4, modes: 1, tick: 5, wild: 200 };
pub const MIDDLE: World = World { first: 0, cells: 24, objects: 3, subjects: 5, modes: 2, tick: 8, wild: 100 };
pub const TOP: World = World { first: LAST - 23, cells: 24, objects: 2, subjects: 4, modes: 2, tick: 8, wild: 100 };
pub const BIG: World = World { first: 100, cells: 40, objects: 4, subjects: 8, modes: 3, tick: 12, wild: 300 };
