//! Random requests and questions that fit what is in the base, so that much is accepted, and some that do not.
use crate::image::{Contents, Holder, Line, Rule};
use crate::pair::Step;
use crate::random::Random;
use crate::text;
use crate::world::{World, WILD};
use access_base::raw::Numbers;
use access_base::{Access, OptionTerm, Side, Term, LAST, SHEET_BYTES, TEXT_BYTES, TEXT_LEAST};
use oracle::session::Asked;

/// The source of a session's requests and questions.
pub struct Generator<'r> {
    /// Its chance.
    pub random: &'r mut Random,
    /// What it talks about.
    pub world: World,
}

// The star is zero in the bytes.
fn term(number: u32) -> Term {
    if number == 0 {
        Term::Any
    } else {
        Term::Number(number)
    }
}

// A side about this subject, mode and object; its stars stay.
fn about(side: Side, (subject, mode, object): (u32, u32, u32)) -> Side {
    let number = |old: Term, new: u32| if old == Term::Any { old } else { Term::Number(new) };
    Side {
        subject: number(side.subject, subject),
        mode: number(side.mode, mode),
        object: number(side.object, object),
        ..side
    }
}

impl Generator<'_> {
    /// The next request.
    pub fn request(&mut self, contents: &Contents) -> Numbers {
        let mut kind = 1 + self.random.weighted(&self.world.weights) as u32;
        if contents.owners.len() < self.world.objects.len() && self.random.percent(35) {
            kind = 1;
        }
        // what is to be withdrawn has to be there first
        let missing = match kind {
            8 => contents.rules.is_empty(),
            10 => contents.administrators.is_empty(),
            12 => contents.referrers.is_empty(),
            _ => false,
        };
        if missing && self.random.percent(70) {
            kind -= 1;
        }
        let now = self.now(contents.clock);
        let mut q = match kind {
            1 => self.new_object(contents, now),
            2 | 3 => self.give(kind, contents, now),
            4 => self.revoke(contents, now),
            5 | 6 => self.withdraw(kind, contents, now),
            7 => self.add_rule(contents, now),
            8 => self.drop_rule(contents, now),
            _ => self.privilege(kind, contents, now),
        };
        if self.random.percent(8) {
            self.spoil(&mut q, contents);
        }
        self.fit(&mut q);
        q
    }

    fn now(&mut self, clock: u32) -> u32 {
        let clock = clock.max(self.world.first);
        let step = if self.random.percent(self.world.rise) { self.random.between(1, 2) } else { 0 };
        if self.random.percent(2) {
            return clock.saturating_sub(1);
        }
        clock.saturating_add(step).min(self.world.last.max(clock))
    }

    fn subject(&mut self) -> u32 {
        self.random.pick(&self.world.subjects)
    }

    fn mode(&mut self) -> u32 {
        self.random.pick(&self.world.modes)
    }

    // Mostly one that exists.
    fn object(&mut self, contents: &Contents) -> u32 {
        if self.random.percent(96) {
            if let Some(holder) = self.random.pick_any(&contents.owners) {
                return holder.object;
            }
        }
        self.random.pick(&self.world.objects)
    }

    fn owner(&mut self, contents: &Contents, object: u32) -> u32 {
        let owner = contents.owners.iter().find(|holder| holder.object == object);
        owner.map_or_else(|| self.subject(), |holder| holder.subject)
    }

    // Owner or administrator.
    fn root(&mut self, contents: &Contents, object: u32) -> u32 {
        let on = |holder: &&Holder| holder.object == object;
        let all: Vec<u32> =
            contents.owners.iter().chain(&contents.administrators).filter(on).map(|h| h.subject).collect();
        self.random.pick_any(&all).unwrap_or_else(|| self.subject())
    }

    // An interval that starts at or after `low` and ends at or before `high`.
    fn span(&mut self, low: u32, high: u32) -> (u32, u32) {
        let top = high.min(self.world.last);
        let reach = if self.random.percent(50) { 3 } else { 30 };
        let start = self.random.between(low, low.saturating_add(reach).min(top));
        if self.world.short && self.random.percent(80) {
            return (start, self.random.between(start, start.saturating_add(2).min(top)));
        }
        let end = match self.random.below(8) {
            0 | 1 => high,
            2 => start,
            3..=5 => self.random.between(start, start.saturating_add(8).min(top)),
            _ => self.random.between(start, top),
        };
        (start, end)
    }

    fn new_object(&mut self, contents: &Contents, now: u32) -> Numbers {
        let missing = |object: &u32| !contents.owners.iter().any(|holder| holder.object == *object);
        let missing: Vec<u32> = self.world.objects.iter().copied().filter(missing).collect();
        let any = self.random.pick(&self.world.objects);
        let object = self.random.pick_any(&missing).unwrap_or(any);
        Numbers { object, ..Numbers::of_kind(1, now, self.subject()) }
    }

    // By an owner or administrator, by one who holds the option, or by anybody.
    fn give(&mut self, kind: u32, contents: &Contents, now: u32) -> Numbers {
        let (object, mode, subject) = (self.object(contents), self.mode(), self.subject());
        let (start, end) = self.span(now, LAST);
        let option = self.random.percent(70);
        let mut q = Numbers { mode, object, subject, start, end, option, ..Numbers::of_kind(kind, now, 0) };
        let usable = |line: &Line| line.option() && line.end >= now;
        let held: Vec<Line> = contents.lines.iter().copied().filter(usable).collect();
        match (self.random.below(100), self.random.pick_any(&held)) {
            (0..=54, Some(line)) => {
                // What he holds by several lines together now and then.
                let whose = |x: &Line| (x.subject, x.object, x.mode);
                let furthest = held.iter().filter(|other| whose(other) == whose(&line)).map(|other| other.end).max();
                let high = if self.random.percent(25) { furthest.unwrap_or(line.end) } else { line.end };
                (q.start, q.end) = self.span(line.start.max(now), high);
                (q.requester, q.object, q.mode) = (line.subject, line.object, line.mode);
            }
            (0..=90, _) => q.requester = self.root(contents, object),
            _ => q.requester = self.subject(),
        }
        let meets = self.world.in_force || self.world.all_meters;
        if meets && self.random.percent(if kind == 3 { 70 } else { 35 }) {
            self.meet(&mut q, contents);
        }
        q
    }

    // The object of a rule's side, or for a star mostly one that its author has.
    fn meter(&mut self, contents: &Contents, object: u32, author: u32) -> u32 {
        if object != 0 {
            return object;
        }
        let has = |holder: &&Holder| holder.subject == author;
        let all: Vec<u32> =
            contents.owners.iter().chain(&contents.administrators).filter(has).map(|h| h.object).collect();
        let any = self.object(contents);
        self.random.pick_any(&all).filter(|_| self.random.percent(85)).unwrap_or(any)
    }

    // What a rule looks at as a right, with its subject and mode or any for a star.
    fn looked_at(&mut self, contents: &Contents) -> Option<(u32, u32, u32)> {
        let positive: Vec<Rule> = contents.rules.iter().copied().filter(|rule| rule.flags & 2 == 0).collect();
        let rule = self.random.pick_any(&positive)?;
        let subject = if rule.right_subject == 0 { self.subject() } else { rule.right_subject };
        let mode = if rule.right_mode == 0 { self.mode() } else { rule.right_mode };
        let object = self.meter(contents, rule.right_object, rule.author);
        Some((subject, mode, object))
    }

    // Lets a grant or denial, by one who may, be about what a rule looks at.
    fn meet(&mut self, q: &mut Numbers, contents: &Contents) {
        if let Some((subject, mode, object)) = self.looked_at(contents) {
            (q.subject, q.mode, q.object) = (subject, mode, object);
            q.requester = self.root(contents, object);
        }
    }

    fn revoke(&mut self, contents: &Contents, now: u32) -> Numbers {
        let mut q = Numbers::of_kind(4, now, self.subject());
        q.label = self.random.between(1, contents.last_label + 1);
        let oldest = contents.lines.first().copied(); // others lean on it
        let any = self.random.pick_any(&contents.lines);
        if let Some(line) = if self.random.percent(15) { oldest } else { any } {
            q.label = line.label;
            if self.random.percent(90) {
                q.requester = line.grantor;
            }
        }
        q
    }

    // Out of a line, mostly.
    fn withdraw(&mut self, kind: u32, contents: &Contents, now: u32) -> Numbers {
        let (object, mode, subject) = (self.object(contents), self.mode(), self.subject());
        let (start, end) = self.span(self.world.first, LAST);
        let mut q = Numbers { mode, object, subject, start, end, ..Numbers::of_kind(kind, now, self.subject()) };
        let fits: Vec<Line> = contents.lines.iter().copied().filter(|line| line.negative() == (kind == 6)).collect();
        if let Some(line) = self.random.pick_any(&fits) {
            (q.mode, q.object, q.subject) = (line.mode, line.object, line.subject);
            if self.random.percent(92) {
                q.requester = line.grantor;
            }
            if self.random.percent(75) {
                let inner = line.start.saturating_add(self.random.between(0, 2));
                (q.start, q.end) = self.span(inner.min(line.end), line.end);
            }
        }
        q
    }

    // What a rule could be about: a line's access, what a rule gives, or anything.
    fn access(&mut self, contents: &Contents) -> (u32, u32, u32, bool) {
        match self.random.below(10) {
            0..=3 => {
                if let Some(line) = self.random.pick_any(&contents.lines) {
                    return (line.subject, line.mode, line.object, line.negative());
                }
            }
            4..=6 => {
                if let Some(rule) = self.random.pick_any(&contents.rules) {
                    return (rule.left_subject, rule.left_mode, rule.left_object, rule.flags & 1 == 1);
                }
            }
            _ => {}
        }
        (self.subject(), self.mode(), self.object(contents), self.random.percent(20))
    }

    // By one who has the powers, mostly.
    fn add_rule(&mut self, contents: &Contents, now: u32) -> Numbers {
        let (subject, mode, object, negative) = self.access(contents);
        let object = if object == 0 { self.object(contents) } else { object };
        let right = Side { subject: term(subject), mode: term(mode), object: Term::Number(object), negative };
        let left_object = self.object(contents);
        let author = self.author(contents, left_object, object);
        let (subject, mode) = (self.subject(), self.mode());
        let negative = self.random.percent(25);
        let left = Side { subject: term(subject), mode: term(mode), object: Term::Number(left_object), negative };
        let (start, end) = self.span(now, LAST);
        let mut q = Numbers { start, end, left, right, ..Numbers::of_kind(7, now, author) };
        q.operator = 1 + self.random.weighted(&[32, 26, 24, 18]) as u32;
        self.stars(&mut q);
        let any = self.subject();
        q.grantor = if self.random.percent(60) { Term::Any } else { Term::Number(any) };
        if self.random.percent(15) {
            q.grantor = Term::Number(author);
        }
        q.right_option = match self.random.below(100) {
            0..=49 => OptionTerm::Either,
            50..=64 if !right.negative || self.random.percent(15) => OptionTerm::With,
            _ => OptionTerm::Without,
        };
        if self.world.in_force || self.world.all_meters && self.random.percent(50) {
            self.join(&mut q, contents);
        }
        q
    }

    // Lets a rule look at a right, deny what another looks at, or pass on what another gives to where it is looked
    // at, so that rights go through several rules and come round.
    fn join(&mut self, q: &mut Numbers, contents: &Contents) {
        q.right.negative &= !self.random.percent(80);
        let chance = self.random.below(100);
        let Some(seen) = self.looked_at(contents).filter(|_| chance < 60) else { return };
        q.left = about(q.left, seen);
        q.left.negative = chance < 28;
        let given: Vec<Rule> = contents.rules.iter().copied().filter(|rule| rule.flags & 1 == 0).collect();
        if let Some(rule) = self.random.pick_any(&given).filter(|_| !q.left.negative) {
            let (subject, mode) = (self.subject(), self.mode());
            let subject = if rule.left_subject == 0 { subject } else { rule.left_subject };
            let mode = if rule.left_mode == 0 { mode } else { rule.left_mode };
            let object = self.meter(contents, rule.left_object, rule.author);
            q.right = Side { negative: false, ..about(q.right, (subject, mode, object)) };
            q.operator = self.random.between(1, 2);
            (q.grantor, q.right_option) = (Term::Any, OptionTerm::Either);
        }
        q.requester = match (q.left.object, q.right.object) {
            (Term::Number(left), Term::Number(right)) => self.author(contents, left, right),
            _ => self.root(contents, seen.2),
        };
    }

    // Stars on both sides or on neither, but on one side now and then.
    fn stars(&mut self, q: &mut Numbers) {
        let (subject, mode) = (self.subject(), self.mode());
        if self.random.percent(30) {
            (q.left.subject, q.right.subject) = (Term::Any, Term::Any);
        } else if q.right.subject == Term::Any {
            q.right.subject = Term::Number(subject);
        }
        if self.random.percent(25) {
            (q.left.mode, q.right.mode) = (Term::Any, Term::Any);
        } else if q.right.mode == Term::Any {
            q.right.mode = Term::Number(mode);
        }
        if self.random.percent(self.world.starred) {
            // by anybody, also by one who has no meter
            (q.left.object, q.right.object) = (Term::Any, Term::Any);
            if self.random.percent(15) {
                q.requester = self.subject();
            }
        }
        if self.random.percent(3) {
            match self.random.below(6) {
                0 => q.left.subject = Term::Any,
                1 => q.left.mode = Term::Any,
                2 => q.right.subject = Term::Any,
                3 => q.left.object = Term::Any,
                4 => q.right.object = Term::Any,
                _ => q.right.mode = Term::Any,
            }
        }
    }

    // One with the powers on the left, preferably on the right too, a referrer there among them.
    fn author(&mut self, contents: &Contents, left: u32, right: u32) -> u32 {
        let on = |holders: &[Holder], object: u32| -> Vec<u32> {
            holders.iter().filter(|holder| holder.object == object).map(|holder| holder.subject).collect()
        };
        let mut able = on(&contents.owners, left);
        able.extend(on(&contents.administrators, left));
        let mut seeing = on(&contents.owners, right);
        seeing.extend(on(&contents.administrators, right));
        seeing.extend(on(&contents.referrers, right));
        let both: Vec<u32> = able.iter().copied().filter(|subject| seeing.contains(subject)).collect();
        let any = self.subject();
        let able = self.random.pick_any(&able).unwrap_or(any);
        match self.random.below(100) {
            0..=89 => self.random.pick_any(&both).unwrap_or(able),
            90..=94 => able,
            _ => any,
        }
    }

    fn drop_rule(&mut self, contents: &Contents, now: u32) -> Numbers {
        let mut q = Numbers::of_kind(8, now, self.subject());
        q.label = self.random.between(1, contents.last_label + 1);
        if let Some(rule) = self.random.pick_any(&contents.rules) {
            q.label = rule.label;
            if self.random.percent(85) {
                q.requester = rule.author;
            }
        }
        q
    }

    // By the owner, mostly; a privilege to withdraw is mostly there.
    fn privilege(&mut self, kind: u32, contents: &Contents, now: u32) -> Numbers {
        let holders = if kind <= 10 { &contents.administrators } else { &contents.referrers };
        let (mut object, mut subject) = (self.object(contents), self.subject());
        if kind % 2 == 0 && self.random.percent(85) {
            if let Some(holder) = self.random.pick_any(holders) {
                (object, subject) = (holder.object, holder.subject);
            }
        }
        let already = |x: &Holder| (x.object, x.subject) == (object, subject);
        if kind % 2 == 1 && contents.owners.iter().chain(holders).any(already) && self.random.percent(60) {
            subject = self.subject();
        }
        let requester = if self.random.percent(93) { self.owner(contents, object) } else { self.subject() };
        Numbers { object, subject, ..Numbers::of_kind(kind, now, requester) }
    }

    // One thing that is not as it should be.
    fn spoil(&mut self, q: &mut Numbers, contents: &Contents) {
        let wild = self.random.pick(&WILD);
        match self.random.below(20) {
            0 => q.kind = self.random.pick(&[0, 13, u32::MAX, 256, 65_537]),
            1 => q.now = wild,
            2 => q.requester = wild,
            3 => q.label = wild,
            4 => q.mode = wild,
            5 => q.object = wild,
            6 => q.subject = wild,
            7 => q.start = wild,
            8 => q.end = wild,
            9 => (q.start, q.end) = (q.end, q.start),
            10 => q.start = q.now.saturating_sub(1),
            11 => q.requester = self.subject(),
            12 => q.object = self.random.pick(&self.world.objects),
            13 => q.operator = self.random.pick(&[0, 5, u32::MAX, 257]),
            14 => q.left.object = Term::Number(wild),
            15 => q.right.object = Term::Number(wild),
            16 => q.left.subject = Term::Number(wild),
            17 => q.right.mode = Term::Number(wild),
            18 => q.grantor = Term::Number(wild),
            _ => q.label = self.random.between(1, contents.last_label + 1),
        }
    }

    // The oracle knows only the ends that it was told beforehand.
    fn fit(&mut self, q: &mut Numbers) {
        if !self.world.is_start(q.start) {
            q.start = self.random.between(self.world.first, self.world.last);
        }
        if !self.world.is_end(q.end) {
            q.end = self.random.between(self.world.first, self.world.last);
        }
    }

    fn question(&mut self, contents: &Contents) -> Access {
        let mut x = Access { subject: self.subject(), mode: self.mode(), object: self.object(contents) };
        if self.random.percent(40) {
            let (subject, mode, object, _) = self.access(contents);
            let kept = x;
            x = Access { subject, mode, object };
            x.subject = if subject == 0 { kept.subject } else { subject };
            x.mode = if mode == 0 { kept.mode } else { mode };
            x.object = if object == 0 { kept.object } else { object };
        }
        if self.random.percent(4) {
            let wild = self.random.pick(&WILD);
            match self.random.below(3) {
                0 => x.subject = wild,
                1 => x.mode = wild,
                _ => x.object = wild,
            }
        }
        x
    }

    // Anywhere in the window, just inside or outside of a line or rule, or at an end of the timeline.
    fn instant(&mut self, contents: &Contents) -> u32 {
        let line = self.random.pick_any(&contents.lines).map(|line| (line.start, line.end));
        let rule = self.random.pick_any(&contents.rules).map(|rule| (rule.start, rule.end));
        let ends = if self.random.percent(60) { line.or(rule) } else { rule.or(line) };
        match (self.random.below(12), ends) {
            (0..=3, _) | (_, None) => self.random.between(self.world.first, self.world.last),
            (4, _) => self.random.pick(&WILD),
            (5, _) => self.random.any() as u32,
            (6, Some((start, _))) => start.saturating_sub(1),
            (7 | 8, Some((start, _))) => start,
            (9 | 10, Some((_, end))) => end,
            (_, Some((_, end))) => end.saturating_add(1),
        }
    }

    /// The question MAY.
    pub fn may(&mut self, contents: &Contents) -> Step {
        let access = self.question(contents);
        Step::May(access, self.instant(contents))
    }

    /// The question MAY to the simple engine.
    pub fn simple_may(&mut self, contents: &Contents) -> Step {
        let access = self.question(contents);
        Step::SimpleMay(access, self.instant(contents))
    }

    /// A round of so many questions, with a byte list that is one byte short, as long as the questions, and longer.
    pub fn round(&mut self, contents: &Contents, count: usize) -> Vec<Step> {
        let questions: Vec<[u32; 4]> = (0..count)
            .map(|_| {
                let x = self.question(contents);
                [x.subject, x.mode, x.object, self.instant(contents)]
            })
            .collect();
        let lengths = [count.saturating_sub(1), count, count + 1 + self.random.below(9)];
        lengths.map(|length| Step::Round { questions: questions.clone(), length, pattern: self.random.any() }).to_vec()
    }

    /// The question WHEN, with lists that just suffice or just do not.
    pub fn when(&mut self, contents: &Contents, runs: impl Fn(Access) -> Option<usize>) -> Vec<Step> {
        let access = self.question(contents);
        let exact = 2 * runs(access).unwrap_or(0);
        let lengths = [exact, exact.saturating_sub(2), exact.saturating_sub(1), exact + 1, exact + 2, 0, 2_200];
        let lengths = [self.random.pick(&lengths), self.random.pick(&lengths[..4])];
        lengths.map(|length| Step::When { access, length, pattern: self.random.any() }).to_vec()
    }

    /// The rights sheet of an object, on pages that just suffice or just do not. `sheet` says how long it is.
    pub fn report(&mut self, contents: &Contents, sheet: impl Fn(u32) -> Option<usize>) -> Vec<Step> {
        let object = if self.random.percent(8) { self.random.pick(&WILD) } else { self.object(contents) };
        let exact = sheet(object).unwrap_or(0);
        let lengths = [exact, exact.saturating_sub(1), exact + 4, exact.saturating_sub(44), 0, SHEET_BYTES];
        let lengths = [self.random.pick(&lengths), self.random.pick(&lengths[..3])];
        lengths.map(|length| Step::Report { object, length, pattern: self.random.any() }).to_vec()
    }

    /// A line of text, in buffers that just suffice or just do not. `told` says how long the reply's text is.
    pub fn text(&mut self, contents: &Contents, told: impl Fn(&[u8]) -> usize) -> Vec<Step> {
        let line = self.line(contents);
        let exact = told(&line);
        let least = exact.max(TEXT_LEAST);
        let lengths = [exact, exact - 1, exact + 1, least - 1, least, least + 1, 0, TEXT_BYTES];
        let lengths = [self.random.pick(&lengths), self.random.pick(&lengths[4..6])];
        lengths.map(|length| Step::Text { line: line.clone(), length, pattern: self.random.any() }).to_vec()
    }

    // A request or a question, and sometimes one with something wrong in it.
    fn line(&mut self, contents: &Contents) -> Vec<u8> {
        let line = match self.random.below(10) {
            0..=5 => text::request(&self.request(contents)),
            6 | 7 => text::step(&self.may(contents)),
            _ => {
                let x = self.question(contents);
                format!("WHEN {} {} {}", x.subject, x.mode, x.object)
            }
        };
        let line = line.into_bytes();
        if self.random.percent(75) {
            return line;
        }
        let spoilt = self.spoilt_line(&line);
        if self.is_known(&spoilt) {
            spoilt
        } else {
            line
        }
    }

    fn spoilt_line(&mut self, line: &[u8]) -> Vec<u8> {
        let mut spoilt = line.to_vec();
        let at = self.random.below(line.len());
        let byte = self.random.pick(b"0 1 9*+-ynM\n\0\r\xff");
        match self.random.below(8) {
            0 => spoilt.clear(),
            1 => spoilt.truncate(at),
            2 => drop(spoilt.remove(at)),
            3 => spoilt[at] = byte,
            4 => spoilt.insert(at, byte),
            5 => spoilt.push(byte),
            6 => spoilt.resize(self.random.pick(&[95, 96, 97, 98, 1_000]), b'0'),
            _ => spoilt = self.random.bytes(at),
        }
        spoilt
    }

    // The oracle knows only the ends that it was told beforehand.
    fn is_known(&self, line: &[u8]) -> bool {
        match oracle::session::read(line) {
            Asked::Request(q) => self.world.is_start(q.start) && self.world.is_end(q.end),
            _ => true,
        }
    }
}
