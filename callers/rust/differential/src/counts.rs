//! Sessions that lead to the counts: 1,024 lines, 64 rules, 128 administrators and referrers, 65,535 labels, long
//! WHEN lists. Both sides are compared at every step, and the reply is the one that the course wants.
use crate::pair::{Pair, Step};
use crate::random::Random;
use crate::session::Failure;
use crate::tally::Tally;
use crate::world::boundaries;
use access_base::raw::Numbers;
use access_base::{Access, Interval, Operator, OptionTerm, Order, Request, Rule, Side, Term, BYTES, LAST, SHEET_BYTES};

/// How a course ends.
pub type Outcome = Result<Tally, Box<Failure>>;

const FULL: u32 = 13;

struct Course {
    name: &'static str,
    pair: Pair,
}

impl Course {
    // An empty base; every instant below `instants` can be named.
    fn new(name: &'static str, instants: u32) -> Result<Course, Box<Failure>> {
        let mut course = Course { name, pair: Pair::new(&boundaries(0, instants)) };
        course.take(Step::Lend(Random::new(u64::from(instants)).bytes(BYTES)), 2)?;
        course.take(Step::Create, 0)?;
        Ok(course)
    }

    fn take(&mut self, step: Step, wanted: u32) -> Result<(), Box<Failure>> {
        match self.pair.take(step) {
            Ok(row) => {
                let at = self.pair.steps().len();
                assert_eq!(row, wanted, "{}: the course takes another way at step {at}", self.name);
                Ok(())
            }
            Err(difference) => Err(Box::new(Failure::new(self.name, &self.pair, difference))),
        }
    }

    // The request is replied to with the refusal, or accepted (0).
    fn ask(&mut self, now: u32, requester: u32, order: Order, wanted: u32) -> Result<(), Box<Failure>> {
        self.take(Step::Request(Numbers::from(&Request { now, requester, order })), wanted)
    }

    // WHEN has so many runs, and fits just so many pairs.
    fn when(&mut self, access: Access, runs: usize) -> Result<(), Box<Failure>> {
        let exact = 2 * runs;
        for (length, wanted) in [(exact, 0), (exact + 1, 0), (2_200, 0), (exact - 1, FULL), (exact - 2, FULL)] {
            self.take(Step::When { access, length, pattern: length as u64 }, wanted)?;
        }
        assert_eq!(self.pair.runs(access), Some(runs), "{}", self.name);
        Ok(())
    }

    // The sheet of an object has so many bytes, and fits just such a page.
    fn sheet(&mut self, object: u32, exact: usize) -> Result<(), Box<Failure>> {
        for (length, wanted) in [(exact, 0), (exact + 4, 0), (exact - 1, FULL), (0, FULL)] {
            self.take(Step::Report { object, length, pattern: length as u64 }, wanted)?;
        }
        assert_eq!(self.pair.sheet(object), Some(exact), "{}", self.name);
        Ok(())
    }

    fn outcome(self) -> Outcome {
        Ok(self.pair.tally)
    }
}

fn span(start: u32, end: u32) -> Interval {
    Interval { start, end }
}

// Mode 1 on meter 7.
fn to(subject: u32) -> Access {
    Access { subject, mode: 1, object: 7 }
}

fn grant(subject: u32, start: u32, end: u32) -> Order {
    Order::Grant { access: to(subject), interval: span(start, end), option: true }
}

fn deny(subject: u32, start: u32, end: u32) -> Order {
    Order::Deny { access: to(subject), interval: span(start, end) }
}

fn cut_grant(subject: u32, start: u32, end: u32) -> Order {
    Order::RevokeGrants { access: to(subject), interval: span(start, end) }
}

fn cut_denial(subject: u32, start: u32, end: u32) -> Order {
    Order::RevokeDenials { access: to(subject), interval: span(start, end) }
}

fn side(subject: u32, object: u32, negative: bool) -> Side {
    Side { subject: Term::Number(subject), mode: Term::Number(1), object: Term::Number(object), negative }
}

fn rule(left: Side, operator: Operator, right: Side, interval: Interval) -> Order {
    Order::AddRule(Rule { left, operator, right, grantor: Term::Any, option: OptionTerm::Either, interval })
}

/// Line 1,024 is taken, line 1,025 is not, and there is room again after a withdrawal.
pub fn lines() -> Outcome {
    let mut c = Course::new("lines", 1_100)?;
    c.ask(0, 1, Order::New { object: 7 }, 0)?;
    for i in 0..1_024 {
        let (access, interval) = (Access { subject: 1 + i % 1_023, mode: 1 + i % 8, object: 7 }, span(i, i + 3));
        c.ask(0, 1, Order::Grant { access, interval, option: i % 3 == 0 }, 0)?;
    }
    c.sheet(7, SHEET_BYTES)?;
    c.ask(0, 1, grant(5, 9, 9), FULL)?;
    c.ask(0, 1, deny(5, 9, 9), FULL)?;
    c.ask(0, 900, grant(5, 9, 9), 9)?;
    c.ask(0, 1, rule(side(2, 7, false), Operator::Unless, side(3, 7, true), span(0, LAST)), 0)?;
    c.ask(1, 1, Order::Revoke { label: 500 }, 0)?;
    c.ask(1, 1, deny(5, 9, 9), 0)?;
    c.ask(1, 1, deny(5, 9, 9), FULL)?;
    c.ask(1, 1, cut_denial(5, 0, LAST), 0)?;
    c.ask(1, 1, cut_denial(5, 0, LAST), 0)?;
    c.when(to(1), 1)?;
    c.outcome()
}

/// At 1,024 lines a withdrawal that splits one is refused, unless it takes away others.
pub fn splits() -> Outcome {
    let mut c = Course::new("splits", 1_100)?;
    c.ask(0, 1, Order::New { object: 7 }, 0)?;
    c.ask(0, 1, grant(2, 10, 30), 0)?;
    c.ask(1, 2, grant(3, 20, 20), 0)?;
    c.ask(1, 2, deny(4, 20, 20), 0)?;
    c.ask(1, 1, grant(5, 40, 60), 0)?;
    c.ask(1, 1, deny(6, 40, 60), 0)?;
    for i in 5..1_024 {
        c.ask(1, 1, Order::Deny { access: Access { mode: 2, ..to(9) }, interval: span(i, i) }, 0)?;
    }
    c.ask(2, 1, cut_grant(5, 50, 50), FULL)?;
    c.ask(2, 1, cut_denial(6, 50, 50), FULL)?;
    c.ask(2, 1, cut_grant(2, 20, 20), 0)?; // one line more, two lines fewer
    c.ask(2, 1, cut_grant(5, 50, 50), 0)?;
    c.ask(2, 1, cut_grant(5, 45, 45), FULL)?;
    c.ask(2, 1, cut_denial(6, 45, 45), FULL)?;
    c.ask(2, 1, cut_denial(6, 40, 45), 0)?;
    c.ask(2, 1, Order::Revoke { label: 1 }, 0)?; // two pieces
    c.ask(2, 1, cut_denial(6, 50, 50), 0)?;
    c.ask(2, 1, cut_grant(5, 55, 55), 0)?;
    c.ask(2, 1, cut_grant(5, 58, 58), FULL)?;
    c.when(to(5), 3)?;
    c.outcome()
}

// What 2 gave over the whole span rests on one line, and at both ends on two others.
fn resting(c: &mut Course, grantor: u32, count: u32) -> Result<(), Box<Failure>> {
    c.ask(0, 1, Order::New { object: 7 }, 0)?;
    c.ask(0, 1, Order::GrantAdministrator { object: 7, subject: 5 }, 0)?;
    c.ask(0, grantor, grant(2, 10, 40), 0)?;
    c.ask(0, 1, grant(2, 10, 20), 0)?;
    c.ask(0, 1, grant(2, 30, 40), 0)?;
    for i in 0..count {
        let order = if i % 2 == 0 { grant(3 + i, 10, 40) } else { deny(3, 10, 40) };
        c.ask(1, 2, order, 0)?;
    }
    c.ask(1, 5, rule(side(9, 7, false), Operator::Whenever, side(3, 7, true), span(1, LAST)), 0)
}

/// A withdrawal of what many lines rest on splits them all: accepted at exactly 1,024 lines, refused beyond.
pub fn cascades() -> Outcome {
    let mut tally = Tally::default();
    let by_label = (1, Order::Revoke { label: 1 });
    let by_interval = (1, cut_grant(2, 25, 25));
    let by_privilege = (5, Order::RevokeAdministrator { object: 7, subject: 5 });
    for (grantor, order) in [by_label, by_interval, by_privilege] {
        for (count, wanted) in [(511, 0), (512, FULL)] {
            let mut c = Course::new("cascades", 64)?;
            // the cut leaves two pieces of the first line, the others leave none
            let count = if order == by_interval.1 { count - 1 } else { count };
            resting(&mut c, grantor, count)?;
            c.ask(2, 1, order, wanted)?;
            c.when(to(5), if wanted == 0 { 2 } else { 1 })?;
            tally.add(&c.pair.tally);
        }
    }
    Ok(tally)
}

/// A chain of 1,022 lines, each given by the one before's subject: what is taken from the first is taken from all.
pub fn chain() -> Outcome {
    let mut c = Course::new("chain", 1_200)?;
    c.ask(0, 1, Order::New { object: 7 }, 0)?;
    for grantor in 1..1_023 {
        c.ask(grantor, grantor, grant(grantor + 1, 1_100, 1_150), 0)?;
    }
    c.ask(1_023, 500, grant(4, 1_100, 1_150), 0)?; // to one before him: no one leans on it
    c.ask(1_024, 1_023, deny(1, 1_120, 1_130), 0)?;
    c.ask(1_024, 1, cut_grant(2, 1_120, 1_130), FULL)?;
    c.ask(1_024, 1, cut_grant(2, 1_140, 1_145), FULL)?;
    c.ask(1_025, 1, cut_grant(2, 1_100, 1_125), 0)?;
    c.when(to(1_023), 1)?;
    c.ask(1_026, 600, cut_grant(601, 1_126, 1_130), 0)?;
    c.when(to(600), 1)?;
    c.ask(1_027, 1, Order::GrantAdministrator { object: 7, subject: 900 }, 0)?;
    c.ask(1_027, 1, Order::Revoke { label: 1 }, 0)?;
    c.when(to(1_023), 1)?;
    c.ask(1_028, 1, Order::RevokeAdministrator { object: 7, subject: 900 }, 0)?;
    c.outcome()
}

/// A ladder of 250 rungs: both on a rung give to both on the next, so that there are more chains than can be counted.
pub fn ladder() -> Outcome {
    let mut c = Course::new("ladder", 600)?;
    c.ask(0, 1, Order::New { object: 7 }, 0)?;
    c.ask(0, 1, grant(2, 300, 320), 0)?;
    c.ask(0, 1, grant(3, 310, 340), 0)?;
    for rung in 1..=250 {
        let (left, right) = (2 * rung, 2 * rung + 1);
        for (grantor, start, end) in [(left, 300, 320), (right, 310, 340)] {
            c.ask(rung, grantor, grant(left + 2, start, end), 0)?;
            c.ask(rung, grantor, grant(right + 2, start, end), 0)?;
        }
    }
    c.ask(260, 1, cut_grant(2, 315, 320), 0)?;
    c.ask(260, 1, cut_grant(3, 330, 332), FULL)?;
    c.ask(260, 1, cut_grant(3, 310, 311), 0)?;
    c.when(to(502), 1)?;
    c.ask(261, 1, Order::Revoke { label: 1 }, 0)?;
    c.when(to(502), 1)?;
    c.ask(261, 1, Order::Revoke { label: 2 }, 0)?;
    c.outcome()
}

/// 64 rules that feed each other in a row, each of its own rank; the 65th is refused, and a circle before that.
pub fn rules() -> Outcome {
    let mut c = Course::new("rules", 80)?;
    for object in 1..=66 {
        c.ask(0, 1, Order::New { object }, 0)?;
    }
    let line = |object, start, end| Order::Grant {
        access: Access { subject: 2, mode: 1, object },
        interval: span(start, end),
        option: false,
    };
    c.ask(0, 1, line(1, 10, 40), 0)?;
    c.ask(0, 1, line(20, 30, 50), 0)?;
    c.ask(0, 1, line(45, 5, 12), 0)?;
    for i in 1..=64 {
        let operator = if i % 7 == 0 { Operator::Unless } else { Operator::WheneverNot };
        let interval = span(i % 9, if i % 5 == 0 { 70 - i % 11 } else { LAST });
        c.ask(0, 1, rule(side(2, i + 1, false), operator, side(2, i, false), interval), 0)?;
    }
    c.ask(0, 1, rule(side(2, 66, false), Operator::Whenever, side(2, 66, true), span(0, 9)), FULL)?;
    c.ask(0, 1, rule(side(2, 1, false), Operator::Whenever, side(2, 65, false), span(0, 9)), 12)?;
    for object in [2, 3, 20, 21, 45, 46, 64, 65] {
        let access = Access { subject: 2, mode: 1, object };
        let runs = c.pair.runs(access).unwrap_or(0);
        if runs > 0 {
            c.when(access, runs)?;
        }
        for instant in (0..80).chain([LAST]) {
            c.take(Step::May(access, instant), 0)?;
        }
    }
    c.ask(1, 1, Order::DropRule { label: 40 }, 0)?;
    c.ask(1, 1, rule(side(2, 1, false), Operator::Whenever, side(2, 65, false), span(1, 9)), 0)?;
    c.ask(1, 1, rule(side(2, 66, false), Operator::Whenever, side(2, 66, true), span(1, 9)), FULL)?;
    c.outcome()
}

/// 64 rules without a "not" in circles, with stars: the smallest set, and nothing out of nothing.
pub fn circles() -> Outcome {
    let mut c = Course::new("circles", 40)?;
    for object in 1..=3 {
        c.ask(0, 1, Order::New { object }, 0)?;
    }
    for i in 0..64 {
        let operator = if i % 3 == 0 { Operator::AsLongAs } else { Operator::Whenever };
        let mut left = side(1 + i % 21, 1 + i % 3, false);
        let mut right = side(1 + (i + 1) % 21, 1 + (i + 1) % 3, false);
        if i % 8 == 0 {
            (left.subject, right.subject) = (Term::Any, Term::Any);
        }
        c.ask(0, 1, rule(left, operator, right, span(i % 4, 30)), 0)?;
    }
    let access = |subject, object| Access { subject, mode: 1, object };
    let questions: Vec<Access> = (1..=22).flat_map(|s| (1..=3).map(move |o| access(s, o))).collect();
    for &x in &questions {
        c.take(Step::When { access: x, length: 0, pattern: 0 }, 0)?;
    }
    c.ask(1, 1, Order::Grant { access: access(9, 2), interval: span(2, 20), option: true }, 0)?;
    c.ask(1, 1, Order::Grant { access: access(21, 3), interval: span(1, 12), option: false }, 0)?;
    for &x in &questions {
        c.take(Step::When { access: x, length: 2_200, pattern: 3 }, 0)?;
    }
    c.outcome()
}

/// 128 administrators and 128 referrers in the whole base, and 128 meters.
pub fn privileges() -> Outcome {
    let mut c = Course::new("privileges", 16)?;
    for object in 1..=128 {
        c.ask(0, 1_023, Order::New { object }, 0)?;
    }
    c.ask(0, 1_023, Order::New { object: 129 }, 3)?;
    c.ask(0, 1_023, Order::New { object: 128 }, 10)?;
    let adm = |object, subject| Order::GrantAdministrator { object, subject };
    let refer = |object, subject| Order::GrantReferrer { object, subject };
    for i in 0..128 {
        c.ask(0, 1_023, adm(1 + i * 37 % 128, 1 + i * 5), 0)?;
        c.ask(0, 1_023, refer(1 + i * 11 % 4, 1 + i * 3), 0)?;
    }
    c.ask(0, 1_023, adm(1, 900), FULL)?;
    c.ask(0, 1_023, refer(1, 900), FULL)?;
    c.ask(0, 1_023, adm(1, 1), 10)?;
    c.ask(0, 1_023, refer(1, 1_023), 10)?;
    c.ask(0, 1, adm(1, 900), 8)?;
    c.ask(1, 1_023, Order::RevokeAdministrator { object: 1, subject: 1 }, 0)?;
    c.ask(1, 1_023, adm(1, 900), 0)?;
    c.ask(1, 1_023, adm(1, 901), FULL)?;
    c.ask(1, 1_023, Order::RevokeReferrer { object: 1, subject: 1 }, 0)?;
    c.ask(1, 1_023, refer(1, 900), 0)?;
    c.ask(1, 1_023, refer(1, 901), FULL)?;
    c.outcome()
}

/// WHEN with hundreds of runs, and with as many as there can be.
pub fn runs() -> Outcome {
    let mut c = Course::new("runs", 2_300)?;
    c.ask(0, 1, Order::New { object: 7 }, 0)?;
    c.ask(0, 1, grant(3, 0, LAST), 0)?;
    for i in 1..=1_023 {
        let order = if i <= 400 { grant(2, 2 * i, 2 * i) } else { deny(3, 2 * i, 2 * i) };
        c.ask(0, 1, order, 0)?;
    }
    c.when(to(2), 400)?;
    c.when(to(3), 624)?;
    for i in 1..=64 {
        let at = 2_046 + 2 * i;
        c.ask(1, 1, rule(side(3, 7, true), Operator::WheneverNot, side(4, 7, true), span(at, at)), 0)?;
    }
    c.when(to(3), 688)?;
    for subject in [1, 4, 1_023] {
        c.take(Step::When { access: to(subject), length: 0, pattern: 0 }, 0)?;
    }
    let mut c2 = Course::new("runs", 2_300)?;
    c2.ask(0, 1, Order::New { object: 7 }, 0)?;
    for i in 0..1_024 {
        c2.ask(0, 1, grant(2, 2 * i, 2 * i), 0)?;
    }
    for i in 1_024..1_088 {
        c2.ask(0, 1, rule(side(2, 7, false), Operator::Unless, side(4, 7, true), span(2 * i, 2 * i)), 0)?;
    }
    c2.when(to(2), 1_088)?;
    c2.pair.tally.add(&c.pair.tally);
    c2.outcome()
}

/// All 65,535 labels, by a grant or denial and its withdrawal in turn; then none is left.
pub fn labels() -> Outcome {
    let mut c = Course::new("labels", 16)?;
    c.ask(0, 1, Order::New { object: 7 }, 0)?;
    for label in 1..65_535 {
        c.ask(1, 1, if label % 2 == 0 { grant(2, 3, 9) } else { deny(2, 3, 9) }, 0)?;
        c.ask(1, 1, Order::Revoke { label }, 0)?;
    }
    let one_rule = rule(side(2, 7, false), Operator::Whenever, side(3, 7, true), span(3, 9));
    c.ask(1, 1, one_rule, 0)?;
    c.ask(1, 1, one_rule, FULL)?;
    c.ask(1, 1, grant(2, 3, 9), FULL)?;
    c.ask(1, 1, deny(2, 3, 9), FULL)?;
    c.ask(1, 9, deny(2, 3, 9), 9)?;
    c.ask(1, 1, Order::Revoke { label: 65_535 }, 7)?;
    c.take(Step::Report { object: 7, length: 0, pattern: 0 }, 0)?;
    c.ask(1, 1, Order::DropRule { label: 65_535 }, 0)?;
    c.ask(1, 1, one_rule, FULL)?;
    c.ask(1, 1, cut_grant(2, 0, LAST), 0)?;
    c.outcome()
}
