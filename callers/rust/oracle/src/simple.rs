//! Document 02, change request 6: "A simple engine to compare with", to the letter.
use crate::held::{meet, put_in, reaches, Wanted};
use crate::*;

impl Oracle {
    /// MAY of the simple engine: "15, circular, by the simple engine only, exactly if some feeding circle exists;
    /// it comes last"; and "For CR 6 such links count as feeding" (CR 7). None where it would look at an instant more
    /// than `looks` times: "It steps through single instants", and a test has no time for long spans.
    pub fn simple_may(
        &self,
        subject: u32,
        mode: u32,
        object: u32,
        instant: u32,
        mut looks: u64,
    ) -> Option<Result<bool, u32>> {
        if let Some(row) = self.question_refused(subject, mode, object) {
            return Some(Err(row));
        }
        let rules: Vec<&StandingRule> = self.rules.values().collect();
        if (0..rules.len()).any(|home| reaches(&rules, home, home, true)) {
            return Some(Err(15));
        }
        let asked =
            |negative| Wanted { subject, mode, object, negative, grantor: Term::Any, option: OptionTerm::Either };
        let held = self.held_at(&asked(false), instant, &mut looks)?;
        let denied = self.held_at(&asked(true), instant, &mut looks)?;
        Some(Ok(held && !denied))
    }

    /// "whether an authorization is held depends on the rules that may give it"
    fn held_at(&self, wanted: &Wanted, instant: u32, looks: &mut u64) -> Option<bool> {
        *looks = looks.checked_sub(1)?;
        let cell = self.cells.cell_of(instant);
        if self.entries.values().any(|entry| entry.when.has(cell) && wanted.fits_line(entry)) {
            return Some(true);
        }
        for standing in self.rules.values() {
            if self.may_give(standing, wanted) && self.gives_at(standing, wanted, instant, looks)? {
                return Some(true);
            }
        }
        Some(false)
    }

    /// "whether a rule gives it depends on what is held"
    fn gives_at(&self, standing: &StandingRule, wanted: &Wanted, instant: u32, looks: &mut u64) -> Option<bool> {
        let start = self.cells.first(standing.first);
        if instant < start || self.cells.last(standing.last) < instant {
            return Some(false);
        }
        let rule = &standing.rule;
        let right = Wanted {
            subject: put_in(rule.right.subject, wanted.subject),
            mode: put_in(rule.right.mode, wanted.mode),
            object: put_in(rule.right.object, wanted.object),
            negative: rule.right.negative,
            grantor: rule.grantor,
            option: rule.option,
        };
        let from = if rule.operator == WHENEVER || rule.operator == WHENEVERNOT { instant } else { start };
        let is_held = rule.operator == WHENEVER || rule.operator == ASLONGAS;
        for each in from..=instant {
            if self.in_force_at(&right, each, looks)? != is_held {
                return Some(false);
            }
        }
        Some(true)
    }

    /// "a positive right side counts as held at t [...] exactly if it is held and no denial for that subject,
    /// object and mode is held at t, whoever gave it. A denial on the right counts as before." (CR 7)
    fn in_force_at(&self, right: &Wanted, instant: u32, looks: &mut u64) -> Option<bool> {
        let held = self.held_at(right, instant, looks)?;
        Some(held && (right.negative || !self.held_at(&right.denial(), instant, looks)?))
    }

    /// Can the rule's left side be what is wanted? "The left side is never transferable and its granter is the author."
    fn may_give(&self, standing: &StandingRule, wanted: &Wanted) -> bool {
        self.stands_for(standing, (wanted.subject, wanted.mode, wanted.object))
            && standing.rule.left.negative == wanted.negative
            && meet(wanted.grantor, Term::Number(standing.author))
            && wanted.option != OptionTerm::With
    }
}
