//! 01, "Requests" and "Replies that refuse", rows 3 to 13; 02, CR 4, row 14, CR 7 for row 12, and CR 8 for rules
//! with starred objects.

use crate::held::forbidden_circle;
use crate::support::restrict_to_supported;
use crate::*;

impl Oracle {
    /// "The lowest number that applies is given. Nothing lent is altered." 14 is "checked after 8 and before 9".
    pub fn request(&mut self, q: &Request) -> Reply {
        if self.out_of_range(q) {
            return Reply::Refused(3);
        }
        if self.behind_clock(q) {
            return Reply::Refused(4);
        }
        if self.bad_interval(q) {
            return Reply::Refused(5);
        }
        if self.no_such_object(q) {
            return Reply::Refused(6);
        }
        if self.no_such_label(q) {
            return Reply::Refused(7);
        }
        if self.not_permitted(q) {
            return Reply::Refused(8);
        }
        if self.barred(q) {
            return Reply::Refused(14);
        }
        if self.not_supported(q) {
            return Reply::Refused(9);
        }
        if self.already_so(q) {
            return Reply::Refused(10);
        }
        if self.not_held(q) {
            return Reply::Refused(11);
        }
        if self.not_stratified(q) {
            return Reply::Refused(12);
        }
        match self.carry_out(q) {
            None => Reply::Refused(13),
            Some(label) => {
                // "An accepted request sets the clock to now."
                self.clock = q.now;
                Reply::Done { label, lines: self.lines() as u32 }
            }
        }
    }

    /// 3: "unknown kind, a field outside its range, or a sound rule's star or option rule broken"
    fn out_of_range(&self, q: &Request) -> bool {
        let fields_good = match q.kind {
            NEW => in_range(q.object, OBJECTS),
            GRANT | DENY | REVOKEP | REVOKEN => {
                in_range(q.mode, MODES) && in_range(q.object, OBJECTS) && in_range(q.subject, SUBJECTS)
            }
            REVOKE | DROPRULE => in_range(q.label, LABELS),
            ADDRULE => rule_in_range(&q.rule) && stars_agree(&q.rule) && right_option_good(&q.rule),
            GRANTADM | REVOKEADM | GRANTREF | REVOKEREF => in_range(q.object, OBJECTS) && in_range(q.subject, SUBJECTS),
            _ => false, // unknown kind
        };
        !(fields_good && in_range(q.requester, SUBJECTS))
    }

    /// 4: "now is below the clock"
    fn behind_clock(&self, q: &Request) -> bool {
        q.now < self.clock
    }

    /// 5: "end below start; or a grant, denial or rule starts before now"
    fn bad_interval(&self, q: &Request) -> bool {
        match q.kind {
            GRANT | DENY | ADDRULE => q.end < q.start || q.start < q.now,
            REVOKEP | REVOKEN => q.end < q.start,
            _ => false,
        }
    }

    /// 6: "the object (for a rule, either one) does not exist, NEW excepted"; "6 and 8 are not tested" for a
    /// starred one (CR 8).
    fn no_such_object(&self, q: &Request) -> bool {
        match q.kind {
            GRANT | DENY | REVOKEP | REVOKEN | GRANTADM | REVOKEADM | GRANTREF | REVOKEREF => !self.exists(q.object),
            ADDRULE => {
                let named_exists = |object| where_named(object, |object| self.exists(object));
                !named_exists(q.rule.left.object) || !named_exists(q.rule.right.object)
            }
            _ => false,
        }
    }

    /// 7: "no line (REVOKE) or rule (DROPRULE) has the label"
    fn no_such_label(&self, q: &Request) -> bool {
        match q.kind {
            REVOKE => !self.entries.contains_key(&q.label),
            DROPRULE => !self.rules.contains_key(&q.label),
            _ => false,
        }
    }

    /// 8: "requester is not its granter (REVOKE) or author (DROPRULE), not the owner (the four privilege
    /// requests), or lacks a rule's powers (ADDRULE)"
    fn not_permitted(&self, q: &Request) -> bool {
        match q.kind {
            REVOKE => self.entries[&q.label].grantor != q.requester,
            DROPRULE => self.rules[&q.label].author != q.requester,
            GRANTADM | REVOKEADM | GRANTREF | REVOKEREF => !self.owns(q.requester, q.object),
            ADDRULE => !self.has_powers_for(q.requester, &q.rule),
            _ => false,
        }
    }

    /// 14: "A GRANT or DENY fails if some instant of its interval is covered by a line denying the requester that
    /// object and mode. Owners and administrators of the object are exempt."
    fn barred(&self, q: &Request) -> bool {
        if !matches!(q.kind, GRANT | DENY) || self.owns_or_administers(q.requester, q.object) {
            return false;
        }
        let (first, last) = self.span(q);
        self.entries.values().any(|entry| {
            entry.negative
                && (entry.subject, entry.object, entry.mode) == (q.requester, q.object, q.mode)
                && (first..=last).any(|cell| entry.when.has(cell))
        })
    }

    /// 9: "the giver of a grant or denial is neither owner nor administrator, and some instant of it is
    /// not covered"
    fn not_supported(&self, q: &Request) -> bool {
        matches!(q.kind, GRANT | DENY)
            && !self.owns_or_administers(q.requester, q.object)
            && !self.uncovered_cells(q).is_empty()
    }

    /// 10: "object exists (NEW); subject is owner or already holds that privilege (GRANTADM, GRANTREF)"
    fn already_so(&self, q: &Request) -> bool {
        match q.kind {
            NEW => self.exists(q.object),
            GRANTADM => self.owns(q.subject, q.object) || self.administers(q.subject, q.object),
            GRANTREF => self.owns(q.subject, q.object) || self.refers(q.subject, q.object),
            _ => false,
        }
    }

    /// 11: "the privilege to withdraw is not there"
    fn not_held(&self, q: &Request) -> bool {
        match q.kind {
            REVOKEADM => !self.administers(q.subject, q.object),
            REVOKEREF => !self.refers(q.subject, q.object),
            _ => false,
        }
    }

    /// 12: "the rule would close a forbidden circle"
    fn not_stratified(&self, q: &Request) -> bool {
        if q.kind != ADDRULE {
            return false;
        }
        let new = self.new_rule(q);
        let mut rules: Vec<&StandingRule> = self.rules.values().collect();
        rules.push(&new);
        forbidden_circle(&rules)
    }

    /// The first and last cell of the interval that a request names.
    fn span(&self, q: &Request) -> (usize, usize) {
        (self.cells.starting(q.start), self.cells.ending(q.end))
    }

    pub(crate) fn new_rule(&self, q: &Request) -> StandingRule {
        let (first, last) = self.span(q);
        StandingRule { author: q.requester, rule: q.rule, first, last }
    }

    /// The cells of the interval that are not covered: "The requester must [...] hold positive
    /// transferable lines on that object and mode, granted strictly before now, that together cover every
    /// instant." Held lines are those whose subject is the requester.
    fn uncovered_cells(&self, q: &Request) -> Set {
        let (first, last) = self.span(q);
        let mut open = Set::span(&self.cells, first, last);
        for entry in self.entries.values() {
            if entry.subject == q.requester
                && !entry.negative
                && entry.option
                && entry.object == q.object
                && entry.mode == q.mode
                && entry.granted_at < q.now
            {
                open.drop_all(&entry.when);
            }
        }
        open
    }

    /// For a GRANT or DENY that is refused with 9: the cells of its interval that are not covered.
    pub fn uncovered(&self, q: &Request) -> Vec<bool> {
        let open = self.uncovered_cells(q);
        (0..self.cells.count()).map(|cell| open.has(cell)).collect()
    }

    /// For a GRANT or DENY that is refused with 9: "the earliest uncovered" instant of its interval (02, CR 3).
    pub fn earliest_uncovered(&self, q: &Request) -> Option<u32> {
        let cell = self.uncovered(q).iter().position(|&open| open)?;
        Some(self.cells.first(cell))
    }

    /// What the request does, and row 13: "the resulting base would pass a count, no label is left for a
    /// new line or rule". None is 13 and leaves everything as it was. Some is the new label or 0.
    fn carry_out(&mut self, q: &Request) -> Option<u32> {
        match q.kind {
            NEW => {
                // "NEW object: the requester becomes owner."
                self.owners.insert(q.object, q.requester);
                Some(0)
            }
            GRANT | DENY => {
                // "GRANT and DENY add one line with a new label, granted-at now."
                let (first, last) = self.span(q);
                if self.last_label == LABELS || self.lines() + 1 > MOST_LINES {
                    return None;
                }
                let entry = Entry {
                    grantor: q.requester,
                    subject: q.subject,
                    object: q.object,
                    mode: q.mode,
                    negative: q.kind == DENY,
                    option: q.kind == GRANT && q.option,
                    granted_at: q.now,
                    when: Set::span(&self.cells, first, last),
                };
                let label = self.take_label();
                self.entries.insert(label, entry);
                Some(label)
            }
            REVOKE => {
                // "REVOKE label removes all lines of that label."
                let mut entries = self.entries.clone();
                let gone = entries.remove(&q.label).expect("row 7 let it through");
                // "All three then take out of the lines on that object and mode every instant that is
                // not backed."
                restrict_to_supported(&mut entries, self, gone.object, gone.mode);
                self.settle(entries)
            }
            REVOKEP | REVOKEN => {
                // "REVOKEP and REVOKEN (mode, object, subject, interval) take the interval out of the
                // requester's positive lines or denials." His are the lines that he granted.
                let (first, last) = self.span(q);
                let mut entries = self.entries.clone();
                for entry in entries.values_mut() {
                    if entry.grantor == q.requester
                        && entry.mode == q.mode
                        && entry.object == q.object
                        && entry.subject == q.subject
                        && entry.negative == (q.kind == REVOKEN)
                    {
                        for cell in first..=last {
                            entry.when.drop(cell);
                        }
                    }
                }
                entries.retain(|_, entry| !entry.when.is_empty());
                restrict_to_supported(&mut entries, self, q.object, q.mode);
                self.settle(entries)
            }
            ADDRULE => {
                if self.last_label == LABELS || self.rules.len() + 1 > MOST_RULES {
                    return None;
                }
                let rule = self.new_rule(q);
                let label = self.take_label();
                self.rules.insert(label, rule);
                Some(label)
            }
            DROPRULE => {
                self.rules.remove(&q.label);
                Some(0)
            }
            GRANTADM => {
                if self.administrators.len() + 1 > MOST_ADMINISTRATORS {
                    return None;
                }
                self.administrators.insert((q.object, q.subject));
                Some(0)
            }
            GRANTREF => {
                if self.referrers.len() + 1 > MOST_REFERRERS {
                    return None;
                }
                self.referrers.insert((q.object, q.subject));
                Some(0)
            }
            REVOKEADM => {
                self.administrators.remove(&(q.object, q.subject));
                // "REVOKEADM removes every line on the object that the subject granted, even one a
                // transferable grant would back, then all unbacked instants on that object"
                let mut entries = self.entries.clone();
                entries.retain(|_, entry| !(entry.object == q.object && entry.grantor == q.subject));
                for mode in 1..=MODES {
                    restrict_to_supported(&mut entries, self, q.object, mode);
                }
                if self.settle(entries).is_none() {
                    self.administrators.insert((q.object, q.subject));
                    return None;
                }
                // "and the subject's rules with it on the left, and on the right unless a referrer." A rule
                // with starred objects names none: "withdrawing administration narrows it and doesn't delete
                // it" (CR 8).
                let refers = self.refers(q.subject, q.object);
                self.rules.retain(|_, standing| {
                    let with_it_left = standing.rule.left.object == Term::Number(q.object);
                    let with_it_right = standing.rule.right.object == Term::Number(q.object);
                    !(standing.author == q.subject && (with_it_left || with_it_right && !refers))
                });
                Some(0)
            }
            REVOKEREF => {
                self.referrers.remove(&(q.object, q.subject));
                // "REVOKEREF removes the subject's rules with it on the right unless an administrator."
                let administers = self.administers(q.subject, q.object);
                self.rules.retain(|_, standing| {
                    let with_it_right = standing.rule.right.object == Term::Number(q.object);
                    !(standing.author == q.subject && with_it_right && !administers)
                });
                Some(0)
            }
            _ => unreachable!("row 3 refuses unknown kinds"),
        }
    }

    /// "a new one is the last given plus one, and none is given again"
    fn take_label(&mut self) -> u32 {
        self.last_label += 1;
        self.last_label
    }

    /// The entries after a withdrawal become the base's, unless "the resulting base would pass a count".
    fn settle(&mut self, entries: BTreeMap<u32, Entry>) -> Option<u32> {
        if count_lines(&entries) > MOST_LINES {
            return None;
        }
        self.entries = entries;
        Some(0)
    }
}
