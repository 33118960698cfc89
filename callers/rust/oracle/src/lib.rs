//! An independent implementation of document 01 ("Meter access base") and of the change requests of 02
//! that have landed, for tests only. It is written from their texts and the readings of them, by brute
//! force over cells of time, to be compared with the real library. Comments quote the sentence that a
//! function transcribes, of 01 where none is named.

mod bytes;
mod cells;
mod held;
mod requests;
mod round;
pub mod session;
mod sheet;
mod simple;
mod support;

pub use cells::Cells;
use cells::Set;
use std::collections::{BTreeMap, BTreeSet};

/// "Instant 0 to 4,294,967,295".
pub const LAST: u32 = u32::MAX;
/// "Exactly 27,936 bytes".
pub const SIZE: usize = 27_936;

// "Subject 1 to 1,023. Object (a meter) 1 to 128. Mode 1 to 8. Label 1 to 65,535."
pub(crate) const SUBJECTS: u32 = 1_023;
pub(crate) const OBJECTS: u32 = 128;
pub(crate) const MODES: u32 = 8;
pub(crate) const LABELS: u32 = 65_535;
// "At most 1,024 lines, 64 rules, 128 administrators, 128 referrers."
pub(crate) const MOST_LINES: usize = 1_024;
pub(crate) const MOST_RULES: usize = 64;
pub(crate) const MOST_ADMINISTRATORS: usize = 128;
pub(crate) const MOST_REFERRERS: usize = 128;

// Request kinds.
pub const NEW: u32 = 1;
pub const GRANT: u32 = 2;
pub const DENY: u32 = 3;
pub const REVOKE: u32 = 4;
pub const REVOKEP: u32 = 5;
pub const REVOKEN: u32 = 6;
pub const ADDRULE: u32 = 7;
pub const DROPRULE: u32 = 8;
pub const GRANTADM: u32 = 9;
pub const REVOKEADM: u32 = 10;
pub const GRANTREF: u32 = 11;
pub const REVOKEREF: u32 = 12;

// Operators: "operator (1 WHENEVER, 2 ASLONGAS, 3 WHENEVERNOT, 4 UNLESS)".
pub const WHENEVER: u32 = 1;
pub const ASLONGAS: u32 = 2;
pub const WHENEVERNOT: u32 = 3;
pub const UNLESS: u32 = 4;

/// A subject, mode, object or granter of a rule: the star, or a number.
#[derive(Clone, Copy, Debug, PartialEq, Eq)]
pub enum Term {
    Any,
    Number(u32),
}

/// The option on the right of a rule: `y`, `n`, or the star.
#[derive(Clone, Copy, Debug, PartialEq, Eq)]
pub enum OptionTerm {
    With,
    Without,
    Either,
}

/// What both sides of a rule have.
#[derive(Clone, Copy, Debug, PartialEq, Eq)]
pub struct Side {
    pub subject: Term,
    pub mode: Term,
    pub object: Term,
    pub negative: bool,
}

/// A rule without its label, author and interval.
#[derive(Clone, Copy, Debug, PartialEq, Eq)]
pub struct Rule {
    pub left: Side,
    pub operator: u32,
    pub right: Side,
    pub grantor: Term,
    pub option: OptionTerm,
}

/// Fields that the kind does not name are not looked at.
#[derive(Clone, Copy, Debug, PartialEq, Eq)]
pub struct Request {
    pub now: u32,
    pub requester: u32,
    pub kind: u32,
    pub label: u32,
    pub mode: u32,
    pub object: u32,
    pub subject: u32,
    pub start: u32,
    pub end: u32,
    pub option: bool,
    pub rule: Rule,
}

#[derive(Clone, Copy, Debug, PartialEq, Eq)]
pub enum Reply {
    /// `label` is the new label or 0, `lines` the lines now in the base.
    Done {
        label: u32,
        lines: u32,
    },
    Refused(u32),
}

/// All lines of one label: "lines of one label differ only in their intervals". The lines themselves are
/// the longest runs of `when`; an entry with no cell left is not kept.
#[derive(Clone, Debug, PartialEq, Eq)]
pub(crate) struct Entry {
    pub grantor: u32,
    pub subject: u32,
    pub object: u32,
    pub mode: u32,
    pub negative: bool,
    pub option: bool,
    pub granted_at: u32,
    pub when: Set,
}

/// A rule in the base; its interval is the cells from `first` to `last`.
#[derive(Clone, Debug, PartialEq, Eq)]
pub(crate) struct StandingRule {
    pub author: u32,
    pub rule: Rule,
    pub first: usize,
    pub last: usize,
}

/// The state: owner of each object, administrators and referrers as (object, subject), entries and
/// rules by label, the clock, the last label given.
#[derive(Clone, Debug, PartialEq, Eq)]
pub struct Oracle {
    cells: Cells,
    clock: u32,
    last_label: u32,
    owners: BTreeMap<u32, u32>,
    administrators: BTreeSet<(u32, u32)>,
    referrers: BTreeSet<(u32, u32)>,
    entries: BTreeMap<u32, Entry>,
    rules: BTreeMap<u32, StandingRule>,
}

impl Oracle {
    /// "An empty base has clock 0, last label 0 and no bodies".
    pub fn empty(cells: Cells) -> Oracle {
        Oracle {
            cells,
            clock: 0,
            last_label: 0,
            owners: BTreeMap::new(),
            administrators: BTreeSet::new(),
            referrers: BTreeSet::new(),
            entries: BTreeMap::new(),
            rules: BTreeMap::new(),
        }
    }

    /// How the timeline is cut.
    pub fn cells(&self) -> &Cells {
        &self.cells
    }

    /// The clock.
    pub fn clock(&self) -> u32 {
        self.clock
    }

    /// The last label given.
    pub fn last_label(&self) -> u32 {
        self.last_label
    }

    /// The number of lines: the longest runs of all entries.
    pub fn lines(&self) -> usize {
        count_lines(&self.entries)
    }

    /// The number of rules.
    pub fn rules(&self) -> usize {
        self.rules.len()
    }

    pub(crate) fn exists(&self, object: u32) -> bool {
        self.owners.contains_key(&object)
    }

    pub(crate) fn owns(&self, subject: u32, object: u32) -> bool {
        self.owners.get(&object) == Some(&subject)
    }

    pub(crate) fn administers(&self, subject: u32, object: u32) -> bool {
        self.administrators.contains(&(object, subject))
    }

    pub(crate) fn refers(&self, subject: u32, object: u32) -> bool {
        self.referrers.contains(&(object, subject))
    }

    pub(crate) fn owns_or_administers(&self, subject: u32, object: u32) -> bool {
        self.owns(subject, object) || self.administers(subject, object)
    }

    /// "ADDRULE: the author needs own or administer on the left object, and own, administer or refer on
    /// the right one." With a starred object none: "6 and 8 are not tested for it at ADDRULE, and soundness
    /// wants no powers of its author" (CR 8).
    pub(crate) fn has_powers_for(&self, author: u32, rule: &Rule) -> bool {
        let left = |object| self.owns_or_administers(author, object);
        let right = |object| self.owns_or_administers(author, object) || self.refers(author, object);
        where_named(rule.left.object, left) && where_named(rule.right.object, right)
    }
}

pub(crate) fn count_lines(entries: &BTreeMap<u32, Entry>) -> usize {
    entries.values().map(|entry| entry.when.count_runs()).sum()
}

/// "a star for subject or mode is on both sides of a rule or neither"; "Object may now be starred, on both
/// sides or neither" (CR 8).
pub(crate) fn stars_agree(rule: &Rule) -> bool {
    (rule.left.subject == Term::Any) == (rule.right.subject == Term::Any)
        && (rule.left.mode == Term::Any) == (rule.right.mode == Term::Any)
        && (rule.left.object == Term::Any) == (rule.right.object == Term::Any)
}

/// What is asked of an object that is named, and not of a starred one.
pub(crate) fn where_named(object: Term, good: impl FnOnce(u32) -> bool) -> bool {
    match object {
        Term::Any => true,
        Term::Number(object) => good(object),
    }
}

/// "a denial on the right isn't marked transferable"
pub(crate) fn right_option_good(rule: &Rule) -> bool {
    !(rule.right.negative && rule.option == OptionTerm::With)
}

pub(crate) fn in_range(number: u32, most: u32) -> bool {
    1 <= number && number <= most
}

pub(crate) fn term_in_range(term: Term, most: u32) -> bool {
    match term {
        Term::Any => true,
        Term::Number(number) => in_range(number, most),
    }
}

/// The ranges of a rule's fields, the operator included.
pub(crate) fn rule_in_range(rule: &Rule) -> bool {
    term_in_range(rule.left.subject, SUBJECTS)
        && term_in_range(rule.left.mode, MODES)
        && term_in_range(rule.left.object, OBJECTS)
        && in_range(rule.operator, 4)
        && term_in_range(rule.right.subject, SUBJECTS)
        && term_in_range(rule.right.mode, MODES)
        && term_in_range(rule.right.object, OBJECTS)
        && term_in_range(rule.grantor, SUBJECTS)
}
