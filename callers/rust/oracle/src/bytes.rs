//! 01, "The base as bytes": writing, and reading with every sentence of soundness on its own.

use crate::held::forbidden_circle;
use crate::support::unsupported;
use crate::*;

// ---- writing -------------------------------------------------------------------------------------

/// "little-endian"
fn put16(bytes: &mut [u8], at: usize, number: u32) {
    bytes[at..at + 2].copy_from_slice(&(number as u16).to_le_bytes());
}

fn put32(bytes: &mut [u8], at: usize, number: u32) {
    bytes[at..at + 4].copy_from_slice(&number.to_le_bytes());
}

/// "Zero is the star for subject, mode and right granter", and for an object: "as byte value 0" (CR 8).
fn term_number(term: Term) -> u32 {
    match term {
        Term::Any => 0,
        Term::Number(number) => number,
    }
}

impl Oracle {
    /// The base as exactly 27,936 bytes.
    pub fn to_bytes(&self) -> Vec<u8> {
        let mut bytes = vec![0; SIZE];
        bytes[0..4].copy_from_slice(b"MRB1");
        put32(&mut bytes, 4, self.clock);
        put16(&mut bytes, 8, self.last_label);
        let mut at = 32;
        let begin = |bytes: &mut [u8], body: usize, at: usize, count: usize| {
            put16(bytes, 12 + 4 * body, at as u32);
            put16(bytes, 14 + 4 * body, count as u32);
        };
        begin(&mut bytes, 0, at, self.owners.len());
        for (&object, &owner) in &self.owners {
            put16(&mut bytes, at, object);
            put16(&mut bytes, at + 2, owner);
            at += 4;
        }
        begin(&mut bytes, 1, at, self.administrators.len());
        for &(object, subject) in &self.administrators {
            put16(&mut bytes, at, object);
            put16(&mut bytes, at + 2, subject);
            at += 4;
        }
        begin(&mut bytes, 2, at, self.referrers.len());
        for &(object, subject) in &self.referrers {
            put16(&mut bytes, at, object);
            put16(&mut bytes, at + 2, subject);
            at += 4;
        }
        begin(&mut bytes, 3, at, self.lines());
        for (&label, entry) in &self.entries {
            entry.when.each_run(&self.cells, |start, end| {
                put_line(&mut bytes[at..at + 24], label, entry, start, end);
                at += 24;
            });
        }
        begin(&mut bytes, 4, at, self.rules.len());
        for (&label, standing) in &self.rules {
            let start = self.cells.first(standing.first);
            let end = self.cells.last(standing.last);
            put_rule(&mut bytes[at..at + 28], label, standing, start, end);
            at += 28;
        }
        bytes
    }
}

/// "Line, 24 bytes: label, granter, subject, object (two each), mode, flags (one each), two zero, then
/// granted-at, start, end (four each). Flags: bit 0 set is a denial, bit 1 set is transferable".
fn put_line(bytes: &mut [u8], label: u32, entry: &Entry, start: u32, end: u32) {
    put16(bytes, 0, label);
    put16(bytes, 2, entry.grantor);
    put16(bytes, 4, entry.subject);
    put16(bytes, 6, entry.object);
    bytes[8] = entry.mode as u8;
    bytes[9] = u8::from(entry.negative) + 2 * u8::from(entry.option);
    put32(bytes, 12, entry.granted_at);
    put32(bytes, 16, start);
    put32(bytes, 20, end);
}

/// "Rule, 28 bytes: label, author, left subject, left object, right subject, right object, right granter
/// (two each), left mode, right mode, operator [...], flags (one each), two zero, start, end (four each).
/// Flags: bit 0 left is a denial, bit 1 right is a denial, bit 2 right transferable, bit 3 right option
/// starred (bit 2 then clear)."
fn put_rule(bytes: &mut [u8], label: u32, standing: &StandingRule, start: u32, end: u32) {
    let rule = &standing.rule;
    put16(bytes, 0, label);
    put16(bytes, 2, standing.author);
    put16(bytes, 4, term_number(rule.left.subject));
    put16(bytes, 6, term_number(rule.left.object));
    put16(bytes, 8, term_number(rule.right.subject));
    put16(bytes, 10, term_number(rule.right.object));
    put16(bytes, 12, term_number(rule.grantor));
    bytes[14] = term_number(rule.left.mode) as u8;
    bytes[15] = term_number(rule.right.mode) as u8;
    bytes[16] = rule.operator as u8;
    bytes[17] = u8::from(rule.left.negative)
        + 2 * u8::from(rule.right.negative)
        + match rule.option {
            OptionTerm::Without => 0,
            OptionTerm::With => 4,
            OptionTerm::Either => 8,
        };
    put32(bytes, 20, start);
    put32(bytes, 24, end);
}

// ---- reading -------------------------------------------------------------------------------------

fn get16(bytes: &[u8], at: usize) -> u32 {
    u32::from(bytes[at]) + 256 * u32::from(bytes[at + 1])
}

fn get32(bytes: &[u8], at: usize) -> u32 {
    u32::from_le_bytes([bytes[at], bytes[at + 1], bytes[at + 2], bytes[at + 3]])
}

/// Objects, administrators, referrers, lines, rules: bytes of a record, and how many there may be. 128
/// objects, as they rise within 1 to 128.
const BODIES: [(usize, usize); 5] =
    [(4, OBJECTS as usize), (4, MOST_ADMINISTRATORS), (4, MOST_REFERRERS), (24, MOST_LINES), (28, MOST_RULES)];

struct RawLine {
    label: u32,
    grantor: u32,
    subject: u32,
    object: u32,
    mode: u32,
    flags: u32,
    zero: u32,
    granted_at: u32,
    start: u32,
    end: u32,
}

struct RawRule {
    label: u32,
    author: u32,
    left_subject: u32,
    left_object: u32,
    right_subject: u32,
    right_object: u32,
    right_grantor: u32,
    left_mode: u32,
    right_mode: u32,
    operator: u32,
    flags: u32,
    zero: u32,
    start: u32,
    end: u32,
}

/// The bytes taken apart, nothing judged yet.
struct Raw {
    clock: u32,
    last_label: u32,
    objects: Vec<(u32, u32)>,
    administrators: Vec<(u32, u32)>,
    referrers: Vec<(u32, u32)>,
    lines: Vec<RawLine>,
    rules: Vec<RawRule>,
}

impl Raw {
    /// Only called on bytes whose length and contents are good, so that every body lies inside.
    fn read(bytes: &[u8]) -> Raw {
        let records = |body: usize| {
            let offset = get16(bytes, 12 + 4 * body) as usize;
            let count = get16(bytes, 14 + 4 * body) as usize;
            let width = BODIES[body].0;
            (0..count).map(move |i| &bytes[offset + i * width..offset + (i + 1) * width])
        };
        let pair = |record: &[u8]| (get16(record, 0), get16(record, 2));
        let line = |record: &[u8]| RawLine {
            label: get16(record, 0),
            grantor: get16(record, 2),
            subject: get16(record, 4),
            object: get16(record, 6),
            mode: u32::from(record[8]),
            flags: u32::from(record[9]),
            zero: get16(record, 10),
            granted_at: get32(record, 12),
            start: get32(record, 16),
            end: get32(record, 20),
        };
        let rule = |record: &[u8]| RawRule {
            label: get16(record, 0),
            author: get16(record, 2),
            left_subject: get16(record, 4),
            left_object: get16(record, 6),
            right_subject: get16(record, 8),
            right_object: get16(record, 10),
            right_grantor: get16(record, 12),
            left_mode: u32::from(record[14]),
            right_mode: u32::from(record[15]),
            operator: u32::from(record[16]),
            flags: u32::from(record[17]),
            zero: get16(record, 18),
            start: get32(record, 20),
            end: get32(record, 24),
        };
        Raw {
            clock: get32(bytes, 4),
            last_label: get16(bytes, 8),
            objects: records(0).map(pair).collect(),
            administrators: records(1).map(pair).collect(),
            referrers: records(2).map(pair).collect(),
            lines: records(3).map(line).collect(),
            rules: records(4).map(rule).collect(),
        }
    }

    fn owner_of(&self, object: u32) -> Option<u32> {
        self.objects.iter().find(|&&(number, _)| number == object).map(|&(_, owner)| owner)
    }
}

impl RawLine {
    fn negative(&self) -> bool {
        self.flags & 1 != 0
    }
    fn option(&self) -> bool {
        self.flags & 2 != 0
    }
}

fn term(number: u32) -> Term {
    if number == 0 {
        Term::Any
    } else {
        Term::Number(number)
    }
}

impl RawRule {
    fn rule(&self) -> Rule {
        Rule {
            left: Side {
                subject: term(self.left_subject),
                mode: term(self.left_mode),
                object: term(self.left_object),
                negative: self.flags & 1 != 0,
            },
            operator: self.operator,
            right: Side {
                subject: term(self.right_subject),
                mode: term(self.right_mode),
                object: term(self.right_object),
                negative: self.flags & 2 != 0,
            },
            grantor: term(self.right_grantor),
            option: if self.flags & 8 != 0 {
                OptionTerm::Either
            } else if self.flags & 4 != 0 {
                OptionTerm::With
            } else {
                OptionTerm::Without
            },
        }
    }
}

// ---- soundness, on the bytes ---------------------------------------------------------------------

/// "Exactly 27,936 bytes"
fn length_good(bytes: &[u8]) -> bool {
    bytes.len() == SIZE
}

/// "Bytes 0 to 3: the ASCII letters `MRB1`."
fn mark_good(bytes: &[u8]) -> bool {
    &bytes[0..4] == b"MRB1"
}

/// "10 to 11: zero."
fn header_zero_good(bytes: &[u8]) -> bool {
    get16(bytes, 10) == 0
}

/// "At most 1,024 lines, 64 rules, 128 administrators, 128 referrers." And 128 objects.
fn counts_good(bytes: &[u8]) -> bool {
    (0..5).all(|body| get16(bytes, 14 + 4 * body) as usize <= BODIES[body].1)
}

/// "The first body starts at 32, each next where the one before ends."
fn offsets_good(bytes: &[u8]) -> bool {
    let mut expected = 32;
    for body in 0..5 {
        if get16(bytes, 12 + 4 * body) as usize != expected {
            return false;
        }
        expected += BODIES[body].0 * get16(bytes, 14 + 4 * body) as usize;
    }
    true
}

static ZEROS: [u8; SIZE] = [0; SIZE];

/// "All bytes behind the last body are zero." Asked after counts and offsets.
fn tail_zero(bytes: &[u8]) -> bool {
    let end = get16(bytes, 28) as usize + BODIES[4].0 * get16(bytes, 30) as usize;
    bytes[end..] == ZEROS[end..]
}

// ---- soundness, on what was taken apart ----------------------------------------------------------

/// "Objects name their owner and rise by number"
fn objects_rise(raw: &Raw) -> bool {
    raw.objects.windows(2).all(|two| two[0].0 < two[1].0)
}

/// "the other two rise by object, then subject"
fn privileges_rise(raw: &Raw) -> bool {
    raw.administrators.windows(2).all(|two| two[0] < two[1]) && raw.referrers.windows(2).all(|two| two[0] < two[1])
}

/// Line: "two zero"
fn line_zeros_good(raw: &Raw) -> bool {
    raw.lines.iter().all(|line| line.zero == 0)
}

/// Line: "the other bits are clear"
fn line_flags_good(raw: &Raw) -> bool {
    raw.lines.iter().all(|line| line.flags <= 3)
}

/// "Lines rise by label, then start."
fn lines_rise(raw: &Raw) -> bool {
    raw.lines.windows(2).all(|two| (two[0].label, two[0].start) < (two[1].label, two[1].start))
}

/// Rule: "operator (1 WHENEVER, 2 ASLONGAS, 3 WHENEVERNOT, 4 UNLESS)"
fn operators_good(raw: &Raw) -> bool {
    raw.rules.iter().all(|rule| in_range(rule.operator, 4))
}

/// Rule: the flags have no bits but the four that are named. (01 says "the other bits are clear" for lines
/// only; taken here for rules as well.)
fn rule_flags_good(raw: &Raw) -> bool {
    raw.rules.iter().all(|rule| rule.flags <= 15)
}

/// Rule: "bit 3 right option starred (bit 2 then clear)"
fn starred_option_good(raw: &Raw) -> bool {
    raw.rules.iter().all(|rule| !(rule.flags & 8 != 0 && rule.flags & 4 != 0))
}

/// Rule: "two zero"
fn rule_zeros_good(raw: &Raw) -> bool {
    raw.rules.iter().all(|rule| rule.zero == 0)
}

/// "Rules rise by label."
fn rules_rise(raw: &Raw) -> bool {
    raw.rules.windows(2).all(|two| two[0].label < two[1].label)
}

/// "ranges hold": objects and owners
fn object_ranges_hold(raw: &Raw) -> bool {
    raw.objects.iter().all(|&(object, owner)| in_range(object, OBJECTS) && in_range(owner, SUBJECTS))
}

/// "ranges hold": administrators and referrers
fn privilege_ranges_hold(raw: &Raw) -> bool {
    raw.administrators
        .iter()
        .chain(&raw.referrers)
        .all(|&(object, subject)| in_range(object, OBJECTS) && in_range(subject, SUBJECTS))
}

/// "ranges hold": lines
fn line_ranges_hold(raw: &Raw) -> bool {
    raw.lines.iter().all(|line| {
        in_range(line.label, LABELS)
            && in_range(line.grantor, SUBJECTS)
            && in_range(line.subject, SUBJECTS)
            && in_range(line.object, OBJECTS)
            && in_range(line.mode, MODES)
    })
}

/// "ranges hold": rules; "Zero is the star for subject, mode and right granter", and for an object (CR 8).
fn rule_ranges_hold(raw: &Raw) -> bool {
    raw.rules.iter().all(|rule| {
        in_range(rule.label, LABELS)
            && in_range(rule.author, SUBJECTS)
            && rule.left_subject <= SUBJECTS
            && rule.left_object <= OBJECTS
            && rule.right_subject <= SUBJECTS
            && rule.right_object <= OBJECTS
            && rule.right_grantor <= SUBJECTS
            && rule.left_mode <= MODES
            && rule.right_mode <= MODES
    })
}

/// "start is not above end"
fn starts_not_above_ends(raw: &Raw) -> bool {
    raw.lines.iter().all(|line| line.start <= line.end) && raw.rules.iter().all(|rule| rule.start <= rule.end)
}

/// "granted-at is not above start or clock"
fn granted_at_good(raw: &Raw) -> bool {
    raw.lines.iter().all(|line| line.granted_at <= line.start && line.granted_at <= raw.clock)
}

/// "a denial is not transferable"
fn denials_not_transferable(raw: &Raw) -> bool {
    raw.lines.iter().all(|line| !(line.negative() && line.option()))
}

/// "objects named exist": a star names none.
fn objects_named_exist(raw: &Raw) -> bool {
    let exists = |object: u32| raw.owner_of(object).is_some();
    raw.administrators.iter().chain(&raw.referrers).all(|&(object, _)| exists(object))
        && raw.lines.iter().all(|line| exists(line.object))
        && raw.rules.iter().all(|rule| where_named(term(rule.left_object), exists))
        && raw.rules.iter().all(|rule| where_named(term(rule.right_object), exists))
}

/// "the owner is no administrator or referrer of that object"
fn owner_holds_no_privilege(raw: &Raw) -> bool {
    raw.administrators.iter().chain(&raw.referrers).all(|&(object, subject)| raw.owner_of(object) != Some(subject))
}

/// "no line and rule share a label"
fn no_label_shared(raw: &Raw) -> bool {
    raw.rules.iter().all(|rule| raw.lines.iter().all(|line| line.label != rule.label))
}

/// "and none exceeds the last given"
fn no_label_above_last(raw: &Raw) -> bool {
    raw.lines.iter().all(|line| line.label <= raw.last_label)
        && raw.rules.iter().all(|rule| rule.label <= raw.last_label)
}

/// "lines of one label differ only in their intervals". Lines of one label are neighbours, as they rise.
fn lines_of_a_label_agree(raw: &Raw) -> bool {
    raw.lines.windows(2).all(|two| {
        let (one, other) = (&two[0], &two[1]);
        one.label != other.label
            || (one.grantor == other.grantor
                && one.subject == other.subject
                && one.object == other.object
                && one.mode == other.mode
                && one.flags == other.flags
                && one.granted_at == other.granted_at)
    })
}

/// "with at least one instant missing between two": the instant after the one's end is before the other's
/// start.
fn instant_missing_between(raw: &Raw) -> bool {
    raw.lines.windows(2).all(|two| {
        let (one, other) = (&two[0], &two[1]);
        one.label != other.label || u64::from(one.end) + 1 < u64::from(other.start)
    })
}

/// "a star for subject or mode is on both sides of a rule or neither", and one for an object (CR 8)
fn stars_good(raw: &Raw) -> bool {
    raw.rules.iter().all(|rule| stars_agree(&rule.rule()))
}

/// "a denial on the right isn't marked transferable"
fn right_options_good(raw: &Raw) -> bool {
    raw.rules.iter().all(|rule| right_option_good(&rule.rule()))
}

// ---- soundness, on the state ---------------------------------------------------------------------

/// "each line is backed at each of its instants"
fn every_line_supported(base: &Oracle) -> bool {
    let asked: BTreeSet<(u32, u32)> = base.entries.values().map(|entry| (entry.object, entry.mode)).collect();
    asked.into_iter().all(|(object, mode)| unsupported(&base.entries, base, object, mode).is_empty())
}

/// "each author has the powers that ADDRULE needs"
fn authors_have_powers(base: &Oracle) -> bool {
    base.rules.values().all(|standing| base.has_powers_for(standing.author, &standing.rule))
}

/// "the rules have no forbidden circle"
fn is_stratified(base: &Oracle) -> bool {
    let rules: Vec<&StandingRule> = base.rules.values().collect();
    !forbidden_circle(&rules)
}

impl Oracle {
    /// The state that the bytes stand for, or None exactly if they are no sound base. Any length, any
    /// content. The cells are cut at every start and after every end in the bytes, and at each of
    /// `cells_extra` (each the first instant of a cell, as for `Cells::from_boundaries`).
    pub fn from_bytes(bytes: &[u8], cells_extra: &[u32]) -> Option<Oracle> {
        let bytes_good = length_good(bytes)
            && mark_good(bytes)
            && header_zero_good(bytes)
            && counts_good(bytes)
            && offsets_good(bytes)
            && tail_zero(bytes);
        if !bytes_good {
            return None;
        }
        let raw = Raw::read(bytes);
        let raw_good = objects_rise(&raw)
            && privileges_rise(&raw)
            && line_zeros_good(&raw)
            && line_flags_good(&raw)
            && lines_rise(&raw)
            && operators_good(&raw)
            && rule_flags_good(&raw)
            && starred_option_good(&raw)
            && rule_zeros_good(&raw)
            && rules_rise(&raw)
            && object_ranges_hold(&raw)
            && privilege_ranges_hold(&raw)
            && line_ranges_hold(&raw)
            && rule_ranges_hold(&raw)
            && starts_not_above_ends(&raw)
            && granted_at_good(&raw)
            && denials_not_transferable(&raw)
            && objects_named_exist(&raw)
            && owner_holds_no_privilege(&raw)
            && no_label_shared(&raw)
            && no_label_above_last(&raw)
            && lines_of_a_label_agree(&raw)
            && instant_missing_between(&raw)
            && stars_good(&raw)
            && right_options_good(&raw);
        if !raw_good {
            return None;
        }
        let base = state(&raw, cut(&raw, cells_extra));
        let state_good = every_line_supported(&base) && authors_have_powers(&base) && is_stratified(&base);
        if !state_good {
            return None;
        }
        Some(base)
    }
}

/// The timeline cut at every start and after every end.
fn cut(raw: &Raw, extra: &[u32]) -> Cells {
    let mut boundaries = extra.to_vec();
    let lines = raw.lines.iter().map(|line| (line.start, line.end));
    let rules = raw.rules.iter().map(|rule| (rule.start, rule.end));
    for (start, end) in lines.chain(rules) {
        boundaries.push(start);
        if end < LAST {
            boundaries.push(end + 1);
        }
    }
    Cells::from_boundaries(boundaries)
}

fn state(raw: &Raw, cells: Cells) -> Oracle {
    let mut base = Oracle::empty(cells);
    base.clock = raw.clock;
    base.last_label = raw.last_label;
    base.owners = raw.objects.iter().copied().collect();
    base.administrators = raw.administrators.iter().copied().collect();
    base.referrers = raw.referrers.iter().copied().collect();
    for line in &raw.lines {
        let first = base.cells.starting(line.start);
        let last = base.cells.ending(line.end);
        let entry = base.entries.entry(line.label).or_insert_with(|| Entry {
            grantor: line.grantor,
            subject: line.subject,
            object: line.object,
            mode: line.mode,
            negative: line.negative(),
            option: line.option(),
            granted_at: line.granted_at,
            when: Set::empty(&base.cells),
        });
        for cell in first..=last {
            entry.when.put(cell);
        }
    }
    for rule in &raw.rules {
        let first = base.cells.starting(rule.start);
        let last = base.cells.ending(rule.end);
        let standing = StandingRule { author: rule.author, rule: rule.rule(), first, last };
        base.rules.insert(rule.label, standing);
    }
    base
}
