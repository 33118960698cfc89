//! 01, "Rules", with 02, CR 7, "Rules look at rights in force", and CR 8, "One rule for all my meters"; and the two
//! questions.

use crate::*;

/// "a WHENEVERNOT or UNLESS"
fn negated(standing: &StandingRule) -> bool {
    standing.rule.operator == WHENEVERNOT || standing.rule.operator == UNLESS
}

/// "equal or starred on either side"
pub(crate) fn meet(one: Term, other: Term) -> bool {
    one == Term::Any || other == Term::Any || one == other
}

/// "Rule q feeds rule r if q's left side can fit r's right: same sign and object, subject and mode equal
/// or starred on either side, granter starred or q's author, option starred or not transferable." And "A
/// starred object fits any in feeding and in the links of CR 7" (CR 8), whoever the authors are.
pub(crate) fn feeds(q: &StandingRule, r: &StandingRule) -> bool {
    let left = &q.rule.left;
    let right = &r.rule.right;
    left.negative == right.negative
        && meet(left.object, right.object)
        && meet(left.subject, right.subject)
        && meet(left.mode, right.mode)
        && (r.rule.grantor == Term::Any || r.rule.grantor == Term::Number(q.author))
        && (r.rule.option == OptionTerm::Either || r.rule.option == OptionTerm::Without)
}

/// "a rule with a denial on its left also links to every rule whose positive right side has the same object,
/// with subject and mode equal or starred on either side"; granter and option are not asked about.
pub(crate) fn links(q: &StandingRule, r: &StandingRule) -> bool {
    let left = &q.rule.left;
    let right = &r.rule.right;
    left.negative
        && !right.negative
        && meet(left.object, right.object)
        && meet(left.subject, right.subject)
        && meet(left.mode, right.mode)
}

/// 01 and CR 7 name two sorts of circles; neither may be there.
pub(crate) fn forbidden_circle(rules: &[&StandingRule]) -> bool {
    negated_circle(rules) || linked_circle(rules)
}

/// "A circle of feeding with a WHENEVERNOT or UNLESS in it is forbidden; a rule that feeds itself is a
/// circle." From each such rule a path is searched that comes back to it.
fn negated_circle(rules: &[&StandingRule]) -> bool {
    (0..rules.len()).any(|i| negated(rules[i]) && reaches(rules, i, i, false))
}

/// "a circle with such a link is forbidden": of feeding and links mixed, and a rule that links to itself is
/// one. From the end of each link a path is searched that comes back to its beginning.
fn linked_circle(rules: &[&StandingRule]) -> bool {
    let back = |q: usize, r: usize| q == r || reaches(rules, r, q, true);
    (0..rules.len()).any(|q| (0..rules.len()).any(|r| links(rules[q], rules[r]) && back(q, r)))
}

/// Whether a path of feeding, or of feeding and links, of one step at least leads from a rule to another or
/// back to it.
pub(crate) fn reaches(rules: &[&StandingRule], from: usize, to: usize, with_links: bool) -> bool {
    let mut seen = vec![false; rules.len()];
    let mut to_visit = vec![from];
    while let Some(i) = to_visit.pop() {
        for j in 0..rules.len() {
            if feeds(rules[i], rules[j]) || with_links && links(rules[i], rules[j]) {
                if j == to {
                    return true;
                }
                if !seen[j] {
                    seen[j] = true;
                    to_visit.push(j);
                }
            }
        }
    }
    false
}

/// "A rule's rank is the most WHENEVERNOT and UNLESS rules on a feeding path that ends in it, itself
/// included", where paths go over links too "and the link counts one in a rank". Paths are lengthened by one
/// rule at a time until no rank rises any more; that ends, since without a forbidden circle going round a
/// circle adds nothing.
pub(crate) fn strata(rules: &[&StandingRule]) -> Vec<u32> {
    let own: Vec<u32> = rules.iter().map(|rule| u32::from(negated(rule))).collect();
    let mut strata = own.clone();
    loop {
        let mut risen = false;
        for r in 0..rules.len() {
            for q in 0..rules.len() {
                let link = links(rules[q], rules[r]);
                let through = strata[q] + u32::from(link) + own[r];
                if through > strata[r] && (link || feeds(rules[q], rules[r])) {
                    strata[r] = through;
                    risen = true;
                }
            }
        }
        if !risen {
            return strata;
        }
    }
}

/// What may be asked to be held: the right side of a rule with its subject, mode and object put in for the
/// stars, or a question.
#[derive(Clone, Copy)]
pub(crate) struct Wanted {
    pub subject: u32,
    pub mode: u32,
    pub object: u32,
    pub negative: bool,
    pub grantor: Term,
    pub option: OptionTerm,
}

impl Wanted {
    /// Does what a line gives fit? "A star for granter or option fits any"; otherwise the option fits
    /// exactly (A59).
    pub(crate) fn fits_line(&self, entry: &Entry) -> bool {
        self.subject == entry.subject
            && self.mode == entry.mode
            && self.object == entry.object
            && self.negative == entry.negative
            && (self.grantor == Term::Any || self.grantor == Term::Number(entry.grantor))
            && match self.option {
                OptionTerm::Either => true,
                OptionTerm::With => entry.option,
                OptionTerm::Without => !entry.option,
            }
    }

    /// "no denial for that subject, object and mode [...], whoever gave it": what must not be held where
    /// this, a positive right side, counts as held.
    pub(crate) fn denial(&self) -> Wanted {
        Wanted { negative: true, grantor: Term::Any, option: OptionTerm::Either, ..*self }
    }

    /// Does what a rule gives fit? "The left side is never transferable and its granter is the author."
    fn fits_rule(&self, single: &Single) -> bool {
        self.subject == single.subject
            && self.mode == single.mode
            && self.object == single.object
            && self.negative == single.negative
            && (self.grantor == Term::Any || self.grantor == Term::Number(single.author))
            && self.option != OptionTerm::With
    }
}

/// "A starred rule stands for one rule per subject or mode, the same on both sides", and "for each object on which
/// its author is owner or administrator at the time of the question" (CR 8). One of those.
struct Single {
    // the left side and its granter
    subject: u32,
    mode: u32,
    object: u32,
    negative: bool,
    author: u32,
    operator: u32,
    first: usize,
    last: usize,
    stratum: u32,
    wanted: Wanted,
    /// The cells where the right side is held, as far as is known: by lines from the outset.
    right: Set,
    /// The cells where the right side, if it is positive, is denied, likewise.
    denied: Set,
    /// The cells at which this rule gives its left side, as far as is known.
    gives: Set,
}

/// The subject, mode or object of a side when the rule is read for a given left one.
pub(crate) fn put_in(term: Term, for_star: u32) -> u32 {
    match term {
        Term::Any => for_star,
        Term::Number(number) => number,
    }
}

/// Subject, mode and object of a side without stars, or of a question.
pub(crate) type Place = (u32, u32, u32);

/// The right side's place when the rule is read for a given left one: what stands for a star is "the same on
/// both sides".
fn right_place(rule: &Rule, (subject, mode, object): Place) -> Place {
    (put_in(rule.right.subject, subject), put_in(rule.right.mode, mode), put_in(rule.right.object, object))
}

impl Oracle {
    /// Does the rule stand for one with this place on the left? A starred object "stands for each object on
    /// which its author is owner or administrator at the time of the question" (CR 8): as the base has them now,
    /// for all instants; a referrer is neither.
    pub(crate) fn stands_for(&self, standing: &StandingRule, (subject, mode, object): Place) -> bool {
        let left = &standing.rule.left;
        meet(left.subject, Term::Number(subject))
            && meet(left.mode, Term::Number(mode))
            && match left.object {
                Term::Any => self.owns_or_administers(standing.author, object),
                Term::Number(number) => number == object,
            }
    }

    /// The places over which stars have to be expanded to answer a question about one: that place itself,
    /// and with a place also the right side's of every rule that stands for it on the left. That is enough:
    /// whether something is held about a place is decided by lines about that place and by rules with that
    /// place on the left, and whether such a rule gives it is decided by what is held about the place on its
    /// right, denials of that place included; no other place is ever asked about. (A test compares with the
    /// expansion over all places.)
    fn places_that_matter(&self, asked: Place) -> Vec<Place> {
        let mut places = vec![asked];
        let mut found = BTreeSet::from([asked]);
        let mut next = 0;
        while next < places.len() {
            let place = places[next];
            next += 1;
            for standing in self.rules.values() {
                if self.stands_for(standing, place) {
                    let right = right_place(&standing.rule, place);
                    if found.insert(right) {
                        places.push(right);
                    }
                }
            }
        }
        places
    }

    /// The single rules that the base's rules stand for, about the given places.
    fn singles(&self, places: &[Place]) -> Vec<Single> {
        if self.rules.is_empty() {
            return Vec::new();
        }
        let rules: Vec<&StandingRule> = self.rules.values().collect();
        let strata = strata(&rules);
        let mut singles = Vec::new();
        for (standing, stratum) in rules.into_iter().zip(strata) {
            let rule = &standing.rule;
            for &place in places {
                if !self.stands_for(standing, place) {
                    continue;
                }
                let (subject, mode, object) = right_place(rule, place);
                let negative = rule.right.negative;
                let wanted = Wanted { subject, mode, object, negative, grantor: rule.grantor, option: rule.option };
                let (subject, mode, object) = place;
                singles.push(Single {
                    subject,
                    mode,
                    object,
                    negative: rule.left.negative,
                    author: standing.author,
                    operator: rule.operator,
                    first: standing.first,
                    last: standing.last,
                    stratum,
                    wanted,
                    right: self.held_by_lines(&wanted),
                    denied: if wanted.negative {
                        Set::empty(&self.cells)
                    } else {
                        self.held_by_lines(&wanted.denial())
                    },
                    gives: Set::empty(&self.cells),
                });
            }
        }
        singles
    }

    /// "Held means given by a line [...]"
    fn held_by_lines(&self, wanted: &Wanted) -> Set {
        let mut held = Set::empty(&self.cells);
        for entry in self.entries.values() {
            if wanted.fits_line(entry) {
                held.put_all(&entry.when);
            }
        }
        held
    }

    /// "What is held is built rank by rank, each the smallest set closed under its rules."
    fn build(&self, places: &[Place]) -> Vec<Single> {
        let mut singles = self.singles(places);
        let highest = singles.iter().map(|single| single.stratum).max().unwrap_or(0);
        for stratum in 0..=highest {
            // Add what the rules of this rank give until nothing is added any more.
            loop {
                let mut added = false;
                for r in 0..singles.len() {
                    if singles[r].stratum == stratum {
                        added |= apply(&mut singles, r);
                    }
                }
                if !added {
                    break;
                }
            }
        }
        singles
    }

    /// The cells where MAY says yes: "MAY is yes exactly if a positive authorization is held and no
    /// denial is." By any granter, with any option.
    fn yes(&self, (subject, mode, object): Place, places: &[Place]) -> Set {
        let singles = self.build(places);
        let held = |negative: bool| {
            let wanted = Wanted { subject, mode, object, negative, grantor: Term::Any, option: OptionTerm::Either };
            let mut held = self.held_by_lines(&wanted);
            for single in &singles {
                if wanted.fits_rule(single) {
                    held.put_all(&single.gives);
                }
            }
            held
        };
        let mut yes = held(false);
        yes.drop_all(&held(true));
        yes
    }

    /// Rows 3 and 6 for the questions.
    pub(crate) fn question_refused(&self, subject: u32, mode: u32, object: u32) -> Option<u32> {
        if !(in_range(subject, SUBJECTS) && in_range(mode, MODES) && in_range(object, OBJECTS)) {
            return Some(3);
        }
        if !self.exists(object) {
            return Some(6);
        }
        None
    }

    /// MAY (subject, mode, object, instant).
    pub fn may(&self, subject: u32, mode: u32, object: u32, instant: u32) -> Result<bool, u32> {
        if let Some(row) = self.question_refused(subject, mode, object) {
            return Err(row);
        }
        let place = (subject, mode, object);
        Ok(self.yes(place, &self.places_that_matter(place)).has(self.cells.cell_of(instant)))
    }

    /// WHEN (subject, mode, object): "the longest runs of instants where MAY says yes, rising". `pairs` is
    /// the number of pairs for which the list has room; 13 if "a WHEN list has fewer pairs than runs".
    pub fn when(&self, subject: u32, mode: u32, object: u32, pairs: usize) -> Result<Vec<(u32, u32)>, u32> {
        if let Some(row) = self.question_refused(subject, mode, object) {
            return Err(row);
        }
        let place = (subject, mode, object);
        let runs = self.yes(place, &self.places_that_matter(place)).runs(&self.cells);
        if pairs < runs.len() {
            return Err(13);
        }
        Ok(runs)
    }

    /// How many links there are between the rules: for a test to count.
    pub fn links(&self) -> usize {
        let rules: Vec<&StandingRule> = self.rules.values().collect();
        rules.iter().map(|q| rules.iter().filter(|r| links(q, r)).count()).sum()
    }

    /// Whether some rule that matters to a question has, at an instant of its interval, a right side that is
    /// held and denied: for a test to count.
    pub fn looks_at_denied(&self, subject: u32, mode: u32, object: u32) -> bool {
        let singles = self.build(&self.places_that_matter((subject, mode, object)));
        let denied = |single: &Single| {
            (single.first..=single.last).any(|cell| single.right.has(cell) && single.denied.has(cell))
        };
        singles.iter().any(denied)
    }

    /// Whether the circle that a rule would close is forbidden for its links alone: for a test to count.
    pub fn closes_by_link(&self, q: &Request) -> bool {
        let new = self.new_rule(q);
        let rules: Vec<&StandingRule> = self.rules.values().chain([&new]).collect();
        linked_circle(&rules) && !negated_circle(&rules)
    }

    /// How many rules have starred objects: for a test to count.
    pub fn starred(&self) -> usize {
        self.rules.values().filter(|standing| standing.rule.left.object == Term::Any).count()
    }

    /// How many of them somebody wrote.
    pub fn starred_by(&self, author: u32) -> usize {
        let his = |standing: &&StandingRule| standing.author == author && standing.rule.left.object == Term::Any;
        self.rules.values().filter(his).count()
    }

    /// Whether the rules with starred objects decide a question: without them it would be answered otherwise at
    /// some instant. For a test to count.
    pub fn starred_decides(&self, subject: u32, mode: u32, object: u32) -> bool {
        if self.starred() == 0 {
            return false;
        }
        let mut without = self.clone();
        without.rules.retain(|_, standing| standing.rule.left.object != Term::Any);
        let place = (subject, mode, object);
        let yes = |base: &Oracle| base.yes(place, &base.places_that_matter(place)).runs(&base.cells);
        yes(self) != yes(&without)
    }

    /// Whether the circle that a rule would close needs a starred object: with every rule that stars it left out,
    /// and this one too if it does, there is none. For a test to count.
    pub fn closes_by_star(&self, q: &Request) -> bool {
        let new = self.new_rule(q);
        let rules: Vec<&StandingRule> = self.rules.values().chain([&new]).collect();
        let named: Vec<&StandingRule> =
            rules.iter().copied().filter(|standing| standing.rule.left.object != Term::Any).collect();
        forbidden_circle(&rules) && !forbidden_circle(&named)
    }

    /// WHEN, with the stars expanded over every subject of a list, every mode and every object: for the test that
    /// `places_that_matter` is enough.
    #[doc(hidden)]
    pub fn when_over_all(&self, subject: u32, mode: u32, object: u32, subjects: &[u32]) -> Vec<(u32, u32)> {
        let mut places = Vec::new();
        for &subject in subjects {
            for mode in 1..=MODES {
                places.extend(self.owners.keys().map(|&object| (subject, mode, object)));
            }
        }
        self.yes((subject, mode, object), &places).runs(&self.cells)
    }
}

/// Adds to what single rule r gives, cell by cell. Says whether anything was added.
///
/// "In its interval, WHENEVER gives the left side at t if the right is held at t; ASLONGAS if held at all
/// instants from the rule's start to t; WHENEVERNOT and UNLESS likewise with 'not held'." Where, from CR 7,
/// "a positive right side counts as held at t, under all four operators, exactly if it is held and no denial
/// for that subject, object and mode is held at t, whoever gave it. A denial on the right counts as before."
///
/// A rule that can give such a denial links to this one, so its rank is smaller and what it gives is known.
fn apply(singles: &mut [Single], r: usize) -> bool {
    // "Held means given by a line or by a rule"
    let mut right = std::mem::take(&mut singles[r].right);
    let mut denied = std::mem::take(&mut singles[r].denied);
    let wanted = singles[r].wanted;
    for q in 0..singles.len() {
        if wanted.fits_rule(&singles[q]) {
            right.put_all(&singles[q].gives);
        }
        if !wanted.negative && wanted.denial().fits_rule(&singles[q]) {
            denied.put_all(&singles[q].gives);
        }
    }
    let single = &mut singles[r];
    let mut added = false;
    let mut held_so_far = true; // at all instants from the rule's start to t
    let mut not_held_so_far = true;
    for cell in single.first..=single.last {
        let held = right.has(cell) && !denied.has(cell);
        held_so_far &= held;
        not_held_so_far &= !held;
        let given = match single.operator {
            WHENEVER => held,
            ASLONGAS => held_so_far,
            WHENEVERNOT => !held,
            UNLESS => not_held_so_far,
            _ => unreachable!("operators are 1 to 4"),
        };
        if given && !single.gives.has(cell) {
            single.gives.put(cell);
            added = true;
        }
    }
    single.right = right;
    single.denied = denied;
    added
}
