//! 01, "Backing (report, section 5)".

use crate::{Entry, Oracle};
use std::collections::BTreeMap;

/// The entries on one object and mode, prepared for the search for chains.
struct Chains<'a> {
    entries: Vec<&'a Entry>,
    /// "the first granter is the object's owner or administrator": may entry i come first in a chain?
    may_be_first: Vec<bool>,
    /// The entries that may stand right before entry i in a chain, time aside: "every line but the last
    /// is positive and transferable; each one's subject is the next one's granter; granted-at rises
    /// strictly."
    before: Vec<Vec<usize>>,
}

impl<'a> Chains<'a> {
    fn new(all: &'a BTreeMap<u32, Entry>, base: &Oracle, object: u32, mode: u32) -> (Vec<u32>, Chains<'a>) {
        let mut labels = Vec::new();
        let mut entries: Vec<&Entry> = Vec::new();
        for (&label, entry) in all {
            if entry.object == object && entry.mode == mode {
                labels.push(label);
                entries.push(entry);
            }
        }
        let may_be_first = entries.iter().map(|entry| base.owns_or_administers(entry.grantor, object)).collect();
        let before = entries
            .iter()
            .map(|next| {
                (0..entries.len())
                    .filter(|&i| {
                        !entries[i].negative
                            && entries[i].option
                            && entries[i].subject == next.grantor
                            && entries[i].granted_at < next.granted_at
                    })
                    .collect()
            })
            .collect();
        (labels, Chains { entries, may_be_first, before })
    }

    /// "A line is backed at t if a chain of lines on its object and mode ends in it: the first granter is
    /// the object's owner or administrator; every line covers t; every line but the last is positive and
    /// transferable; each one's subject is the next one's granter; granted-at rises strictly. Denials do
    /// not weaken a chain."
    ///
    /// Depth-first search backwards from the last line. It ends, since granted-at falls strictly on the
    /// way. `known` remembers what was found at this cell.
    fn supported(&self, i: usize, cell: usize, known: &mut [Option<bool>]) -> bool {
        if let Some(answer) = known[i] {
            return answer;
        }
        let answer = self.entries[i].when.has(cell)
            && (self.may_be_first[i] || self.before[i].iter().any(|&j| self.supported(j, cell, known)));
        known[i] = Some(answer);
        answer
    }
}

/// Every (label, cell) on an object and mode where the entry covers the cell and is not backed. The
/// entries are given apart from the base (owners and administrators are the base's), so that a withdrawal
/// can be judged before it is accepted.
pub(crate) fn unsupported(entries: &BTreeMap<u32, Entry>, base: &Oracle, object: u32, mode: u32) -> Vec<(u32, usize)> {
    let (labels, chains) = Chains::new(entries, base, object, mode);
    let mut found = Vec::new();
    let mut known = vec![None; labels.len()];
    for cell in 0..base.cells.count() {
        known.fill(None);
        for i in 0..labels.len() {
            if chains.entries[i].when.has(cell) && !chains.supported(i, cell, &mut known) {
                found.push((labels[i], cell));
            }
        }
    }
    found
}

/// "take out of the lines on that object and mode every instant that is not backed"
pub(crate) fn restrict_to_supported(entries: &mut BTreeMap<u32, Entry>, base: &Oracle, object: u32, mode: u32) {
    for (label, cell) in unsupported(entries, base, object, mode) {
        if let Some(entry) = entries.get_mut(&label) {
            entry.when.drop(cell);
        }
    }
    entries.retain(|_, entry| !entry.when.is_empty());
}
