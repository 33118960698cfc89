//! 02, change request 1: the rights sheet of a meter.

use crate::session::show;
use crate::*;

impl Oracle {
    /// "For one object, write a page of rows, one per line on it in base order"; "A page buffer that is too
    /// small gets 13, an unknown object 6", and a number that no object has gets 3.
    pub fn sheet(&self, object: u32, room: usize) -> Result<Vec<u8>, u32> {
        if !in_range(object, OBJECTS) {
            return Err(3);
        }
        if !self.exists(object) {
            return Err(6);
        }
        let mut page = String::new();
        for (label, entry) in self.entries.iter().filter(|(_, entry)| entry.object == object) {
            entry.when.each_run(&self.cells, |start, end| page += &row(*label, entry, start, end));
        }
        if room < page.len() {
            return Err(13);
        }
        Ok(page.into_bytes())
    }
}

/// "label 5 wide, granter 4, subject 4, mode 1, sign 1, option 1 (`n` for a denial), start 10, end 10, numbers
/// and `inf` right-aligned with blanks, one blank between columns, a newline byte last, 44 bytes a row".
fn row(label: u32, entry: &Entry, start: u32, end: u32) -> String {
    let (granter, subject, mode) = (entry.grantor, entry.subject, entry.mode);
    let sign = if entry.negative { '-' } else { '+' };
    let option = if entry.option && !entry.negative { 'y' } else { 'n' };
    let (start, end) = (show(start), show(end));
    let row = format!("{label:>5} {granter:>4} {subject:>4} {mode:>1} {sign} {option} {start:>10} {end:>10}\n");
    assert_eq!(row.len(), 44);
    row
}
