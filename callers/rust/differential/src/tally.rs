//! What was compared, counted by kind and reply.
use crate::text::{place, WORDS};
use core::fmt;

/// The counts.
#[derive(Clone, Debug, Default)]
pub struct Tally {
    by_kind: [[u64; 15]; 13], // index 0 of a row is for accepted requests, others for the refusal's number
    may: [u64; 2],
    may_refused: [u64; 15],
    simple: [u64; 2],
    simple_refused: [u64; 16],
    simple_long: u64,
    when: u64,
    runs: u64,
    most_runs: u64,
    when_refused: [u64; 15],
    sheets: u64,
    longest_sheet: usize,
    sheets_refused: [u64; 15],
    texts: u64,
    unreadable: u64,
    longest_text: usize,
    texts_refused: u64,
    rounds: u64,
    round_questions: u64,
    round_bytes: [u64; 32],
    rounds_refused: [u64; 15],
    /// Bases judged: composed, damaged or cut.
    pub judged: u64,
    /// How many of them were sound.
    pub sound: u64,
    /// Answers to MAY over bases with links between rules.
    pub linked: u64,
    /// Answers to MAY to which a rule matters whose right side is held and denied at some instant.
    pub denied: u64,
    /// Rules refused with 12 for a circle that is forbidden for its links alone.
    pub closed_by_link: u64,
    /// Answers to MAY over bases with starred objects in rules.
    pub starred: u64,
    /// Answers to MAY about what rules with starred objects decide at some instant.
    pub decided: u64,
    /// Rules refused with 12 for a circle through a starred object.
    pub closed_by_star: u64,
    /// Withdrawals of administration from the author of a rule with starred objects.
    pub narrowed: u64,
    most_lines: usize,
    most_rules: usize,
}

impl Tally {
    pub(crate) fn request(&mut self, kind: u32, row: u32) {
        self.by_kind[place(kind)][row as usize] += 1;
    }

    pub(crate) fn may(&mut self, reply: Result<bool, u32>) {
        match reply {
            Ok(yes) => self.may[usize::from(yes)] += 1,
            Err(row) => self.may_refused[row as usize] += 1,
        }
    }

    pub(crate) fn simple_may(&mut self, reply: Option<Result<bool, u32>>) {
        match reply {
            Some(Ok(yes)) => self.simple[usize::from(yes)] += 1,
            Some(Err(row)) => self.simple_refused[row as usize] += 1,
            None => self.simple_long += 1,
        }
    }

    /// How many questions the simple engine answered with no and with yes, and how many it refused with a number.
    pub fn simply(&self, row: usize) -> ([u64; 2], u64) {
        (self.simple, self.simple_refused[row])
    }

    pub(crate) fn when(&mut self, reply: Result<usize, u32>) {
        match reply {
            Ok(runs) => {
                self.when += 1;
                self.runs += runs as u64;
                self.most_runs = self.most_runs.max(runs as u64);
            }
            Err(row) => self.when_refused[row as usize] += 1,
        }
    }

    pub(crate) fn report(&mut self, reply: Result<usize, u32>) {
        match reply {
            Ok(bytes) => {
                self.sheets += 1;
                self.longest_sheet = self.longest_sheet.max(bytes);
            }
            Err(row) => self.sheets_refused[row as usize] += 1,
        }
    }

    pub(crate) fn text(&mut self, text: &[u8], fits: bool) {
        if !fits {
            self.texts_refused += 1;
            return;
        }
        self.texts += 1;
        self.unreadable += u64::from(text == b"refused 1\n");
        self.longest_text = self.longest_text.max(text.len());
    }

    pub(crate) fn round(&mut self, reply: Result<&[u8], u32>) {
        match reply {
            Ok(bytes) => {
                self.rounds += 1;
                self.round_questions += bytes.len() as u64;
                bytes.iter().for_each(|&byte| self.round_bytes[usize::from(byte)] += 1);
            }
            Err(row) => self.rounds_refused[row as usize] += 1,
        }
    }

    /// How many rounds were answered, with how many questions, and how many were refused with 2 and 13.
    pub fn rounds(&self) -> (u64, u64, u64, u64) {
        (self.rounds, self.round_questions, self.rounds_refused[2], self.rounds_refused[13])
    }

    /// How many questions of rounds were answered with the byte.
    pub fn round_bytes(&self, byte: u8) -> u64 {
        self.round_bytes[usize::from(byte)]
    }

    pub(crate) fn sizes(&mut self, lines: usize, rules: usize) {
        self.most_lines = self.most_lines.max(lines);
        self.most_rules = self.most_rules.max(rules);
    }

    /// How many requests were compared.
    pub fn requests(&self) -> u64 {
        self.by_kind.iter().flatten().sum()
    }

    /// How many requests of the kind got the refusal, or were accepted (0).
    pub fn count(&self, kind: u32, row: usize) -> u64 {
        self.by_kind[place(kind)][row]
    }

    /// How many questions were compared.
    pub fn questions(&self) -> u64 {
        self.may.iter().chain(&self.may_refused).chain(&self.when_refused).sum::<u64>() + self.when
    }

    /// How many rights sheets got the refusal, or were written (0).
    pub fn sheets(&self, row: usize) -> u64 {
        if row == 0 {
            self.sheets
        } else {
            self.sheets_refused[row]
        }
    }

    /// How many lines of text were answered, how many of them could not be read, and how many buffers were too short.
    pub fn texts(&self) -> (u64, u64, u64) {
        (self.texts, self.unreadable, self.texts_refused)
    }

    /// Adds another's counts.
    pub fn add(&mut self, other: &Tally) {
        let sum = |mine: &mut [u64], others: &[u64]| mine.iter_mut().zip(others).for_each(|(a, b)| *a += b);
        for (mine, others) in self.by_kind.iter_mut().zip(&other.by_kind) {
            sum(mine, others);
        }
        sum(&mut self.may, &other.may);
        sum(&mut self.may_refused, &other.may_refused);
        sum(&mut self.simple, &other.simple);
        sum(&mut self.simple_refused, &other.simple_refused);
        self.simple_long += other.simple_long;
        sum(&mut self.when_refused, &other.when_refused);
        self.when += other.when;
        self.runs += other.runs;
        self.most_runs = self.most_runs.max(other.most_runs);
        self.sheets += other.sheets;
        self.longest_sheet = self.longest_sheet.max(other.longest_sheet);
        sum(&mut self.sheets_refused, &other.sheets_refused);
        self.texts += other.texts;
        self.unreadable += other.unreadable;
        self.longest_text = self.longest_text.max(other.longest_text);
        self.texts_refused += other.texts_refused;
        self.rounds += other.rounds;
        self.round_questions += other.round_questions;
        sum(&mut self.round_bytes, &other.round_bytes);
        sum(&mut self.rounds_refused, &other.rounds_refused);
        self.linked += other.linked;
        self.denied += other.denied;
        self.closed_by_link += other.closed_by_link;
        self.starred += other.starred;
        self.decided += other.decided;
        self.closed_by_star += other.closed_by_star;
        self.narrowed += other.narrowed;
        self.judged += other.judged;
        self.sound += other.sound;
        self.sizes(other.most_lines, other.most_rules);
    }
}

impl fmt::Display for Tally {
    fn fmt(&self, f: &mut fmt::Formatter) -> fmt::Result {
        write!(f, "{:<10}{:>9}", "kind", "accepted")?;
        (2..15).try_for_each(|row| write!(f, "{row:>8}"))?;
        writeln!(f)?;
        for (word, counts) in WORDS.iter().zip(&self.by_kind) {
            write!(f, "{word:<10}{:>9}", counts[0])?;
            counts[2..].iter().try_for_each(|count| write!(f, "{count:>8}"))?;
            writeln!(f)?;
        }
        for (word, answered, counts) in [
            ("MAY", self.may[0] + self.may[1], &self.may_refused),
            ("WHEN", self.when, &self.when_refused),
            ("sheet", self.sheets, &self.sheets_refused),
        ] {
            write!(f, "{word:<10}{answered:>9}")?;
            counts[2..].iter().try_for_each(|count| write!(f, "{count:>8}"))?;
            writeln!(f)?;
        }
        writeln!(f, "{} requests, at most {} lines and {} rules", self.requests(), self.most_lines, self.most_rules)?;
        let [no, yes] = self.may;
        writeln!(f, "MAY: {yes} yes, {no} no; WHEN: {} runs, at most {}", self.runs, self.most_runs)?;
        write!(f, "MAY: {} over bases with links, {} where a rule looks at", self.linked, self.denied)?;
        writeln!(f, " a right held and denied; {} rules refused for links alone", self.closed_by_link)?;
        write!(f, "MAY: {} over bases with starred objects, {} where they decide;", self.starred, self.decided)?;
        write!(f, " {} rules refused for a circle through one,", self.closed_by_star)?;
        writeln!(f, " {} withdrawals from an author of some", self.narrowed)?;
        writeln!(f, "the longest sheet: {} bytes", self.longest_sheet)?;
        if self.texts + self.texts_refused > 0 {
            let (answered, unreadable, refused) = self.texts();
            write!(f, "{answered} lines of text, {unreadable} of them unreadable, at most {}", self.longest_text)?;
            writeln!(f, " bytes in a reply; {refused} buffers too short")?;
        }
        if self.rounds > 0 {
            let (answered, questions, unsound, short) = self.rounds();
            writeln!(f, "{answered} rounds with {questions} questions; {unsound} refused with 2, {short} with 13")?;
        }
        let ([no, yes], circular) = self.simply(15);
        if no + yes > 0 {
            writeln!(f, "simple engine: {yes} yes, {no} no, {circular} circular, {} not asked", self.simple_long)?;
        }
        write!(f, "{} bases lent and judged, {} of them sound", self.judged, self.sound)
    }
}
