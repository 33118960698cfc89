//! The library and the oracle side by side: every step is taken on both, and every reply, every byte of the base and
//! every number of the list are compared.
use crate::random::Random;
use crate::tally::Tally;
use access_base::raw::{self, Numbers};
use access_base::{Access, OptionTerm, Side, Term, BYTES, TEXT_LEAST};
use oracle::session::Asked;
use oracle::{Cells, Oracle};

// So often the simple engine may look at an instant for one question.
const LOOKS: u64 = 20_000;

/// What is done to both.
#[derive(Clone, Debug)]
pub enum Step {
    /// These bytes are lent from now on; both say whether they are a sound base.
    Lend(Vec<u8>),
    /// An empty base is made in the lent bytes.
    Create,
    /// A request.
    Request(Numbers),
    /// The question MAY.
    May(Access, u32),
    /// The question MAY to the simple engine, unless it would look at instants too often.
    SimpleMay(Access, u32),
    /// The question WHEN.
    When {
        /// Whose access is asked about.
        access: Access,
        /// How many numbers the list has, two a pair.
        length: usize,
        /// The seed of what is in the list before.
        pattern: u64,
    },
    /// The rights sheet of an object.
    Report {
        /// Whose sheet.
        object: u32,
        /// How many bytes the page has.
        length: usize,
        /// The seed of what is on the page before.
        pattern: u64,
    },
    /// A line of text.
    Text {
        /// Its bytes.
        line: Vec<u8>,
        /// How many bytes the buffer for the reply has.
        length: usize,
        /// The seed of what is in the buffer before.
        pattern: u64,
    },
    /// A round's questions.
    Round {
        /// Subject, mode, object and instant of each.
        questions: Vec<[u32; 4]>,
        /// How many bytes the list for the replies has.
        length: usize,
        /// The seed of what is in the list before.
        pattern: u64,
    },
}

/// What the library replied where the oracle replies something else.
#[derive(Clone, Debug)]
pub struct Difference {
    /// The library's reply.
    pub library: String,
    /// The oracle's.
    pub oracle: String,
}

/// A base at the library, and the same at the oracle.
pub struct Pair {
    base: Vec<u8>,
    before: Vec<u8>,
    oracle: Option<Oracle>, // none where the lent bytes are no sound base
    boundaries: Vec<u32>,
    steps: Vec<Step>,
    /// What was compared so far.
    pub tally: Tally,
}

fn same<T: PartialEq + core::fmt::Debug>(library: T, oracle: T) -> Result<(), Difference> {
    if library == oracle {
        return Ok(());
    }
    Err(Difference { library: format!("{library:?}"), oracle: format!("{oracle:?}") })
}

fn same_bytes(library: &[u8], oracle: &[u8]) -> Result<(), Difference> {
    if library == oracle {
        return Ok(());
    }
    let at = library.iter().zip(oracle).position(|(a, b)| a != b).unwrap_or(library.len().min(oracle.len()));
    let shown = |bytes: &[u8]| {
        let end = bytes.len().min(at + 16);
        format!("{} bytes, from byte {at}: {:02x?}", bytes.len(), &bytes[at.min(end)..end])
    };
    Err(Difference { library: shown(library), oracle: shown(oracle) })
}

// A reply of the library in parts.
fn parts(reply: raw::Reply) -> (u32, u32, u32) {
    (reply.refusal, reply.label, reply.number)
}

// "all other refusals give only the number"
fn refused(row: u32) -> (u32, u32, u32) {
    (row, 0, 0)
}

impl Pair {
    /// Nothing is lent yet. The boundaries are the instants at which what the steps name may start; an end is the
    /// instant before one, or the last instant.
    pub fn new(boundaries: &[u32]) -> Pair {
        Pair {
            base: Vec::new(),
            before: Vec::new(),
            oracle: None,
            boundaries: boundaries.to_vec(),
            steps: Vec::new(),
            tally: Tally::default(),
        }
    }

    /// The lent bytes.
    pub fn base(&self) -> &[u8] {
        &self.base
    }

    /// The instants at which what the steps name may start.
    pub fn boundaries(&self) -> &[u32] {
        &self.boundaries
    }

    /// All steps so far.
    pub fn steps(&self) -> &[Step] {
        &self.steps
    }

    /// Whether the lent bytes are a sound base.
    pub fn is_sound(&self) -> bool {
        self.oracle.is_some()
    }

    /// How many runs WHEN has, by the oracle; none where it refuses.
    pub fn runs(&self, x: Access) -> Option<usize> {
        let oracle = self.oracle.as_ref()?;
        oracle.when(x.subject, x.mode, x.object, usize::MAX).ok().map(|runs| runs.len())
    }

    /// How many bytes the rights sheet of an object has, by the oracle; none where it refuses.
    pub fn sheet(&self, object: u32) -> Option<usize> {
        self.oracle.as_ref()?.sheet(object, usize::MAX).ok().map(|page| page.len())
    }

    /// The text of the reply to a line with its newline, by the oracle, and the oracle after it.
    pub fn told(&self, line: &[u8]) -> (Vec<u8>, Option<Oracle>) {
        let asked = oracle::session::read(line);
        let mut after = self.oracle.clone();
        let mut text = match (&mut after, asked) {
            (None, Asked::Illegible) => "refused 1".to_string(),
            (None, _) => "refused 2".to_string(),
            (Some(oracle), asked) => oracle::session::answer(oracle, &asked),
        };
        text.push('\n');
        (text.into_bytes(), after)
    }

    /// Takes a step on both. The refusal's number, or 0.
    pub fn take(&mut self, step: Step) -> Result<u32, Difference> {
        self.steps.push(step.clone());
        self.before.clone_from(&self.base);
        match step {
            Step::Lend(bytes) => self.lend(bytes),
            Step::Create => self.create(),
            Step::Request(q) => self.request(&q),
            Step::May(access, instant) => self.may(access, instant),
            Step::SimpleMay(access, instant) => self.simple_may(access, instant),
            Step::When { access, length, pattern } => self.when(access, length, pattern),
            Step::Report { object, length, pattern } => self.report(object, length, pattern),
            Step::Text { line, length, pattern } => self.text(&line, length, pattern),
            Step::Round { questions, length, pattern } => self.round(&questions, length, pattern),
        }
    }

    fn lend(&mut self, bytes: Vec<u8>) -> Result<u32, Difference> {
        let sound = raw::is_sound(&bytes);
        self.oracle = Oracle::from_bytes(&bytes, &self.boundaries);
        self.base = bytes;
        self.tally.judged += 1;
        self.tally.sound += u64::from(self.oracle.is_some());
        same(sound, self.oracle.is_some())?;
        if let Some(oracle) = &self.oracle {
            same_bytes(&self.base, &oracle.to_bytes())?;
        }
        Ok(if sound { 0 } else { 2 })
    }

    // "making one in a buffer of another length is refused with 2"
    fn create(&mut self) -> Result<u32, Difference> {
        let reply = parts(raw::create(&mut self.base));
        if self.base.len() != BYTES {
            same(reply, refused(2))?;
            same_bytes(&self.base, &self.before)?;
            return Ok(2);
        }
        let empty = Oracle::empty(Cells::from_boundaries(self.boundaries.clone()));
        same(reply, (0, 0, 0))?;
        same_bytes(&self.base, &empty.to_bytes())?;
        same(raw::is_sound(&self.base), true)?;
        self.oracle = Some(empty);
        Ok(0)
    }

    fn request(&mut self, q: &Numbers) -> Result<u32, Difference> {
        let reply = parts(raw::request(&mut self.base, q));
        let asked = in_oracle_words(q);
        let expected = match &mut self.oracle {
            None => oracle::Reply::Refused(2),
            Some(oracle) => oracle.request(&asked),
        };
        self.tally.request(q.kind, if let oracle::Reply::Refused(row) = expected { row } else { 0 });
        if let (oracle::Reply::Refused(12), Some(oracle)) = (expected, &self.oracle) {
            self.tally.closed_by_link += u64::from(oracle.closes_by_link(&asked));
            self.tally.closed_by_star += u64::from(oracle.closes_by_star(&asked));
        }
        match (expected, &self.oracle) {
            (oracle::Reply::Done { label, lines }, Some(oracle)) => {
                same(reply, (0, label, lines))?;
                same_bytes(&self.base, &oracle.to_bytes())?;
                self.tally.sizes(oracle.lines(), oracle.rules());
                self.tally.narrowed += u64::from(q.kind == oracle::REVOKEADM && oracle.starred_by(q.subject) > 0);
                return Ok(0);
            }
            (oracle::Reply::Refused(9), Some(oracle)) => {
                // 02, CR 3: "The instant given with 9 must now be the earliest uncovered one"
                let earliest = oracle.earliest_uncovered(&asked).expect("9 has an uncovered instant");
                same(reply, (9, 0, earliest))?;
            }
            (oracle::Reply::Refused(row), _) => same(reply, refused(row))?,
            (done, None) => unreachable!("{done:?} without a sound base"),
        }
        same_bytes(&self.base, &self.before)?;
        Ok(reply.0)
    }

    fn may(&mut self, x: Access, instant: u32) -> Result<u32, Difference> {
        let reply = parts(raw::may(&self.base, x, instant));
        let expected = match &self.oracle {
            None => Err(2),
            Some(oracle) => oracle.may(x.subject, x.mode, x.object, instant),
        };
        self.tally.may(expected);
        if let (Ok(_), Some(oracle)) = (expected, &self.oracle) {
            self.tally.linked += u64::from(oracle.links() > 0);
            self.tally.denied += u64::from(oracle.looks_at_denied(x.subject, x.mode, x.object));
            self.tally.starred += u64::from(oracle.starred() > 0);
            self.tally.decided += u64::from(oracle.starred_decides(x.subject, x.mode, x.object));
        }
        same(reply, expected.map_or_else(refused, |yes| (0, 0, u32::from(yes))))?;
        same_bytes(&self.base, &self.before)?;
        Ok(reply.0)
    }

    // "15, circular, by the simple engine only, exactly if some feeding circle exists"; else what MAY itself replies.
    fn simple_may(&mut self, x: Access, instant: u32) -> Result<u32, Difference> {
        let expected = match &self.oracle {
            None => Some(Err(2)),
            Some(oracle) => oracle.simple_may(x.subject, x.mode, x.object, instant, LOOKS),
        };
        self.tally.simple_may(expected);
        let Some(expected) = expected else { return Ok(0) };
        let reply = parts(raw::simple_may(&self.base, x, instant));
        same(reply, expected.map_or_else(refused, |yes| (0, 0, u32::from(yes))))?;
        if expected != Err(15) {
            same(reply, parts(raw::may(&self.base, x, instant)))?;
        }
        same_bytes(&self.base, &self.before)?;
        Ok(reply.0)
    }

    // "the reply is the number of runs, and the rest of the list is untouched"
    fn when(&mut self, x: Access, length: usize, pattern: u64) -> Result<u32, Difference> {
        let mut random = Random::new(pattern);
        let mut list: Vec<u32> = (0..length).map(|_| random.any() as u32).collect();
        let mut expected_list = list.clone();
        let reply = parts(raw::when(&self.base, x, &mut list));
        let expected = match &self.oracle {
            None => Err(2),
            Some(oracle) => oracle.when(x.subject, x.mode, x.object, length / 2),
        };
        self.tally.when(expected.as_ref().map(Vec::len).map_err(|row| *row));
        if let Ok(runs) = &expected {
            for (pair, run) in expected_list.chunks_exact_mut(2).zip(runs) {
                pair.copy_from_slice(&[run.0, run.1]);
            }
        }
        same(reply, expected.map_or_else(refused, |runs| (0, 0, runs.len() as u32)))?;
        same(list, expected_list)?;
        same_bytes(&self.base, &self.before)?;
        Ok(reply.0)
    }

    // "The reply is the byte count; bytes behind it are untouched."
    fn report(&mut self, object: u32, length: usize, pattern: u64) -> Result<u32, Difference> {
        let mut page = Random::new(pattern).bytes(length);
        let mut expected_page = page.clone();
        let reply = parts(raw::report(&self.base, object, &mut page));
        let expected = match &self.oracle {
            None => Err(2),
            Some(oracle) => oracle.sheet(object, length),
        };
        self.tally.report(expected.as_ref().map(Vec::len).map_err(|row| *row));
        if let Ok(sheet) = &expected {
            expected_page[..sheet.len()].copy_from_slice(sheet);
        }
        same(reply, expected.map_or_else(refused, |sheet| (0, 0, sheet.len() as u32)))?;
        same_bytes(&page, &expected_page)?;
        same_bytes(&self.base, &self.before)?;
        Ok(reply.0)
    }

    // Each byte is the reply to its question put alone; an unsound base gets 2 for the whole call.
    fn round(&mut self, questions: &[[u32; 4]], length: usize, pattern: u64) -> Result<u32, Difference> {
        let mut replies = Random::new(pattern).bytes(length);
        let expected = match &self.oracle {
            None => Err(2),
            Some(oracle) => oracle.round(questions, &replies),
        };
        let expected_replies = expected.as_ref().unwrap_or(&replies).clone();
        let reply = parts(raw::batch(&self.base, questions.as_flattened(), &mut replies));
        self.tally.round(expected.as_ref().map(|bytes| &bytes[..questions.len()]).map_err(|row| *row));
        same(reply, refused(expected.err().unwrap_or(0)))?;
        same_bytes(&replies, &expected_replies)?;
        same_bytes(&self.base, &self.before)?;
        Ok(reply.0)
    }

    // A buffer of fewer than 16 bytes, or that the text does not fit, is refused with 13, and then nothing is altered;
    // otherwise the text stands at its front, and the rest of the buffer is untouched.
    fn text(&mut self, line: &[u8], length: usize, pattern: u64) -> Result<u32, Difference> {
        let mut out = Random::new(pattern).bytes(length);
        let mut expected_out = out.clone();
        let reply = parts(raw::text(&mut self.base, line, &mut out));
        let (text, after) = self.told(line);
        let fits = TEXT_LEAST.max(text.len()) <= length;
        self.tally.text(&text, fits);
        if !fits {
            same(reply, refused(13))?;
            same_bytes(&out, &expected_out)?;
            same_bytes(&self.base, &self.before)?;
            return Ok(13);
        }
        self.oracle = after;
        expected_out[..text.len()].copy_from_slice(&text);
        same(reply, (0, 0, text.len() as u32))?;
        same_bytes(&out, &expected_out)?;
        let expected = self.oracle.as_ref().map_or_else(|| self.before.clone(), Oracle::to_bytes);
        same_bytes(&self.base, &expected)?;
        Ok(0)
    }
}

fn term(term: Term) -> oracle::Term {
    match term {
        Term::Any => oracle::Term::Any,
        Term::Number(n) => oracle::Term::Number(n),
    }
}

fn side(side: Side) -> oracle::Side {
    oracle::Side {
        subject: term(side.subject),
        mode: term(side.mode),
        object: term(side.object),
        negative: side.negative,
    }
}

pub(crate) fn in_oracle_words(q: &Numbers) -> oracle::Request {
    oracle::Request {
        now: q.now,
        requester: q.requester,
        kind: q.kind,
        label: q.label,
        mode: q.mode,
        object: q.object,
        subject: q.subject,
        start: q.start,
        end: q.end,
        option: q.option,
        rule: oracle::Rule {
            left: side(q.left),
            operator: q.operator,
            right: side(q.right),
            grantor: term(q.grantor),
            option: match q.right_option {
                OptionTerm::With => oracle::OptionTerm::With,
                OptionTerm::Without => oracle::OptionTerm::Without,
                OptionTerm::Either => oracle::OptionTerm::Either,
            },
        },
    }
}
