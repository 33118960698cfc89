//! The access base for submeters: who may read, switch or configure a meter, from which instant to which.
//!
//! The base is [`BYTES`] bytes that the caller lends; nothing else is kept between calls, and nothing is allocated. Any
//! bytes may be lent, of any length: what is no sound base is refused with [`Refusal::InvalidBase`] and left as it is.
//! A refusal alters nothing.
//!
//! The functions called here are proved against the definitions in `crates/model/specs`; this crate words their
//! arguments and replies in types, and is tested, not proved.
//!
//! ```
//! use access_base::{create, may, request, Access, Interval, Order, Request, BYTES};
//!
//! let mut base = vec![0; BYTES];
//! create(&mut base)?;
//! request(&mut base, &Request { now: 4, requester: 1, order: Order::New { object: 7 } })?;
//! let access = Access { subject: 2, mode: 1, object: 7 };
//! let interval = Interval { start: 50, end: 200 };
//! let grant = Order::Grant { access, interval, option: true };
//! let done = request(&mut base, &Request { now: 5, requester: 1, order: grant })?;
//! assert_eq!((done.label, done.authorizations), (Some(1), 1));
//! assert!(may(&base, access, 60)?);
//! # Ok::<(), access_base::Refusal>(())
//! ```
#![no_std]

pub mod raw;
mod refusal;

pub use refusal::{Refusal, TooShort};

/// The length of a base.
pub const BYTES: usize = 27_936;

/// The last instant, which stands for infinity.
pub const LAST: u32 = u32::MAX;

/// So many pairs always suffice for [`when`].
pub const PAIRS: usize = 1_100;

/// A row of a rights sheet has so many bytes.
pub const ROW_BYTES: usize = 44;

/// So many bytes always suffice for [`report`]: a row for each of 1,024 authorizations.
pub const SHEET_BYTES: usize = 1_024 * ROW_BYTES;

/// A buffer for [`text`] has at least so many bytes. They suffice for every reply but WHEN's.
pub const TEXT_LEAST: usize = 16;

/// So many bytes always suffice for [`text`].
pub const TEXT_BYTES: usize = 24_001;

/// So many numbers always suffice for [`records`].
pub const BODY_NUMBERS: usize = 10_240;

/// Instants from `start` to `end`, both included.
#[derive(Clone, Copy, Debug, PartialEq, Eq)]
pub struct Interval {
    /// The first instant.
    pub start: u32,
    /// The last one.
    pub end: u32,
}

/// What a subject does to an object: subject 1 to 1,023, mode 1 to 8, object (a meter) 1 to 128.
#[derive(Clone, Copy, Debug, PartialEq, Eq)]
pub struct Access {
    /// Who.
    pub subject: u32,
    /// What: read, switch, configure, by number.
    pub mode: u32,
    /// The meter.
    pub object: u32,
}

/// A question of a round: whether the access is allowed at the instant. It is four words, as the boundary has it.
#[derive(Clone, Copy, Debug, PartialEq, Eq)]
#[repr(C)]
pub struct Question {
    /// Who.
    pub subject: u32,
    /// What.
    pub mode: u32,
    /// The meter.
    pub object: u32,
    /// When.
    pub instant: u32,
}

/// A number of a rule, or the star. The star is no number, so that 0 stays out of range.
#[derive(Clone, Copy, Debug, PartialEq, Eq)]
pub enum Term {
    /// The star.
    Any,
    /// A number.
    Number(u32),
}

/// The grant option that a rule's right side asks for.
#[derive(Clone, Copy, Debug, PartialEq, Eq)]
pub enum OptionTerm {
    /// Transferable only.
    With,
    /// Not transferable only.
    Without,
    /// The star: either.
    Either,
}

/// One side of a rule. A star for subject, mode or object is on both sides or on neither.
///
/// With starred objects a rule stands for each meter that its author owns or administers when a question is put, the
/// same one on both sides. Whoever withdraws the administration narrows such a rule and does not delete it.
///
/// ```
/// use access_base::{create, may, request, text, Access, Interval, Operator, OptionTerm, Order, Refusal, Request, Rule};
/// use access_base::{Side, Term, BYTES};
///
/// let mut base = vec![0; BYTES];
/// create(&mut base)?;
/// // whoever reads a meter of 1 as 4 does, 3 reads it too
/// let side = |subject| Side { subject: Term::Number(subject), mode: Term::Number(1), object: Term::Any, negative: false };
/// let rule = Rule {
///     left: side(3),
///     operator: Operator::Whenever,
///     right: side(4),
///     grantor: Term::Any,
///     option: OptionTerm::Either,
///     interval: Interval { start: 0, end: 99 },
/// };
/// let add = |rule| Request { now: 0, requester: 1, order: Order::AddRule(rule) };
/// assert_eq!(request(&mut base, &add(rule))?.label, Some(1)); // the meters come later
/// for line in ["0 1 NEW 7", "0 2 NEW 8", "0 1 GRANT 1 7 4 5 9 n", "0 2 GRANT 1 8 4 5 9 n"] {
///     text(&mut base, line, &mut [0; 16]).expect("16 bytes suffice");
/// }
/// assert!(may(&base, Access { subject: 3, mode: 1, object: 7 }, 6)?);
/// assert!(!may(&base, Access { subject: 3, mode: 1, object: 8 }, 6)?);
/// text(&mut base, "1 2 GRANTADM 8 1", &mut [0; 16]).expect("16 bytes suffice");
/// assert!(may(&base, Access { subject: 3, mode: 1, object: 8 }, 6)?);
/// // a star on one side only, and 0, which is no star
/// let named = Side { object: Term::Number(7), ..rule.left };
/// assert_eq!(request(&mut base, &add(Rule { left: named, ..rule })), Err(Refusal::OutOfRange));
/// let zero = Side { object: Term::Number(0), ..rule.left };
/// assert_eq!(request(&mut base, &add(Rule { left: zero, right: zero, ..rule })), Err(Refusal::OutOfRange));
/// # Ok::<(), Refusal>(())
/// ```
#[derive(Clone, Copy, Debug, PartialEq, Eq)]
pub struct Side {
    /// Who, or everyone.
    pub subject: Term,
    /// What, or everything.
    pub mode: Term,
    /// The meter, or every one that the author owns or administers.
    pub object: Term,
    /// Whether it is a denial.
    pub negative: bool,
}

/// What a rule asks of its right side. A right counts as held where it is in force: where no denial of that
/// subject, mode and object is held too, whoever gave it.
#[derive(Clone, Copy, Debug, PartialEq, Eq)]
pub enum Operator {
    /// It is held at the instant.
    Whenever,
    /// It is held at all instants from the rule's start on.
    AsLongAs,
    /// It is not held at the instant.
    WheneverNot,
    /// It is held at no instant from the rule's start on.
    Unless,
}

/// A derivation rule: in its interval it gives the left side where the operator says so of the right.
#[derive(Clone, Copy, Debug, PartialEq, Eq)]
pub struct Rule {
    /// What it gives.
    pub left: Side,
    /// How it looks at the right side.
    pub operator: Operator,
    /// What it looks at.
    pub right: Side,
    /// Who must have given the right side.
    pub grantor: Term,
    /// Whether the right side must be transferable.
    pub option: OptionTerm,
    /// Where the rule holds.
    pub interval: Interval,
}

/// What a request asks for.
#[derive(Clone, Copy, Debug, PartialEq, Eq)]
#[allow(missing_docs)] // the fields are Access, Interval, and numbers that their names say
pub enum Order {
    /// NEW: the requester becomes the object's owner.
    New { object: u32 },
    /// GRANT, with the option to hand it on.
    Grant { access: Access, interval: Interval, option: bool },
    /// DENY.
    Deny { access: Access, interval: Interval },
    /// REVOKE: all lines of the label, which the requester gave.
    Revoke { label: u32 },
    /// REVOKEP: the interval out of the requester's grants of the access.
    RevokeGrants { access: Access, interval: Interval },
    /// REVOKEN: the interval out of the requester's denials of the access.
    RevokeDenials { access: Access, interval: Interval },
    /// ADDRULE.
    AddRule(Rule),
    /// DROPRULE.
    DropRule { label: u32 },
    /// GRANTADM.
    GrantAdministrator { object: u32, subject: u32 },
    /// REVOKEADM: with the subject's lines and rules on the object.
    RevokeAdministrator { object: u32, subject: u32 },
    /// GRANTREF.
    GrantReferrer { object: u32, subject: u32 },
    /// REVOKEREF: with the subject's rules that refer to the object.
    RevokeReferrer { object: u32, subject: u32 },
}

/// A request: when, by whom, and what.
#[derive(Clone, Copy, Debug, PartialEq, Eq)]
pub struct Request {
    /// The instant of the request; not below that of the last accepted one.
    pub now: u32,
    /// Who asks.
    pub requester: u32,
    /// What for.
    pub order: Order,
}

/// The heading of a base and its five bodies. A record is [`Body::width`] numbers.
#[derive(Clone, Copy, Debug, PartialEq, Eq)]
pub enum Body {
    /// One record: the clock, the last label, and how many records each body has.
    Heading,
    /// Object, owner.
    Objects,
    /// Object, subject.
    Administrators,
    /// Object, subject.
    Referrers,
    /// Label, grantor, subject, object, mode, negative, option, granted, start, end.
    Authorizations,
    /// Label, author; of the left side subject, mode, object, negative; operator, 1 to 4; of the right side subject, mode,
    /// object, negative, grantor, option (0 without, 1 with, 2 either); start, end. A subject, mode, object or grantor of 0
    /// is the star.
    Rules,
}

impl Body {
    /// All of them, in the order of their numbers.
    pub const ALL: [Body; 6] =
        [Body::Heading, Body::Objects, Body::Administrators, Body::Referrers, Body::Authorizations, Body::Rules];

    /// How many numbers a record is.
    pub const fn width(self) -> usize {
        match self {
            Body::Heading => 7,
            Body::Objects | Body::Administrators | Body::Referrers => 2,
            Body::Authorizations => 10,
            Body::Rules => 15,
        }
    }
}

/// The reply to a request that was carried out.
#[derive(Clone, Copy, Debug, PartialEq, Eq)]
pub struct Done {
    /// The new label of a grant, denial or rule.
    pub label: Option<u32>,
    /// How many authorizations are now in the base (in the scope: lines).
    pub authorizations: u32,
}

/// Makes an empty base of the lent bytes: clock 0, no label given, nothing in it.
pub fn create(base: &mut [u8]) -> Result<(), Refusal> {
    refusal::checked(raw::create(base)).map(|_| ())
}

/// Whether the bytes are a sound base.
pub fn is_sound(base: &[u8]) -> bool {
    raw::is_sound(base)
}

/// Carries out a request, or refuses it and leaves the bytes as they are.
pub fn request(base: &mut [u8], request: &Request) -> Result<Done, Refusal> {
    let reply = refusal::checked(raw::request(base, &raw::Numbers::from(request)))?;
    let label = (reply.label != 0).then_some(reply.label);
    Ok(Done { label, authorizations: reply.number })
}

/// Whether the access is allowed at the instant: something grants it, and nothing denies it.
pub fn may(base: &[u8], access: Access, instant: u32) -> Result<bool, Refusal> {
    refusal::checked(raw::may(base, access, instant)).map(|reply| reply.number == 1)
}

/// The same by the simple engine, which is there to be read and to compare with (`crates/simple`). It goes from instant to
/// instant and keeps nothing, so it is for short intervals and few rules. It serves rules of which none feeds itself in the
/// end, and is then proved equal to [`may`]; otherwise [`Refusal::Circular`], unless [`may`] refuses too.
///
/// ```
/// use access_base::{create, may, simple_may, text, Access, Refusal, BYTES};
///
/// let mut base = vec![0; BYTES];
/// create(&mut base)?;
/// let mut tell = |line: &str| text(&mut base, line, &mut [0; 16]).map(str::len).expect("16 bytes suffice");
/// tell("4 1 NEW 7");
/// tell("5 1 GRANT 1 7 2 10 40 n");
/// tell("5 1 ADDRULE 3 1 7 + ASLONGAS 2 1 7 + * * 10 90");
/// let access = Access { subject: 3, mode: 1, object: 7 };
/// for instant in 0..100 {
///     assert_eq!(simple_may(&base, access, instant)?, may(&base, access, instant)?);
/// }
/// let mut tell = |line: &str| text(&mut base, line, &mut [0; 16]).map(str::len).expect("16 bytes suffice");
/// tell("5 1 ADDRULE 2 1 7 + WHENEVER 3 1 7 + * * 10 90");
/// assert_eq!(simple_may(&base, access, 20), Err(Refusal::Circular));
/// assert!(may(&base, access, 20)?);
/// # Ok::<(), Refusal>(())
/// ```
pub fn simple_may(base: &[u8], access: Access, instant: u32) -> Result<bool, Refusal> {
    refusal::checked(raw::simple_may(base, access, instant)).map(|reply| reply.number == 1)
}

/// The longest runs of instants at which the access is allowed, rising: pairs of first and last instant, written to the
/// front of the list. [`PAIRS`] always suffice; the rest of the list is untouched.
pub fn when<'l>(base: &[u8], access: Access, list: &'l mut [[u32; 2]]) -> Result<&'l [[u32; 2]], Refusal> {
    let reply = refusal::checked(raw::when(base, access, list.as_flattened_mut()))?;
    Ok(&list[..reply.number as usize])
}

/// The records of a body, from number `first` on, counted from 0, in the base's order: as many as the list has room for,
/// written to its front one behind the other. The rest of the list is untouched. A body with fewer than `first` records is
/// refused with [`Refusal::OutOfRange`], a list without room for one record with [`Refusal::Full`].
///
/// The base is checked once a call, whatever the list's length: lend a long one.
///
/// ```
/// use access_base::{create, records, text, Body, BODY_NUMBERS, BYTES};
///
/// let mut base = vec![0; BYTES];
/// create(&mut base)?;
/// text(&mut base, "4 1 NEW 7", &mut [0; 16]).expect("16 bytes suffice");
/// text(&mut base, "5 1 GRANT 1 7 2 50 200 y", &mut [0; 16]).expect("16 bytes suffice");
/// let mut list = vec![0; BODY_NUMBERS];
/// assert_eq!(records(&base, Body::Authorizations, 0, &mut list)?, [1, 1, 2, 7, 1, 0, 1, 5, 50, 200]);
/// assert_eq!(records(&base, Body::Heading, 0, &mut list)?, [5, 1, 1, 0, 0, 1, 0]);
/// # Ok::<(), access_base::Refusal>(())
/// ```
pub fn records<'l>(base: &[u8], body: Body, first: u32, list: &'l mut [u32]) -> Result<&'l [u32], Refusal> {
    let reply = refusal::checked(raw::records(base, body as u32, first, list))?;
    Ok(&list[..reply.number as usize * body.width()])
}

/// The rights sheet of an object, to be hung up in the meter room: a row of [`ROW_BYTES`] bytes for each authorization on
/// it, in the base's order, written to the front of the page; the rest of the page is untouched. A row has the label,
/// the granter, the subject, the mode, the sign, the option, and the first and the last instant, right-aligned in
/// columns of 5, 4, 4, 1, 1, 1, 10 and 10 bytes, with one blank between two columns and a newline last.
/// [`SHEET_BYTES`] always suffice; an object with nothing on it needs no page.
///
/// ```
/// use access_base::{create, report, text, Refusal, BYTES, SHEET_BYTES, TEXT_BYTES};
///
/// let mut base = vec![0; BYTES];
/// let mut out = vec![0; TEXT_BYTES];
/// create(&mut base)?;
/// for line in ["4 1 NEW 7", "4 1 NEW 8", "5 1 GRANT 1 7 2 50 200 y", "5 1 DENY 3 7 1023 60 inf"] {
///     text(&mut base, line, &mut out).expect("the buffer is long enough");
/// }
/// let mut page = vec![0; SHEET_BYTES];
/// let rows = ["    1    1    2 1 + y         50        200\n", "    2    1 1023 3 - n         60        inf\n"];
/// assert_eq!(report(&base, 7, &mut page)?, rows.concat());
/// assert_eq!(report(&base, 7, &mut page[..87]), Err(Refusal::Full));
/// assert_eq!(report(&base, 8, &mut [])?, "");
/// assert_eq!(report(&base, 9, &mut []), Err(Refusal::NoSuchObject));
/// assert_eq!(report(&base, 129, &mut page), Err(Refusal::OutOfRange));
/// # Ok::<(), Refusal>(())
/// ```
pub fn report<'p>(base: &[u8], object: u32, page: &'p mut [u8]) -> Result<&'p str, Refusal> {
    let reply = refusal::checked(raw::report(base, object, page))?;
    Ok(core::str::from_utf8(&page[..reply.number as usize]).expect("sheets are in ASCII"))
}

/// The replies to a round's questions, each as if it were put alone: the first byte of `replies` is for the first question,
/// 0 for no, 1 for yes, and 16 plus the refusal's number. The bytes past the last question's are untouched.
///
/// An unsound base is refused, whatever the questions, and so are fewer bytes than questions; then nothing is written.
///
/// ```
/// use access_base::{create, may_each, text, Question, Refusal, BYTES};
///
/// let mut base = vec![0; BYTES];
/// let questions = [Question { subject: 2, mode: 3, object: 7, instant: 50 }];
/// let mut replies = [9; 2];
/// assert_eq!(may_each(&base, &questions, &mut replies), Err(Refusal::InvalidBase));
/// create(&mut base)?;
/// assert_eq!(may_each(&base, &questions, &mut replies[..0]), Err(Refusal::Full));
/// assert_eq!(may_each(&base, &questions, &mut replies)?, [22]); // no such meter
/// for line in ["4 1 NEW 7", "5 1 GRANT 3 7 2 50 50 n"] {
///     text(&mut base, line, &mut [0; 16]).expect("16 bytes suffice");
/// }
/// assert_eq!(may_each(&base, &questions, &mut replies)?, [1]); // subject 2 may do 3 to meter 7 at 50
/// assert_eq!(replies[1], 9);
/// # Ok::<(), Refusal>(())
/// ```
pub fn may_each<'r>(base: &[u8], questions: &[Question], replies: &'r mut [u8]) -> Result<&'r [u8], Refusal> {
    refusal::checked(raw::batch(base, raw::words(questions), replies))?;
    Ok(&replies[..questions.len()])
}

/// Answers one line of text, a request or a question as the text session has it, without its newline. The reply's text
/// with its newline is written to the front of the buffer, and the rest of the buffer is untouched. What a request or
/// question is refused with is in the text: `refused 1` for a line that cannot be read, `refused 2` for bytes that are
/// no sound base, and so on through the table.
///
/// A buffer of [`TEXT_LEAST`] bytes suffices for every line but WHEN, one of [`TEXT_BYTES`] for every line. In one that
/// is too short nothing is written, and no request is carried out.
///
/// ```
/// use access_base::{create, text, TooShort, BYTES, TEXT_BYTES};
///
/// let mut base = vec![0; BYTES];
/// let mut out = vec![0; TEXT_BYTES];
/// create(&mut base).expect("the length is that of a base");
/// assert_eq!(text(&mut base, "4 1 NEW 7", &mut out)?, "done 0 0\n");
/// assert_eq!(text(&mut base, "5 1 GRANT 1 7 2 50 inf y", &mut out)?, "done 1 1\n");
/// assert_eq!(text(&mut base, "WHEN 2 1 7", &mut out)?, "50-inf\n");
/// assert_eq!(text(&mut base, b"\xff", &mut out)?, "refused 1\n");
/// assert_eq!(text(&mut base, "5 1 REVOKE 1", &mut out[..15]), Err(TooShort));
/// assert_eq!(text(&mut base, "MAY 2 1 7 60", &mut out)?, "yes\n");
/// # Ok::<(), TooShort>(())
/// ```
pub fn text<'o>(base: &mut [u8], line: impl AsRef<[u8]>, out: &'o mut [u8]) -> Result<&'o str, TooShort> {
    let reply = raw::text(base, line.as_ref(), out);
    if reply.refusal != 0 {
        return Err(TooShort);
    }
    Ok(core::str::from_utf8(&out[..reply.number as usize]).expect("replies are in ASCII"))
}
