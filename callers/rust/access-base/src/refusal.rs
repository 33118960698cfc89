// The table of refusals in types.
use crate::raw::Reply;
use core::error::Error;
use core::fmt;

/// Why a request or question was refused. Nothing lent was altered. Where several apply, the first is given of
/// 2 to 8, 14, 9 to 13.
#[derive(Clone, Copy, Debug, PartialEq, Eq)]
pub enum Refusal {
    /// 2: the bytes have another length than a base, or are not sound.
    InvalidBase,
    /// 3: a field is outside its range, or a rule's stars or option do not fit.
    OutOfRange,
    /// 4: now is below the clock.
    BehindClock,
    /// 5: the end is below the start; or a grant, denial or rule starts before now.
    BadInterval,
    /// 6: the object (for a rule, either one) does not exist.
    NoSuchObject,
    /// 7: no line (REVOKE) or rule (DROPRULE) has the label.
    NoSuchLabel,
    /// 8: the requester is not its granter, author or owner, or lacks a rule's powers.
    NotPermitted,
    /// 9: the giver of a grant or denial is neither owner nor administrator, and some instant is not covered.
    NotSupported {
        /// The earliest instant of the span that nothing covers.
        uncovered: u32,
    },
    /// 10: the object exists, or the subject owns it or holds that privilege.
    AlreadySo,
    /// 11: the privilege to withdraw is not there.
    NotHeld,
    /// 12: the rule would close a forbidden circle.
    NotStratified,
    /// 13: a count would be passed, no label is left, or the list, the page or the byte list is too short.
    Full,
    /// 14: a line denies the giver of a grant or denial that object and mode at some instant of it. Asked after 8 and
    /// before 9; owners and administrators are exempt.
    Barred,
    /// 15, from [`simple_may`](crate::simple_may) alone: feeding leads from some rule back to it.
    Circular,
}

impl Refusal {
    /// Its number in the table.
    pub fn number(self) -> u32 {
        match self {
            Refusal::InvalidBase => 2,
            Refusal::OutOfRange => 3,
            Refusal::BehindClock => 4,
            Refusal::BadInterval => 5,
            Refusal::NoSuchObject => 6,
            Refusal::NoSuchLabel => 7,
            Refusal::NotPermitted => 8,
            Refusal::NotSupported { .. } => 9,
            Refusal::AlreadySo => 10,
            Refusal::NotHeld => 11,
            Refusal::NotStratified => 12,
            Refusal::Full => 13,
            Refusal::Barred => 14,
            Refusal::Circular => 15,
        }
    }
}

impl fmt::Display for Refusal {
    fn fmt(&self, f: &mut fmt::Formatter) -> fmt::Result {
        let text = match self {
            Refusal::InvalidBase => "invalid base: lend what `create` filled, and let nothing else write to it",
            Refusal::OutOfRange => "out of range: a field is outside its range, or a rule has a star on one side only",
            Refusal::BehindClock => "behind the clock: send requests in the order of their times",
            Refusal::BadInterval => "bad interval: swap the ends, or start at now",
            Refusal::NoSuchObject => "no such object: NEW it first",
            Refusal::NoSuchLabel => "no such label: no line or rule has the label any more",
            Refusal::NotPermitted => "not permitted: ask the giver, author or owner",
            Refusal::NotSupported { uncovered } => {
                return write!(f, "9, not supported: shorten the interval, {uncovered} is the earliest instant not covered")
            }
            Refusal::AlreadySo => "already so: nothing to do",
            Refusal::NotHeld => "not held: nothing to do",
            Refusal::NotStratified => "not stratified: a rule would negate or deny what it rests on",
            Refusal::Barred => "barred: leave out the instants at which the giver is denied, or have the denial withdrawn",
            Refusal::Full => "full: withdraw what has passed, or lend a list of 1,100 pairs, a page of 45,056 bytes, a byte for each question",
            Refusal::Circular => "circular: ask `may`, which serves all rules",
        };
        write!(f, "{}, {text}", self.number())
    }
}

impl Error for Refusal {}

/// 13 from [`text`](crate::text): the buffer has fewer than [`TEXT_LEAST`](crate::TEXT_LEAST) bytes, or fewer than the
/// reply to WHEN takes. Nothing lent was altered.
#[derive(Clone, Copy, Debug, PartialEq, Eq)]
pub struct TooShort;

impl fmt::Display for TooShort {
    fn fmt(&self, f: &mut fmt::Formatter) -> fmt::Result {
        write!(f, "13, full: lend a buffer of {} bytes", crate::TEXT_BYTES)
    }
}

impl Error for TooShort {}

// The reply, or the refusal that it names.
pub(crate) fn checked(reply: Reply) -> Result<Reply, Refusal> {
    Err(match reply.refusal {
        0 => return Ok(reply),
        2 => Refusal::InvalidBase,
        3 => Refusal::OutOfRange,
        4 => Refusal::BehindClock,
        5 => Refusal::BadInterval,
        6 => Refusal::NoSuchObject,
        7 => Refusal::NoSuchLabel,
        8 => Refusal::NotPermitted,
        9 => Refusal::NotSupported { uncovered: reply.number },
        10 => Refusal::AlreadySo,
        11 => Refusal::NotHeld,
        12 => Refusal::NotStratified,
        13 => Refusal::Full,
        14 => Refusal::Barred,
        15 => Refusal::Circular,
        other => unreachable!("the contracts have no refusal {other}"),
    })
}
