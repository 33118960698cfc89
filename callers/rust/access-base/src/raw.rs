//! The exported functions as they are: requests in numbers, so that an unknown kind can be said, and lists of any
//! length. Nothing here is unsafe to call: a slice is what the boundary asks for.
use crate::{Access, Operator, OptionTerm, Order, Question, Request, Side, Term};

/// A request in the boundary's numbers. Fields that the kind does not name are not looked at.
#[derive(Clone, Copy, Debug, PartialEq, Eq)]
#[allow(missing_docs)] // as in the header, callers/c/access_base.h
pub struct Numbers {
    pub kind: u32,
    pub now: u32,
    pub requester: u32,
    pub label: u32,
    pub mode: u32,
    pub object: u32,
    pub subject: u32,
    pub start: u32,
    pub end: u32,
    pub option: bool,
    pub left: Side,
    pub operator: u32,
    pub right: Side,
    pub grantor: Term,
    pub right_option: OptionTerm,
}

/// A reply in numbers: the refusal or 0, the new label or 0, and the count, instant, answer or length of a text.
#[derive(Clone, Copy, Debug, PartialEq, Eq)]
#[allow(missing_docs)]
pub struct Reply {
    pub refusal: u32,
    pub label: u32,
    pub number: u32,
}

mod linked {
    // A slice goes as a pointer and a length. The pointers are those of Rust slices, so never null, also where the
    // length is 0.
    extern "C" {
        pub fn access_base_create(base: *mut u8, length: usize) -> u64;
        pub fn access_base_is_sound(base: *const u8, length: usize) -> bool;
        pub fn access_base_request(
            base: *mut u8,
            length: usize,
            kind: u32,
            now: u32,
            requester: u32,
            label: u32,
            mode: u32,
            object: u32,
            subject: u32,
            start: u32,
            end: u32,
            option: bool,
            left_any_subject: bool,
            left_subject: u32,
            left_any_mode: bool,
            left_mode: u32,
            left_any_object: bool,
            left_object: u32,
            left_negative: bool,
            operator: u32,
            right_any_subject: bool,
            right_subject: u32,
            right_any_mode: bool,
            right_mode: u32,
            right_any_object: bool,
            right_object: u32,
            right_negative: bool,
            any_grantor: bool,
            grantor: u32,
            any_option: bool,
            with_option: bool,
        ) -> u64;
        pub fn access_base_may(
            base: *const u8,
            length: usize,
            subject: u32,
            mode: u32,
            object: u32,
            instant: u32,
        ) -> u64;
        pub fn access_base_simple_may(
            base: *const u8,
            length: usize,
            subject: u32,
            mode: u32,
            object: u32,
            instant: u32,
        ) -> u64;
        pub fn access_base_when(
            base: *const u8,
            length: usize,
            subject: u32,
            mode: u32,
            object: u32,
            list: *mut u32,
            list_length: usize,
        ) -> u64;
        pub fn access_base_records(
            base: *const u8,
            length: usize,
            body: u32,
            first: u32,
            list: *mut u32,
            list_length: usize,
        ) -> u64;
        pub fn access_base_report(
            base: *const u8,
            length: usize,
            object: u32,
            page: *mut u8,
            page_length: usize,
        ) -> u64;
        pub fn access_base_text(
            base: *mut u8,
            length: usize,
            line: *const u8,
            line_length: usize,
            out: *mut u8,
            out_length: usize,
        ) -> u64;
        pub fn access_base_batch(
            base: *const u8,
            length: usize,
            words: *const u32,
            words_length: usize,
            replies: *mut u8,
            replies_length: usize,
        ) -> u64;
    }
}

fn unpacked(packed: u64) -> Reply {
    Reply { refusal: (packed & 0xffff) as u32, label: (packed >> 16 & 0xffff) as u32, number: (packed >> 32) as u32 }
}

// Whether a star stands there, and the number.
fn parts(term: Term) -> (bool, u32) {
    match term {
        Term::Any => (true, 0),
        Term::Number(n) => (false, n),
    }
}

/// `access_base_create`.
pub fn create(base: &mut [u8]) -> Reply {
    unpacked(unsafe { linked::access_base_create(base.as_mut_ptr(), base.len()) })
}

/// `access_base_is_sound`.
pub fn is_sound(base: &[u8]) -> bool {
    unsafe { linked::access_base_is_sound(base.as_ptr(), base.len()) }
}

/// `access_base_request`.
pub fn request(base: &mut [u8], q: &Numbers) -> Reply {
    let (left_any_subject, left_subject) = parts(q.left.subject);
    let (left_any_mode, left_mode) = parts(q.left.mode);
    let (left_any_object, left_object) = parts(q.left.object);
    let (right_any_subject, right_subject) = parts(q.right.subject);
    let (right_any_mode, right_mode) = parts(q.right.mode);
    let (right_any_object, right_object) = parts(q.right.object);
    let (any_grantor, grantor) = parts(q.grantor);
    unpacked(unsafe {
        linked::access_base_request(
            base.as_mut_ptr(),
            base.len(),
            q.kind,
            q.now,
            q.requester,
            q.label,
            q.mode,
            q.object,
            q.subject,
            q.start,
            q.end,
            q.option,
            left_any_subject,
            left_subject,
            left_any_mode,
            left_mode,
            left_any_object,
            left_object,
            q.left.negative,
            q.operator,
            right_any_subject,
            right_subject,
            right_any_mode,
            right_mode,
            right_any_object,
            right_object,
            q.right.negative,
            any_grantor,
            grantor,
            q.right_option == OptionTerm::Either,
            q.right_option == OptionTerm::With,
        )
    })
}

/// `access_base_may`.
pub fn may(base: &[u8], x: Access, instant: u32) -> Reply {
    unpacked(unsafe { linked::access_base_may(base.as_ptr(), base.len(), x.subject, x.mode, x.object, instant) })
}

/// `access_base_simple_may`.
pub fn simple_may(base: &[u8], x: Access, instant: u32) -> Reply {
    unpacked(unsafe { linked::access_base_simple_may(base.as_ptr(), base.len(), x.subject, x.mode, x.object, instant) })
}

/// `access_base_when`, with a list of any length, odd ones too.
pub fn when(base: &[u8], x: Access, list: &mut [u32]) -> Reply {
    unpacked(unsafe {
        linked::access_base_when(base.as_ptr(), base.len(), x.subject, x.mode, x.object, list.as_mut_ptr(), list.len())
    })
}

/// `access_base_records`, of a body by its number.
pub fn records(base: &[u8], body: u32, first: u32, list: &mut [u32]) -> Reply {
    unpacked(unsafe {
        linked::access_base_records(base.as_ptr(), base.len(), body, first, list.as_mut_ptr(), list.len())
    })
}

/// `access_base_report`: the number is that of the bytes written.
pub fn report(base: &[u8], object: u32, page: &mut [u8]) -> Reply {
    unpacked(unsafe { linked::access_base_report(base.as_ptr(), base.len(), object, page.as_mut_ptr(), page.len()) })
}

/// `access_base_text`: the number is that of the bytes written.
pub fn text(base: &mut [u8], line: &[u8], out: &mut [u8]) -> Reply {
    unpacked(unsafe {
        linked::access_base_text(base.as_mut_ptr(), base.len(), line.as_ptr(), line.len(), out.as_mut_ptr(), out.len())
    })
}

/// The words of questions, as they lie in memory.
pub fn words(questions: &[Question]) -> &[u32] {
    // a question is four words and nothing else, by its representation
    const _: () = assert!(size_of::<Question>() == 4 * size_of::<u32>() && align_of::<Question>() == align_of::<u32>());
    unsafe { core::slice::from_raw_parts(questions.as_ptr().cast(), 4 * questions.len()) }
}

/// `access_base_batch`: four words a question (subject, mode, object, instant); up to three words behind the last question
/// are not looked at.
pub fn batch(base: &[u8], words: &[u32], replies: &mut [u8]) -> Reply {
    unpacked(unsafe {
        linked::access_base_batch(
            base.as_ptr(),
            base.len(),
            words.as_ptr(),
            words.len(),
            replies.as_mut_ptr(),
            replies.len(),
        )
    })
}

const NO_SIDE: Side = Side { subject: Term::Any, mode: Term::Any, object: Term::Any, negative: false };

impl Numbers {
    /// A request of the kind, with nothing else said.
    pub fn of_kind(kind: u32, now: u32, requester: u32) -> Numbers {
        Numbers {
            kind,
            now,
            requester,
            label: 0,
            mode: 0,
            object: 0,
            subject: 0,
            start: 0,
            end: 0,
            option: false,
            left: NO_SIDE,
            operator: 0,
            right: NO_SIDE,
            grantor: Term::Any,
            right_option: OptionTerm::Either,
        }
    }
}

impl From<&Request> for Numbers {
    fn from(q: &Request) -> Numbers {
        let of = |kind| Numbers::of_kind(kind, q.now, q.requester);
        let labelled = |kind, label| Numbers { label, ..of(kind) };
        let privilege = |kind, object, subject| Numbers { object, subject, ..of(kind) };
        let spanned = |kind, access: Access, interval: crate::Interval| Numbers {
            mode: access.mode,
            object: access.object,
            subject: access.subject,
            start: interval.start,
            end: interval.end,
            ..of(kind)
        };
        match q.order {
            Order::New { object } => Numbers { object, ..of(1) },
            Order::Grant { access, interval, option } => Numbers { option, ..spanned(2, access, interval) },
            Order::Deny { access, interval } => spanned(3, access, interval),
            Order::Revoke { label } => labelled(4, label),
            Order::RevokeGrants { access, interval } => spanned(5, access, interval),
            Order::RevokeDenials { access, interval } => spanned(6, access, interval),
            Order::AddRule(rule) => Numbers {
                start: rule.interval.start,
                end: rule.interval.end,
                left: rule.left,
                operator: match rule.operator {
                    Operator::Whenever => 1,
                    Operator::AsLongAs => 2,
                    Operator::WheneverNot => 3,
                    Operator::Unless => 4,
                },
                right: rule.right,
                grantor: rule.grantor,
                right_option: rule.option,
                ..of(7)
            },
            Order::DropRule { label } => labelled(8, label),
            Order::GrantAdministrator { object, subject } => privilege(9, object, subject),
            Order::RevokeAdministrator { object, subject } => privilege(10, object, subject),
            Order::GrantReferrer { object, subject } => privilege(11, object, subject),
            Order::RevokeReferrer { object, subject } => privilege(12, object, subject),
        }
    }
}
