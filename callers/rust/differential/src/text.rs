//! Steps as the lines of the text session, for a reader. What that session cannot say is a comment.
use crate::image::Contents;
use crate::pair::Step;
use access_base::raw::Numbers;
use access_base::{OptionTerm, Side, Term, LAST};

/// The words of the twelve kinds, and one for all other numbers.
pub const WORDS: [&str; 13] = [
    "NEW",
    "GRANT",
    "DENY",
    "REVOKE",
    "REVOKEP",
    "REVOKEN",
    "ADDRULE",
    "DROPRULE",
    "GRANTADM",
    "REVOKEADM",
    "GRANTREF",
    "REVOKEREF",
    "unknown",
];

/// A kind's place in the list of words.
pub fn place(kind: u32) -> usize {
    (kind as usize).wrapping_sub(1).min(12)
}

fn instant(t: u32) -> String {
    if t == LAST {
        "inf".to_string()
    } else {
        t.to_string()
    }
}

fn term(term: Term) -> String {
    match term {
        Term::Any => "*".to_string(),
        Term::Number(n) => n.to_string(),
    }
}

fn side(side: Side) -> String {
    let sign = if side.negative { '-' } else { '+' };
    format!("{} {} {} {sign}", term(side.subject), term(side.mode), term(side.object))
}

fn rule(q: &Numbers) -> String {
    let operator = match q.operator {
        1 => "WHENEVER".to_string(),
        2 => "ASLONGAS".to_string(),
        3 => "WHENEVERNOT".to_string(),
        4 => "UNLESS".to_string(),
        other => format!("(operator {other})"),
    };
    let option = match q.right_option {
        OptionTerm::With => 'y',
        OptionTerm::Without => 'n',
        OptionTerm::Either => '*',
    };
    format!("{} {operator} {} {} {option}", side(q.left), side(q.right), term(q.grantor))
}

/// A request as a line of the text session.
pub fn request(q: &Numbers) -> String {
    let span = format!("{} {}", instant(q.start), instant(q.end));
    let fields = match q.kind {
        1 => q.object.to_string(),
        2 => format!("{} {} {} {span} {}", q.mode, q.object, q.subject, if q.option { 'y' } else { 'n' }),
        3 | 5 | 6 => format!("{} {} {} {span}", q.mode, q.object, q.subject),
        4 | 8 => q.label.to_string(),
        7 => format!("{} {span}", rule(q)),
        9..=12 => format!("{} {}", q.object, q.subject),
        _ => format!("(kind {})", q.kind),
    };
    format!("{} {} {} {fields}", instant(q.now), q.requester, WORDS[place(q.kind)])
}

/// A step as a line, or several for lent bytes.
pub fn step(step: &Step) -> String {
    match step {
        Step::Lend(bytes) => lent(bytes),
        Step::Create => "# an empty base is made".to_string(),
        Step::Request(q) => request(q),
        Step::May(x, t) => format!("MAY {} {} {} {}", x.subject, x.mode, x.object, instant(*t)),
        Step::SimpleMay(x, t) => {
            format!("MAY {} {} {} {}    # to the simple engine", x.subject, x.mode, x.object, instant(*t))
        }
        Step::When { access: x, length, .. } => {
            format!("WHEN {} {} {}    # list of {length} numbers", x.subject, x.mode, x.object)
        }
        Step::Report { object, length, .. } => format!("# the sheet of {object}, on a page of {length} bytes"),
        Step::Text { line, length, .. } => {
            format!("{}    # as text, with a buffer of {length} bytes", line.escape_ascii())
        }
        Step::Round { questions, length, .. } => {
            format!("# a round of {} questions with {length} bytes: {questions:?}", questions.len())
        }
    }
}

// The records of lent bytes, where there are not too many.
fn lent(bytes: &[u8]) -> String {
    let contents = Contents::read(bytes);
    let front: Vec<String> = bytes.iter().take(32).map(|b| format!("{b:02x}")).collect();
    let mut text = format!("# {} bytes are lent; the first ones: {}", bytes.len(), front.join(" "));
    if bytes.get(..4) != Some(b"MRB1") {
        return text;
    }
    for (name, holders) in
        [("owner", &contents.owners), ("administrator", &contents.administrators), ("referrer", &contents.referrers)]
    {
        for x in holders.iter().take(200) {
            text += &format!("\n#   {name} {} {}", x.object, x.subject);
        }
    }
    for x in contents.lines.iter().take(100) {
        text += &format!("\n#   {x:?}");
    }
    for x in contents.rules.iter().take(100) {
        text += &format!("\n#   {x:?}");
    }
    text
}
