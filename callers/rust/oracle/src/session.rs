//! 01, "Text session": a throwaway reader, to run the cases through the oracle.

use crate::*;

/// A text line as read.
pub enum Asked {
    Request(Request),
    May { subject: u32, mode: u32, object: u32, instant: u32 },
    When { subject: u32, mode: u32, object: u32 },
    Illegible,
}

/// "Numbers have 1 to 10 digits with no leading zero (zero itself is `0`)"; "A number above the last
/// instant [...] cannot be read."
fn number(field: &[u8]) -> Option<u32> {
    if field.is_empty() || field.len() > 10 || !field.iter().all(u8::is_ascii_digit) {
        return None;
    }
    if field[0] == b'0' && field.len() > 1 {
        return None;
    }
    let value = field.iter().fold(0u64, |value, digit| value * 10 + u64::from(digit - b'0'));
    u32::try_from(value).ok()
}

/// "`inf` is the last instant"
fn instant(field: &[u8]) -> Option<u32> {
    if field == b"inf" {
        Some(LAST)
    } else {
        number(field)
    }
}

/// "star is `*`", for an object too: "as byte value 0 and text `*`" (CR 8).
fn term(field: &[u8]) -> Option<Term> {
    if field == b"*" {
        Some(Term::Any)
    } else {
        number(field).map(Term::Number)
    }
}

/// "sign `+` or `-`"; true is a denial.
fn sign(field: &[u8]) -> Option<bool> {
    match field {
        b"+" => Some(false),
        b"-" => Some(true),
        _ => None,
    }
}

/// "option `y` or `n`"
fn option(field: &[u8]) -> Option<bool> {
    match field {
        b"y" => Some(true),
        b"n" => Some(false),
        _ => None,
    }
}

/// The option on the right of a rule, which may be the star.
fn option_term(field: &[u8]) -> Option<OptionTerm> {
    match field {
        b"y" => Some(OptionTerm::With),
        b"n" => Some(OptionTerm::Without),
        b"*" => Some(OptionTerm::Either),
        _ => None,
    }
}

/// "the operator is its word in capitals"
fn operator(field: &[u8]) -> Option<u32> {
    match field {
        b"WHENEVER" => Some(WHENEVER),
        b"ASLONGAS" => Some(ASLONGAS),
        b"WHENEVERNOT" => Some(WHENEVERNOT),
        b"UNLESS" => Some(UNLESS),
        _ => None,
    }
}

/// A request with nothing in it.
pub fn blank() -> Request {
    let none = Term::Number(0);
    let side = Side { subject: none, mode: none, object: none, negative: false };
    Request {
        now: 0,
        requester: 0,
        kind: 0,
        label: 0,
        mode: 0,
        object: 0,
        subject: 0,
        start: 0,
        end: 0,
        option: false,
        rule: Rule { left: side, operator: 0, right: side, grantor: none, option: OptionTerm::Without },
    }
}

/// "One request a line, at most 96 bytes before the newline (a longer line cannot be read), fields parted
/// by one space: now, requester, word, fields. [...] Questions start with their word. A line that cannot be
/// read is answered with 1 and reading goes on; so is an empty one."
pub fn read(line: &[u8]) -> Asked {
    if line.len() > 96 {
        return Asked::Illegible;
    }
    let fields: Vec<&[u8]> = line.split(|&byte| byte == b' ').collect();
    let asked = match fields[0] {
        b"MAY" => may(&fields),
        b"WHEN" => when(&fields),
        _ => request(&fields).map(Asked::Request),
    };
    asked.unwrap_or(Asked::Illegible)
}

fn may(fields: &[&[u8]]) -> Option<Asked> {
    let &[_, subject, mode, object, at] = fields else { return None };
    Some(Asked::May { subject: number(subject)?, mode: number(mode)?, object: number(object)?, instant: instant(at)? })
}

fn when(fields: &[&[u8]]) -> Option<Asked> {
    let &[_, subject, mode, object] = fields else { return None };
    Some(Asked::When { subject: number(subject)?, mode: number(mode)?, object: number(object)? })
}

fn request(fields: &[&[u8]]) -> Option<Request> {
    if fields.len() < 3 {
        return None;
    }
    let mut q = blank();
    q.now = instant(fields[0])?;
    q.requester = number(fields[1])?;
    let rest = &fields[3..];
    q.kind = match fields[2] {
        b"NEW" => NEW,
        b"GRANT" => GRANT,
        b"DENY" => DENY,
        b"REVOKE" => REVOKE,
        b"REVOKEP" => REVOKEP,
        b"REVOKEN" => REVOKEN,
        b"ADDRULE" => ADDRULE,
        b"DROPRULE" => DROPRULE,
        b"GRANTADM" => GRANTADM,
        b"REVOKEADM" => REVOKEADM,
        b"GRANTREF" => GRANTREF,
        b"REVOKEREF" => REVOKEREF,
        _ => return None,
    };
    match q.kind {
        NEW => {
            let &[object] = rest else { return None };
            q.object = number(object)?;
        }
        GRANT => {
            // "GRANT: mode object subject start end option"
            let &[mode, object, subject, start, end, transferable] = rest else { return None };
            q.mode = number(mode)?;
            q.object = number(object)?;
            q.subject = number(subject)?;
            q.start = instant(start)?;
            q.end = instant(end)?;
            q.option = option(transferable)?;
        }
        DENY | REVOKEP | REVOKEN => {
            // "DENY the same without option"
            let &[mode, object, subject, start, end] = rest else { return None };
            q.mode = number(mode)?;
            q.object = number(object)?;
            q.subject = number(subject)?;
            q.start = instant(start)?;
            q.end = instant(end)?;
        }
        REVOKE | DROPRULE => {
            let &[label] = rest else { return None };
            q.label = number(label)?;
        }
        ADDRULE => {
            // "ADDRULE: left subject, mode, object, sign; operator; right subject, mode, object, sign,
            // granter, option; start end."
            let &[ls, lm, lo, lsign, op, rs, rm, ro, rsign, grantor, opt, start, end] = rest else {
                return None;
            };
            q.rule = Rule {
                left: Side { subject: term(ls)?, mode: term(lm)?, object: term(lo)?, negative: sign(lsign)? },
                operator: operator(op)?,
                right: Side { subject: term(rs)?, mode: term(rm)?, object: term(ro)?, negative: sign(rsign)? },
                grantor: term(grantor)?,
                option: option_term(opt)?,
            };
            q.start = instant(start)?;
            q.end = instant(end)?;
        }
        _ => {
            let &[object, subject] = rest else { return None };
            q.object = number(object)?;
            q.subject = number(subject)?;
        }
    }
    Some(q)
}

/// "Each line ends at a newline; a last one without it counts if it has a byte."
pub fn lines(input: &[u8]) -> Vec<&[u8]> {
    let mut lines: Vec<&[u8]> = input.split(|&byte| byte == b'\n').collect();
    if lines.last().is_some_and(|last| last.is_empty()) {
        lines.pop();
    }
    lines
}

/// Cells for a whole session: each now, start, end and asked instant is a cell of its own.
pub fn cells(session: &[Asked]) -> Cells {
    let mut boundaries = Vec::new();
    let mut own = |instant: u32| {
        boundaries.push(instant);
        boundaries.push(instant.saturating_add(1));
    };
    for asked in session {
        match asked {
            Asked::Request(q) => {
                own(q.now);
                if matches!(q.kind, GRANT | DENY | REVOKEP | REVOKEN | ADDRULE) {
                    own(q.start);
                    own(q.end);
                }
            }
            Asked::May { instant, .. } => own(*instant),
            _ => {}
        }
    }
    Cells::from_boundaries(boundaries)
}

/// Only the cells that a session needs: cut at starts and after ends.
pub fn coarse_cells(session: &[Asked]) -> Cells {
    let mut boundaries = Vec::new();
    for asked in session {
        if let Asked::Request(q) = asked {
            if matches!(q.kind, GRANT | DENY | REVOKEP | REVOKEN | ADDRULE) {
                boundaries.push(q.start);
                if q.end < LAST {
                    boundaries.push(q.end + 1);
                }
            }
        }
    }
    Cells::from_boundaries(boundaries)
}

/// "the last instant as `inf`"
pub(crate) fn show(instant: u32) -> String {
    if instant == LAST {
        "inf".to_string()
    } else {
        instant.to_string()
    }
}

/// "prints `done L N` (new label or 0, lines now in the base), `refused K`, `yes`, `no`, or the runs as
/// `a-b` parted by a space, the last instant as `inf`, or `none`." "WHEN gets a list of 1,100 pairs".
pub fn answer(base: &mut Oracle, asked: &Asked) -> String {
    match asked {
        Asked::Illegible => "refused 1".to_string(),
        Asked::Request(q) => match base.request(q) {
            Reply::Done { label, lines } => format!("done {label} {lines}"),
            Reply::Refused(row) => format!("refused {row}"),
        },
        Asked::May { subject, mode, object, instant } => match base.may(*subject, *mode, *object, *instant) {
            Ok(true) => "yes".to_string(),
            Ok(false) => "no".to_string(),
            Err(row) => format!("refused {row}"),
        },
        Asked::When { subject, mode, object } => match base.when(*subject, *mode, *object, 1_100) {
            Ok(runs) if runs.is_empty() => "none".to_string(),
            Ok(runs) => runs.iter().map(|&(a, b)| format!("{}-{}", show(a), show(b))).collect::<Vec<_>>().join(" "),
            Err(row) => format!("refused {row}"),
        },
    }
}

/// A whole session from an empty base; `fine` also makes nows and asked instants cells of their own.
pub fn run(input: &[u8], fine: bool) -> Vec<u8> {
    let session: Vec<Asked> = lines(input).into_iter().map(read).collect();
    let cut = if fine { cells(&session) } else { coarse_cells(&session) };
    let mut base = Oracle::empty(cut);
    let mut output = Vec::new();
    for asked in &session {
        output.extend_from_slice(answer(&mut base, asked).as_bytes());
        output.push(b'\n');
    }
    output
}
