//! The base's bytes as five bodies of records, to see what is in a base, to damage it record by record, and to
//! compose one. Nothing here judges: what the bytes mean is the library's and the oracle's business.

/// Objects, administrators, referrers, lines, rules.
pub const WIDTHS: [usize; 5] = [4, 4, 4, 24, 28];
/// The lines' place among the bodies.
pub const LINES: usize = 3;
/// The rules' place among the bodies.
pub const RULES: usize = 4;

/// A base taken apart.
#[derive(Clone, Default)]
pub struct Image {
    /// The instant of the last accepted request.
    pub clock: u32,
    /// The last label given.
    pub last_label: u16,
    /// The records of each body.
    pub bodies: [Vec<Vec<u8>>; 5],
}

/// A little-endian number of `width` bytes; bytes that are not there count as 0.
pub fn number(bytes: &[u8], at: usize, width: usize) -> u32 {
    (0..width).map(|i| u32::from(*bytes.get(at + i).unwrap_or(&0)) << (8 * i)).sum()
}

/// Writes a little-endian number of `width` bytes; what does not fit is cut off.
pub fn put(bytes: &mut [u8], at: usize, width: usize, value: u32) {
    bytes[at..at + width].copy_from_slice(&value.to_le_bytes()[..width]);
}

impl Image {
    /// Takes bytes apart as far as they go.
    pub fn read(bytes: &[u8]) -> Image {
        let mut image =
            Image { clock: number(bytes, 4, 4), last_label: number(bytes, 8, 2) as u16, ..Image::default() };
        for (i, body) in image.bodies.iter_mut().enumerate() {
            let offset = number(bytes, 12 + 4 * i, 2) as usize;
            let count = number(bytes, 14 + 4 * i, 2) as usize;
            let records = bytes.get(offset..).unwrap_or(&[]).chunks_exact(WIDTHS[i]);
            body.extend(records.take(count).map(<[u8]>::to_vec));
        }
        image
    }

    /// Puts the bodies one behind the other.
    pub fn write(&self) -> Vec<u8> {
        let mut bytes = vec![0; 32];
        bytes[..4].copy_from_slice(b"MRB1");
        put(&mut bytes, 4, 4, self.clock);
        put(&mut bytes, 8, 2, u32::from(self.last_label));
        for (i, body) in self.bodies.iter().enumerate() {
            let offset = bytes.len() as u32;
            put(&mut bytes, 12 + 4 * i, 2, offset);
            put(&mut bytes, 14 + 4 * i, 2, body.len() as u32);
            bytes.extend(body.iter().flatten());
        }
        bytes.resize(access_base::BYTES, 0);
        bytes
    }
}

/// An object with its owner, or an object with one who holds a privilege on it.
#[derive(Clone, Copy, Debug)]
#[allow(missing_docs)]
pub struct Holder {
    pub object: u32,
    pub subject: u32,
}

/// A line as its bytes say it.
#[derive(Clone, Copy, Debug)]
#[allow(missing_docs)]
pub struct Line {
    pub label: u32,
    pub grantor: u32,
    pub subject: u32,
    pub object: u32,
    pub mode: u32,
    pub flags: u32,
    pub at: u32,
    pub start: u32,
    pub end: u32,
}

/// A rule as its bytes say it.
#[derive(Clone, Copy, Debug)]
#[allow(missing_docs)]
pub struct Rule {
    pub label: u32,
    pub author: u32,
    pub left_subject: u32,
    pub left_object: u32,
    pub right_subject: u32,
    pub right_object: u32,
    pub grantor: u32,
    pub left_mode: u32,
    pub right_mode: u32,
    pub operator: u32,
    pub flags: u32,
    pub start: u32,
    pub end: u32,
}

impl Holder {
    /// The record as bytes.
    pub fn write(&self) -> Vec<u8> {
        let mut bytes = vec![0; 4];
        put(&mut bytes, 0, 2, self.object);
        put(&mut bytes, 2, 2, self.subject);
        bytes
    }
}

impl Line {
    /// The record as bytes.
    pub fn write(&self) -> Vec<u8> {
        let mut bytes = vec![0; 24];
        for (i, value) in [self.label, self.grantor, self.subject, self.object].into_iter().enumerate() {
            put(&mut bytes, 2 * i, 2, value);
        }
        put(&mut bytes, 8, 1, self.mode);
        put(&mut bytes, 9, 1, self.flags);
        for (i, value) in [self.at, self.start, self.end].into_iter().enumerate() {
            put(&mut bytes, 12 + 4 * i, 4, value);
        }
        bytes
    }

    /// Whether it is a denial.
    pub fn negative(&self) -> bool {
        self.flags & 1 == 1
    }

    /// Whether it is transferable.
    pub fn option(&self) -> bool {
        self.flags & 2 == 2
    }
}

impl Rule {
    /// The record as bytes.
    pub fn write(&self) -> Vec<u8> {
        let mut bytes = vec![0; 28];
        let words = [
            self.label,
            self.author,
            self.left_subject,
            self.left_object,
            self.right_subject,
            self.right_object,
            self.grantor,
        ];
        for (i, value) in words.into_iter().enumerate() {
            put(&mut bytes, 2 * i, 2, value);
        }
        for (i, value) in [self.left_mode, self.right_mode, self.operator, self.flags].into_iter().enumerate() {
            put(&mut bytes, 14 + i, 1, value);
        }
        put(&mut bytes, 20, 4, self.start);
        put(&mut bytes, 24, 4, self.end);
        bytes
    }
}

/// What is in a base, for the choice of the next request.
#[derive(Clone, Debug, Default)]
#[allow(missing_docs)]
pub struct Contents {
    pub clock: u32,
    pub last_label: u32,
    pub owners: Vec<Holder>,
    pub administrators: Vec<Holder>,
    pub referrers: Vec<Holder>,
    pub lines: Vec<Line>,
    pub rules: Vec<Rule>,
}

impl Contents {
    /// Reads the bytes as far as they go.
    pub fn read(bytes: &[u8]) -> Contents {
        let records = |i: usize| {
            let offset = number(bytes, 12 + 4 * i, 2) as usize;
            let count = number(bytes, 14 + 4 * i, 2) as usize;
            bytes.get(offset..).unwrap_or(&[]).chunks_exact(WIDTHS[i]).take(count)
        };
        let holder = |r: &[u8]| Holder { object: number(r, 0, 2), subject: number(r, 2, 2) };
        Contents {
            clock: number(bytes, 4, 4),
            last_label: number(bytes, 8, 2),
            owners: records(0).map(holder).collect(),
            administrators: records(1).map(holder).collect(),
            referrers: records(2).map(holder).collect(),
            lines: records(LINES).map(line).collect(),
            rules: records(RULES).map(rule).collect(),
        }
    }
}

fn line(r: &[u8]) -> Line {
    Line {
        label: number(r, 0, 2),
        grantor: number(r, 2, 2),
        subject: number(r, 4, 2),
        object: number(r, 6, 2),
        mode: number(r, 8, 1),
        flags: number(r, 9, 1),
        at: number(r, 12, 4),
        start: number(r, 16, 4),
        end: number(r, 20, 4),
    }
}

fn rule(r: &[u8]) -> Rule {
    Rule {
        label: number(r, 0, 2),
        author: number(r, 2, 2),
        left_subject: number(r, 4, 2),
        left_object: number(r, 6, 2),
        right_subject: number(r, 8, 2),
        right_object: number(r, 10, 2),
        grantor: number(r, 12, 2),
        left_mode: number(r, 14, 1),
        right_mode: number(r, 15, 1),
        operator: number(r, 16, 1),
        flags: number(r, 17, 1),
        start: number(r, 20, 4),
        end: number(r, 24, 4),
    }
}
