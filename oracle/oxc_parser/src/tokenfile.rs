//! The token file: records of 14 bytes, and a text beside them.
//!
//! A record is kind, marks, start (four bytes), length (two), text place (four), text length (two),
//! the numbers little-endian. Mark bits 1, 2 and 4 are new line, escaped and lone.
use crate::lexer::Kind;
use oxc_span::Span;

#[derive(Debug, Clone, Copy)]
pub struct Tok<'a> {
    pub kind: Kind,
    pub span: Span,
    /// Mapped text, see `map_text`.
    pub text: &'a str,
    pub new_line: bool,
    pub escaped: bool,
    pub lone: bool,
}

/// One token of the list that a token file means.
#[derive(Debug, Clone, Copy, PartialEq, Eq)]
pub struct Meant {
    pub kind: Kind,
    pub span: Span,
    pub place: u32,
    pub length: u16,
    pub marks: u8,
}

/// How the list ended: before the first Eof, with the bytes, or with a bad record (and the rules it broke).
#[derive(Debug, Clone, PartialEq, Eq)]
pub enum Ends {
    Eof(usize),
    Bytes(usize),
    Bad(usize, Vec<&'static str>),
}

/// The list, with its texts in one buffer: each token has a place of its own there, so that a text
/// that comes back from the parser tells by its address which token it came from.
pub struct List {
    pub tokens: Vec<Meant>,
    pub ends: Ends,
    buffer: String,
    at: Vec<(usize, usize)>,
}

impl List {
    pub fn toks(&self) -> Vec<Tok<'_>> {
        self.tokens
            .iter()
            .zip(&self.at)
            .map(|(m, &(from, to))| Tok {
                kind: m.kind,
                span: m.span,
                text: &self.buffer[from..to],
                new_line: m.marks & 1 != 0,
                escaped: m.marks & 2 != 0,
                lone: m.marks & 4 != 0,
            })
            .collect()
    }
    /// The number of the token whose text this is (not a copy of it).
    pub fn number_of(&self, text: &str) -> usize {
        let at = (text.as_ptr() as usize).wrapping_sub(self.buffer.as_ptr() as usize);
        self.at.binary_search_by_key(&at, |x| x.0).expect("a text of the list")
    }
}

/// Bytes to a str, one to one: what is no UTF-8, and U+10FFxx itself, becomes U+10FF00 + byte.
fn map_text(b: &[u8], out: &mut String) {
    for chunk in b.utf8_chunks() {
        for c in chunk.valid().chars() {
            if c as u32 >= 0x10_FF00 {
                let mut buf = [0; 4];
                for x in c.encode_utf8(&mut buf).bytes() {
                    out.push(char::from_u32(0x10_FF00 + u32::from(x)).unwrap());
                }
            } else {
                out.push(c);
            }
        }
        for &x in chunk.invalid() {
            out.push(char::from_u32(0x10_FF00 + u32::from(x)).unwrap());
        }
    }
}

pub fn unmap_text(s: &str) -> Vec<u8> {
    let mut out = vec![];
    for c in s.chars() {
        if c as u32 >= 0x10_FF00 {
            out.push((c as u32 - 0x10_FF00) as u8);
        } else {
            let mut buf = [0; 4];
            out.extend_from_slice(c.encode_utf8(&mut buf).as_bytes());
        }
    }
    out
}

pub fn kind_of(b: u8) -> Option<Kind> {
    Kind::VARIANTS.get(b as usize).copied()
}

/// The list that a token file means: up to its first Eof; a bad record is one last Undetermined token
/// with span 0 to 0, no text and no marks. Whether a record is bad is asked before whether it is Eof.
pub fn read(bytes: &[u8], text: &[u8]) -> List {
    let bad = Meant { kind: Kind::Undetermined, span: Span::new(0, 0), place: 0, length: 0, marks: 0 };
    let mut tokens = vec![];
    let mut rest = bytes;
    let mut offset = 0;
    let ends = loop {
        if rest.is_empty() {
            break Ends::Bytes(offset);
        }
        let [k, m, s0, s1, s2, s3, l0, l1, p0, p1, p2, p3, t0, t1, tail @ ..] = rest else {
            tokens.push(bad);
            break Ends::Bad(offset, vec!["cut"]);
        };
        let start = u32::from_le_bytes([*s0, *s1, *s2, *s3]);
        let len = u16::from_le_bytes([*l0, *l1]);
        let place = u32::from_le_bytes([*p0, *p1, *p2, *p3]);
        let length = u16::from_le_bytes([*t0, *t1]);
        let mut broken = vec![];
        if *m > 7 {
            broken.push("mark");
        }
        let kind = kind_of(*k);
        if kind.is_none() {
            broken.push("kind");
        }
        let end = start.checked_add(u32::from(len));
        if end.is_none() {
            broken.push("end");
        }
        if place as usize + length as usize > text.len() {
            broken.push("part");
        }
        let (Some(kind), Some(end), true) = (kind, end, broken.is_empty()) else {
            tokens.push(bad);
            break Ends::Bad(offset, broken);
        };
        if kind == Kind::Eof {
            break Ends::Eof(offset);
        }
        tokens.push(Meant { kind, span: Span::new(start, end), place, length, marks: *m });
        rest = tail;
        offset += 14;
    };
    let mut buffer = String::new();
    let mut at = vec![];
    for t in &tokens {
        let from = buffer.len();
        let part = &text[t.place as usize..t.place as usize + t.length as usize];
        map_text(part, &mut buffer);
        at.push((from, buffer.len()));
        buffer.push('|');
    }
    List { tokens, ends, buffer, at }
}

/// Writing side.
#[derive(Debug, Clone)]
pub struct Rec {
    pub kind: u8,
    pub marks: u8,
    pub start: u32,
    pub len: u16,
    pub place: u32,
    pub tlen: u16,
}
impl Rec {
    pub fn put(&self, out: &mut Vec<u8>) {
        out.push(self.kind);
        out.push(self.marks);
        out.extend_from_slice(&self.start.to_le_bytes());
        out.extend_from_slice(&self.len.to_le_bytes());
        out.extend_from_slice(&self.place.to_le_bytes());
        out.extend_from_slice(&self.tlen.to_le_bytes());
    }
}
