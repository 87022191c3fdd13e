//! An answer as plain data, and the text lines that it is written in (see vectors/README.md).
use std::fmt::Write;

use oxc_span::Span;

use crate::tokenfile::{Ends, List};

/// A name or a string: the number of the token it came from, its bytes and its span.
#[derive(Debug, Clone, PartialEq, Eq)]
pub struct Word {
    pub token: usize,
    pub text: Vec<u8>,
    pub span: Span,
    /// The token was a Str.
    pub string: bool,
    pub lone: bool,
}

#[derive(Debug, Clone, PartialEq, Eq)]
pub struct Fault {
    pub number: u8,
    pub layer: u8,
    pub spans: Vec<Span>,
}

/// The layer that a number belongs to; 9 is the list's, but for `file`'s.
pub fn layer(number: u8) -> u8 {
    match number {
        8 => 1,
        3 | 9 => 2,
        30 | 31 | 11 => 4,
        _ => 3,
    }
}

#[derive(Debug, Clone, Copy, PartialEq, Eq)]
pub enum Kind {
    Statement,
    Import,
    ExportAll,
    ExportFrom,
    ExportBraces,
    Declaration,
    Default,
}
impl Kind {
    pub fn name(self) -> &'static str {
        match self {
            Self::Statement => "statement",
            Self::Import => "import",
            Self::ExportAll => "export-all",
            Self::ExportFrom => "export-from",
            Self::ExportBraces => "export-braces",
            Self::Declaration => "declaration",
            Self::Default => "default",
        }
    }
}

#[derive(Debug, Clone, PartialEq, Eq)]
pub enum Specifier {
    Default { local: Word, span: Span },
    Namespace { local: Word, span: Span },
    Import { imported: Word, local: Word, span: Span },
    Export { local: Word, exported: Word, span: Span },
}

#[derive(Debug, Clone, PartialEq, Eq)]
pub struct Attribute {
    pub key: Word,
    pub value: Word,
    pub span: Span,
}

#[derive(Debug, Clone, PartialEq, Eq)]
pub struct Page {
    pub kind: Kind,
    pub first: usize,
    pub count: usize,
    pub span: Span,
    pub phase: &'static str,
    pub source: Option<Word>,
    /// None: an import without specifiers (or a page that has none by its kind).
    pub specifiers: Option<Vec<Specifier>>,
    pub exported: Option<Word>,
    pub declared: Vec<Word>,
    pub body: Option<Span>,
    /// Of a default: the keyword's span, how it is named, the name.
    pub keyword: Option<Span>,
    pub how: &'static str,
    pub name: Option<Word>,
    pub attributes: Option<(&'static str, Span, Vec<Attribute>)>,
    pub faults: Vec<Fault>,
    /// Where a stand-in of the oracle had to bend (not printed).
    pub notes: Vec<&'static str>,
}

#[derive(Debug, Clone, PartialEq, Eq)]
pub enum Ask {
    Statement { token: usize, length: usize },
    Declaration { token: usize, length: usize, names: Vec<usize> },
    Default { token: usize, length: usize, body: usize, how: &'static str, name: Option<usize> },
    Refused { question: &'static str, token: usize, code: u8 },
}

#[derive(Debug, Clone, PartialEq, Eq)]
pub struct Stop {
    pub number: u8,
    pub layer: u8,
    /// The host's code, or 0.
    pub code: u8,
    pub spans: Vec<Span>,
    /// What the Rust called it (not printed).
    pub constructor: String,
    /// Number of the token come to (not printed).
    pub token: usize,
    /// Number of the stopped item's first token (not printed).
    pub first: usize,
    pub notes: Vec<&'static str>,
}

/// A kind of name with its text and span, as rows of the record have it.
#[derive(Debug, Clone, PartialEq, Eq)]
pub struct Cell {
    pub kind: &'static str,
    pub text: Vec<u8>,
    pub span: Span,
}
impl Cell {
    pub fn of(kind: &'static str) -> Self {
        Self { kind, text: vec![], span: Span::default() }
    }
    pub fn word(kind: &'static str, text: &[u8], span: Span) -> Self {
        Self { kind, text: text.to_vec(), span }
    }
}

#[derive(Debug, Clone, PartialEq, Eq)]
pub struct ImportRow {
    pub statement: Span,
    pub request: (Vec<u8>, Span),
    pub import: Cell,
    pub local: (Vec<u8>, Span),
    pub phase: &'static str,
}
#[derive(Debug, Clone, PartialEq, Eq)]
pub struct RequestRow {
    pub text: Vec<u8>,
    pub span: Span,
    pub statement: Span,
    pub is_import: bool,
}
#[derive(Debug, Clone, PartialEq, Eq)]
pub struct ExportRow {
    pub statement: Span,
    pub span: Span,
    pub request: Cell,
    pub import: Cell,
    pub export: Cell,
    pub local: Cell,
}

#[derive(Debug, Clone, PartialEq, Eq, Default)]
pub struct Record {
    pub mark: bool,
    pub imports: Vec<ImportRow>,
    pub requests: Vec<RequestRow>,
    pub names: Vec<(Vec<u8>, Span)>,
    pub local: Vec<ExportRow>,
    pub indirect: Vec<ExportRow>,
    pub star: Vec<ExportRow>,
    pub faults: Vec<Fault>,
}

#[derive(Debug, Clone, PartialEq, Eq)]
pub struct Answer {
    /// In the order asked, each with the number of the item that it belongs to.
    pub asks: Vec<(usize, Ask)>,
    pub pages: Vec<Page>,
    pub stop: Option<Stop>,
    /// None for a stopped module.
    pub record: Option<Record>,
}

pub fn hex(b: &[u8]) -> String {
    if b.is_empty() {
        return "-".into();
    }
    let mut o = String::with_capacity(b.len() * 2);
    for x in b {
        write!(o, "{x:02x}").unwrap();
    }
    o
}
fn sp(s: Span) -> String {
    format!("{}-{}", s.start, s.end)
}
fn sps(s: &[Span]) -> String {
    s.iter().map(|s| sp(*s)).collect::<Vec<_>>().join(" ")
}

/// The head of a block: name and class, bytes, text, the token list and how it ended.
pub fn head(o: &mut String, name: &str, class: &str, bytes: &[u8], text: &[u8], js: Option<usize>, list: &List) {
    writeln!(o, "module {name} {class}").unwrap();
    writeln!(o, "bytes {}", hex(bytes)).unwrap();
    writeln!(o, "text {}", hex(text)).unwrap();
    if let Some(n) = js {
        writeln!(o, "js {n}").unwrap();
    }
    for t in &list.tokens {
        writeln!(o, "token {} {} {} {} {}", t.kind as u8, sp(t.span), t.place, t.length, t.marks).unwrap();
    }
    match &list.ends {
        Ends::Eof(n) => writeln!(o, "ends eof {n}").unwrap(),
        Ends::Bytes(n) => writeln!(o, "ends bytes {n}").unwrap(),
        Ends::Bad(n, r) => writeln!(o, "ends bad {n} {}", r.join(" ")).unwrap(),
    }
}

impl Answer {
    /// The lines after the head, without `rule` and `end`.
    pub fn lines(&self, o: &mut String, list: &List) {
        let part = |w: &Word| {
            let t = &list.tokens[w.token];
            format!("{} {}", t.place, t.length)
        };
        // place, length, span, string
        let name = |w: &Word| format!("{} {} {}", part(w), sp(w.span), u8::from(w.string));
        // place, length, span, lone
        let string = |w: &Word| format!("{} {} {}", part(w), sp(w.span), u8::from(w.lone));
        // place, length, span
        let plain = |w: &Word| format!("{} {}", part(w), sp(w.span));
        for (_, a) in &self.asks {
            match a {
                Ask::Statement { token, length } => writeln!(o, "ask statement {token} {length}"),
                Ask::Declaration { token, length, names } => {
                    write!(o, "ask declaration {token} {length} {}", names.len()).unwrap();
                    for n in names {
                        write!(o, " {n}").unwrap();
                    }
                    writeln!(o)
                }
                Ask::Default { token, length, body, how, name } => {
                    write!(o, "ask default {token} {length} {body} {how}").unwrap();
                    if let Some(n) = name {
                        write!(o, " {n}").unwrap();
                    }
                    writeln!(o)
                }
                Ask::Refused { question, token, code } => writeln!(o, "ask {question} {token} refused {code}"),
            }
            .unwrap();
        }
        if let Some(s) = &self.stop {
            writeln!(o, "stop {} {} {} {}", s.number, s.layer, s.code, sps(&s.spans)).unwrap();
            return;
        }
        for p in &self.pages {
            writeln!(o, "page {} {} {} {} {}", p.kind.name(), sp(p.span), p.first, p.count, p.phase).unwrap();
            if let Some(w) = &p.source {
                writeln!(o, "source {}", string(w)).unwrap();
            }
            if let Some(w) = &p.exported {
                writeln!(o, "exported {}", name(w)).unwrap();
            }
            if let Some(s) = p.keyword {
                writeln!(o, "keyword {}", sp(s)).unwrap();
            }
            if let Some(s) = p.body {
                writeln!(o, "body {}", sp(s)).unwrap();
            }
            if p.kind == Kind::Default {
                match &p.name {
                    Some(w) => writeln!(o, "how {} {}", p.how, plain(w)).unwrap(),
                    None => writeln!(o, "how {}", p.how).unwrap(),
                }
            }
            match &p.specifiers {
                Some(v) => {
                    writeln!(o, "specifiers {}", v.len()).unwrap();
                    for s in v {
                        match s {
                            Specifier::Default { local, span } => {
                                writeln!(o, "specifier default {} {}", plain(local), sp(*span))
                            }
                            Specifier::Namespace { local, span } => {
                                writeln!(o, "specifier namespace {} {}", plain(local), sp(*span))
                            }
                            Specifier::Import { imported, local, span } => {
                                writeln!(o, "specifier import {} {} {}", name(imported), plain(local), sp(*span))
                            }
                            Specifier::Export { local, exported, span } => {
                                writeln!(o, "specifier export {} {} {}", name(local), name(exported), sp(*span))
                            }
                        }
                        .unwrap();
                    }
                }
                None if p.kind == Kind::Import => writeln!(o, "specifiers none").unwrap(),
                None => {}
            }
            for w in &p.declared {
                writeln!(o, "declared {}", plain(w)).unwrap();
            }
            if let Some((keyword, span, rows)) = &p.attributes {
                writeln!(o, "attributes {keyword} {} {}", sp(*span), rows.len()).unwrap();
                for a in rows {
                    writeln!(o, "attribute {} {} {}", name(&a.key), string(&a.value), sp(a.span)).unwrap();
                }
            }
            for f in &p.faults {
                writeln!(o, "fault {} {} {}", f.number, f.layer, sps(&f.spans)).unwrap();
            }
        }
        let Some(r) = &self.record else { return };
        writeln!(o, "mark {}", r.mark).unwrap();
        writeln!(o, "faults {}", self.pages.iter().map(|p| p.faults.len()).sum::<usize>()).unwrap();
        let cell = |c: &Cell| format!("{} {} {}", c.kind, hex(&c.text), sp(c.span));
        for i in &r.imports {
            writeln!(
                o,
                "import {} {} {} {} {} {} {}",
                sp(i.statement),
                hex(&i.request.0),
                sp(i.request.1),
                cell(&i.import),
                hex(&i.local.0),
                sp(i.local.1),
                i.phase
            )
            .unwrap();
        }
        for q in &r.requests {
            writeln!(
                o,
                "request {} {} {} {}",
                hex(&q.text),
                sp(q.span),
                sp(q.statement),
                if q.is_import { "import" } else { "export" }
            )
            .unwrap();
        }
        for (t, s) in &r.names {
            writeln!(o, "name {} {}", hex(t), sp(*s)).unwrap();
        }
        for (word, rows) in [("local", &r.local), ("indirect", &r.indirect), ("star", &r.star)] {
            for e in rows {
                writeln!(
                    o,
                    "{word} {} {} {} {} {} {}",
                    sp(e.statement),
                    sp(e.span),
                    cell(&e.request),
                    cell(&e.import),
                    cell(&e.export),
                    cell(&e.local)
                )
                .unwrap();
            }
        }
        for f in &r.faults {
            writeln!(o, "closefault {} {} {}", f.number, f.layer, sps(&f.spans)).unwrap();
        }
    }
}
