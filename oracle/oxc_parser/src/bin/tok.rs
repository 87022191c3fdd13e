//! tok JSFILE OUT      writes OUT.tok and OUT.txt   (JSFILE "-": stdin; -e TEXT OUT: the text itself)
//! tok --dump TOKENS TEXT     shows a token file
//! The text is the source followed by the values that differ from it (escapes).
use oxc_parser::{
    Kind,
    tokenfile::{self, Rec},
};
use std::fs;

struct Lx {
    s: Vec<u8>,
    i: usize,
    extra: Vec<u8>,
    out: Vec<Rec>,
    nl: bool,
    braces: Vec<bool>, // true: a template's ${
}

fn enc(cp: u32, out: &mut Vec<u8>) {
    // UTF-8, surrogates in three-byte form
    if let Some(c) = char::from_u32(cp) {
        let mut b = [0; 4];
        out.extend_from_slice(c.encode_utf8(&mut b).as_bytes());
    } else {
        out.extend_from_slice(&[0xE0 | (cp >> 12) as u8, 0x80 | ((cp >> 6) & 63) as u8, 0x80 | (cp & 63) as u8]);
    }
}

impl Lx {
    fn at(&self, k: usize) -> u8 {
        self.s.get(self.i + k).copied().unwrap_or(0)
    }
    fn starts(&self, p: &str) -> bool {
        self.s[self.i..].starts_with(p.as_bytes())
    }
    fn push(&mut self, kind: Kind, start: usize, marks: u8, text: Option<(usize, usize)>, val: Option<&[u8]>) {
        let (place, tlen) = match (text, val) {
            (_, Some(v)) => {
                let p = self.s.len() + self.extra.len();
                self.extra.extend_from_slice(v);
                (p, v.len())
            }
            (Some((p, l)), _) => (p, l),
            _ => (start, self.i - start),
        };
        let len = self.i - start;
        assert!(len < 65536 && tlen < 65536, "token too long for a record");
        self.out.push(Rec {
            kind: kind as u8,
            marks: marks | u8::from(self.nl),
            start: start as u32,
            len: len as u16,
            place: place as u32,
            tlen: tlen as u16,
        });
        self.nl = false;
    }
    fn ch(&self) -> Option<char> {
        let rest = &self.s[self.i..];
        let n = rest.len().min(4);
        (1..=n).find_map(|k| std::str::from_utf8(&rest[..k]).ok()).and_then(|s| s.chars().next())
    }
    fn hex(&mut self, n: usize) -> u32 {
        let mut v = 0;
        for _ in 0..n {
            v = v * 16 + (self.at(0) as char).to_digit(16).expect("hex digit");
            self.i += 1;
        }
        v
    }
    fn braced_or_4(&mut self) -> u32 {
        if self.at(0) == b'{' {
            self.i += 1;
            let mut v = 0u32;
            while self.at(0) != b'}' {
                v = v * 16 + (self.at(0) as char).to_digit(16).expect("hex digit");
                self.i += 1;
            }
            self.i += 1;
            v
        } else {
            self.hex(4)
        }
    }
    fn ident(&mut self, start: usize) -> (Vec<u8>, bool) {
        let (mut v, mut esc) = (vec![], false);
        let _ = start;
        loop {
            if self.at(0) == b'\\' && self.at(1) == b'u' {
                self.i += 2;
                let cp = self.braced_or_4();
                enc(cp, &mut v);
                esc = true;
                continue;
            }
            match self.ch() {
                Some(c) if c == '$' || c == '_' || c.is_alphanumeric() || c == '\u{200c}' || c == '\u{200d}' => {
                    enc(c as u32, &mut v);
                    self.i += c.len_utf8();
                }
                _ => return (v, esc),
            }
        }
    }
    fn string(&mut self) {
        let start = self.i;
        let q = self.at(0);
        self.i += 1;
        let mut units: Vec<u32> = vec![]; // code points, lone surrogates kept
        let mut esc = false;
        loop {
            assert!(self.i < self.s.len(), "string without end");
            let c = self.at(0);
            if c == q {
                self.i += 1;
                break;
            }
            if c == b'\\' {
                esc = true;
                self.i += 1;
                let c = self.at(0);
                let one = match c {
                    b'n' => Some(10),
                    b't' => Some(9),
                    b'r' => Some(13),
                    b'b' => Some(8),
                    b'f' => Some(12),
                    b'v' => Some(11),
                    b'0' => Some(0),
                    _ => None,
                };
                if let Some(x) = one {
                    units.push(x);
                    self.i += 1;
                } else if c == b'x' {
                    self.i += 1;
                    let v = self.hex(2);
                    units.push(v);
                } else if c == b'u' {
                    self.i += 1;
                    let v = self.braced_or_4();
                    match units.last() {
                        Some(&hi) if (0xD800..0xDC00).contains(&hi) && (0xDC00..0xE000).contains(&v) => {
                            units.pop();
                            units.push(0x10000 + ((hi - 0xD800) << 10) + (v - 0xDC00));
                        }
                        _ => units.push(v),
                    }
                } else if c == b'\r' || c == b'\n' {
                    self.i += if self.starts("\r\n") { 2 } else { 1 };
                } else {
                    let c = self.ch().expect("utf-8");
                    units.push(c as u32);
                    self.i += c.len_utf8();
                }
            } else {
                let c = self.ch().expect("utf-8");
                units.push(c as u32);
                self.i += c.len_utf8();
            }
        }
        let lone = units.iter().any(|u| (0xD800..0xE000).contains(u));
        let marks = if esc { 2 } else { 0 } | if lone { 4 } else { 0 };
        if esc {
            let mut v = vec![];
            for u in units {
                enc(u, &mut v);
            }
            self.push(Kind::Str, start, marks, None, Some(&v));
        } else {
            self.push(Kind::Str, start, marks, Some((start + 1, self.i - start - 2)), None);
        }
    }
    fn template(&mut self, start: usize, head: bool) {
        // after ` or }
        loop {
            assert!(self.i < self.s.len(), "template without end");
            match self.at(0) {
                b'\\' => self.i += 2,
                b'`' => {
                    self.i += 1;
                    let k = if head { Kind::NoSubstitutionTemplate } else { Kind::TemplateTail };
                    return self.push(k, start, 0, None, None);
                }
                b'$' if self.at(1) == b'{' => {
                    self.i += 2;
                    self.braces.push(true);
                    let k = if head { Kind::TemplateHead } else { Kind::TemplateMiddle };
                    return self.push(k, start, 0, None, None);
                }
                _ => self.i += 1,
            }
        }
    }
    fn number(&mut self) {
        let start = self.i;
        let two = (self.at(0), self.at(1) | 32);
        let mut kind = match two {
            (b'0', b'x') => Kind::Hex,
            (b'0', b'o') => Kind::Octal,
            (b'0', b'b') => Kind::Binary,
            _ => Kind::Decimal,
        };
        if kind != Kind::Decimal {
            self.i += 2;
            while self.at(0).is_ascii_hexdigit() || self.at(0) == b'_' {
                self.i += 1;
            }
        } else {
            let digits = |l: &mut Self| {
                while l.at(0).is_ascii_digit() || l.at(0) == b'_' {
                    l.i += 1;
                }
            };
            digits(self);
            if self.at(0) == b'.' {
                self.i += 1;
                kind = Kind::Float;
                digits(self);
            }
            if self.at(0) | 32 == b'e' {
                self.i += 1;
                kind = Kind::PositiveExponential;
                if self.at(0) == b'-' {
                    kind = Kind::NegativeExponential;
                }
                if matches!(self.at(0), b'+' | b'-') {
                    self.i += 1;
                }
                digits(self);
            }
        }
        if self.at(0) == b'n' {
            self.i += 1;
            kind = match kind {
                Kind::Hex => Kind::HexBigInt,
                Kind::Octal => Kind::OctalBigInt,
                Kind::Binary => Kind::BinaryBigInt,
                _ => Kind::DecimalBigInt,
            };
        }
        self.push(kind, start, 0, None, None);
    }
    fn regex_allowed(&self) -> bool {
        match self.out.last() {
            None => true,
            Some(r) => {
                let k = tokenfile::kind_of(r.kind).unwrap();
                !(k == Kind::Ident
                    || k.is_literal()
                    || k == Kind::This
                    || k == Kind::Super
                    || k.is_contextual_keyword()
                    || matches!(
                        k,
                        Kind::RParen | Kind::RBrack | Kind::RCurly | Kind::NoSubstitutionTemplate | Kind::TemplateTail
                    ))
            }
        }
    }
    fn run(&mut self) {
        // Longest first.
        let puncts: &[(&str, Kind)] = &[
            (">>>=", Kind::ShiftRight3Eq), ("...", Kind::Dot3), ("===", Kind::Eq3), ("!==", Kind::Neq2),
            ("**=", Kind::Star2Eq), ("<<=", Kind::ShiftLeftEq), (">>=", Kind::ShiftRightEq),
            (">>>", Kind::ShiftRight3), ("&&=", Kind::Amp2Eq), ("||=", Kind::Pipe2Eq), ("??=", Kind::Question2Eq),
            ("=>", Kind::Arrow), ("==", Kind::Eq2), ("!=", Kind::Neq), ("<=", Kind::LtEq), (">=", Kind::GtEq),
            ("&&", Kind::Amp2), ("||", Kind::Pipe2), ("??", Kind::Question2), ("?.", Kind::QuestionDot),
            ("++", Kind::Plus2), ("--", Kind::Minus2), ("+=", Kind::PlusEq), ("-=", Kind::MinusEq),
            ("*=", Kind::StarEq), ("%=", Kind::PercentEq), ("&=", Kind::AmpEq), ("|=", Kind::PipeEq),
            ("^=", Kind::CaretEq), ("<<", Kind::ShiftLeft), (">>", Kind::ShiftRight), ("**", Kind::Star2),
            ("/=", Kind::SlashEq), ("{", Kind::LCurly), ("}", Kind::RCurly), ("(", Kind::LParen), (")", Kind::RParen),
            ("[", Kind::LBrack), ("]", Kind::RBrack), (".", Kind::Dot), (";", Kind::Semicolon), (",", Kind::Comma),
            ("<", Kind::LAngle), (">", Kind::RAngle), ("+", Kind::Plus), ("-", Kind::Minus), ("*", Kind::Star),
            ("%", Kind::Percent), ("&", Kind::Amp), ("|", Kind::Pipe), ("^", Kind::Caret), ("!", Kind::Bang),
            ("~", Kind::Tilde), ("?", Kind::Question), (":", Kind::Colon), ("=", Kind::Eq), ("/", Kind::Slash),
            ("@", Kind::At),
        ];
        self.nl = true; // the first token stands on a new line, as in oxc
        if self.starts("#!") {
            while self.i < self.s.len() && self.at(0) != b'\n' {
                self.i += 1;
            }
        }
        'next: while self.i < self.s.len() {
            let start = self.i;
            let c = self.at(0);
            match c {
                b'\n' | b'\r' => {
                    self.nl = true;
                    self.i += 1;
                    continue;
                }
                b' ' | b'\t' | 11 | 12 => {
                    self.i += 1;
                    continue;
                }
                b'/' if self.at(1) == b'/' => {
                    while self.i < self.s.len() && !matches!(self.at(0), b'\n' | b'\r') && !self.starts("\u{2028}") && !self.starts("\u{2029}") {
                        self.i += 1;
                    }
                    continue;
                }
                b'/' if self.at(1) == b'*' => {
                    self.i += 2;
                    while self.i < self.s.len() && !self.starts("*/") {
                        if matches!(self.at(0), b'\n' | b'\r') || self.starts("\u{2028}") || self.starts("\u{2029}") {
                            self.nl = true;
                        }
                        self.i += 1;
                    }
                    self.i += 2;
                    continue;
                }
                b'"' | b'\'' => {
                    self.string();
                    continue;
                }
                b'`' => {
                    self.i += 1;
                    self.template(start, true);
                    continue;
                }
                b'0'..=b'9' => {
                    self.number();
                    continue;
                }
                b'.' if self.at(1).is_ascii_digit() => {
                    self.number();
                    continue;
                }
                b'#' => {
                    self.i += 1;
                    let (v, esc) = self.ident(start);
                    self.push(Kind::PrivateIdentifier, start, if esc { 2 } else { 0 }, None, Some(&v));
                    continue;
                }
                b'/' if self.regex_allowed() => {
                    self.i += 1;
                    let mut class = false;
                    while self.i < self.s.len() && (class || self.at(0) != b'/') {
                        match self.at(0) {
                            b'\\' => self.i += 1,
                            b'[' => class = true,
                            b']' => class = false,
                            _ => {}
                        }
                        self.i += 1;
                    }
                    self.i += 1;
                    while self.at(0).is_ascii_alphabetic() {
                        self.i += 1;
                    }
                    self.push(Kind::RegExp, start, 0, None, None);
                    continue;
                }
                _ => {}
            }
            if self.starts("\u{2028}") || self.starts("\u{2029}") {
                self.nl = true;
                self.i += 3;
                continue;
            }
            if let Some(ch) = self.ch()
                && (ch.is_whitespace() || ch == '\u{feff}')
            {
                self.i += ch.len_utf8();
                continue;
            }
            if c == b'\\' && self.at(1) == b'u' || self.ch().is_some_and(|c| c == '$' || c == '_' || c.is_alphabetic()) {
                let (v, esc) = self.ident(start);
                let kind = std::str::from_utf8(&v).map_or(Kind::Ident, Kind::match_keyword);
                if esc {
                    self.push(kind, start, 2, None, Some(&v));
                } else {
                    self.push(kind, start, 0, None, None);
                }
                continue;
            }
            for (p, k) in puncts {
                if self.starts(p) {
                    if *k == Kind::QuestionDot && self.at(2).is_ascii_digit() {
                        continue;
                    }
                    self.i += p.len();
                    if *k == Kind::LCurly {
                        self.braces.push(false);
                    }
                    if *k == Kind::RCurly && self.braces.pop() == Some(true) {
                        self.template(start, false);
                        continue 'next;
                    }
                    self.push(*k, start, 0, None, None);
                    continue 'next;
                }
            }
            // Nothing fits: one Undetermined over the character.
            self.i += self.ch().map_or(1, char::len_utf8);
            self.push(Kind::Undetermined, start, 0, None, None);
        }
    }
}

fn main() {
    let args: Vec<String> = std::env::args().skip(1).collect();
    let (src, out) = match args.iter().map(String::as_str).collect::<Vec<_>>().as_slice() {
        ["--dump", t, x] => {
            for (i, t) in tokenfile::read(&fs::read(t).unwrap(), &fs::read(x).unwrap()).toks().iter().enumerate() {
                println!(
                    "{i} {:?} {}-{} {:?}{}{}{}",
                    t.kind, t.span.start, t.span.end, t.text,
                    if t.new_line { " nl" } else { "" },
                    if t.escaped { " esc" } else { "" },
                    if t.lone { " lone" } else { "" }
                );
            }
            return;
        }
        ["-e", s, out] => (s.as_bytes().to_vec(), out.to_string()),
        ["-", out] => {
            let mut v = vec![];
            std::io::Read::read_to_end(&mut std::io::stdin(), &mut v).unwrap();
            (v, out.to_string())
        }
        [f, out] => (fs::read(f).expect("file"), out.to_string()),
        _ => {
            eprintln!("usage: tok JSFILE OUT | tok -e TEXT OUT | tok --dump TOKENS TEXT");
            std::process::exit(2);
        }
    };
    let mut l = Lx { s: src, i: 0, extra: vec![], out: vec![], nl: false, braces: vec![] };
    l.run();
    let mut bytes = vec![];
    for r in &l.out {
        r.put(&mut bytes);
    }
    let mut text = l.s.clone();
    text.extend_from_slice(&l.extra);
    fs::write(format!("{out}.tok"), bytes).unwrap();
    fs::write(format!("{out}.txt"), text).unwrap();
}
