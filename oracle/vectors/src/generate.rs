//! The generator: token lists, laid out as a token file and a text. The text begins with the module as
//! JavaScript, where the tokens still say what that text says.
use oxc_parser::{Kind, tokenfile::Rec};

use crate::forms::FORMS;
use crate::rng::Rng;

pub struct Module {
    pub name: String,
    pub class: &'static str,
    pub bytes: Vec<u8>,
    pub text: Vec<u8>,
    /// How many bytes at the front of the text are the module as JavaScript.
    pub js: Option<usize>,
}

/// A token to be laid out.
#[derive(Clone)]
pub struct T {
    pub kind: Kind,
    pub text: Vec<u8>,
    raw: Option<&'static str>, // punctuators and the like
    pub nl: bool,
    pub esc: bool,
    pub lone: bool,
}

pub fn word(s: &str) -> T {
    T { kind: Kind::match_keyword(s), text: s.as_bytes().to_vec(), raw: None, nl: false, esc: false, lone: false }
}
pub fn punct(kind: Kind) -> T {
    let s = kind.to_str();
    T { kind, text: s.as_bytes().to_vec(), raw: Some(s), nl: false, esc: false, lone: false }
}
pub fn string(s: &str) -> T {
    T { kind: Kind::Str, text: s.as_bytes().to_vec(), raw: None, nl: false, esc: false, lone: false }
}
pub fn other(kind: Kind, raw: &'static str) -> T {
    T { kind, text: raw.as_bytes().to_vec(), raw: Some(raw), nl: false, esc: false, lone: false }
}

pub const PLAIN: &[&str] = &["a", "b", "c", "d", "x", "y", "z", "foo", "n"];
const CONTEXTUAL: &[&str] =
    &["from", "as", "source", "defer", "type", "async", "of", "get", "assert", "module", "abstract", "meta", "target"];
const STRICT: &[&str] = &["let", "static", "yield", "await", "implements", "interface", "package", "private", "protected", "public", "eval", "arguments"];
const RESERVED: &[&str] = &["default", "if", "class", "import", "export", "with", "null", "true", "function", "var", "const", "in", "new", "this", "enum"];
const STRS: &[&str] = &["m", "m", "k", "a", "default", "x y", "", "type", "json", "*", "let", "if"];


pub struct G {
    pub r: Rng,
    pub out: Vec<T>,
    /// The tokens still say what their text as JavaScript says.
    pub true_text: bool,
    /// Of `clean`: names bound and names wanted.
    bound: Vec<String>,
    wanted: Vec<String>,
    spare: Vec<&'static str>,
}

impl G {
    pub fn p(&mut self, t: T) {
        self.out.push(t);
    }
    pub fn k(&mut self, k: Kind) {
        self.out.push(punct(k));
    }
    pub fn w(&mut self, s: &str) {
        self.out.push(word(s));
    }
    fn b(&mut self) -> T {
        let n = self.r.below(20);
        let mut t = word(*if n < 14 { self.r.pick(PLAIN) } else if n < 18 { self.r.pick(CONTEXTUAL) } else { self.r.pick(STRICT) });
        t.esc = self.r.one_in(30);
        t
    }
    fn idname(&mut self) -> T {
        if self.r.one_in(5) {
            let mut t = word(*self.r.pick(RESERVED));
            t.esc = self.r.one_in(20);
            t
        } else {
            self.b()
        }
    }
    fn l(&mut self) -> T {
        loop {
            let t = self.b();
            if !t.kind.is_reserved_keyword() {
                return t;
            }
        }
    }
    fn s(&mut self) -> T {
        let mut t = string(*self.r.pick(STRS));
        if self.r.one_in(15) {
            t.esc = true;
        }
        t
    }
    fn source(&mut self) {
        let mut t = self.s();
        if self.r.one_in(12) {
            t.text.extend_from_slice(&[0xED, 0xA0, 0x80]);
            t.lone = true;
            t.esc = true;
        }
        self.p(t);
    }
    fn n(&mut self) -> T {
        if self.r.one_in(4) { self.s() } else { self.idname() }
    }
    fn braces(&mut self, import: bool, from: bool) {
        self.k(Kind::LCurly);
        let n = self.r.below(4);
        for i in 0..n {
            if import {
                if self.r.one_in(2) {
                    let t = self.l();
                    self.p(t);
                } else {
                    let t = self.n();
                    self.p(t);
                    self.w("as");
                    let t = self.l();
                    self.p(t);
                }
            } else {
                let t = if from {
                    self.n()
                } else {
                    loop {
                        let t = self.b();
                        let k = Kind::match_keyword(std::str::from_utf8(&t.text).unwrap());
                        if !k.is_reserved_keyword() && !k.is_future_reserved_keyword() && (t.text != b"let" || self.r.one_in(8)) {
                            break t;
                        }
                    }
                };
                self.p(t);
                if self.r.one_in(2) {
                    self.w("as");
                    let t = self.n();
                    self.p(t);
                }
            }
            if i + 1 < n || self.r.one_in(4) {
                self.k(Kind::Comma);
            }
        }
        self.k(Kind::RCurly);
    }
    fn attributes(&mut self) {
        if !self.r.one_in(4) {
            return;
        }
        let assert = self.r.one_in(3);
        self.w(if assert { "assert" } else { "with" });
        if !assert && self.r.one_in(3) {
            self.out.last_mut().unwrap().nl = true;
        }
        self.k(Kind::LCurly);
        let mut keys = vec!["type", "a", "b", "if"];
        let n = self.r.below(3);
        for i in 0..n {
            let at = self.r.below(keys.len());
            let key = keys.remove(at);
            let t = if self.r.one_in(2) { word(key) } else { string(key) };
            self.p(t);
            self.k(Kind::Colon);
            self.source(); // any Str
            if i + 1 < n || self.r.one_in(4) {
                self.k(Kind::Comma);
            }
        }
        self.k(Kind::RCurly);
    }
    fn end(&mut self) {
        if self.r.one_in(4) {
            self.p(T { nl: true, ..word("\0nl") });
        } else {
            self.k(Kind::Semicolon);
        }
    }
    fn body(&mut self) {
        // balanced filler
        match self.r.below(7) {
            0 => self.p(other(Kind::Decimal, "1")),
            1 => {
                let t = self.b();
                self.p(t);
            }
            2 => {
                self.k(Kind::LParen);
                self.body();
                self.k(Kind::RParen);
            }
            3 => {
                self.k(Kind::LCurly);
                if self.r.one_in(2) {
                    self.body();
                    self.k(Kind::Semicolon);
                }
                self.k(Kind::RCurly);
            }
            4 => {
                self.k(Kind::LBrack);
                self.body();
                self.k(Kind::Comma);
                self.body();
                self.k(Kind::RBrack);
            }
            5 => {
                self.body();
                self.k(Kind::Plus);
                self.body();
            }
            _ => {
                let t = self.s();
                self.p(t);
            }
        }
    }
    fn function(&mut self, name: bool) {
        if self.r.one_in(4) {
            self.w("async");
        }
        self.w("function");
        if self.r.one_in(4) {
            self.k(Kind::Star);
        }
        if name {
            let t = self.b();
            self.p(t);
        }
        self.k(Kind::LParen);
        if self.r.one_in(3) {
            self.body();
        }
        self.k(Kind::RParen);
        self.k(Kind::LCurly);
        if self.r.one_in(2) {
            self.body();
            self.k(Kind::Semicolon);
        }
        self.k(Kind::RCurly);
    }
    fn class(&mut self, name: bool) {
        self.w("class");
        if name {
            let t = self.b();
            self.p(t);
        }
        if self.r.one_in(4) {
            self.w("extends");
            let t = self.b();
            self.p(t);
        }
        self.k(Kind::LCurly);
        self.k(Kind::RCurly);
    }
    fn vars(&mut self) {
        let w = *self.r.pick(&["const", "let", "var"]);
        self.w(w);
        for i in 0..1 + self.r.below(3) {
            if i > 0 {
                self.k(Kind::Comma);
            }
            let t = self.b();
            self.p(t);
            if self.r.one_in(2) {
                self.k(Kind::Eq);
                self.body();
            }
        }
        self.k(Kind::Semicolon);
    }
    pub fn item(&mut self) {
        match self.r.below(20) {
            0..=7 => {
                self.w("import");
                match self.r.below(9) {
                    0 => {}
                    1 | 2 => {
                        let t = self.b();
                        self.p(t);
                        self.w("from");
                    }
                    3 => {
                        let t = self.b();
                        self.p(t);
                        self.k(Kind::Comma);
                        self.k(Kind::Star);
                        self.w("as");
                        let t = self.b();
                        self.p(t);
                        self.w("from");
                    }
                    4 => {
                        let t = self.b();
                        self.p(t);
                        self.k(Kind::Comma);
                        self.braces(true, true);
                        self.w("from");
                    }
                    5 => {
                        if self.r.one_in(2) {
                            self.w("defer");
                        }
                        self.k(Kind::Star);
                        self.w("as");
                        let t = self.b();
                        self.p(t);
                        self.w("from");
                    }
                    6 => {
                        self.w("source");
                        let t = self.b();
                        self.p(t);
                        self.w("from");
                    }
                    _ => {
                        self.braces(true, true);
                        self.w("from");
                    }
                }
                self.source();
                self.attributes();
                self.end();
            }
            8..=9 => {
                self.w("export");
                self.k(Kind::Star);
                if self.r.one_in(2) {
                    self.w("as");
                    let t = self.n();
                    self.p(t);
                }
                self.w("from");
                self.source();
                self.attributes();
                self.end();
            }
            10..=12 => {
                self.w("export");
                self.braces(false, false);
                self.end();
            }
            13 => {
                self.w("export");
                self.braces(false, true);
                self.w("from");
                self.source();
                self.attributes();
                self.end();
            }
            14..=15 => {
                self.w("export");
                match self.r.below(3) {
                    0 => self.function(true),
                    1 => self.class(true),
                    _ => self.vars(),
                }
            }
            16..=17 => {
                self.w("export");
                self.w("default");
                match self.r.below(4) {
                    0 => {
                        let name = self.r.one_in(2);
                        self.function(name);
                    }
                    1 => {
                        let name = self.r.one_in(2);
                        self.class(name);
                    }
                    2 => {
                        let t = self.b();
                        self.p(t);
                        self.k(Kind::Semicolon);
                    }
                    _ => {
                        self.body();
                        self.k(Kind::Semicolon);
                    }
                }
            }
            _ => match self.r.below(5) {
                0 => self.vars(),
                1 => self.function(true),
                2 => self.class(true),
                3 => {
                    self.w("import");
                    if self.r.one_in(2) {
                        self.k(Kind::LParen);
                        self.p(string("m"));
                        self.k(Kind::RParen);
                    } else {
                        self.k(Kind::Dot);
                        self.w("meta");
                    }
                    self.k(Kind::Semicolon);
                }
                _ => {
                    self.body();
                    self.k(Kind::Semicolon);
                }
            },
        }
    }
    fn junk(&mut self) -> T {
        const P: &[Kind] = &[
            Kind::LCurly, Kind::RCurly, Kind::Comma, Kind::Semicolon, Kind::Star, Kind::Eq, Kind::Colon, Kind::LParen,
            Kind::RParen, Kind::LBrack, Kind::RBrack, Kind::Dot, Kind::At, Kind::Plus,
        ];
        let mut t = match self.r.below(12) {
            0..=3 => punct(*self.r.pick(P)),
            4 => self.s(),
            5 => other(Kind::Decimal, "1"),
            6..=8 => word(*self.r.pick(&["import", "export", "from", "as", "default", "with", "assert", "source", "defer", "function", "class", "async", "const", "let"])),
            9 => {
                if self.r.one_in(4) { other(Kind::Undetermined, "?") } else { self.b() }
            }
            _ => self.idname(),
        };
        t.nl = self.r.one_in(6);
        t.esc |= self.r.one_in(15);
        t
    }
    /// Turns the mark of `end` into a new line on what follows.
    pub fn settle(&mut self) {
        let mut nl = true;
        let mut out = vec![];
        for mut t in std::mem::take(&mut self.out) {
            if t.text == b"\0nl" {
                nl = true;
                continue;
            }
            t.nl |= nl;
            nl = false;
            if self.r.one_in(25) && t.kind != Kind::Assert {
                t.nl = true;
            }
            out.push(t);
        }
        self.out = out;
    }
    /// Changes one or two tokens: kind, marks, text, order, loss, doubling, or another in its place.
    fn mutate(&mut self) {
        for _ in 0..1 + self.r.below(2) {
            let n = self.out.len();
            if n == 0 {
                return;
            }
            let i = self.r.below(n);
            match self.r.below(16) {
                0 => {
                    // kind alone
                    self.out[i].kind = *self.r.pick(&Kind::VARIANTS[..]);
                    self.true_text = false;
                }
                1 => {
                    // marks
                    match self.r.below(3) {
                        0 => self.out[i].nl ^= true,
                        1 => {
                            self.out[i].esc ^= true;
                            self.true_text = false;
                        }
                        _ => {
                            self.out[i].lone ^= true;
                            self.true_text = false;
                        }
                    }
                }
                2 => {
                    // text alone
                    let t = self.idname();
                    self.out[i].text = t.text;
                    self.out[i].raw = None;
                    self.true_text = false;
                }
                3 | 4 => {
                    // order
                    let j = if self.r.one_in(2) { (i + 1) % n } else { self.r.below(n) };
                    self.out.swap(i, j);
                }
                5..=7 => {
                    self.out.remove(i);
                }
                8 => {
                    let t = self.out[i].clone();
                    self.out.insert(i, t);
                }
                9 | 10 => {
                    let t = self.junk();
                    self.out[i] = t;
                }
                11 => {
                    let t = self.junk();
                    self.out.insert(i, t);
                }
                12 => self.out[i].nl ^= true,
                13 => {
                    // an escape where it matters
                    if let Some(t) = self.out[i..].iter_mut().find(|t| t.kind.is_identifier_name()) {
                        t.esc = true;
                    }
                }
                14 => self.out.truncate(i),
                _ => {
                    if let Some(t) = self.out[i..].iter_mut().find(|t| t.kind == Kind::Str && !t.lone) {
                        t.lone = true;
                        t.esc = true;
                        t.text.extend_from_slice(&[0xED, 0xB0, 0x80]);
                    }
                }
            }
        }
    }

    /// Tokens from a written form, see forms.rs.
    pub fn form(&mut self, form: &str) {
        for w in form.split(' ') {
            let (mut w, mut nl, mut esc) = (w, false, false);
            if let Some(x) = w.strip_prefix('^') {
                (w, nl) = (x, true);
            }
            if w.len() > 1
                && let Some(x) = w.strip_prefix('~')
            {
                (w, esc) = (x, true);
            }
            let mut t = match w {
                "B" => self.b(),
                "N" => self.n(),
                "?" => other(Kind::Undetermined, "?"),
                "1" => other(Kind::Decimal, "1"),
                "2" => other(Kind::Decimal, "2"),
                "\"!\"" => {
                    let mut t = string("s");
                    t.text.extend_from_slice(&[0xED, 0xA0, 0x80]);
                    t.lone = true;
                    t.esc = true;
                    t
                }
                w if w.starts_with('"') => string(&w[1..w.len() - 1]),
                w if w.as_bytes()[0].is_ascii_alphabetic() => word(w),
                w => punct(*Kind::VARIANTS.iter().find(|k| k.to_str() == w && **k != Kind::TemplateTail).unwrap_or_else(|| panic!("form {w:?}"))),
            };
            t.nl |= nl;
            t.esc |= esc;
            self.p(t);
        }
    }
    fn newline(&mut self) {
        self.p(T { nl: true, ..word("\0nl") });
    }

    // ---- clean: modules that a whole JavaScript engine takes as well ----
    fn fresh(&mut self) -> String {
        let s = if self.r.one_in(5) && !self.spare.is_empty() {
            let i = self.r.below(self.spare.len());
            self.spare.remove(i).to_string()
        } else {
            format!("v{}", self.bound.len())
        };
        self.bound.push(s.clone());
        s
    }
    fn bind(&mut self) {
        let s = self.fresh();
        let mut t = word(&s);
        t.esc = self.r.one_in(25);
        self.p(t);
    }
    fn clean_expr(&mut self, depth: usize) {
        match self.r.below(if depth > 2 { 3 } else { 8 }) {
            0 => self.p(other(Kind::Decimal, "1")),
            1 => self.p(string("s")),
            2 => self.w("a"),
            3 => {
                self.k(Kind::LParen);
                self.clean_expr(depth + 1);
                self.k(Kind::RParen);
            }
            4 => {
                self.k(Kind::LBrack);
                self.clean_expr(depth + 1);
                self.k(Kind::Comma);
                self.clean_expr(depth + 1);
                self.k(Kind::RBrack);
            }
            5 => {
                self.clean_expr(depth + 1);
                self.k(Kind::Plus);
                self.clean_expr(depth + 1);
            }
            6 => {
                self.k(Kind::LParen);
                self.k(Kind::LCurly);
                if self.r.one_in(2) {
                    self.w("k");
                    self.k(Kind::Colon);
                    self.clean_expr(depth + 1);
                }
                self.k(Kind::RCurly);
                self.k(Kind::RParen);
            }
            _ => {
                self.w("import");
                if self.r.one_in(2) {
                    self.k(Kind::LParen);
                    self.p(string("m"));
                    self.k(Kind::RParen);
                } else {
                    self.k(Kind::Dot);
                    self.w("meta");
                }
            }
        }
    }
    fn clean_function(&mut self, name: bool) {
        if self.r.one_in(3) {
            self.w("async");
        }
        self.w("function");
        if self.r.one_in(3) {
            self.k(Kind::Star);
        }
        if name {
            self.bind();
        }
        self.k(Kind::LParen);
        self.k(Kind::RParen);
        self.k(Kind::LCurly);
        if self.r.one_in(2) {
            self.clean_expr(1);
            self.k(Kind::Semicolon);
        }
        self.k(Kind::RCurly);
    }
    fn clean_class(&mut self, name: bool) {
        self.w("class");
        if name {
            self.bind();
        }
        if self.r.one_in(4) {
            self.w("extends");
            self.w("a");
        }
        self.k(Kind::LCurly);
        self.k(Kind::RCurly);
    }
    fn clean_vars(&mut self) {
        let w = *self.r.pick(&["const", "let", "var"]);
        self.w(w);
        for i in 0..1 + self.r.below(3) {
            if i > 0 {
                self.k(Kind::Comma);
            }
            self.bind();
            if w == "const" || self.r.one_in(2) {
                self.k(Kind::Eq);
                self.clean_expr(1);
            }
        }
        self.k(Kind::Semicolon);
    }
    fn clean_braces(&mut self, import: bool) {
        self.k(Kind::LCurly);
        let n = self.r.below(4);
        for i in 0..n {
            if import {
                if self.r.one_in(2) {
                    self.bind();
                } else {
                    let t = self.n();
                    self.p(t);
                    self.w("as");
                    self.bind();
                }
            } else {
                let s = if !self.bound.is_empty() && !self.r.one_in(4) {
                    let i = self.r.below(self.bound.len());
                    self.bound[i].clone()
                } else {
                    let s = self.fresh();
                    self.wanted.push(s.clone());
                    s
                };
                self.w(&s);
                self.w("as");
                // an exported name of its own
                let s = format!("e{}", self.out.len());
                let t = if self.r.one_in(4) { string(&s) } else { word(&s) };
                self.p(t);
            }
            if i + 1 < n || self.r.one_in(4) {
                self.k(Kind::Comma);
            }
        }
        self.k(Kind::RCurly);
    }
    fn clean_from(&mut self, lone: bool) {
        self.w("from");
        if lone { self.source() } else {
            let t = self.s();
            self.p(t);
        }
    }
    fn clean_tail(&mut self) {
        self.attributes();
        self.end();
    }
    fn clean_item(&mut self, one_default: &mut bool) {
        match self.r.below(16) {
            0..=5 => {
                self.w("import");
                match self.r.below(8) {
                    0 => {
                        let t = self.s();
                        self.p(t);
                        self.clean_tail();
                        return;
                    }
                    1 => self.bind(),
                    2 => {
                        self.bind();
                        self.form(", * as");
                        self.bind();
                    }
                    3 => {
                        self.bind();
                        self.k(Kind::Comma);
                        self.clean_braces(true);
                    }
                    4 => {
                        if self.r.one_in(3) {
                            self.w("defer");
                        }
                        self.form("* as");
                        self.bind();
                    }
                    5 => {
                        self.w("source");
                        self.bind();
                    }
                    _ => self.clean_braces(true),
                }
                self.clean_from(true);
                self.clean_tail();
            }
            6 | 7 => {
                self.form("export *");
                if self.r.one_in(2) {
                    let s = format!("e{}", self.out.len());
                    self.w("as");
                    let t = if self.r.one_in(3) { string(&s) } else { word(&s) };
                    self.p(t);
                }
                self.clean_from(true);
                self.clean_tail();
            }
            8 | 9 => {
                self.w("export");
                self.clean_braces(false);
                self.end();
            }
            10 => {
                self.form("export {");
                let n = self.r.below(3);
                for i in 0..n {
                    let t = self.n();
                    self.p(t);
                    self.w("as");
                    let s = format!("e{}", self.out.len());
                    self.w(&s);
                    if i + 1 < n {
                        self.k(Kind::Comma);
                    }
                }
                self.k(Kind::RCurly);
                self.clean_from(true);
                self.clean_tail();
            }
            11 | 12 => {
                self.w("export");
                match self.r.below(3) {
                    0 => self.clean_function(true),
                    1 => self.clean_class(true),
                    _ => self.clean_vars(),
                }
            }
            13 if *one_default => {
                *one_default = false;
                self.form("export default");
                match self.r.below(4) {
                    0 => {
                        let name = self.r.one_in(2);
                        self.clean_function(name);
                    }
                    1 => {
                        let name = self.r.one_in(2);
                        self.clean_class(name);
                    }
                    2 => {
                        self.w("a");
                        self.k(Kind::Semicolon);
                    }
                    _ => {
                        self.clean_expr(0);
                        self.k(Kind::Semicolon);
                    }
                }
            }
            14 => match self.r.below(3) {
                0 => self.clean_function(true),
                1 => self.clean_class(true),
                _ => self.clean_vars(),
            },
            _ => {
                self.clean_expr(0);
                self.k(Kind::Semicolon);
            }
        }
    }
    fn clean(&mut self) {
        self.spare = vec!["from", "as", "source", "defer", "type", "async", "of", "get", "set", "assert", "module", "abstract", "meta", "target", "readonly", "undefined2"];
        let mut one_default = true;
        for _ in 0..1 + self.r.below(4) {
            self.clean_item(&mut one_default);
        }
        for s in std::mem::take(&mut self.wanted) {
            self.w("var");
            self.w(&s);
            self.k(Kind::Semicolon);
        }
    }
}

fn raw(t: &T) -> String {
    if let Some(r) = t.raw {
        return r.into();
    }
    if t.kind == Kind::Str {
        let mut s = String::from("\"");
        let mut b = &t.text[..];
        let mut first = true;
        while !b.is_empty() {
            if b[0] == 0xED && b.len() >= 3 && b[1] >= 0xA0 {
                let cp = 0xD000 | (u32::from(b[1] & 63) << 6) | u32::from(b[2] & 63);
                s.push_str(&format!("\\u{cp:04X}"));
                b = &b[3..];
            } else {
                if first && t.esc && !t.lone {
                    s.push_str(&format!("\\x{:02x}", b[0]));
                } else {
                    s.push(b[0] as char);
                }
                b = &b[1..];
            }
            first = false;
        }
        s.push('"');
        return s;
    }
    let s = String::from_utf8_lossy(&t.text).into_owned();
    if t.esc && !s.is_empty() && s.is_ascii() { format!("\\u{:04x}{}", s.as_bytes()[0], &s[1..]) } else { s }
}


pub fn start(seed: u64, index: u64) -> G {
    G { r: Rng::new(seed, index), out: vec![], true_text: true, bound: vec![], wanted: vec![], spare: vec![] }
}

/// Records and text of a token list.
pub fn lay(out: &[T]) -> (Vec<Rec>, Vec<u8>, usize) {
    let (mut src, mut extra, mut recs) = (Vec::<u8>::new(), Vec::<u8>::new(), vec![]);
    let mut parts = vec![];
    for t in out {
        if t.nl && !src.is_empty() {
            src.push(b'\n');
        } else if !src.is_empty() {
            src.push(b' ');
        }
        let start = src.len();
        let r = raw(t);
        src.extend_from_slice(r.as_bytes());
        parts.push((start, r.len()));
    }
    for (t, (start, len)) in out.iter().zip(parts) {
        let (place, tlen) = if t.raw.is_some() || (!t.esc && t.kind != Kind::Str) {
            (start, len)
        } else if t.kind == Kind::Str && !t.esc {
            (start + 1, t.text.len())
        } else {
            let p = src.len() + extra.len();
            extra.extend_from_slice(&t.text);
            (p, t.text.len())
        };
        recs.push(Rec {
            kind: t.kind as u8,
            marks: u8::from(t.nl) | if t.esc { 2 } else { 0 } | if t.lone { 4 } else { 0 },
            start: start as u32,
            len: len as u16,
            place: place as u32,
            tlen: tlen as u16,
        });
    }
    let js = src.len();
    src.extend_from_slice(&extra);
    (recs, src, js)
}
pub fn put(recs: &[Rec]) -> Vec<u8> {
    let mut bytes = vec![];
    for r in recs {
        r.put(&mut bytes);
    }
    bytes
}
pub fn module(name: String, class: &'static str, out: &[T], true_text: bool) -> Module {
    let (recs, text, js) = lay(out);
    Module { name, class, bytes: put(&recs), text, js: true_text.then_some(js) }
}

pub fn valid(seed: u64, index: u64) -> Module {
    let mut g = start(seed, index);
    if g.r.below(5) < 3 {
        g.clean();
    } else {
        for _ in 0..1 + g.r.below(3) {
            g.item();
        }
    }
    g.settle();
    module(format!("valid-{seed}-{index}"), "valid", &g.out, true)
}
pub fn mutated(seed: u64, index: u64) -> Module {
    let mut g = start(seed, index);
    for _ in 0..1 + g.r.below(3) {
        g.item();
    }
    g.settle();
    g.mutate();
    let t = g.true_text;
    module(format!("mutated-{seed}-{index}"), "mutated", &g.out, t)
}
/// Every written form once (index below their count), then forms among other items.
pub fn form(seed: u64, index: u64) -> Module {
    let mut g = start(seed, index);
    if (index as usize) < FORMS.len() {
        g.form(FORMS[index as usize]);
    } else {
        if g.r.one_in(2) {
            g.item();
        }
        loop {
            let f = *g.r.pick(FORMS);
            g.form(f);
            if g.r.one_in(3) {
                g.newline();
            }
            if g.r.one_in(2) {
                break;
            }
            if g.r.one_in(2) {
                g.item();
            }
        }
        g.settle();
        if g.r.one_in(4) {
            g.mutate();
        }
    }
    let t = g.true_text;
    module(format!("forms-{seed}-{index}"), "forms", &g.out, t)
}
pub fn random(seed: u64, index: u64) -> Module {
    let mut g = start(seed, index);
    if !g.r.one_in(5) {
        let w = *g.r.pick(&["import", "export"]);
        g.w(w);
    }
    for _ in 0..g.r.below(12) {
        let t = g.junk();
        g.p(t);
    }
    if g.r.one_in(3) {
        // any kinds at all
        for i in 0..g.out.len() {
            if g.r.one_in(3) {
                g.out[i].kind = *g.r.pick(&Kind::VARIANTS[..]);
                g.true_text = false;
            }
        }
    }
    let t = g.true_text;
    module(format!("random-{seed}-{index}"), "random", &g.out, t)
}
/// Valid or written forms with any kinds, spans, marks and parts of the text.
pub fn wild(seed: u64, index: u64) -> Module {
    let mut g = start(seed, index);
    for _ in 0..1 + g.r.below(2) {
        if g.r.one_in(3) {
            let f = *g.r.pick(FORMS);
            g.form(f);
        } else {
            g.item();
        }
    }
    g.settle();
    let (mut recs, text, _) = lay(&g.out);
    let n = text.len();
    let r = &mut g.r;
    for x in &mut recs {
        if r.one_in(8) {
            x.kind = 1 + r.below(168) as u8;
        }
        if r.one_in(3) {
            x.start = if r.one_in(3) { u32::MAX - 65_535 - r.below(4) as u32 } else { r.below(40) as u32 };
            x.len = if r.one_in(4) { 65_535 } else { r.below(9) as u16 };
        }
        if r.one_in(12) {
            x.start = u32::MAX - r.below(12) as u32;
            x.len = 0;
        }
        if r.one_in(3) {
            x.place = r.below(n + 1) as u32;
            x.tlen = r.below((n + 1 - x.place as usize).min(4)) as u16;
        }
        if r.one_in(5) {
            x.marks = r.below(8) as u8;
        }
    }
    Module { name: format!("wild-{seed}-{index}"), class: "wild", bytes: put(&recs), text, js: None }
}
/// Modules about the tables' sizes, drawn.
pub fn big(seed: u64, index: u64) -> Module {
    let mut g = start(seed, index);
    let some = |g: &mut G| -> String {
        let n = 1 + g.r.below(3);
        (0..n).map(|i| format!("v{i}")).collect::<Vec<_>>().join(" , ")
    };
    let element = |g: &mut G, i: usize, odd: usize| -> String {
        match if odd > 0 && g.r.one_in(odd) { g.r.below(7) } else { 9 } {
            0 => "if".into(),
            1 => "let as a".into(),
            2 => "\"s\" as v".into(),
            3 => "v as \"b\"".into(),
            4 => "v ~as w".into(),
            5 => "a as default".into(),
            6 if g.r.one_in(20) => "\"!\" as b".into(),
            _ => format!("v{i}"),
        }
    };
    let braces = |g: &mut G, n: usize| -> String {
        let odd = [0, 0, 3, 8, 60][g.r.below(5)];
        let v: Vec<String> = (0..n).map(|i| element(g, i, odd)).collect();
        format!("{{ {} {}}}", v.join(" , "), ["", ", "][g.r.below(2)])
    };
    let with = |g: &mut G| -> String {
        if g.r.one_in(3) {
            let n = 30 + g.r.below(5);
            let same = g.r.one_in(4);
            let v: Vec<String> = (0..n).map(|i| format!("k{} : \"x\"", if same { i % 3 } else { i })).collect();
            format!("with {{ {} }}", v.join(" , "))
        } else {
            String::new()
        }
    };
    let from = |g: &mut G| ["from \"m\"", "from \"k\"", "from \"!\""][g.r.below(3)];
    let mut items: Vec<String> = vec![];
    match g.r.below(6) {
        0 | 1 => {
            let n = 125 + g.r.below(7);
            let b = braces(&mut g, n);
            let w = with(&mut g);
            let f = from(&mut g);
            items.push(match g.r.below(6) {
                0 => format!("import d , {b} {f} {w} ;"),
                1 => format!("import defer {b} {f} {w} ;"),
                2 => format!("export {b} ;"),
                3 => format!("export {b} {f} {w} ;"),
                _ => format!("import {b} {f} {w} ;"),
            });
            if g.r.one_in(2) {
                items.push(["import a from \"m\" ;", "export { q } ;", "export default 1 ;", "a ;"][g.r.below(4)].into());
            }
        }
        2 => {
            let n = 126 + g.r.below(5);
            let v: Vec<String> = (0..n).map(|i| format!("v{i}")).collect();
            items.push(format!("export var {} ;", v.join(" , ")));
            items.push("export { q } ;".into());
        }
        3 | 4 => {
            for _ in 0..60 + g.r.below(75) {
                let s = some(&mut g);
                let f = from(&mut g);
                items.push(match g.r.below(9) {
                    0 => format!("import {{ {s} }} {f} ;"),
                    1 => format!("import d {f} ;"),
                    2 => "import \"m\" ;".into(),
                    3 => format!("export {{ {s} }} ;"),
                    4 => format!("export {{ {s} }} {f} ;"),
                    5 => format!("export * {f} ;"),
                    6 => format!("export * as n {f} ;"),
                    7 => format!("export const {s} ;"),
                    _ => "export default 1 ;".into(),
                });
            }
        }
        _ => {
            let n = 62 + g.r.below(6);
            let kinds: Vec<usize> = (0..n).map(|_| g.r.below(3)).collect();
            let open: Vec<&str> = kinds.iter().map(|k| ["(", "[", "{"][*k]).collect();
            let close: Vec<&str> = kinds.iter().rev().map(|k| [")", "]", "}"][*k]).collect();
            let before = ["", "export default", "export const a =", "a"][g.r.below(4)];
            items.push(format!("{before} {} {} ;", open.join(" "), close.join(" ")));
        }
    }
    for i in items {
        let f: Vec<&str> = i.split(' ').filter(|w| !w.is_empty()).collect();
        g.form(&f.join(" "));
    }
    g.settle();
    if g.r.one_in(3) {
        g.mutate();
    }
    let t = g.true_text;
    module(format!("big-{seed}-{index}"), "big", &g.out, t)
}
