//! STAND-INS for parser methods whose files were not to be had: three terminals, and the bracket host
//! in the place of statements, declarations and default bodies.
use std::num::NonZeroU32;

use oxc_allocator::{ArenaBox, ArenaVec, GetAllocator};
use oxc_ast::ast::*;
use oxc_diagnostics::OxcDiagnostic;

use crate::{
    ParserConfig as Config, ParserImpl, host,
    js::FunctionKind,
    lexer::Kind,
    modifiers::{ModifierKind, Modifiers},
};

/// One question to the host and what it said.
#[derive(Debug, Clone)]
pub struct Asked {
    pub question: &'static str,
    pub token: usize,
    pub answer: Result<(usize, usize, Vec<usize>, &'static str), host::Refusal>,
}

impl<'a, C: Config> ParserImpl<'a, C> {
    // ---- terminals: 2 on anything else, no escape reported ----
    pub(crate) fn parse_literal_string(&mut self) -> StringLiteral<'a> {
        if !self.at(Kind::Str) {
            return self.unexpected();
        }
        let (span, value) = (self.cur_token().span(), self.cur_js_string());
        self.advance(Kind::Str);
        StringLiteral::new(span, value, None, self)
    }
    pub(crate) fn parse_identifier_name(&mut self) -> IdentifierName<'a> {
        if !self.cur_kind().is_identifier_name() {
            return self.unexpected();
        }
        let (span, name) = (self.cur_token().span(), Ident(self.cur_string()));
        self.advance(Kind::Ident);
        IdentifierName::new(span, name, self)
    }
    pub(crate) fn parse_binding_identifier(&mut self) -> BindingIdentifier<'a> {
        if !self.cur_kind().is_binding_identifier() {
            return self.unexpected();
        }
        let (span, name) = (self.cur_token().span(), Ident(self.cur_string()));
        self.advance(Kind::Ident);
        BindingIdentifier::new(span, name, self)
    }
    pub(crate) fn ident(&self, s: &'a str) -> Ident<'a> {
        Ident(s)
    }

    // ---- host ----
    fn refuse(&mut self, question: &'static str, token: usize, r: host::Refusal) {
        self.asked.push(Asked { question, token, answer: Err(r) });
        let span = self.lexer.toks.get(token).map_or(self.cur_token().span(), |t| t.span);
        let at = self.lexer.toks.get(r.1).map_or_else(
            || Span::empty(self.lexer.toks.last().map_or(0, |t| t.span.end)),
            |t| t.span,
        );
        let d = OxcDiagnostic::error(format!("HOST {} {} {}", r.0, question, r.1)).with_labels([span, at]);
        self.set_fatal_error(d.into());
    }
    fn skip(&mut self, n: usize) {
        for _ in 0..n {
            self.advance(Kind::Ident); // no keyword: no escape reported
        }
    }
    fn bound(&self, n: usize) -> BindingIdentifier<'a> {
        let t = self.lexer.toks[n];
        BindingIdentifier::new(t.span, Ident(t.text), self)
    }
    fn toks_span(&self, from: usize, len: usize) -> Span {
        Span::new(self.lexer.toks[from].span.start, self.lexer.toks[from + len - 1].span.end)
    }

    /// The host's statement.
    pub(crate) fn host_statement(&mut self) -> Statement<'a> {
        let n = self.lexer.cur;
        match host::statement(self.lexer.toks, n) {
            Ok(len) => {
                self.asked.push(Asked { question: "statement", token: n, answer: Ok((len, len, vec![], "")) });
                self.skip(len);
                Statement::Other(self.toks_span(n, len))
            }
            Err(r) => {
                self.refuse("statement", n, r);
                Statement::Other(Span::default())
            }
        }
    }

    /// Asks `declaration` at the current token and takes its tokens.
    fn host_declaration(&mut self) -> Option<(Span, Vec<usize>)> {
        if self.fatal_error.is_some() {
            return None;
        }
        let n = self.lexer.cur;
        match host::declaration(self.lexer.toks, n) {
            Ok((len, names)) => {
                self.asked.push(Asked { question: "declaration", token: n, answer: Ok((len, len, names.clone(), "")) });
                self.skip(len);
                Some((self.toks_span(n, len), names))
            }
            Err(r) => {
                self.refuse("declaration", n, r);
                None
            }
        }
    }

    /// Asks `default` at `n`, at or one before the current token; takes the body's tokens (all of the
    /// answer's if `all`). Answers the span of the body and the name.
    fn host_default(&mut self, n: usize, all: bool) -> Option<(Span, host::Name)> {
        if self.fatal_error.is_some() {
            return None;
        }
        match host::default(self.lexer.toks, n) {
            Ok((len, body, name)) => {
                let (names, how) = match name {
                    host::Name::Plain(x) => (vec![x], "plain"),
                    host::Name::Named(x) => (vec![x], "named"),
                    host::Name::Absent => (vec![], "absent"),
                };
                self.asked.push(Asked { question: "default", token: n, answer: Ok((len, body, names, how)) });
                let gone = self.lexer.cur - n;
                self.skip(if all { len } else { body } - gone);
                Some((self.toks_span(n, body), name))
            }
            Err(r) => {
                self.refuse("default", n, r);
                None
            }
        }
    }

    pub(crate) fn parse_declaration(
        &mut self,
        _start: u32,
        _modifiers: &Modifiers,
        _decorators: ArenaVec<'a, Decorator<'a>>,
    ) -> Declaration<'a> {
        let kind = self.cur_kind();
        let (span, names) = self.host_declaration().unwrap_or_default();
        match kind {
            Kind::Class => {
                let id = names.first().map(|&n| self.bound(n));
                Declaration::ClassDeclaration(Class::boxed(span, id, self))
            }
            Kind::Function | Kind::Async => {
                let id = names.first().map(|&n| self.bound(n));
                Declaration::FunctionDeclaration(Function::boxed(span, id, false, self))
            }
            _ => {
                let mut list = ArenaVec::new_in(self);
                for n in names {
                    list.push(self.bound(n));
                }
                Declaration::VariableDeclaration(VariableDeclaration::boxed(span, list, self))
            }
        }
    }

    /// `export default class ..`, `export default abstract class ..` and, at At, `export @d class ..`.
    pub(crate) fn parse_class_declaration(
        &mut self,
        _start: u32,
        modifiers: &Modifiers,
        _decorators: ArenaVec<'a, Decorator<'a>>,
    ) -> ArenaBox<'a, Class<'a>> {
        if self.at(Kind::At) {
            // `export @d ..`: the host's declaration is asked.
            let (span, names) = self.host_declaration().unwrap_or_default();
            let id = names.first().map(|&n| self.bound(n));
            return Class::boxed(span, id, self);
        }
        let abs = modifiers.contains(ModifierKind::Abstract);
        if abs {
            self.notes.push("abstract");
        }
        let n = self.lexer.cur - usize::from(abs);
        let (span, name) = self.host_default(n, true).unwrap_or((Span::default(), host::Name::Absent));
        let id = if let host::Name::Named(x) = name { Some(self.bound(x)) } else { None };
        Class::boxed(span, id, self)
    }

    pub(crate) fn parse_function_impl(
        &mut self,
        _start: u32,
        r#async: bool,
        _kind: FunctionKind,
    ) -> ArenaBox<'a, Function<'a>> {
        let n = self.lexer.cur - usize::from(r#async);
        if r#async && self.lexer.toks[n].escaped {
            self.notes.push("escaped-async");
        }
        let (span, name) = self.host_default(n, true).unwrap_or((Span::default(), host::Name::Absent));
        let id = if let host::Name::Named(x) = name { Some(self.bound(x)) } else { None };
        Function::boxed(span, id, false, self)
    }

    /// The expression of `export default`; the published `asi` follows it.
    pub(crate) fn parse_assignment_expression_or_higher(&mut self) -> Expression<'a> {
        let n = self.lexer.cur;
        if self.at(Kind::Async) && self.lexer.peek_token().kind() == Kind::Function {
            self.notes.push("async-newline-function");
        }
        match self.host_default(n, false) {
            Some((span, host::Name::Plain(x))) => {
                let name = Ident(self.lexer.toks[x].text);
                Expression::Identifier(IdentifierReference::boxed(span, name, self))
            }
            Some((span, _)) => Expression::Other(span),
            None => Expression::Other(Span::default()),
        }
    }

    // ---- foreign forms ----
    /// `import a = b`: stops with 7 at the `=`.
    pub(crate) fn parse_ts_import_equals_declaration(
        &mut self,
        _kind: ImportOrExportKind,
        id: BindingIdentifier<'a>,
        start: u32,
    ) -> Declaration<'a> {
        let d = OxcDiagnostic::error("FOREIGN import-equals").with_label(self.cur_token().span());
        self.set_fatal_error(d.into());
        Declaration::TSImportEqualsDeclaration(TSImportEqualsDeclaration::boxed(self.end_span(start), id, self))
    }
    /// `export default interface ..` is tried without asking for is_ts. Stand-in: step back, no interface;
    /// the published text then falls through to the expression.
    pub(crate) fn parse_ts_interface_declaration(&mut self, start: u32, _m: &Modifiers) -> Declaration<'a> {
        self.notes.push("interface");
        self.token = self.lexer.step_back();
        let id = BindingIdentifier::new(Span::default(), Ident(""), self);
        Declaration::TSImportEqualsDeclaration(TSImportEqualsDeclaration::boxed(self.end_span(start), id, self))
    }
    /// Reads none: the host is asked at the At.
    pub(crate) fn parse_decorators(&mut self) -> ArenaVec<'a, Decorator<'a>> {
        self.notes.push("decorator");
        ArenaVec::new_in(self)
    }
    pub(crate) fn apply_no_side_effects_comments_to_statement(
        &mut self,
        _c: (u32, NonZeroU32),
        _s: &mut Statement<'a>,
    ) {
    }
}
#[allow(dead_code)]
fn unused<'a, C: Config>(p: &ParserImpl<'a, C>) -> &'a oxc_allocator::Allocator {
    p.allocator()
}
