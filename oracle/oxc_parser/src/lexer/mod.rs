//! STAND-IN for lexer/mod.rs: no lexing; tokens come from a list, Eof after it for ever.
use std::num::NonZeroU32;

use oxc_allocator::ArenaVec;
use oxc_ast::ast::RegExpFlags;
use oxc_str::JSStr;

use crate::diagnostics::ParserDiagnostic;
use crate::tokenfile::Tok;

mod kind;
mod token;
pub use kind::Kind;
pub use token::Token;

pub struct TriviaBuilder;
impl TriviaBuilder {
    pub fn previous_token_no_side_effects_comments(&self) -> Option<(u32, NonZeroU32)> {
        None
    }
    pub fn mark_no_side_effects_comments_applied(&mut self, _c: (u32, NonZeroU32)) {}
}

#[derive(Debug)]
pub struct LexerCheckpoint<'a> {
    pos: usize,
    cur: usize,
    p: std::marker::PhantomData<&'a ()>,
}

pub struct Lexer<'a, C> {
    pub toks: &'a [Tok<'a>],
    /// Number of the next token to hand out.
    pos: usize,
    /// Number of the token last handed out; the parser's current token.
    pub cur: usize,
    pub errors: Vec<ParserDiagnostic<'a>>,
    pub trivia_builder: TriviaBuilder,
    p: std::marker::PhantomData<C>,
}

impl<'a, C> Lexer<'a, C> {
    pub fn new(toks: &'a [Tok<'a>]) -> Self {
        Self { toks, pos: 0, cur: 0, errors: vec![], trivia_builder: TriviaBuilder, p: std::marker::PhantomData }
    }
    pub fn next_token(&mut self) -> Token {
        let mut t = Token::default();
        self.cur = self.pos;
        if let Some(k) = self.toks.get(self.pos) {
            t.set_start(k.span.start);
            t.set_end(k.span.end);
            t.set_kind(k.kind);
            t.set_is_on_new_line(k.new_line);
            t.set_escaped(k.escaped);
            self.pos += 1;
        } else {
            // At the end: the empty span at the previous token's end, or at 0.
            let end = self.toks.last().map_or(0, |k| k.span.end);
            t.set_start(end);
            t.set_end(end);
        }
        t
    }
    pub fn first_token(&mut self) -> Token {
        self.next_token()
    }
    pub fn checkpoint(&self) -> LexerCheckpoint<'a> {
        LexerCheckpoint { pos: self.pos, cur: self.cur, p: std::marker::PhantomData }
    }
    pub fn checkpoint_with_error_recovery(&self) -> LexerCheckpoint<'a> {
        self.checkpoint()
    }
    pub fn rewind(&mut self, c: LexerCheckpoint<'a>) {
        self.pos = c.pos;
        self.cur = c.cur;
    }
    pub fn peek_token(&mut self) -> Token {
        let checkpoint = self.checkpoint();
        let token = self.next_token();
        self.rewind(checkpoint);
        token
    }
    pub fn advance_to_end(&mut self) {
        self.pos = self.toks.len();
    }
    /// Back to the token before the current one (for `interface`, see standin.rs).
    pub fn step_back(&mut self) -> Token {
        self.pos = self.cur - 1;
        self.next_token()
    }
    /// The current token's text. (The real one indexes by start; here by number.)
    pub fn get_string(&self, _t: Token) -> &'a str {
        self.toks.get(self.cur).map_or("", |t| t.text)
    }
    pub fn get_js_string(&self, _t: Token) -> JSStr<'a> {
        self.toks.get(self.cur).map_or(JSStr::default(), |t| JSStr { text: t.text, lone: t.lone })
    }

    // Named by cursor.rs, never reached from import and export.
    pub fn get_template_string(&self, _s: u32) -> Option<JSStr<'a>> {
        unreachable!()
    }
    pub fn next_jsx_child(&mut self) -> Token {
        unreachable!()
    }
    pub fn next_jsx_attribute_value(&mut self) -> Token {
        unreachable!()
    }
    pub fn next_regex(&mut self, _k: Kind) -> (Token, u32, RegExpFlags, bool) {
        unreachable!()
    }
    pub fn next_template_substitution_tail(&mut self) -> Token {
        unreachable!()
    }
    pub fn continue_lex_jsx_identifier(&mut self, _s: u32) -> Option<Token> {
        unreachable!()
    }
    pub fn re_lex_right_angle(&mut self) -> Token {
        unreachable!()
    }
    pub fn re_lex_as_typescript_l_angle(&mut self, _n: u32) -> Token {
        unreachable!()
    }
    pub fn re_lex_as_typescript_r_angle(&mut self, _n: u32) -> Token {
        unreachable!()
    }
}
#[allow(dead_code)]
type Unused<'a> = ArenaVec<'a, ()>;

#[cold]
pub fn cold_branch<F: FnOnce() -> T, T>(f: F) -> T {
    f()
}
