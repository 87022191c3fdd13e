//! STAND-IN for lib.rs: the parser's struct, the loop over items, and what is shown.
#![allow(dead_code, unused_imports, clippy::all)]

pub mod answer;
mod context;
mod cursor;
mod diagnostics;
mod error_handler;
pub mod host;
mod js;
pub mod lexer;
mod modifiers;
mod module_record;
mod report;
mod standin;
pub mod tokenfile;

use oxc_allocator::{Allocator, ArenaBox, ArenaVec, GetAllocator};
use oxc_ast::ast::{Statement, *};
use oxc_diagnostics::OxcDiagnostic;
use oxc_span::SourceType;
use oxc_syntax::module_record::ModuleRecord;

pub use crate::lexer::{Kind, Token};
pub use crate::report::run;
use crate::{
    context::{Context, StatementContext},
    diagnostics::ParserDiagnostic,
    error_handler::FatalError,
    lexer::Lexer,
    module_record::ModuleRecordBuilder,
    standin::Asked,
    tokenfile::Tok,
};

pub trait ParserConfig {
    type LexerConfig;
}
pub struct NoTokensParserConfig;
impl ParserConfig for NoTokensParserConfig {
    type LexerConfig = ();
}

struct ParserImpl<'a, C: ParserConfig> {
    pub(crate) lexer: Lexer<'a, C::LexerConfig>,
    source_type: SourceType,
    source_text: &'a str,
    errors: Vec<ParserDiagnostic<'a>>,
    fatal_error: Option<FatalError<'a>>,
    token: Token,
    prev_token_end: u32,
    ctx: Context,
    allocator: &'a Allocator,
    module_record_builder: ModuleRecordBuilder<'a>,
    is_ts: bool,
    // of the stand-ins
    asked: Vec<Asked>,
    notes: Vec<&'static str>,
}

impl<'a, C: ParserConfig> GetAllocator<'a> for ParserImpl<'a, C> {
    fn allocator(&self) -> &'a Allocator {
        self.allocator
    }
}

/// One item as read.
struct Item<'a> {
    first: usize,
    count: usize,
    stmt: Statement<'a>,
    faults: Vec<ParserDiagnostic<'a>>,
    asked: Vec<Asked>,
    notes: Vec<&'static str>,
}

/// A stop, with the number of the stopped item's first token.
struct Stopped<'a> {
    first: usize,
    /// Number of the token come to.
    token: usize,
    error: ParserDiagnostic<'a>,
    asked: Vec<Asked>,
    notes: Vec<&'static str>,
}

struct Outcome<'a> {
    items: Vec<Item<'a>>,
    stop: Option<Stopped<'a>>,
    record: ModuleRecord<'a>,
    close: Vec<OxcDiagnostic>,
}

impl<'a, C: ParserConfig> ParserImpl<'a, C> {
    fn new(allocator: &'a Allocator, toks: &'a [Tok<'a>]) -> Self {
        let source_type = SourceType;
        let mut ctx = Context::default().and_ambient(false);
        ctx = ctx.and_await(true);
        Self {
            lexer: Lexer::new(toks),
            source_type,
            source_text: "",
            errors: vec![],
            fatal_error: None,
            token: Token::default(),
            prev_token_end: 0,
            ctx,
            allocator,
            module_record_builder: ModuleRecordBuilder::new(allocator, source_type),
            is_ts: source_type.is_typescript(),
            asked: vec![],
            notes: vec![],
        }
    }

    fn alloc<T>(&self, value: T) -> ArenaBox<'a, T> {
        ArenaBox::new_in(value, self)
    }

    /// The choice of item: Import not followed by LParen or Dot begins an import, Export an export,
    /// anything else is the host's statement.
    fn parse_item(&mut self) -> Statement<'a> {
        match self.cur_kind() {
            Kind::Import
                if !matches!(self.lexer.peek_token().kind(), Kind::LParen | Kind::Dot) =>
            {
                let start = self.cur_start();
                self.check_module_declaration(StatementContext::Program);
                self.bump_any();
                self.parse_import_declaration(start, true)
            }
            Kind::Export => {
                let start = self.cur_start();
                let none = ArenaVec::new_in(self);
                self.parse_export_declaration(start, none, StatementContext::Program)
            }
            _ => self.host_statement(),
        }
    }

    fn parse_module(mut self) -> Outcome<'a> {
        self.token = self.lexer.first_token();
        self.ctx |= Context::TopLevel;
        let mut items = vec![];
        let mut stop = None;
        while !self.cur_kind().is_eof() {
            let first = self.lexer.cur;
            let stmt = self.parse_item();
            let asked = std::mem::take(&mut self.asked);
            let notes = std::mem::take(&mut self.notes);
            if let Some(f) = self.fatal_error.take() {
                stop = Some(Stopped { first, token: f.token, error: f.error, asked, notes });
                break;
            }
            items.push(Item {
                first,
                count: self.lexer.cur - first,
                stmt,
                faults: std::mem::take(&mut self.errors),
                asked,
                notes,
            });
        }
        let (record, close) = self.module_record_builder.build();
        Outcome { items, stop, record, close }
    }
}

fn read_module<'a>(allocator: &'a Allocator, toks: &'a [Tok<'a>]) -> Outcome<'a> {
    ParserImpl::<NoTokensParserConfig>::new(allocator, toks).parse_module()
}
