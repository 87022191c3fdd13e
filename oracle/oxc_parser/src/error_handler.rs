//! STAND-IN for error_handler.rs, which was not to be had.
use oxc_allocator::{Dummy, GetAllocator};

use crate::{ParserConfig as Config, ParserImpl, diagnostics::{self, ParserDiagnostic}};

#[derive(Debug, Clone)]
pub struct FatalError<'a> {
    pub error: ParserDiagnostic<'a>,
    pub errors_len: usize,
    /// Number of the token come to when it was set.
    pub token: usize,
}

impl<'a, C: Config> ParserImpl<'a, C> {
    pub(crate) fn set_unexpected(&mut self) {
        let error = diagnostics::unexpected_token(self.cur_token().span());
        self.set_fatal_error(error);
    }
    #[must_use]
    pub(crate) fn unexpected<T: Dummy<'a>>(&mut self) -> T {
        self.set_unexpected();
        Dummy::dummy(self.allocator())
    }
    pub(crate) fn error(&mut self, error: ParserDiagnostic<'a>) {
        self.errors.push(error);
    }
    pub(crate) fn set_fatal_error(&mut self, error: ParserDiagnostic<'a>) {
        if self.fatal_error.is_none() {
            let token = self.lexer.cur;
            self.lexer.advance_to_end();
            self.fatal_error = Some(FatalError { error, errors_len: self.errors.len(), token });
        }
    }
    #[must_use]
    pub(crate) fn fatal_error<T: Dummy<'a>>(&mut self, error: ParserDiagnostic<'a>) -> T {
        self.set_fatal_error(error);
        Dummy::dummy(self.allocator())
    }
    /// True only after a stop.
    pub(crate) fn has_fatal_error(&self) -> bool {
        self.fatal_error.is_some()
    }
}
