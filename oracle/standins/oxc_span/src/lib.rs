//! STAND-IN for oxc_span.
#[derive(Debug, Default, Clone, Copy, PartialEq, Eq, Hash)]
pub struct Span {
    pub start: u32,
    pub end: u32,
}
impl Span {
    pub const fn new(start: u32, end: u32) -> Self {
        Self { start, end }
    }
    pub const fn sized(start: u32, size: u32) -> Self {
        Self::new(start, start.wrapping_add(size))
    }
    pub const fn empty(at: u32) -> Self {
        Self::new(at, at)
    }
    /// Safe form: an out-of-range span gives an empty text (used in message wording only).
    pub fn source_text(self, s: &str) -> &str {
        s.get(self.start as usize..self.end as usize).unwrap_or("")
    }
}
pub trait GetSpan {
    fn span(&self) -> Span;
}

/// Only what the published text asks of it: always a JavaScript module.
#[derive(Debug, Clone, Copy)]
pub struct SourceType;
impl SourceType {
    pub fn is_typescript(self) -> bool {
        false
    }
    pub fn is_javascript(self) -> bool {
        true
    }
    pub fn is_module(self) -> bool {
        true
    }
    pub fn is_script(self) -> bool {
        false
    }
    pub fn is_commonjs(self) -> bool {
        false
    }
    pub fn is_unambiguous(self) -> bool {
        false
    }
}

/// A span with its label; the wording is dropped.
#[derive(Debug, Clone)]
pub struct LabeledSpan(pub Span);
impl From<Span> for LabeledSpan {
    fn from(s: Span) -> Self {
        Self(s)
    }
}
impl Span {
    pub fn label<S: Into<String>>(self, _s: S) -> LabeledSpan {
        LabeledSpan(self)
    }
    pub fn primary_label<S: Into<String>>(self, _s: S) -> LabeledSpan {
        LabeledSpan(self)
    }
}
