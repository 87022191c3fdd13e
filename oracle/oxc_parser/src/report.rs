//! What the published text made of a token list, as plain data.
use oxc_allocator::Allocator;
use oxc_ast::ast::*;
use oxc_diagnostics::OxcDiagnostic;
use oxc_syntax::module_record::*;

use crate::{
    Item, Outcome, Stopped,
    answer::{self, Answer, Ask, Cell, ExportRow, Fault, ImportRow, Page, Record, RequestRow, Stop, Word},
    diagnostics::ParserDiagnostic as D,
    read_module,
    standin::Asked,
    tokenfile::{self, List, Tok},
};

/// The number of each diagnostic that the published import and export text can make, and its spans:
/// for two spans the place that is spoken of and then what it is held against, as in docs/DIFFERENCES.md.
/// 0: no number stands for it.
fn number(d: &D<'_>) -> (u8, Vec<Span>, String) {
    match d {
        D::expect_token { span, expected, .. } => (1, vec![*span], format!("expect_token {expected}")),
        D::unexpected_token { span } => (2, vec![*span], "unexpected_token".into()),
        D::expect_closing_or_separator { span, opening_span, .. } => {
            (3, vec![*span, *opening_span], "expect_closing_or_separator".into())
        }
        D::auto_semicolon_insertion { span } => (4, vec![*span], "auto_semicolon_insertion".into()),
        D::import_attribute_value_must_be_string_literal { span } => {
            (5, vec![*span], "import_attribute_value_must_be_string_literal".into())
        }
        D::export_lone_surrogate { span } => (6, vec![*span], "export_lone_surrogate".into()),
        D::unexpected_export { span } => (7, vec![*span], "unexpected_export".into()),
        D::Eager(d) if d.message.starts_with("FOREIGN") => (7, d.labels.clone(), d.message.clone()),
        D::Eager(d) if d.message.starts_with("HOST") => (8, vec![d.labels[0]], d.message.clone()),
        D::escaped_keyword { span } => (20, vec![*span], "escaped_keyword".into()),
        D::named_import_not_allowed_in_defer { span } => {
            (21, vec![*span], "named_import_not_allowed_in_defer".into())
        }
        D::default_import_not_allowed_in_defer { span } => {
            (22, vec![*span], "default_import_not_allowed_in_defer".into())
        }
        D::only_default_import_allowed_in_source_phase { span } => {
            (23, vec![*span], "only_default_import_allowed_in_source_phase".into())
        }
        D::identifier_expected { span } => (24, vec![*span], "identifier_expected".into()),
        D::identifier_reserved_word { span, .. } => (25, vec![*span], "identifier_reserved_word".into()),
        D::export_named_string { span, .. } => (26, vec![*span], "export_named_string".into()),
        D::export_reserved_word { span, .. } => (27, vec![*span], "export_reserved_word".into()),
        D::modifier_already_seen { modifier } => (28, vec![modifier.span()], "modifier_already_seen".into()),
        D::redeclaration { declare_span, redeclare_span, .. } => {
            (29, vec![*declare_span, *redeclare_span], "redeclaration".into())
        }
        other => {
            let d = other.clone().into_diagnostic();
            (0, d.labels, d.message)
        }
    }
}

struct R<'l> {
    list: &'l List,
}

impl R<'_> {
    fn word(&self, text: &str, span: Span, string: bool, lone: bool) -> Word {
        Word { token: self.list.number_of(text), text: tokenfile::unmap_text(text), span, string, lone }
    }
    fn export_name(&self, n: &ModuleExportName<'_>) -> Word {
        self.word(n.name().as_str(), n.span(), !n.is_identifier(), false)
    }
    fn binding(&self, n: &BindingIdentifier<'_>) -> Word {
        self.word(n.name.as_str(), n.span, false, false)
    }
    fn string(&self, s: &StringLiteral<'_>) -> Word {
        self.word(s.value.text, s.span, true, s.value.lone)
    }
    fn attributes(&self, w: Option<&WithClause<'_>>) -> Option<(&'static str, Span, Vec<answer::Attribute>)> {
        let w = w?;
        let rows = w
            .with_entries
            .iter()
            .map(|e| answer::Attribute {
                key: match &e.key {
                    ImportAttributeKey::Identifier(i) => self.word(i.name.as_str(), i.span, false, false),
                    ImportAttributeKey::StringLiteral(s) => self.string(s),
                },
                value: self.string(&e.value),
                span: e.span,
            })
            .collect();
        let k = if w.keyword == WithClauseKeyword::With { "with" } else { "assert" };
        Some((k, w.span, rows))
    }
    fn specifiers(&self, s: &[ExportSpecifier<'_>]) -> Option<Vec<answer::Specifier>> {
        Some(
            s.iter()
                .map(|s| answer::Specifier::Export {
                    local: self.export_name(&s.local),
                    exported: self.export_name(&s.exported),
                    span: s.span,
                })
                .collect(),
        )
    }
    fn faults(&self, f: &[D<'_>]) -> Vec<Fault> {
        f.iter()
            .map(|d| {
                let (number, spans, _) = number(d);
                Fault { number, layer: answer::layer(number), spans }
            })
            .collect()
    }

    fn page(&self, i: &Item<'_>) -> Page {
        let mut p = Page {
            kind: answer::Kind::Statement,
            first: i.first,
            count: i.count,
            span: i.stmt.span(),
            phase: "none",
            source: None,
            specifiers: None,
            exported: None,
            declared: vec![],
            body: None,
            keyword: None,
            how: "none",
            name: None,
            attributes: None,
            faults: self.faults(&i.faults),
            notes: i.notes.clone(),
        };
        match &i.stmt {
            Statement::Other(_) => {}
            Statement::Declaration(_) => unreachable!("a foreign form that did not stop"),
            Statement::ImportDeclaration(d) => {
                p.kind = answer::Kind::Import;
                p.phase = match d.phase {
                    None => "none",
                    Some(ImportPhase::Defer) => "defer",
                    Some(ImportPhase::Source) => "source",
                };
                p.specifiers = d.specifiers.as_ref().map(|v| {
                    v.iter()
                        .map(|s| match s {
                            ImportDeclarationSpecifier::ImportSpecifier(s) => answer::Specifier::Import {
                                imported: self.export_name(&s.imported),
                                local: self.binding(&s.local),
                                span: s.span,
                            },
                            ImportDeclarationSpecifier::ImportDefaultSpecifier(s) => {
                                answer::Specifier::Default { local: self.binding(&s.local), span: s.span }
                            }
                            ImportDeclarationSpecifier::ImportNamespaceSpecifier(s) => {
                                answer::Specifier::Namespace { local: self.binding(&s.local), span: s.span }
                            }
                        })
                        .collect()
                });
                p.source = Some(self.string(&d.source));
                p.attributes = self.attributes(d.with_clause.as_deref());
            }
            Statement::Export(m) => match m {
                ModuleDeclaration::ExportAllDeclaration(d) => {
                    p.kind = answer::Kind::ExportAll;
                    p.exported = d.exported.as_ref().map(|n| self.export_name(n));
                    p.source = Some(self.string(&d.source));
                    p.attributes = self.attributes(d.with_clause.as_deref());
                }
                ModuleDeclaration::ExportFromDeclaration(d) => {
                    p.kind = answer::Kind::ExportFrom;
                    p.specifiers = self.specifiers(&d.specifiers);
                    p.source = Some(self.string(&d.source));
                    p.attributes = self.attributes(d.with_clause.as_deref());
                }
                ModuleDeclaration::ExportNamedDeclaration(d) => {
                    p.kind = answer::Kind::ExportBraces;
                    p.specifiers = self.specifiers(&d.specifiers);
                }
                ModuleDeclaration::ExportDeclaration(d) => {
                    p.kind = answer::Kind::Declaration;
                    p.body = Some(d.declaration.span());
                    p.declared = match &d.declaration {
                        Declaration::VariableDeclaration(v) => v.names.iter().map(|n| self.binding(n)).collect(),
                        other => other.id().iter().map(|n| self.binding(n)).collect(),
                    };
                }
                ModuleDeclaration::ExportDefaultDeclaration(d) => {
                    p.kind = answer::Kind::Default;
                    p.body = Some(d.declaration.span());
                    p.keyword = Some(self.list.tokens[i.first + 1].span);
                    (p.how, p.name) = match &d.declaration {
                        ExportDefaultDeclarationKind::Identifier(i) => {
                            ("plain", Some(self.word(i.name.as_str(), i.span, false, false)))
                        }
                        ExportDefaultDeclarationKind::FunctionDeclaration(f) if f.id.is_some() => {
                            ("named", f.id.as_ref().map(|i| self.binding(i)))
                        }
                        ExportDefaultDeclarationKind::ClassDeclaration(f) if f.id.is_some() => {
                            ("named", f.id.as_ref().map(|i| self.binding(i)))
                        }
                        _ => ("absent", None),
                    };
                }
                _ => unreachable!("a form of TypeScript"),
            },
        }
        p
    }
}

fn asks(item: usize, a: &[Asked], out: &mut Vec<(usize, Ask)>) {
    for a in a {
        let token = a.token;
        out.push((
            item,
            match &a.answer {
                Err((code, _)) => Ask::Refused { question: a.question, token, code: *code },
                Ok((length, body, names, how)) => match a.question {
                    "statement" => Ask::Statement { token, length: *length },
                    "declaration" => Ask::Declaration { token, length: *length, names: names.clone() },
                    _ => Ask::Default {
                        token,
                        length: *length,
                        body: *body,
                        how,
                        name: names.first().copied(),
                    },
                },
            },
        ));
    }
}

fn stop(s: &Stopped<'_>) -> Stop {
    let (number, spans, constructor) = number(&s.error);
    let mut code = 0;
    if let D::Eager(d) = &s.error
        && d.message.starts_with("HOST")
    {
        code = d.message.split(' ').nth(1).unwrap().parse().unwrap();
    }
    Stop {
        number,
        layer: answer::layer(number),
        code,
        spans,
        constructor,
        token: s.token,
        first: s.first,
        notes: s.notes.clone(),
    }
}

fn bytes(s: &str) -> Vec<u8> {
    tokenfile::unmap_text(s)
}
fn cell(kind: &'static str, n: &NameSpan<'_>) -> Cell {
    Cell { kind, text: bytes(&n.name), span: n.span }
}
fn entry(e: &ExportEntry<'_>) -> ExportRow {
    ExportRow {
        statement: e.statement_span,
        span: e.span,
        request: e.module_request.as_ref().map_or(Cell::of("none"), |n| cell("request", n)),
        import: match &e.import_name {
            ExportImportName::Name(n) => cell("name", n),
            ExportImportName::All => Cell::of("all"),
            ExportImportName::AllButDefault => Cell::of("all-but-default"),
            ExportImportName::Null => Cell::of("none"),
        },
        export: match &e.export_name {
            ExportExportName::Name(n) => cell("name", n),
            ExportExportName::Default(s) => Cell::word("default", b"", *s),
            ExportExportName::Null => Cell::of("none"),
        },
        local: match &e.local_name {
            ExportLocalName::Name(n) => cell("name", n),
            ExportLocalName::Default(n) => cell("plain", n),
            ExportLocalName::Null => Cell::of("none"),
        },
    }
}

fn record(o: &Outcome<'_>) -> Record {
    let r = &o.record;
    // Requests in the order in which they were pushed, over all texts.
    let mut requests: Vec<(u64, RequestRow)> = vec![];
    for (name, rows) in &r.requested_modules.rows {
        for (row, seq) in rows.iter().zip(&rows.seqs) {
            let q = RequestRow {
                text: bytes(name),
                span: row.span,
                statement: row.statement_span,
                is_import: row.is_import,
            };
            requests.push((*seq, q));
        }
    }
    requests.sort_by_key(|q| q.0);
    let faults = o.close.iter().map(close_fault).collect();
    Record {
        mark: r.has_module_syntax,
        imports: r
            .import_entries
            .iter()
            .map(|e| ImportRow {
                statement: e.statement_span,
                request: (bytes(&e.module_request.name), e.module_request.span),
                import: match &e.import_name {
                    ImportImportName::Name(n) => cell("name", n),
                    ImportImportName::NamespaceObject => Cell::of("namespace"),
                    ImportImportName::Default(s) => Cell::word("default", b"", *s),
                },
                local: (bytes(&e.local_name.name), e.local_name.span),
                phase: "unknown",
            })
            .collect(),
        requests: requests.into_iter().map(|q| q.1).collect(),
        names: r.exported_bindings.log.iter().map(|(n, s)| (bytes(n), *s)).collect(),
        local: r.local_export_entries.iter().map(entry).collect(),
        indirect: r.indirect_export_entries.iter().map(entry).collect(),
        star: r.star_export_entries.iter().map(entry).collect(),
        faults,
    }
}
/// One diagnostic of the Rust's; several defaults are one, with a span for each.
fn close_fault(d: &OxcDiagnostic) -> Fault {
    let number = if d.message.starts_with("Duplicated export '") {
        30
    } else if d.message.starts_with("A module cannot have multiple default exports.") {
        31
    } else {
        0
    };
    Fault { number, layer: 4, spans: d.labels.clone() }
}

/// What the Rust makes of a token list; `toks` are the list's, with marks changed perhaps.
pub fn run(list: &List, toks: &[Tok<'_>]) -> Answer {
    let allocator = Allocator::new();
    let o = read_module(&allocator, toks);
    let r = R { list };
    let mut all = vec![];
    let mut pages = vec![];
    for (n, i) in o.items.iter().enumerate() {
        asks(n, &i.asked, &mut all);
        pages.push(r.page(i));
    }
    if let Some(s) = &o.stop {
        asks(o.items.len(), &s.asked, &mut all);
    }
    Answer {
        asks: all,
        pages,
        stop: o.stop.as_ref().map(stop),
        record: if o.stop.is_some() { None } else { Some(record(&o)) },
    }
}
