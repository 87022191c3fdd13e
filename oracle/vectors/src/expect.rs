//! The expected answer of the library: the Rust's own answer, changed by the rules named here and by
//! nothing else. Each rule is a difference that is meant; docs/DIFFERENCES.md gives its reason and an
//! input. Every rule that was applied to a module is named with it.
use std::collections::BTreeSet;

use oxc_parser::{
    Kind,
    answer::{self, Answer, Cell, ExportRow, Fault, Page, Record, Specifier, Stop, Word},
    run,
    tokenfile::{List, Tok},
};
use oxc_span::Span;

/// All names, in the order of docs/DIFFERENCES.md.
pub const RULES: &[&str] = &[
    "default-import-stays-default",
    "source-from-comma",
    "source-phase-stays-local",
    "export-let",
    "import-equals",
    "export-import",
    "decorator-before-export",
    "decorator-after-export",
    "default-body-escape",
    "async-newline-function",
    "end-span",
    "host-refusal",
    "page-full-specifiers",
    "page-full-attributes",
    "page-full-names",
    "page-full-faults",
    "record-full",
    "several-defaults",
    "second-export-span",
    "phase-on-import-rows",
];

pub const SPECIFIERS: usize = 128;
pub const NAMES: usize = 128;
pub const ATTRIBUTES: usize = 32;
pub const FAULTS: usize = 32;
pub const ROWS: usize = 128;

pub struct Expected {
    pub answer: Answer,
    pub rules: BTreeSet<&'static str>,
}

/// A module that no expectation can be given for, with the reason.
pub type LeftOut = &'static str;

fn kind(t: &[Tok<'_>], n: usize) -> Kind {
    t.get(n).map_or(Kind::Eof, |t| t.kind)
}
/// The span of a token; at the end the empty one at the previous token's end, or at 0.
fn span_at(t: &[Tok<'_>], n: usize) -> Span {
    t.get(n).map_or_else(|| Span::empty(t.last().map_or(0, |t| t.span.end)), |t| t.span)
}

fn stop(number: u8, layer: u8, span: Span, first: usize, token: usize) -> Stop {
    Stop {
        number,
        layer,
        code: 0,
        spans: vec![span],
        constructor: String::new(),
        token,
        first,
        notes: vec![],
    }
}

/// The number of the first element of a brace list that a table of `room` rows has no place for, and the
/// number of the token after the list. Elements hold neither Comma nor RCurly.
fn list(t: &[Tok<'_>], brace: usize, room: usize, last: usize) -> (Option<usize>, usize) {
    let mut j = brace + 1;
    if kind(t, j) == Kind::RCurly {
        return (None, j + 1);
    }
    let mut count = 0;
    while j <= last && j < t.len() {
        if count == room {
            return (Some(j), j);
        }
        count += 1;
        while j < t.len() && !matches!(kind(t, j), Kind::Comma | Kind::RCurly) {
            j += 1;
        }
        if kind(t, j) != Kind::Comma {
            return (None, j + 1);
        }
        j += 1;
        match kind(t, j) {
            Kind::RCurly => return (None, j + 1),
            Kind::Eof | Kind::Undetermined => return (None, j),
            _ => {}
        }
    }
    (None, j)
}

/// The first element too many in an import or an export that was read up to token `last`.
fn too_many(t: &[Tok<'_>], first: usize, last: usize) -> Option<(&'static str, usize)> {
    let k = |i: usize| kind(t, first + i);
    // Where the specifiers' brace stands, and how many rows are taken before it.
    let brace = match k(0) {
        Kind::Import if !matches!(k(1), Kind::LParen | Kind::Dot) => {
            if k(1) == Kind::LCurly {
                Some((1, 0))
            } else if matches!(k(1), Kind::Defer | Kind::Source) && k(2) == Kind::LCurly {
                Some((2, 0))
            } else if k(1).is_binding_identifier() && k(2) == Kind::Comma && k(3) == Kind::LCurly {
                Some((3, 1))
            } else if k(1) == Kind::Defer
                && k(2).is_binding_identifier()
                && k(3) == Kind::Comma
                && k(4) == Kind::LCurly
            {
                Some((4, 1))
            } else {
                None
            }
        }
        Kind::Export if k(1) == Kind::LCurly => Some((1, 0)),
        Kind::Export if k(1) == Kind::Star => None,
        _ if k(0) == Kind::Import => None,
        _ => return None,
    };
    let mut j = first + 1;
    if let Some((at, taken)) = brace {
        let (over, after) = list(t, first + at, SPECIFIERS - taken, last);
        if let Some(n) = over.filter(|n| *n <= last) {
            return Some(("page-full-specifiers", n));
        }
        j = after;
    }
    // The attributes' brace stands after With or Assert, and these after a Str.
    while j <= last && j < t.len() {
        if t[j].kind == Kind::LCurly
            && matches!(kind(t, j - 1), Kind::With | Kind::Assert)
            && kind(t, j - 2) == Kind::Str
        {
            let (over, _) = list(t, j, ATTRIBUTES, last);
            return over.filter(|n| *n <= last).map(|n| ("page-full-attributes", n));
        }
        j += 1;
    }
    None
}

/// How many rows a page adds: imports, requests, waiting exports, names.
fn rows(p: &Page) -> [usize; 4] {
    let lone = p.source.as_ref().is_some_and(|s| s.lone);
    let n = p.specifiers.as_ref().map_or(0, Vec::len);
    match p.kind {
        answer::Kind::Statement => [0, 0, 0, 0],
        answer::Kind::Import if lone => [0, 0, 0, 0],
        answer::Kind::Import => [n, 1, 0, 0],
        answer::Kind::ExportAll => {
            let named = usize::from(p.exported.is_some());
            if lone { [0, 0, 0, named] } else { [0, 1, 1, named] }
        }
        answer::Kind::ExportFrom if lone => [0, 0, 0, n],
        answer::Kind::ExportFrom => [0, 1, n, n],
        answer::Kind::ExportBraces => [0, 0, n, n],
        answer::Kind::Declaration => [0, 0, p.declared.len(), p.declared.len()],
        answer::Kind::Default => [0, 0, 1, 0],
    }
}

fn name_cell(kind: &'static str, w: &Word) -> Cell {
    Cell::word(kind, &w.text, w.span)
}

/// The waiting rows that the pages leave, in order.
fn waiting(pages: &[Page]) -> Vec<ExportRow> {
    let mut out = vec![];
    for p in pages {
        if p.source.as_ref().is_some_and(|s| s.lone) {
            continue;
        }
        let request = p.source.as_ref().map_or(Cell::of("none"), |s| name_cell("request", s));
        let row = |span: Span, import: Cell, export: Cell, local: Cell| ExportRow {
            statement: p.span,
            span,
            request: request.clone(),
            import,
            export,
            local,
        };
        let none = || Cell::of("none");
        match p.kind {
            answer::Kind::Statement | answer::Kind::Import => {}
            answer::Kind::ExportAll => out.push(match &p.exported {
                Some(w) => row(p.span, Cell::of("all"), name_cell("name", w), none()),
                None => row(p.span, Cell::of("all-but-default"), none(), none()),
            }),
            answer::Kind::ExportFrom | answer::Kind::ExportBraces => {
                for s in p.specifiers.iter().flatten() {
                    let Specifier::Export { local, exported, span } = s else { unreachable!() };
                    let (import, local) = if p.kind == answer::Kind::ExportFrom {
                        (name_cell("name", local), none())
                    } else {
                        (none(), name_cell("name", local))
                    };
                    out.push(row(*span, import, name_cell("name", exported), local));
                }
            }
            answer::Kind::Declaration => {
                for w in &p.declared {
                    out.push(row(p.body.unwrap(), none(), name_cell("name", w), name_cell("name", w)));
                }
            }
            answer::Kind::Default => {
                let local = match (p.how, &p.name) {
                    ("plain", Some(w)) => name_cell("plain", w),
                    ("named", Some(w)) => name_cell("name", w),
                    _ => none(),
                };
                out.push(row(p.body.unwrap(), none(), Cell::word("default", b"", p.keyword.unwrap()), local));
            }
        }
    }
    out
}

fn default_span(r: &ExportRow) -> Option<Span> {
    match r.export.kind {
        "default" => Some(r.export.span),
        "name" if r.export.text == b"default" => Some(r.export.span),
        _ => None,
    }
}

/// The record: the Rust's, with the import rows' phases, the two rules about re-exported imports, and
/// one 31 for each default. Which rows the rules meet is found by walking the waiting rows as the Rust
/// does; the walk must give the Rust's own lists, row by row, or the module is left out.
fn record(pages: &[Page], raw: &Record, rules: &mut BTreeSet<&'static str>) -> Result<Record, LeftOut> {
    let mut r = raw.clone();
    // Phases: the Rust's import rows have none; they are their pages'.
    let phases: Vec<&'static str> = pages
        .iter()
        .filter(|p| p.kind == answer::Kind::Import && !p.source.as_ref().unwrap().lone)
        .flat_map(|p| p.specifiers.iter().flatten().map(|_| p.phase))
        .collect();
    if phases.len() != r.imports.len() {
        return Err("import rows do not match the pages");
    }
    for (i, p) in r.imports.iter_mut().zip(phases) {
        i.phase = p;
        if p != "none" {
            rules.insert("phase-on-import-rows");
        }
    }
    // The Rust's lists again, and ours beside them.
    let (mut theirs, mut ours) = ([vec![], vec![], vec![]], [vec![], vec![], vec![]]);
    for w in waiting(pages) {
        if w.request.kind != "none" {
            let at = if w.import.kind == "all-but-default" { 2 } else { 1 };
            theirs[at].push(w.clone());
            ours[at].push(w);
            continue;
        }
        let found = if w.local.kind == "name" {
            r.imports.iter().find(|i| i.local.0 == w.local.text)
        } else {
            None
        };
        match found {
            Some(i) if i.import.kind != "namespace" => {
                let indirect = |import: Cell| ExportRow {
                    statement: i.statement,
                    span: w.span,
                    request: Cell::word("request", &i.request.0, i.request.1),
                    import,
                    export: w.export.clone(),
                    local: Cell::of("none"),
                };
                if i.import.kind == "default" {
                    theirs[1].push(indirect(Cell::word("name", &i.local.0, i.local.1)));
                    if i.phase == "source" {
                        rules.insert("source-phase-stays-local");
                        ours[0].push(w);
                    } else {
                        rules.insert("default-import-stays-default");
                        ours[1].push(indirect(i.import.clone()));
                    }
                } else {
                    theirs[1].push(indirect(i.import.clone()));
                    ours[1].push(indirect(i.import.clone()));
                }
            }
            _ => {
                theirs[0].push(w.clone());
                ours[0].push(w);
            }
        }
    }
    if theirs[0] != raw.local || theirs[1] != raw.indirect || theirs[2] != raw.star {
        return Err("the lists do not match the pages");
    }
    let skipped: Vec<Span> = pages
        .iter()
        .filter(|p| p.source.as_ref().is_some_and(|s| s.lone))
        .flat_map(|p| {
            let mut v: Vec<&Word> = p.exported.iter().collect();
            if p.kind == answer::Kind::ExportFrom {
                for s in p.specifiers.iter().flatten() {
                    if let Specifier::Export { exported, .. } = s {
                        v.push(exported);
                    }
                }
            }
            v.into_iter().filter(|w| w.text == b"default").map(|w| w.span).collect::<Vec<_>>()
        })
        .collect();
    let defaults = |l: &[Vec<ExportRow>; 3]| {
        let mut v: Vec<Span> = l[0].iter().chain(&l[1]).filter_map(default_span).collect();
        v.extend(&skipped);
        v
    };
    let said = raw.faults.iter().find(|f| f.number == 31).map_or(vec![], |f| f.spans.clone());
    let again = defaults(&theirs);
    if said != if again.len() > 1 { again } else { vec![] } {
        return Err("the defaults do not match the pages");
    }
    if raw.faults.iter().any(|f| f.number == 0) {
        return Err("a diagnostic at close without a number");
    }
    r.faults.retain(|f| f.number != 31);
    if !said.is_empty() {
        rules.insert("several-defaults");
        for s in defaults(&ours) {
            r.faults.push(Fault { number: 31, layer: 4, spans: vec![s] });
        }
    }
    let [local, indirect, star] = ours;
    (r.local, r.indirect, r.star) = (local, indirect, star);
    Ok(r)
}

/// The rules about the faults of a page that the Rust read to its end.
fn page_faults(t: &[Tok<'_>], p: &mut Page, rules: &mut BTreeSet<&'static str>) -> Result<(), LeftOut> {
    if p.faults.iter().any(|f| f.number == 0) {
        return Err("a diagnostic on a page without a number");
    }
    if p.kind == answer::Kind::Default {
        // The Rust stepped over `async`, `abstract` or `interface` as a keyword: the 20 is the last fault.
        let stepped = p.notes.iter().any(|n| matches!(*n, "escaped-async" | "abstract" | "interface"));
        if stepped && t[p.first + 2].escaped {
            let f = p.faults.pop();
            if f.is_none_or(|f| f.number != 20 || f.spans != [t[p.first + 2].span]) {
                return Err("the escape of a default's body is not the last fault");
            }
            rules.insert("default-body-escape");
        }
    }
    if p.kind == answer::Kind::ExportBraces {
        // 26 and 27 come after every 20, in the order of the specifiers.
        let at = p.faults.iter().position(|f| f.number != 20).unwrap_or(p.faults.len());
        let (mut theirs, mut ours) = (vec![], vec![]);
        for s in p.specifiers.iter().flatten() {
            let Specifier::Export { local, .. } = s else { unreachable!() };
            if local.string {
                theirs.push((26, local.span));
                ours.push((26, local.span));
            } else {
                let k = std::str::from_utf8(&local.text).map_or(Kind::Ident, Kind::match_keyword);
                if k.is_reserved_keyword() || k.is_future_reserved_keyword() {
                    theirs.push((27, local.span));
                    ours.push((27, local.span));
                } else if local.text == b"let" {
                    ours.push((27, local.span));
                    rules.insert("export-let");
                }
            }
        }
        let faults = |v: Vec<(u8, Span)>| -> Vec<Fault> {
            v.into_iter().map(|(number, s)| Fault { number, layer: 3, spans: vec![s] }).collect()
        };
        if p.faults[at..] != faults(theirs) {
            return Err("the faults of local names do not match the page");
        }
        p.faults.truncate(at);
        p.faults.extend(faults(ours));
    }
    for f in &mut p.faults {
        // start to start + 6 does not fit below 2^32: the Rust's arithmetic goes round.
        if f.number == 28 && f.spans[0].end < f.spans[0].start {
            f.spans[0].end = u32::MAX;
            rules.insert("second-export-span");
        }
    }
    Ok(())
}

pub fn expect(list: &List) -> Result<Expected, LeftOut> {
    let mut toks = list.toks();
    let mut rules = BTreeSet::new();
    // `async`, new line, `function` after `default`: the Rust is asked again with that mark taken away.
    let mut joined = BTreeSet::new();
    let raw = loop {
        let raw = run(list, &toks);
        let notes = raw
            .pages
            .iter()
            .map(|p| (p.first, &p.notes))
            .chain(raw.stop.iter().map(|s| (s.first, &s.notes)));
        let mut found = None;
        for (first, notes) in notes {
            if notes.contains(&"async-newline-function") {
                found = Some(first + 3);
            }
        }
        let Some(n) = found else { break raw };
        if kind(&toks, n) != Kind::Function || !toks[n].new_line {
            return Err("no function where one was noted");
        }
        toks[n].new_line = false;
        joined.insert(n);
    };
    let t = &toks[..];

    let mut pages = vec![];
    let mut stopped = None;
    let mut full = [0; 4];
    let items = raw.pages.len() + usize::from(raw.stop.is_some());
    for n in 0..items {
        let page = raw.pages.get(n);
        let halt = if n == raw.pages.len() { raw.stop.as_ref() } else { None };
        let (first, last) = match (page, halt) {
            (Some(p), _) => (p.first, p.first + p.count - 1),
            (_, Some(s)) => (s.first, s.token),
            _ => unreachable!(),
        };
        let k = |i: usize| kind(t, first + i);
        if k(0) == Kind::At {
            rules.insert("decorator-before-export");
        }
        if k(0) == Kind::Export && k(1) == Kind::At {
            rules.insert("decorator-after-export");
        }
        if k(0) == Kind::Export && k(1) == Kind::Import {
            rules.insert("export-import");
            stopped = Some((n, stop(7, 3, t[first + 1].span, first, first + 1)));
            break;
        }
        if k(0) == Kind::Import && k(1) == Kind::Source && k(2) == Kind::From && k(3) == Kind::Comma {
            rules.insert("source-from-comma");
            stopped = Some((n, stop(1, 3, t[first + 3].span, first, first + 3)));
            break;
        }
        if let Some((rule, at)) = too_many(t, first, last) {
            rules.insert(rule);
            stopped = Some((n, stop(9, 2, t[at].span, first, at)));
            break;
        }
        if let Some(s) = halt {
            if s.number == 0 {
                return Err("a stop without a number");
            }
            if s.constructor.starts_with("FOREIGN") {
                rules.insert("import-equals");
            }
            if s.number == 8 {
                rules.insert("host-refusal");
            }
            if s.token >= t.len() && s.number != 4 && s.number != 6 {
                rules.insert("end-span");
                if s.spans[0] != span_at(t, t.len()) {
                    return Err("a stop at the end with another span");
                }
            }
            if joined.contains(&(first + 3)) {
                rules.insert("async-newline-function");
            }
            stopped = Some((n, s.clone()));
            break;
        }
        let mut p = page.unwrap().clone();
        if joined.contains(&(first + 3)) && p.kind == answer::Kind::Default {
            rules.insert("async-newline-function");
        }
        if p.declared.len() > NAMES {
            rules.insert("page-full-names");
            let at = p.declared[NAMES].token;
            stopped = Some((n, stop(9, 2, p.declared[NAMES].span, first, at)));
            break;
        }
        page_faults(t, &mut p, &mut rules)?;
        if p.faults.len() > FAULTS {
            rules.insert("page-full-faults");
            let at = first + p.count;
            stopped = Some((n, stop(9, 2, span_at(t, at), first, at)));
            break;
        }
        let more = rows(&p);
        pages.push(p);
        if full.iter().zip(more).any(|(a, b)| a + b > ROWS) {
            rules.insert("record-full");
            stopped = Some((n, stop(9, 4, Span::new(0, 0), first, first)));
            break;
        }
        for (a, b) in full.iter_mut().zip(more) {
            *a += b;
        }
    }
    let mut asks = raw.asks.clone();
    if let Some((n, _)) = &stopped {
        asks.retain(|(item, _)| item <= n);
    }
    let record = match &stopped {
        Some(_) => None,
        None => {
            let raw = raw.record.as_ref().unwrap();
            let counts = [raw.imports.len(), raw.requests.len(), 0, raw.names.len()];
            if counts[0] != full[0] || counts[1] != full[1] || counts[3] != full[3] {
                return Err("the tables do not match the pages");
            }
            Some(record(&pages, raw, &mut rules)?)
        }
    };
    let stop = stopped.map(|s| s.1);
    Ok(Expected { answer: Answer { asks, pages, stop, record }, rules })
}
