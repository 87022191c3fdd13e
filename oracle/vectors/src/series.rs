//! The series that are written out rather than drawn: damaged token files, heads, braces, limits.
use oxc_parser::{Kind, tokenfile::Rec};

use crate::generate::{Module, T, lay, module, other, punct, put, start, string, word};
use crate::rng::Rng;

fn form(f: &str) -> Vec<T> {
    let mut g = start(0, 0);
    g.form(f);
    g.out
}

// ---- damaged token files ----

/// A way to break a record.
type Break = (&'static str, fn(&mut Rec, usize));
const BREAKS: &[Break] = &[
    ("mark", |r, _| r.marks |= 8),
    ("kind", |r, _| r.kind = 169),
    ("end", |r, _| (r.start, r.len) = (u32::MAX, 1)),
    ("part", |r, n| (r.place, r.tlen) = (n as u32, 1)),
];

pub fn damaged(seed: u64, count: u64, out: &mut dyn FnMut(Module)) {
    let class = "damaged";
    let (base, mut text, _) = lay(&form("export * from \"m\" ;"));
    text.push(b'z');
    let n = text.len();
    let mut give = |name: String, bytes: Vec<u8>, text: &[u8]| {
        out(Module { name, class, bytes, text: text.to_vec(), js: None });
    };
    let whole = put(&base);
    give("nothing".into(), vec![], b"");
    give("nothing-with-text".into(), vec![], &text);
    give("whole".into(), whole.clone(), &text);
    // Cut at each of the fourteen lengths (0 is a whole end), in the first, a middle and the last record.
    for at in [0, 2, base.len() - 1] {
        for cut in 0..14 {
            give(format!("cut-{at}-{cut}"), whole[..at * 14 + cut].to_vec(), &text);
        }
    }
    // After a whole list: one more byte, up to thirteen.
    for more in 1..14 {
        let mut b = whole.clone();
        b.extend(std::iter::repeat_n(0, more));
        give(format!("trailing-{more}"), b, &text);
    }
    // Each other mark bit, alone and with the three that mean something.
    for marks in [8u8, 16, 32, 64, 128, 9, 23, 248, 255] {
        for at in [0, 2] {
            let mut r = base.clone();
            r[at].marks = marks;
            give(format!("mark-{at}-{marks}"), put(&r), &text);
        }
    }
    // Each kind beyond the last, and the last.
    for kind in 168..=255u8 {
        let mut r = base[..2].to_vec();
        r[1].kind = kind;
        give(format!("kind-{kind}"), put(&r), &text);
    }
    // Ends at and above the largest number of 32 bits.
    for (s, l) in [
        (u32::MAX, 0u16),
        (u32::MAX, 1),
        (u32::MAX, 65535),
        (u32::MAX - 65535, 65535),
        (u32::MAX - 65534, 65535),
        (0, 65535),
        (u32::MAX - 1, 1),
        (u32::MAX - 1, 2),
    ] {
        for at in [0, 3] {
            let mut r = base.clone();
            (r[at].start, r[at].len) = (s, l);
            give(format!("end-{at}-{s}-{l}"), put(&r), &text);
        }
    }
    // Parts at and past the text's end.
    for (p, l) in [
        (n as u32, 0u16),
        (n as u32, 1),
        (n as u32 + 1, 0),
        (0, n as u16),
        (0, n as u16 + 1),
        (1, n as u16),
        (n as u32 - 1, 1),
        (n as u32 - 1, 2),
        (u32::MAX, 0),
        (u32::MAX, 1),
        (u32::MAX, 65535),
        (0, 65535),
        (u32::MAX - 65534, 65535),
    ] {
        for at in [0, 3] {
            let mut r = base.clone();
            (r[at].place, r[at].tlen) = (p, l);
            give(format!("part-{at}-{p}-{l}"), put(&r), &text);
        }
    }
    let mut r = base.clone();
    for x in &mut r {
        (x.place, x.tlen) = (0, 0);
    }
    give("empty-text-empty-parts".into(), put(&r), b"");
    give("empty-text".into(), whole.clone(), b"");
    // Two, three or four rules broken in one record; the same with Eof's number where the kind is not.
    for set in 1..16usize {
        for eof in [false, true] {
            if eof && set & 2 != 0 {
                continue;
            }
            for at in [0, 2, 4] {
                let mut r = base.clone();
                if eof {
                    r[at].kind = 0;
                }
                let mut name = if eof { "eof".to_string() } else { "bad".into() };
                for (i, (w, f)) in BREAKS.iter().enumerate() {
                    if set & (1 << i) != 0 {
                        f(&mut r[at], n);
                        name = format!("{name}-{w}");
                    }
                }
                give(format!("{name}-{at}"), put(&r), &text);
            }
        }
    }
    // Two broken records: the first counts. One of them an Eof: the first counts as well.
    for (a, fa) in BREAKS {
        for (b, fb) in BREAKS {
            let mut r = base.clone();
            fa(&mut r[1], n);
            fb(&mut r[3], n);
            give(format!("two-{a}-{b}"), put(&r), &text);
        }
        let mut r = base.clone();
        fa(&mut r[1], n);
        r[3].kind = 0;
        give(format!("bad-then-eof-{a}"), put(&r), &text);
        let mut r = base.clone();
        r[1].kind = 0;
        fa(&mut r[3], n);
        give(format!("eof-then-bad-{a}"), put(&r), &text);
        // A broken record cut short is only cut.
        let mut r = base.clone();
        fa(&mut r[2], n);
        give(format!("bad-and-cut-{a}"), put(&r)[..2 * 14 + 13].to_vec(), &text);
    }
    // Eof at each place, with what it carries, and followed by anything.
    for at in 0..=base.len() {
        let mut r = base.clone();
        r.insert(at, Rec { kind: 0, marks: 0, start: 0, len: 0, place: 0, tlen: 0 });
        give(format!("eof-at-{at}"), put(&r), &text);
        let mut r = base.clone();
        r.insert(at, Rec { kind: 0, marks: 7, start: 5, len: 3, place: 1, tlen: 2 });
        give(format!("full-eof-at-{at}"), put(&r), &text);
        let mut b = put(&r[..=at]);
        b.extend_from_slice(&[255; 9]);
        give(format!("eof-then-cut-at-{at}"), b, &text);
    }
    // A broken record in each place of many modules: what comes after it is no more.
    for (i, f) in [
        "import a , { b as c , } from \"m\" with { d : \"e\" , } ;",
        "export { a as b , } from \"m\" ;",
        "export default ( a ) ;",
        "export const a = ( 1 ) , b ;",
        "import . meta ; a ;",
        "import source x from \"m\" ^export function f ( ) { }",
    ]
    .iter()
    .enumerate()
    {
        let (recs, text, _) = lay(&form(f));
        for at in 0..recs.len() {
            let mut r = recs.clone();
            r[at].marks = 128;
            r.truncate(at + 2);
            give(format!("bad-in-{i}-{at}"), put(&r), &text);
        }
    }
    // One, two or three bytes of a valid module changed at random, or its front alone.
    for i in 0..count {
        let mut rng = Rng::new(seed, i);
        let m = crate::generate::mutated(seed, i);
        let mut b = m.bytes;
        b.truncate(14 * 12);
        for _ in 0..1 + rng.below(3) {
            if !b.is_empty() {
                let at = rng.below(b.len());
                b[at] = if rng.one_in(2) { rng.next() as u8 } else { b[at] ^ (1 << rng.below(8)) };
            }
        }
        if rng.one_in(4) {
            let n = rng.below(b.len() + 1);
            b.truncate(n);
        }
        let mut text = m.text;
        if rng.one_in(6) {
            let n = rng.below(text.len() + 1);
            text.truncate(n);
        }
        give(format!("bytes-{seed}-{i}"), b, &text);
    }
}

// ---- heads ----

/// A token of any kind: keywords with their word, punctuators with their sign, others with one of theirs.
fn of_kind(k: Kind) -> T {
    let s = k.to_str();
    let mut t = match k {
        Kind::Str => string("s"),
        Kind::Ident => word("a"),
        Kind::Decimal => other(k, "1"),
        Kind::Undetermined => other(k, "?"),
        _ if k.is_identifier_name() => word(s),
        _ => punct(k),
    };
    t.kind = k;
    t
}

fn head(name: String, first: &str, kinds: &[Kind], tail: &str, out: &mut dyn FnMut(Module)) {
    let mut v = vec![word(first)];
    v.extend(kinds.iter().map(|k| of_kind(*k)));
    if !tail.is_empty() {
        v.extend(form(tail));
    }
    out(module(name, "heads", &v, false));
}

/// Kinds that an import's head tells apart, and some that it does not.
const TELLING: &[Kind] = &[
    Kind::Eof, Kind::Undetermined, Kind::Ident, Kind::Str, Kind::LCurly, Kind::RCurly, Kind::Star, Kind::Comma, Kind::From, Kind::As,
    Kind::Defer, Kind::Source, Kind::Eq, Kind::LParen, Kind::Dot, Kind::If, Kind::Await, Kind::Let, Kind::Type, Kind::Semicolon,
    Kind::Import, Kind::Export, Kind::Default, Kind::With, Kind::Assert,
];

/// Every kind after `import` and after `export`; every two kinds that tell after `import` (or every two
/// kinds at all, with three tails).
pub fn heads(all: bool, out: &mut dyn FnMut(Module)) {
    for k in &Kind::VARIANTS[..] {
        for w in ["import", "export"] {
            head(format!("{w}-{}", *k as u8), w, &[*k], "a from \"m\" ;", out);
        }
    }
    if all {
        for a in &Kind::VARIANTS[..] {
            for b in &Kind::VARIANTS[..] {
                for (i, tail) in ["", "from \"m\" ;", "as b from \"m\" ;", ", { b } from \"m\" ;"].iter().enumerate() {
                    head(format!("import-{}-{}-{i}", *a as u8, *b as u8), "import", &[*a, *b], tail, out);
                }
                head(format!("export-{}-{}", *a as u8, *b as u8), "export", &[*a, *b], "from \"m\" ;", out);
            }
        }
    } else {
        for a in TELLING {
            for b in TELLING {
                head(format!("import-{}-{}", *a as u8, *b as u8), "import", &[*a, *b], "from \"m\" ;", out);
            }
        }
        // Three tokens of a head, over the kinds that its states wait for.
        const FEW: &[Kind] = &[Kind::From, Kind::Comma, Kind::Str, Kind::Star, Kind::LCurly, Kind::Ident];
        for a in [Kind::Source, Kind::Defer, Kind::From] {
            for b in FEW {
                for c in FEW {
                    let n = format!("import-{}-{}-{}", a as u8, *b as u8, *c as u8);
                    head(n, "import", &[a, *b, *c], "as a } from \"m\" ;", out);
                }
            }
        }
    }
}

// ---- braces ----

const DOZEN: &[&str] = &["a", "as", ",", "}", "\"s\"", "if", "\"!\"", "~as", "let", ":", "?", "from"];

/// Every three tokens of a dozen after an opening brace: all for an import's braces, and for an export's
/// and for attributes the first few (or all).
pub fn braces(all: bool, out: &mut dyn FnMut(Module)) {
    for (what, before, after, few) in [
        ("import", "import {", "} from \"m\" ;", 12),
        ("export", "export {", "} ;", if all { 12 } else { 7 }),
        ("from", "export {", "} from \"m\" ;", if all { 12 } else { 0 }),
        ("with", "import \"m\" with {", "} ;", if all { 12 } else { 0 }),
    ] {
        let d = &DOZEN[..few];
        for a in d {
            for b in d {
                for c in d {
                    let at = |x: &&str| DOZEN.iter().position(|y| y == x).unwrap();
                    let f = format!("{before} {a} {b} {c} {after}");
                    let name = format!("{what}-{}-{}-{}", at(a), at(b), at(c));
                    out(module(name, "braces", &form(&f), true));
                }
            }
        }
    }
    if !all {
        // Attributes wait for a Colon and a Str: their own few.
        let d = &["a", ":", "\"s\"", ",", "}", "\"!\"", "?"];
        for (i, a) in d.iter().enumerate() {
            for (j, b) in d.iter().enumerate() {
                for (k, c) in d.iter().enumerate() {
                    let f = format!("import \"m\" with {{ {a} {b} {c} }} ;");
                    out(module(format!("with-{i}-{j}-{k}"), "braces", &form(&f), true));
                }
            }
        }
    }
}

// ---- limits ----

fn many(before: &str, n: usize, each: impl Fn(usize) -> String, after: &str) -> String {
    let v: Vec<String> = (0..n).map(each).collect();
    format!("{before} {} {after}", v.join(" , ")).trim().replace("  ", " ")
}
fn again(n: usize, each: impl Fn(usize) -> String) -> String {
    (0..n).map(each).collect::<Vec<_>>().join(" ")
}

pub fn limits(out: &mut dyn FnMut(Module)) {
    let mut give = |name: &str, f: String| out(module(name.to_string(), "limits", &form(&f), true));
    let v = |i: usize| format!("v{i}");
    // Rows of specifiers on one page.
    for n in [127, 128, 129] {
        give(&format!("rows-import-{n}"), many("import {", n, v, "} from \"m\" ;"));
        give(&format!("rows-export-{n}"), many("export {", n, v, "} ;"));
        give(&format!("rows-from-{n}"), many("export {", n, v, "} from \"m\" ;"));
    }
    give("import-128-comma", many("import {", 128, v, ", } from \"m\" ;"));
    give("import-128-comma-end", many("import {", 128, v, ","));
    give("import-128-comma-unfit", many("import {", 128, v, ", 1"));
    give("import-128-comma-undetermined", many("import {", 128, v, ", ?"));
    give("import-128-end", many("import {", 128, v, ""));
    give("import-128-unfit", many("import {", 128, v, "1 } from \"m\" ;"));
    give("import-129-then-unfit", many("import {", 129, v, "1"));
    give("import-129-lone", many("import {", 128, v, ", \"!\" as b } from \"m\" ;"));
    give("import-128-lone", many("import {", 127, v, ", \"!\" as b , c , d , e } from \"m\" ;"));
    give("import-default-126", many("import d , {", 126, v, "} from \"m\" ;"));
    give("import-default-127", many("import d , {", 127, v, "} from \"m\" ;"));
    give("import-default-128", many("import d , {", 128, v, "} from \"m\" ;"));
    give("import-defer-default-128", many("import defer d , {", 128, v, "} from \"m\" ;"));
    give("import-defer-129", many("import defer {", 129, v, "} from \"m\" ;"));
    give("import-source-129", many("import source {", 129, v, "} from \"m\" ;"));
    give("export-129-same", many("export {", 129, |_| "a".into(), "} ;"));
    give("export-128-same", many("export {", 128, |_| "a".into(), "} ;"));
    give("from-129-lone-source", many("export {", 129, v, "} from \"!\" ;"));
    give("from-128-lone-source", many("export {", 128, |i| if i < 3 { "a as default".into() } else { v(i) }, "} from \"!\" ;"));
    // Names of one declaration.
    for n in [127, 128, 129] {
        give(&format!("declaration-{n}"), many("export var", n, v, ";"));
    }
    give("declaration-129-same", many("export const", 129, |_| "a".into(), ";"));
    give("declaration-130-refused", many("export const", 130, v, ""));
    // Attributes of one page.
    for n in [31, 32, 33] {
        give(&format!("attributes-{n}"), many("import \"m\" with {", n, |i| format!("k{i} : \"x\""), "} ;"));
        give(&format!("export-all-attributes-{n}"), many("export * from \"m\" assert {", n, |i| format!("\"k{i}\" : \"x\""), "} ;"));
    }
    give("attributes-32-comma", many("import \"m\" with {", 32, |i| format!("k{i} : \"x\""), ", } ;"));
    give("attributes-32-comma-end", many("import \"m\" with {", 32, |i| format!("k{i} : \"x\""), ","));
    give("attributes-33-unfit", many("import \"m\" with {", 32, |i| format!("k{i} : \"x\""), ", 1 : \"x\" } ;"));
    give("attributes-32-value", many("import \"m\" with {", 31, |i| format!("k{i} : \"x\""), ", a : 1 } ;"));
    give("attributes-32-same", many("import \"m\" with {", 32, |_| "k : \"x\"".into(), "} ;"));
    give("attributes-33-after-129", many("import {", 129, v, "} from \"m\" with { a : 1 } ;"));
    give("from-attributes-33", many("export { a } from \"m\" with {", 33, |i| format!("k{i} : \"x\""), "} ;"));
    // Faults of one page.
    for n in [31, 32, 33] {
        give(&format!("faults-{n}"), many("export {", n, |_| "if".into(), "} ;"));
        give(&format!("faults-let-{n}"), many("export {", n, |i| if i % 2 == 0 { "let as a".into() } else { "let".into() }, "} ; a ;"));
    }
    give("faults-33-end", many("export {", 33, |_| "if".into(), "}"));
    give("faults-33-next", many("export {", 33, |_| "if".into(), "} ^export { a } ;"));
    give("faults-33-no-end", many("export {", 33, |_| "if".into(), "} a ;"));
    give("faults-33-stop", many("export {", 33, |_| "if".into(), ", 1 } ;"));
    give("faults-33-import", many("import {", 33, |i| if i % 2 == 0 { "if".into() } else { "a as \"b\"".into() }, "} from \"m\" ;"));
    give("faults-33-escapes", many("import {", 33, |i| format!("a ~as b{i}"), "} from \"m\" ;"));
    give("faults-32-and-one-29", many("import ~defer {", 30, |_| "if".into(), "} from \"m\" with { a : \"x\" , a : \"y\" } ;"));
    give("faults-31-and-28", format!("{} ;", many("~export {", 31, |_| "if".into(), "}")));
    // Rows of the record: imports.
    give("record-imports-128", format!("{} {}", many("import {", 126, v, "} from \"m\" ;"), "import a , * as b from \"m\" ;"));
    give("record-imports-129", format!("{} {}", many("import {", 127, v, "} from \"m\" ;"), "import a , * as b from \"m\" ; export { a } ;"));
    give("record-imports-128-and-bare", format!("{} {}", many("import {", 128, v, "} from \"m\" ;"), "import \"m\" ; import { a } from \"!\" ; export { v1 } ;"));
    give("record-imports-one-by-one-129", again(129, |i| format!("import v{i} from \"m\" ;")));
    // Requests.
    for n in [127, 128, 129] {
        give(&format!("record-requests-{n}"), again(n, |_| "import \"m\" ;".into()));
    }
    give("record-requests-mixed-129", again(129, |i| ["import \"m\" ;", "export * from \"k\" ;", "export { } from \"m\" ;"][i % 3].into()));
    give("record-requests-128-and-lone", format!("{} import \"!\" ; export * from \"!\" ; a ; export default 1 ;", again(128, |_| "import \"m\" ;".into())));
    give("record-requests-129-after-stop", format!("{} 1 2", again(129, |_| "import \"m\" ;".into())));
    // Waiting exports.
    for n in [127, 128, 129] {
        give(&format!("record-defaults-{n}"), again(n, |_| "export default 1 ;".into()));
    }
    give("record-waiting-128-and-129", format!("{} export {{ a }} ; export {{ b }} ;", many("export {", 127, v, "} from \"m\" ;")));
    give("record-waiting-star", format!("{} export * from \"m\" ; export * from \"m\" ;", many("export {", 127, v, "} from \"m\" ;")));
    give("record-waiting-then-stop", format!("{} export {{ a }} ; import 1 ;", many("export {", 128, v, "} ;")));
    // Exported names alone (a source with a lone surrogate leaves only these).
    for n in [127, 128, 129] {
        give(&format!("record-names-{n}"), again(n, |i| format!("export * as v{} from \"!\" ;", i % 120)));
    }
    give("record-names-128-and-default", format!("{} export default 1 ;", many("export {", 128, v, "} from \"!\" ;")));
    give("record-names-129-by-braces", format!("{} export {{ a }} ;", many("export {", 128, v, "} from \"!\" ;")));
    give("record-names-129-by-declaration", format!("{} export const a = 1 ;", many("export {", 128, v, "} from \"!\" ;")));
    give("close-faults-most", format!("{} {}", many("export {", 128, |_| "a as default".into(), "} from \"!\" ;"), again(128, |_| "export default 1 ;".into())));
    // Brackets open at the same time.
    for n in [63, 64, 65] {
        let open = |i: usize| ["(", "[", "{"][i % 3];
        let close = |i: usize| [")", "]", "}"][i % 3];
        let nest = format!("{} {}", again(n, |i| open(i).into()), again(n, |i| close(n - 1 - i).into()));
        give(&format!("brackets-statement-{n}"), format!("a {nest} ;"));
        give(&format!("brackets-first-{n}"), format!("{nest} ;"));
        give(&format!("brackets-default-{n}"), format!("export default {nest} ;"));
        give(&format!("brackets-declaration-{n}"), format!("export const a = {nest} , b ;"));
        give(&format!("brackets-function-{n}"), format!("export function a {} }} }}", again(n, |_| "{".into())));
    }
    give("brackets-65-in-turn", format!("{} ;", again(65, |_| "( )".into())));
    // Empty names.
    for (i, f) in [
        "import { \"\" as a } from \"\" ;",
        "export { a as \"\" } ; export { b as \"\" } ;",
        "export { \"\" } from \"m\" with { \"\" : \"\" , \"\" : \"\" } ;",
        "export * as \"\" from \"\" ;",
    ]
    .iter()
    .enumerate()
    {
        give(&format!("empty-string-{i}"), (*f).into());
    }
    for (i, f) in ["import a from \"m\" ; export { b as c } ;", "import { a } from \"m\" ; export { b } ;", "export { a , b as c } ;", "export const a , b ;", "export default a ; import a from \"m\" ;", "export default function a ( ) { } export { b as default } ;", "import * as a from \"m\" ; export { b , b as \"default\" } ;"]
    .iter()
    .enumerate()
    {
        let mut v = form(f);
        for t in &mut v {
            if t.kind == Kind::Ident {
                t.text.clear();
                t.esc = true;
            }
        }
        out(module(format!("empty-identifiers-{i}"), "limits", &v, false));
    }
    // Full lengths of 16 bits: spans, and one text.
    for (i, f) in ["import a from \"m\" ; export { a as b } ;", "export default a ; export const b = 1 ;", "export export const a ;", "import { a"].iter().enumerate() {
        let (mut recs, text, _) = lay(&form(f));
        for r in &mut recs {
            r.len = 65535;
        }
        out(Module { name: format!("long-spans-{i}"), class: "limits", bytes: put(&recs), text: text.clone(), js: None });
        for (j, r) in recs.iter_mut().enumerate() {
            r.start = u32::MAX - 65535 - (20 - j.min(20)) as u32;
        }
        out(Module { name: format!("last-spans-{i}"), class: "limits", bytes: put(&recs), text: text.clone(), js: None });
        for r in &mut recs {
            (r.start, r.len) = (u32::MAX - 3, 3);
        }
        out(Module { name: format!("highest-spans-{i}"), class: "limits", bytes: put(&recs), text, js: None });
    }
    let mut v = form("import \"m\" with { a : \"x\" } ;");
    v[5] = string(&"x".repeat(65533));
    let (mut recs, text, _) = lay(&v);
    recs[5].len = 65535;
    recs[5].tlen = 65535;
    recs[5].place -= 1;
    out(Module { name: "long-text".into(), class: "limits", bytes: put(&recs), text, js: None });
}
