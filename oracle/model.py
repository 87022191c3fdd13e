#!/usr/bin/env python3
"""model.py FILE.. or -     replays blocks of ../vectors/README.md through a reading of the written rules.

The rules of tokens, hosts, clauses, pages and record are written here a second time, in Python. Where a
block's lines and this reading differ, an expectation or a rule was understood wrongly. It is a check of
the expectations, not their source.
Prints how many blocks agree and ends with status 1 where one does not.
"""
import os
import re
import sys

HERE = os.path.dirname(os.path.abspath(__file__))
SRC = open(os.path.join(HERE, "oxc_parser/src/lexer/kind.rs"), encoding="utf-8").read()
# The kinds by number, and the words: the two tables that are taken from the published file.
BODY = SRC[SRC.index("pub enum Kind {"):SRC.index("#[allow(clippy::enum_glob_use")]
KINDS = re.findall(r"^ {8}([A-Z]\w*)(?: = 0)?,", BODY, re.M)
assert len(KINDS) == 169 and KINDS[0] == "Eof" and KINDS[168] == "At"
NO = {k: i for i, k in enumerate(KINDS)}
WORDS = {w.encode(): k for w, k in re.findall(r'"(\w+)" => (\w+),', SRC[SRC.index("fn match_keyword_impl"):SRC.index("pub fn to_str")])}
RESERVED = set("""Await Break Case Catch Class Const Continue Debugger Default Delete Do Else Enum Export Extends False
 Finally For Function If Import In Instanceof New Null Return Super Switch This Throw True Try Typeof Var Void While
 With Yield""".split())
FUTURE = set("Implements Interface Package Private Protected Public Static".split())


def is_name(k):
    return k == "Ident" or NO["Await"] <= NO[k] <= NO["Null"]


def is_binding(k):
    return is_name(k) and (k not in RESERVED or k in ("Yield", "Await"))


class Token:
    __slots__ = ("kind", "span", "place", "length", "nl", "esc", "lone", "marks")

    def __init__(self, kind, start, end, place, length, marks):
        self.kind, self.span, self.place, self.length, self.marks = kind, (start, end), place, length, marks
        self.nl, self.esc, self.lone = marks & 1, marks & 2, marks >> 2 & 1


def token_list(data, text):
    out, at = [], 0
    while at < len(data):
        r = data[at:at + 14]
        why = []
        if len(r) < 14:
            why = ["cut"]
        else:
            kind, marks = r[0], r[1]
            start, length = int.from_bytes(r[2:6], "little"), int.from_bytes(r[6:8], "little")
            place, size = int.from_bytes(r[8:12], "little"), int.from_bytes(r[12:14], "little")
            if marks > 7:
                why.append("mark")
            if kind > 168:
                why.append("kind")
            if start + length > 4294967295:
                why.append("end")
            if place + size > len(text):
                why.append("part")
        if why:
            out.append(Token("Undetermined", 0, 0, 0, 0, 0))
            return out, f"ends bad {at} {' '.join(why)}"
        if kind == 0:
            return out, f"ends eof {at}"
        out.append(Token(KINDS[kind], start, start + length, place, size, marks))
        at += 14
    return out, f"ends bytes {at}"


class Stop(Exception):
    def __init__(self, number, layer, spans, code=0):
        self.line = f"stop {number} {layer} {code} " + " ".join(map(sp, spans))


def sp(s):
    return f"{s[0]}-{s[1]}"


def hx(b):
    return b.hex() or "-"


# ---- the bracket host ----
OPEN = {"LParen": "RParen", "LBrack": "RBrack", "LCurly": "RCurly"}
CLOSE = set(OPEN.values())


class Refused(Exception):
    pass


def bracket(t, n, question):
    """Length, names, whether a block; or a refusal's code."""
    k = lambda i: t[i].kind if i < len(t) else "Eof"
    head = n if k(n) in ("Function", "Class") else n + 1 if k(n) == "Async" and k(n + 1) == "Function" else None
    binder = head is None and k(n) in ("Const", "Let", "Var")
    name_at = None
    if head is not None:
        name_at = head + 2 if k(head + 1) == "Star" else head + 1
    depth, names, i = [], [], n
    want = None
    if question == "declaration":
        want = name_at if head is not None else n + 1 if binder else None
    while True:
        codes = set()
        if i >= len(t):
            raise Refused(3)
        if i > n and (k(i) == "Undetermined" or not depth and (
                k(i) == "Export" or k(i) == "Import" and k(i + 1) not in ("LParen", "Dot"))):
            codes.add(3)
        if k(i) in OPEN and len(depth) == 64 or k(i) in CLOSE and (not depth or OPEN[depth[-1]] != k(i)):
            codes.add(2)
        if want == i and not is_binding(k(i)):
            codes.add(4)
        if i == n and question == "declaration" and head is None and not binder:
            codes.add(1)
        if i == n and question == "default" and head is None and k(i) == "Semicolon":
            codes.add(1)
        for c in (3, 2, 4, 1):
            if c in codes:
                raise Refused(c)
        if want == i:
            names.append(i)
        if k(i) in OPEN:
            depth.append(k(i))
        elif k(i) in CLOSE:
            depth.pop()
            if head is not None and k(i) == "RCurly" and not depth:
                break
        elif not depth and k(i) == "Semicolon" and head is None:
            break
        elif not depth and k(i) == "Comma" and binder and question == "declaration":
            want = i + 1
        i += 1
    if question == "default" and head is not None and is_binding(k(name_at)):
        names = [name_at]
    return i + 1 - n, names, head is not None


class Reader:
    def __init__(self, t, text):
        self.t, self.text, self.i, self.end = t, text, 0, 0
        self.asks = []

    def kind(self, ahead=0):
        return self.t[self.i + ahead].kind if self.i + ahead < len(self.t) else "Eof"

    def here(self):
        return self.t[self.i].span if self.i < len(self.t) else (self.end, self.end)

    def step(self, keyword=False):
        x = self.t[self.i]
        if keyword and x.esc:
            self.fault(20, x.span)
        self.end = x.span[1]
        self.i += 1
        return x

    def fault(self, number, *spans):
        self.faults.append((number, spans))

    def want(self, kind):
        if self.kind() != kind:
            raise Stop(1, 3, [self.here()])
        return self.step(keyword=is_name(kind))

    def unfit(self):
        raise Stop(2, 3, [self.here()])

    def S(self):
        if self.kind() != "Str":
            self.unfit()
        return self.step()

    def B(self):
        if not is_binding(self.kind()):
            self.unfit()
        return self.step()

    def N(self):
        if self.kind() == "Str":
            x = self.step()
            if x.lone:
                raise Stop(6, 3, [x.span])
            return x
        if not is_name(self.kind()):
            self.unfit()
        return self.step()

    def txt(self, x):
        return self.text[x.place:x.place + x.length]

    def braces(self, element, room):
        brace = self.want("LCurly").span
        rows = []
        if self.kind() != "RCurly":
            while True:
                if len(rows) == room:
                    raise Stop(9, 2, [self.here()])
                rows.append(element())
                if self.kind() == "RCurly":
                    break
                if self.kind() != "Comma":
                    raise Stop(3, 2, [self.here(), brace])
                self.step()
                if self.kind() in ("RCurly", "Eof", "Undetermined"):
                    break
        self.want("RCurly")
        return rows, brace

    def span_from(self, start):
        return (start, self.end)

    def import_specifier(self):
        start = self.here()[0]
        imported = local = self.N()
        if self.kind() == "As":
            self.step(keyword=True)
            local = self.N()
        if local.kind == "Str":
            self.fault(24, local.span)
        elif local.kind in RESERVED:
            self.fault(25, local.span)
        return "import", imported, local, self.span_from(start)

    def export_specifier(self):
        start = self.here()[0]
        local = exported = self.N()
        if self.kind() == "As":
            self.step(keyword=True)
            exported = self.N()
        return "export", local, exported, self.span_from(start)

    def attribute(self):
        start = self.here()[0]
        if self.kind() == "Str":
            key = self.step()
        elif is_name(self.kind()):
            key = self.step()
        else:
            self.unfit()
        self.want("Colon")
        if self.kind() != "Str":
            raise Stop(5, 3, [self.here()])
        value = self.step()
        return key, value, self.span_from(start)

    def attributes(self):
        k = self.kind()
        if not (k == "With" or k == "Assert" and not self.t[self.i].nl):
            return None
        self.step(keyword=True)
        rows, brace = self.braces(self.attribute, 32)
        seen = {}
        for key, _, _ in rows:
            if self.txt(key) in seen:
                self.fault(29, seen[self.txt(key)], key.span)
            seen[self.txt(key)] = key.span
        return k.lower(), self.span_from(brace[0]), rows

    def finish(self):
        if self.kind() == "Semicolon":
            self.step()
        elif not (self.kind() in ("Eof", "RCurly") or self.t[self.i].nl):
            raise Stop(4, 3, [(self.end, self.end)])

    def ask(self, question):
        n = self.i
        try:
            length, names, block = bracket(self.t, n, question)
        except Refused as r:
            self.asks.append(f"ask {question} {n} refused {r.args[0]}")
            raise Stop(8, 1, [self.here()], r.args[0])
        body, how = length, ""
        if question == "default":
            if block:
                how = "named" if names else "absent"
            else:
                body = length - 1
                how = "plain" if body == 1 and is_binding(self.kind()) else "absent"
                names = [n] if how == "plain" else []
            self.asks.append(" ".join(map(str, ["ask default", n, length, body, how] + names)))
        elif question == "declaration":
            self.asks.append(" ".join(map(str, ["ask declaration", n, length, len(names)] + names)))
        else:
            self.asks.append(f"ask statement {n} {length}")
        span = (self.t[n].span[0], self.t[n + body - 1].span[1])
        self.i = n + length
        self.end = self.t[self.i - 1].span[1]
        return span, [self.t[x] for x in names], how

    def read(self):
        p = dict(first=self.i, phase="none", faults=[])
        self.faults = p["faults"]
        start = self.here()[0]
        if self.kind() == "Import" and self.kind(1) not in ("LParen", "Dot"):
            self.import_item(p)
        elif self.kind() == "Export":
            self.export_item(p)
        else:
            p["kind"] = "statement"
            self.ask("statement")
        p["span"], p["count"] = self.span_from(start), self.i - p["first"]
        if len(p["faults"]) > 32:
            raise Stop(9, 2, [self.here()])
        return p

    def import_item(self, p):
        p["kind"] = "import"
        self.step(keyword=True)
        specifiers = []
        default = None
        head = self.t[self.i] if self.i < len(self.t) else None
        bare = self.kind() == "Str"
        done = bare
        if not bare and is_binding(self.kind()):
            self.step()
            k = self.kind()
            default = head
            if k == "Eq":
                raise Stop(7, 3, [self.here()])
            if head.kind == "Defer" and k in ("Star", "LCurly"):
                p["phase"], default = "defer", None
                if k == "LCurly":
                    self.fault(21, head.span)
            elif head.kind == "Defer" and is_binding(k) and k not in ("From", "As"):
                p["phase"] = "defer"
                self.fault(22, head.span)
                default = self.step()
            elif head.kind == "Source" and k in ("Star", "LCurly"):
                p["phase"], default = "source", None
                self.fault(23, head.span)
            elif head.kind == "Source" and is_binding(k):
                second = self.step()
                if second.kind == "From" and self.kind() == "Str":
                    if second.esc:
                        self.fault(20, second.span)
                    done = True
                elif self.kind() == "From":
                    p["phase"], default = "source", second
                else:
                    raise Stop(1, 3, [self.here()])
            if p["phase"] != "none" and head.esc:
                self.fault(20, head.span)
        if default is not None:
            specifiers.append(("default", default, None, default.span))
        if not done:
            more = default is None
            if default is not None and self.kind() == "Comma":
                self.step()
                more = True
                if self.kind() not in ("Star", "LCurly"):
                    self.unfit()
            if more and self.kind() == "Star":
                at = self.here()[0]
                self.step()
                self.want("As")
                x = self.B()
                specifiers.append(("namespace", x, None, self.span_from(at)))
            elif more and self.kind() == "LCurly":
                specifiers += self.braces(self.import_specifier, 128 - len(specifiers))[0]
            self.want("From")
        p["specifiers"] = None if bare else specifiers
        p["source"] = self.S()
        p["attributes"] = self.attributes()
        self.finish()

    def export_item(self, p):
        self.step(keyword=True)
        k = self.kind()
        if k == "Import":
            raise Stop(7, 3, [self.here()])
        if k == "Default":
            p["kind"] = "default"
            p["keyword"] = self.step(keyword=True).span
            p["body"], names, p["how"] = self.ask("default")
            p["name"] = names[0] if names else None
        elif k == "Star":
            p["kind"] = "export-all"
            self.step()
            if self.kind() == "As":
                self.step(keyword=True)
                p["exported"] = self.N()
            self.want("From")
            p["source"] = self.S()
            p["attributes"] = self.attributes()
            self.finish()
        elif k == "LCurly":
            p["specifiers"], _ = self.braces(self.export_specifier, 128)
            p["kind"] = "export-braces"
            if self.kind() == "From":
                p["kind"] = "export-from"
                self.step(keyword=True)
                p["source"] = self.S()
                p["attributes"] = self.attributes()
            else:
                for _, local, _, _ in p["specifiers"]:
                    w = self.txt(local)
                    if local.kind == "Str":
                        self.fault(26, local.span)
                    elif w == b"let" or WORDS.get(w) in RESERVED or WORDS.get(w) in FUTURE:
                        self.fault(27, local.span)
            self.finish()
        else:
            if k == "Export":
                at = self.here()[0]
                self.fault(28, (at, min(at + 6, 4294967295)))
                self.step(keyword=True)
            p["kind"] = "declaration"
            p["body"], p["declared"], _ = self.ask("declaration")
            if len(p["declared"]) > 128:
                raise Stop(9, 2, [p["declared"][128].span])


# ---- the record ----
NONE = ("none", b"", (0, 0))


class Record:
    def __init__(self, text):
        self.text, self.mark = text, False
        self.imports, self.requests, self.waiting, self.names, self.skipped = [], [], [], [], []

    def cell(self, kind, x):
        return kind, self.text[x.place:x.place + x.length], x.span

    def file(self, p):
        imports, requests, waiting, names, skipped = [], [], [], [], []
        k, stmt, src = p["kind"], p["span"], p.get("source")
        lone = src is not None and src.lone
        request = self.cell("request", src) if src is not None else NONE
        if k == "import":
            for form, a, b, span in p["specifiers"] or []:
                local = a if form in ("default", "namespace") else b
                name = {"default": ("default", b"", span), "namespace": ("namespace", b"", (0, 0))}.get(form) or self.cell("name", a)
                imports.append((stmt, request[1:], name, self.cell("", local)[1:], p["phase"]))
            requests.append((request[1], request[2], stmt, "import"))
        elif k == "export-all":
            x = p.get("exported")
            if x:
                names.append(self.cell("", x)[1:])
                waiting.append((stmt, stmt, request, ("all", b"", (0, 0)), self.cell("name", x), NONE))
            else:
                waiting.append((stmt, stmt, request, ("all-but-default", b"", (0, 0)), NONE, NONE))
            requests.append((request[1], request[2], stmt, "export"))
        elif k in ("export-from", "export-braces"):
            for _, a, b, span in p["specifiers"]:
                names.append(self.cell("", b)[1:])
                if k == "export-from":
                    waiting.append((stmt, span, request, self.cell("name", a), self.cell("name", b), NONE))
                else:
                    waiting.append((stmt, span, NONE, NONE, self.cell("name", b), self.cell("name", a)))
            if k == "export-from":
                requests.append((request[1], request[2], stmt, "export"))
        elif k == "declaration":
            for x in p["declared"]:
                names.append(self.cell("", x)[1:])
                waiting.append((stmt, p["body"], NONE, NONE, self.cell("name", x), self.cell("name", x)))
        elif k == "default":
            local = self.cell("plain" if p["how"] == "plain" else "name", p["name"]) if p["name"] else NONE
            waiting.append((stmt, p["body"], NONE, NONE, ("default", b"", p["keyword"]), local))
        if lone:
            imports, requests, waiting = [], [], []
            skipped = [s for w, s in names if w == b"default"]
        for table, more in ((self.imports, imports), (self.requests, requests), (self.waiting, waiting), (self.names, names)):
            if len(table) + len(more) > 128:
                raise Stop(9, 4, [(0, 0)])
        self.imports += imports
        self.requests += requests
        self.waiting += waiting
        self.names += names
        self.skipped += skipped
        self.mark |= k != "statement"

    def close(self):
        local, indirect, star = [], [], []
        for w in self.waiting:
            stmt, span, request, imported, exported, name = w
            if request != NONE:
                (star if imported[0] == "all-but-default" else indirect).append(w)
                continue
            found = [i for i in self.imports if name[0] == "name" and i[3][0] == name[1]][:1]
            if found and found[0][2][0] != "namespace" and not (found[0][2][0] == "default" and found[0][4] == "source"):
                i = found[0]
                indirect.append((i[0], span, ("request",) + i[1], i[2], exported, NONE))
            else:
                local.append(w)
        faults = []
        last = {w: s for w, s in self.names}
        before = {}
        for w, s in self.names:
            if w in before:
                faults.append((30, (before[w], last[w])))
            before[w] = s
        d = [w[4][2] for w in local + indirect if w[4][0] == "default" or w[4][0] == "name" and w[4][1] == b"default"]
        d += self.skipped
        if len(d) > 1:
            faults += [(31, (s,)) for s in d]
        return local, indirect, star, faults


def answer(data, text):
    out = []
    t, ends = token_list(data, text)
    for x in t:
        out.append(f"token {NO[x.kind]} {sp(x.span)} {x.place} {x.length} {x.marks}")
    out.append(ends)
    r, record, pages = Reader(t, text), Record(text), []
    try:
        while r.i < len(t):
            p = r.read()
            record.file(p)
            pages.append(p)
    except Stop as s:
        return out + r.asks + [s.line]
    out += r.asks
    plain = lambda x: f"{x.place} {x.length} {sp(x.span)}"
    name = lambda x: f"{plain(x)} {int(x.kind == 'Str')}"
    string = lambda x: f"{plain(x)} {x.lone}"
    layer = lambda n: 1 if n == 8 else 2 if n in (3, 9) else 4 if n in (30, 31) else 3
    for p in pages:
        out.append(f"page {p['kind']} {sp(p['span'])} {p['first']} {p['count']} {p['phase']}")
        if p.get("source"):
            out.append(f"source {string(p['source'])}")
        if p.get("exported"):
            out.append(f"exported {name(p['exported'])}")
        if "keyword" in p:
            out.append(f"keyword {sp(p['keyword'])}")
        if "body" in p:
            out.append(f"body {sp(p['body'])}")
        if "how" in p:
            out.append(f"how {p['how']}" + (f" {plain(p['name'])}" if p["name"] else ""))
        if "specifiers" in p:
            rows = p["specifiers"]
            out.append("specifiers " + ("none" if rows is None else str(len(rows))))
            for form, a, b, span in rows or []:
                if form in ("default", "namespace"):
                    out.append(f"specifier {form} {plain(a)} {sp(span)}")
                elif form == "import":
                    out.append(f"specifier import {name(a)} {plain(b)} {sp(span)}")
                else:
                    out.append(f"specifier export {name(a)} {name(b)} {sp(span)}")
        for x in p.get("declared", []):
            out.append(f"declared {plain(x)}")
        if p.get("attributes"):
            word, span, rows = p["attributes"]
            out.append(f"attributes {word} {sp(span)} {len(rows)}")
            for key, value, span in rows:
                out.append(f"attribute {name(key)} {string(value)} {sp(span)}")
        for n, spans in p["faults"]:
            out.append(f"fault {n} {layer(n)} " + " ".join(map(sp, spans)))
    local, indirect, star, faults = record.close()
    out.append(f"mark {'true' if record.mark else 'false'}")
    out.append(f"faults {sum(len(p['faults']) for p in pages)}")
    cell = lambda c: f"{c[0]} {hx(c[1])} {sp(c[2])}"
    for stmt, q, imported, loc, phase in record.imports:
        out.append(f"import {sp(stmt)} {hx(q[0])} {sp(q[1])} {cell(imported)} {hx(loc[0])} {sp(loc[1])} {phase}")
    for w, s, stmt, what in record.requests:
        out.append(f"request {hx(w)} {sp(s)} {sp(stmt)} {what}")
    for w, s in record.names:
        out.append(f"name {hx(w)} {sp(s)}")
    for word, rows in (("local", local), ("indirect", indirect), ("star", star)):
        for r in rows:
            out.append(f"{word} {sp(r[0])} {sp(r[1])} " + " ".join(map(cell, r[2:])))
    for n, spans in faults:
        out.append(f"closefault {n} {layer(n)} " + " ".join(map(sp, spans)))
    return out


def blocks(lines):
    head = data = text = None
    body = []
    for line in lines:
        line = line.rstrip("\n")
        word, _, rest = line.partition(" ")
        if word == "module":
            head, body = rest, []
        elif word == "bytes":
            data = b"" if rest == "-" else bytes.fromhex(rest)
        elif word == "text":
            text = b"" if rest == "-" else bytes.fromhex(rest)
        elif word == "end":
            yield head, data, text, body
        elif word not in ("js", "rule"):
            body.append(line)


def main():
    agree = differ = 0
    for path in sys.argv[1:] or ["-"]:
        with (sys.stdin if path == "-" else open(path, encoding="ascii")) as f:
            for head, data, text, body in blocks(f):
                mine = answer(data, text)
                if mine == body:
                    agree += 1
                    continue
                differ += 1
                if differ <= 20:
                    print(f"{head}: {text[:120]!r}")
                    for a, b in zip(body + ["-"] * len(mine), mine + ["-"] * len(body)):
                        if a != b:
                            print(f"  block: {a}\n  model: {b}")
                            break
    print(f"{agree} blocks agree, {differ} differ")
    return 1 if differ else 0


sys.exit(main())
