#!/usr/bin/env python3
"""Brings this repository's own names in specs/ and proofs/ to the spelling of the language's present style.

    python3 tools/respell.py [--list] [ROOT]

ROOT is the top of the repository (the folder here). With --list the table of renamings is printed, with what
is left out and why, and no file is written. Without it the files are rewritten, in place. It was run once, right
after the toolchain's own script for older repositories; a second run changes nothing.

What it renames. It finds the definitions in crates/*/specs and crates/*/proofs: `data` and `record`, their
constructors and fields, functions (`abbrev`, `unfoldable`), and lemmas (other signatures, in a `module _` too);
in src/**/*.rt the ghost members of traits and ghost fields; and modules whose name has a dash.
  types, facts (what ends in `Type`), modules   By-the-standard -> ByTheStandard
  functions, constructors, fields, members      numberAt -> number_at, export-all -> export_all
  lemmas    a dash stays between two names that the lemma's statement cites (length-drop, digits-++), and
            else becomes `_` (rows-done -> rows_done). A lemma that would get a function's name gets `_lem`.
  primes    ′ -> '
  aliases   `blank as blankContent` -> `blank as blank_content`
  local names of specs and lemma files (of λ, let, where, parameters), where nothing else there has the new one
  the names of BY_HAND, whose spelling by the rule would fall together with another name

Their uses follow: in specs and proofs, in clauses, ghost items, `ghost use` and `tactic(..)` of .rt files, in
must-fail/*.edit, in comments, and in code of docs/*.md (there not where the same word is one of a program's). A use
counts only where the file defines the name or imports it from the module that defines it, or where it is a field or
member behind a dot, a label of a `record { .. }`, or stands behind the alias of a module.

What it leaves: names that Rust code declares, names of std and of other libraries, names that the prover makes (goals,
steps, `declared`, TheVariants), other local variables and parameters, texts, file names of must-fail, stdin, stdout,
args, data/. It leaves out, and lists, a renaming whose new name already stands in a file that uses the old one: as a
name of Rust, of std, of another definition or of a local variable; or is a reserved word. A word may have the name of
the Rust function beside it, as it then mirrors it. A method (a function with `self`) is behind a dot or a path and
counts for no clash.

It goes by the text: lay the crates out and check them after it.
"""
import os
import re
import sys

RESERVED = set('''data record deriving module where use mod pub package open as unfoldable abbrev axiom unfold unfolding
ruleset mutual infix infixl infixr elim let in do pattern coe fcoe tcoe hcom com rw simp search grw cc omega grind hlevel
assumption ground first_of cap in_s out_s vin vproj old new now entry exit result if then else yes no refl the_row'''.split())
# These, spelled by the rule, would be `from_s`, `star_as`, `star_from`, `braces_from` and `import_name`, which other
# names of the same files have.
BY_HAND = {
    'Rattle.reading.specs.Imports.fromS': 'from_source',
    'Rattle.reading.specs.Imports.starAs': 'star_alias',
    'Rattle.reading.specs.Imports.starFrom': 'star_with_source',
    'Rattle.reading.specs.Imports.bracesFrom': 'braces_with_source',
    'Rattle.record_rules.specs.Rows.importName': 'import_name_of',
}
OPERATORS = {'le': '≤', 'lt': '<', 'add': '+', 'mul': '*', 'append': '++'}
NAME = r'[^\s(){}.;,@"«»]+'
TOKEN = re.compile(r'--[^\n]*|\{-.*?-\}|"(?:\\.|[^"\\\n])*"|«[^»\n]*»|' + NAME + r'|\s+|.', re.S)
GHOST_TOKEN = re.compile(r'//[^\n]*|' + TOKEN.pattern.replace(NAME, r'(?:(?!:\s)' + NAME[:-1] + ')+'), re.S)
STEP = {'then', 'else', 'loop', 'if', 'match', 'test', 'after', 'before', 'args'}
RUST = re.compile(
    r'(?P<skip>/\*.*?\*/|b?r(#+)".*?"\2|b?r"[^"]*"|b?"(?:\\.|[^"\\])*"|b?\'(?:\\[^\']+|[^\'\\])\')'
    r'|(?P<comment>//[^\n]*)|(?P<ghost>\bghost\s+use\b[^;]*;|#!?\[tactic\(.*?\)\]'
    r'|\b(?:ghost|requires|ensures|decreases|invariant|maintains)\b[^{};()]*\{)|[A-Za-z_]\w*|.', re.S)
USE = re.compile(r'\buse\s+((?:[^\s{}.;]+\.)*[^\s{}.;]+)(?:\.\{([^}]*)\}|\s+as\s+([^\s;]+))?')
MARKS = r'((?:(?:pattern|unfoldable|abbrev|axiom|pub) )*)'
WORD = r'[^\s(){}.;,@"«»=:]+'
SIGNATURE = re.compile(MARKS + '(' + WORD + '(?: ' + WORD + r')*)(?: \{[^}]*\})? :(?: |$)(.*)', re.S)


# ---- spelling

def snake(name):
    name = name.replace('′', "'")
    name = re.sub(r"([a-z0-9'])([A-Z])", r'\1_\2', name)
    name = re.sub(r'([A-Z])([A-Z][a-z])', r'\1_\2', name)
    name = re.sub(r"(?<=[\w'])-(?=\w)", '_', name)
    return re.sub('[A-Z]', lambda m: m.group().lower(), name)


def upper(name):
    return ''.join(p[:1].upper() + p[1:] for p in re.split('[-_]', name.replace('′', "'")))


def today(name):
    return upper(name) if name[0].isupper() else snake(name)


def lemma(name, statement, known):
    """Dashes between names that the statement cites stay, the others become `_`."""
    bound = ' '.join(re.findall(r'[({]([^(){}:=]*) :', statement) + re.findall(r'λ ([^.]*)\.', statement)).split()
    cited = {t for t in TOKEN.findall(statement)} - set(bound)
    words = {today(t) for t in cited if t in known and t[0] not in '"-'}
    parts, groups = name.replace('′', "'").split('-'), []
    while parts:
        for n in range(len(parts), 0, -1):
            text = '_'.join(p if p[:1].isupper() else snake(p) for p in parts[:n])
            base = re.sub("'+$", '', text)
            if base in words or text in words or (n == 1 and (text in cited and not re.search(r'\w', text)
                                                              or OPERATORS.get(base) in cited)):
                groups.append((text, True))
                break
        else:
            groups.append((text, text[:1].isupper() and not groups))
        del parts[:n]
    out = groups[0][0]
    for (_, one), (text, two) in zip(groups, groups[1:]):
        head = groups[0][0][0].isupper() and len(groups) > 1 and out == groups[0][0]
        out += ('-' if one and two or head else '_') + text
    return out


# ---- files and what they define

class Def:
    def __init__(self, kind, name, file, line, statement='', body=''):
        self.kind, self.name, self.file, self.line, self.statement, self.body = kind, name, file, line, statement, body
        self.new = None


class File:
    def __init__(self, root, path):
        self.path, self.rt = path, path.endswith('.rt')
        self.text = open(os.path.join(root, path), encoding='utf-8').read()
        parts = path.split('/')
        self.module = '' if self.rt else '.'.join(['Rattle'] + parts[1:])[:-5]
        self.defs, self.records, self.uses, self.aliases, self.imported = [], [], [], {}, set()
        self.scope, self.bare, self.called, self.taken = {}, set(), set(), {}
        if self.rt:
            self.read_rt()
        else:
            self.read_antt()
        for m in USE.finditer(self.ghost()):
            items = [tuple((i.split() + [None, None])[:3:2]) for i in (m.group(2) or '').split(',') if i.strip()]
            self.uses.append((m.group(1), items))
            self.imported |= {alias or name for name, alias in items}
            line = self.text[:self.text.find(m.group())].count('\n') + 1
            self.defs += [Def('alias', a, self, line) for _, a in items + [(None, m.group(3))] if a]
            if m.group(3):
                self.aliases[m.group(3)] = m.group(1)

    def pieces(self):
        """(kind, text) in order: 'ghost' is antt, 'rust', 'comment' and 'skip' are as they say."""
        if not self.rt:
            return [('ghost', self.text)]
        out, i = [], 0
        while i < len(self.text):
            m = RUST.match(self.text, i)
            kind, end = m.lastgroup or 'rust', m.end()
            if kind == 'ghost' and m.group().endswith('{'):
                depth = 1
                for t in GHOST_TOKEN.finditer(self.text, end):
                    depth += (t.group() == '{') - (t.group() == '}')
                    if depth == 0:
                        end = t.end()
                        break
            out.append((kind, self.text[i:end]))
            i = end
        return out

    def ghost(self):
        return '\n'.join(t for k, t in self.pieces() if k == 'ghost')

    def read_rt(self):
        for kind, text in self.pieces():
            m = re.match(r'ghost\s+(' + WORD + r')\s*[:=]', text) if kind == 'ghost' else None
            if m:
                self.defs.append(Def('member', m.group(1), self, self.text[:self.text.find(text)].count('\n') + 1))

    def read_antt(self):
        lines = [re.sub(r'(^|\s)--.*', '', x) for x in self.text.split('\n')]
        depth = lambda x: len(x) - len(x.lstrip())
        item, stack, i = None, [(0, None)], 0
        while i < len(lines):
            n, start = depth(lines[i]), i
            i += 1
            if not lines[i - 1].strip():
                continue
            while n < stack[-1][0]:
                stack.pop()
            if n != stack[-1][0]:
                continue
            text, inside = lines[start].strip(), stack[-1][1]
            opens = re.match(MARKS + r'(module|record|data|mutual)(?: (' + WORD + ')|$)', text)
            if opens and inside is None:
                while not re.search(r'\b(where|mutual)$', text) and i < len(lines) and depth(lines[i]) > n:
                    text += ' ' + lines[i].strip()
                    i += 1
                end = i
                while end < len(lines) and (not lines[end].strip() or depth(lines[end]) > n):
                    end += 1
                if opens.group(2) in ('record', 'data'):
                    item = Def('type', opens.group(3), self, start + 1, text, '\n'.join(lines[start:end]))
                    item.what, item.names = opens.group(2), set()
                    self.defs.append(item)
                    self.records += [(start, end, item)] if item.what == 'record' else []
                first = next((x for x in lines[i:end] if x.strip()), '')
                if re.search(r'\b(where|mutual)$', text) and first:
                    stack.append((depth(first), item if opens.group(2) in ('record', 'data') else None))
                continue
            end = i
            while end < len(lines) and (not lines[end].strip() or depth(lines[end]) > n):
                end += 1
            m = SIGNATURE.match(' '.join(x.strip() for x in lines[start:end]).strip())
            if not m or re.match(r'(use|mod|open|unfolding|infix\w*|ruleset|syntax)\b', text):
                continue
            statement = m.group(3)
            for name in m.group(2).split():
                if inside:
                    kind = 'field' if inside.what == 'record' else 'constructor'
                    inside.names.add(name)
                elif result(statement).startswith('Type'):
                    kind = 'type'
                else:
                    kind = 'function' if re.search('abbrev|unfoldable', m.group(1)) else 'lemma'
                self.defs.append(Def(kind, name, self, start + 1, statement, inside.body if inside else ''))

    def tokens(self, text):
        """Each token of antt as (text, role): bare, dot (behind a dot), label, comment, text or none."""
        found = [m.group() for m in (GHOST_TOKEN if self.rt else TOKEN).finditer(text)]
        braces = []
        for k, t in enumerate(found):
            role = None
            if t.startswith(('--', '{-', '//')):
                role = 'comment'
            elif t[0] == '"':
                role = 'text'
            elif t == '{':
                before = ''.join(found[max(0, k - 12):k])
                braces.append(bool(re.search(r'\brecord(\s+(\S+|\([^()]*\)))?\s*$', before)))
            elif t == '}':
                del braces[-1:]
            elif re.fullmatch(NAME, t):
                after = ''.join(found[k + 1:k + 3]).lstrip()[:1] if k + 1 < len(found) and found[k + 1].isspace() else ''
                if k and found[k - 1] == '.' and k > 1 and not found[k - 2].isspace():
                    role = 'dot'
                elif braces and braces[-1] and after in ('=', ':') and ''.join(found[:k]).rstrip()[-1:] in '{;':
                    role = 'label'
                else:
                    role = 'bare'
            yield t, role


def result(statement):
    depth, last, i = 0, 0, 0
    for i, c in enumerate(statement):
        depth += (c in '({') - (c in ')}')
        if c == '→' and depth == 0:
            last = i + 1
    return statement[last:].strip()


# ---- the table

class Repository:
    def __init__(self, root):
        self.root = root
        self.files = [File(root, p) for p in find(root, r'crates/[^/]+/((specs|proofs)/.*\.antt|src/.*\.rt)')]
        self.by_path = {f.path: f for f in self.files}
        self.modules = {f.module: f for f in self.files if not f.rt}
        self.moved = {m: m.rsplit('.', 1)[0] + '.' + upper(m.rsplit('.', 1)[1]) for m in self.modules
                      if re.match('[A-Z].*-', m.rsplit('.', 1)[1])}
        self.dotted, self.left, self.rust, self.words = {}, [], {}, None
        for f in self.files:
            self.look(f)
        self.choose()

    def resolve(self, module, name):
        """The definition of a name that a module of the repository has, its own or passed on."""
        f = self.modules.get(module)
        if not f:
            return None
        own = [d for d in f.defs if d.name == name and d.kind not in ('field', 'member', 'alias')]
        if own:
            return own[0]
        for m in re.finditer(r'\bpub\s+' + USE.pattern, f.text):
            if re.search(r'(^|[\s,{])' + re.escape(name) + r'($|[\s,}])', m.group(2) or ''):
                return self.resolve(m.group(1), name)
        return None

    def look(self, f):
        """What each name of a file stands for, and which words it has."""
        for module, items in f.uses:
            for name, alias in items:
                d = self.resolve(module, name)
                if d and not alias:
                    f.scope[name] = d
        for d in f.defs:
            if d.kind not in ('field', 'member'):
                f.scope[d.name] = d if d.kind == 'alias' else self.resolve(f.module, d.name)
        previous = ''
        pieces = f.pieces()
        for k, (kind, text) in enumerate(pieces):
            if kind == 'ghost':
                body = USE.sub(' ', text)
                f.bare |= {t for t, role in f.tokens(body) if role == 'bare'}
            elif kind == 'rust' and re.match('[A-Za-z_]', text) and not previous.endswith(('.', '::')):
                called = k + 1 < len(pieces) and pieces[k + 1][1] in ('(', '<')
                (f.called if called else f.bare).add(text)
            previous = (previous + text)[-2:]
        f.bare |= f.imported
        # a method is called behind a dot, so a word of its name is another scope's
        f.called -= set(re.findall(r"\bfn (\w+)(?:<[^>]*>)?\(\s*(?:&\s*(?:'\w+\s+)?)?(?:mut\s+)?self\b", f.text if f.rt else ''))

    def generated(self, d):
        """A goal or an invariant, whose name Rattle gives."""
        f = d.file
        if not re.search(r'/proofs/[^/]+/', f.path):
            return False
        made = {n for m, items in f.uses if re.search(r'\.(Goals|Given)$', m) for n, _ in items}
        asked = any(re.search(r'(^|[\s(])' + re.escape(a + '.' + d.name) + r'($|[\s)])', d.statement)
                    for a, m in f.aliases.items() if re.search(r'\.(Goals|Given)$', m))
        return asked or d.name in made or re.match('pub ', f.text.split('\n')[d.line - 1]) is not None

    def wanted(self, d):
        name = d.name
        if d.file.module + '.' + name in BY_HAND:
            return BY_HAND[d.file.module + '.' + name]
        if d.kind == 'alias':
            return name if name[0].isupper() else '-'.join(snake(p) for p in name.split('-'))
        if d.kind == 'type':
            return upper(name) if name[0].isupper() else name
        if d.kind == 'lemma':
            return lemma(name, d.statement, set(d.file.imported) | {x.name for x in d.file.defs})
        return snake(name) if not name[0].isupper() else name.replace('′', "'")

    def choose(self):
        order = ['type', 'constructor', 'function', 'lemma', 'alias']
        every = [d for f in self.files for d in f.defs if not self.generated(d)]
        for d in sorted((d for d in every if d.kind in order), key=lambda d: (order.index(d.kind), d.file.path, d.line)):
            new = self.wanted(d)
            if new == d.name or d.kind != 'alias' and self.resolve(d.file.module, d.name) is not d:
                continue
            why = self.clash(d, new)
            if why and d.kind == 'lemma' and why[1] and not self.clash(d, new + '_lem'):
                new, why = new + '_lem', None
            if why:
                self.left.append((d, new, why[0]))
                continue
            d.new = new
            for f in self.files:
                if f.scope.get(d.name) is d:
                    f.taken[new] = d
        fields = {}
        for d in every:
            if d.kind in ('field', 'member') and self.wanted(d) != d.name:
                fields.setdefault(d.name, []).append(d)
        for name, ds in sorted(fields.items()):
            new = self.wanted(ds[0])
            why = next((w for w in (self.field_clash(d, new) for d in ds) if w), None)
            if why:
                self.left.append((ds[0], new, why))
                continue
            self.dotted[name] = new
            for d in ds:
                d.new = new
        for f in self.files:
            f.members = {d.name for d in f.defs if d.kind == 'member'}
            if not f.rt and not re.search(r'/proofs/[^/]+/', f.path):
                self.choose_locals(f)

    def choose_locals(self, f):
        for name in sorted(f.bare - set(f.scope) - f.imported - set(f.aliases) - {d.name for d in f.defs}):
            new = snake(name)
            if new != name and name[0].islower() and new not in f.bare and new not in f.taken:
                d = Def('local', name, f, self.line(f, name))
                d.new, f.scope[name], f.taken[new] = new, d, d
                f.defs.append(d)

    def line(self, f, name):
        return next((n for n, x in enumerate(f.text.split('\n'), 1) if name in x), 0)

    def clash(self, d, new):
        """Why d cannot be called new, and whether a function of the repository has that name; None if it can."""
        if new in RESERVED:
            return new + ' is a reserved word', False
        for f in self.files:
            if f.scope.get(d.name) is not d:
                continue
            other = f.taken.get(new) or f.scope.get(new)
            if other and other is not d:
                return '%s has %s too (%s)' % (f.path, new, other.name), other.kind in ('function', 'type', 'constructor')
            if new in f.bare:
                return '%s has %s' % (f.path, new), False
        return None

    def field_clash(self, d, new):
        if new in RESERVED:
            return new + ' is a reserved word'
        if d.kind == 'field' and new in {t for t, role in d.file.tokens(d.body) if role == 'bare'}:
            return 'its record has ' + new
        if d.kind == 'member' and new in d.file.bare | d.file.called:
            return '%s has %s' % (d.file.path, new)
        return None

    # ---- rewriting

    def module_of(self, path):
        for old, new in self.moved.items():
            if path == old or path.startswith(old + '.'):
                return new + path[len(old):]
        return path

    def use(self, f, m):
        module, items, alias = m.groups()
        renamed = lambda d, name: d.new if d and d.new else name
        text = m.group()
        if alias:
            text = text[:-len(alias)] + renamed(f.scope.get(alias), alias)
        if items is not None:
            new = []
            for item in items.split(','):
                names = re.findall(NAME, item)
                for at, name in list(enumerate(names))[::2]:
                    d = f.scope.get(name) if at else self.resolve(module, name)
                    item = re.sub('(?<!\\S)' + re.escape(name) + '(?!\\S)', lambda k: renamed(d, name), item)
                new.append(item)
            text = text.replace('{' + items + '}', '{' + ','.join(new) + '}')
        return text.replace(module, self.module_of(module), 1)

    def code(self, f, text, first=0):
        """A piece of antt of file f, which begins on the line `first`."""
        out, line, at = [], first, 0
        for m in list(USE.finditer(text)) + [None]:
            part = text[at:m.start()] if m else text[at:]
            chain = ''
            for t, role in f.tokens(part):
                new = t
                if role == 'bare' and '::' in t:
                    new = self.path(f, t)
                elif role == 'bare':
                    record = next((r for a, b, r in f.records if a <= line < b and t in r.names), None)
                    if record or t in getattr(f, 'members', ()):
                        new = self.dotted.get(t, t)
                    elif f.scope.get(t) and f.scope[t].new:
                        new = f.scope[t].new
                elif role == 'label':
                    new = self.dotted.get(t, t)
                elif role == 'dot':
                    head = re.search('(' + NAME + r')\.$', chain)
                    d = self.resolve(f.aliases.get(head.group(1)), t) if head else None
                    kind = self.constructor(f, head.group(1), t) if head else None
                    if head and head.group(1) in f.aliases:
                        new = d.new if d and d.new else t
                    elif kind:
                        new = kind.new or t
                    elif not self.step(f, t):
                        new = self.dotted.get(t, t)
                elif role == 'comment':
                    new = self.comment(f, t)
                out.append(new)
                chain = (chain + t)[-200:]
                line += t.count('\n')
            if m:
                out.append(self.use(f, m))
                line += m.group().count('\n')
                at = m.end()
        return ''.join(out)

    def path(self, f, text):
        """A path of Rust in `tactic(..)`: `reading::specs::Imports::fromS`, `crate::specs::Views::allFrom`."""
        *parts, name = text.split('::')
        crate = f.path.split('/')[1]
        d = self.resolve('.'.join(['Rattle', crate if parts[0] == 'crate' else parts[0]] + parts[1:]), name)
        return '::'.join(parts + [d.new if d and d.new else name])

    def constructor(self, f, head, name):
        """The constructor behind the name, or the alias, of its type: `Imported.namespace-object`."""
        for module, items in f.uses:
            for own, alias in items:
                d = self.resolve(module, own)
                if (alias or own) == head and d and d.kind == 'type' and getattr(d, 'what', '') == 'data' and name in d.names:
                    return self.resolve(d.file.module, name)
        d = f.scope.get(head)
        return self.resolve(f.module, name) if d and d.file is f and getattr(d, 'what', '') == 'data' and name in d.names else None

    def step(self, f, name):
        """Whether a name behind a dot in proofs/F/ is one that Rattle made of names in the source, as `number-2`."""
        if '-' not in name or not re.search(r'/proofs/[^/]+/', f.path):
            return False
        owners = {d.file.module for g in self.files for d in g.defs if d.name == name and d.kind == 'field'}
        if owners & {m for m, _ in f.uses}:
            return False
        crate = f.path.split('/')[1]
        if crate not in self.rust:
            self.rust[crate] = {t for g in self.files if g.rt and g.path.split('/')[1] == crate
                                for kind, t in g.pieces() if kind == 'rust'}
        return all(p.isdigit() or p in STEP or p in self.rust[crate] for p in name.split('-'))

    def word(self, f, t):
        if f and f.scope.get(t) and f.scope[t].new:
            return f.scope[t].new
        if t in self.dotted:
            return self.dotted[t]
        news = {d.new or d.name for g in self.files for d in g.defs
                if d.name == t and d.kind not in ('field', 'member', 'alias', 'local')}
        return news.pop() if len(news) == 1 else t

    def comment(self, f, text):
        """Words with a capital inside, or in backquotes, that are such names."""
        def one(m):
            t = m.group().strip('`')
            if re.search('[a-z0-9][A-Z]|^[A-Z].*-', t) or m.group()[0] == '`':
                return m.group().replace(t, self.word(f, t))
            return m.group()
        return re.sub(r"`[^`\s]+`|(?<![\w'′./-])[A-Za-z][\w'′-]*(?![\w'′-])", one, text)

    def page(self, text):
        """Code in a page: in fenced blocks and backquotes."""
        def span(m):
            t = m.group(1)
            if re.fullmatch(NAME, t) and t not in self.said():
                return '`%s`' % self.word(None, t)
            return '`%s`' % self.comment(None, t)
        parts = re.split(r'(^```.*?^```)', text, flags=re.S | re.M)
        for i, p in enumerate(parts):
            parts[i] = self.comment(None, p) if i % 2 else re.sub(r'`([^`\n]+)`', span, p)
        return ''.join(parts)

    def said(self):
        """Words with a dash in texts of the sources, and in programs' input and output."""
        if self.words is None:
            self.words = set()
            for path in find(self.root, r'crates/[^/]+/(stdin|stdout|args|data/.*|src/.*\.rt|specs/.*\.antt)', data=True):
                text = open(os.path.join(self.root, path), encoding='utf-8', errors='replace').read()
                if path.endswith(('.rt', '.antt')):
                    text = ' '.join(re.findall(r'"[^"\n]*"', text))
                self.words |= set(re.findall(r'(?<![\w-])\w+-[\w-]+', text))
        return self.words

    def edit(self, path, text):
        f, out = None, []
        for line in text.split('\n'):
            m = re.match(r'(file|old|new): ?(.*)', line)
            if m and m.group(1) == 'file':
                f = self.by_path.get('/'.join(path.split('/')[:2] + [m.group(2).strip()]))
            elif m and f:
                line = line[:m.start(2)] + self.code(f, m.group(2), -1)
            out.append(line)
        return '\n'.join(out)

    def rewritten(self):
        for f in self.files:
            new, line = [], 0
            for kind, text in f.pieces():
                new.append(self.code(f, text, line) if kind == 'ghost' else
                           self.comment(f, text) if kind == 'comment' else text)
                line += text.count('\n')
            text = ''.join(new)
            for old, to in self.moved.items():
                if f.module.rsplit('.', 1)[0] == old.rsplit('.', 1)[0]:
                    text = re.sub(r'(?m)^((?:pub )?mod )%s$' % re.escape(old.rsplit('.', 1)[1]),
                                  lambda m: m.group(1) + to.rsplit('.', 1)[1], text)
            yield f.path, f.text, text
        for path in find(self.root, r'crates/[^/]+/must-fail/[^/]+\.edit|docs/.*\.md'):
            old = open(os.path.join(self.root, path), encoding='utf-8').read()
            yield path, old, self.edit(path, old) if path.endswith('.edit') else self.page(old)


def find(root, pattern, data=False):
    found = []
    for folder, folders, files in os.walk(root):
        folders[:] = sorted(x for x in folders if x not in ('out', '.git') and (data or x != 'data'))
        found += [os.path.relpath(os.path.join(folder, x), root) for x in files]
    return sorted(p for p in found if re.fullmatch(pattern, p))


def main(argv):
    options = {a for a in argv if a.startswith('--')}
    if options - {'--list'}:
        sys.exit(__doc__)
    root = next((a for a in argv if not a.startswith('--')), '.')
    r = Repository(root)
    named = sorted((d for f in r.files for d in f.defs if d.new), key=lambda d: (d.file.path, d.line))
    if '--list' in options:
        for d in named:
            print('%-11s %s -> %s  (%s:%d)' % (d.kind, d.name, d.new, d.file.path, d.line))
        for old, new in sorted(r.moved.items()):
            print('%-11s %s -> %s' % ('module', old, new))
    for d, new, why in r.left:
        print('left out: %s %s, not %s: %s  (%s:%d)' % (d.kind, d.name, new, why, d.file.path, d.line))
    print('%d names, %d left out' % (len(named) + len(r.moved), len(r.left)))
    if '--list' in options:
        return
    changed = [(p, new) for p, old, new in r.rewritten() if new != old]
    for path, new in changed:
        open(os.path.join(root, path), 'w', encoding='utf-8').write(new)
    for old, new in r.moved.items():
        path = os.path.join(root, r.modules[old].path)
        os.rename(path, os.path.join(os.path.dirname(path), new.rsplit('.', 1)[1] + '.antt'))
    print('%d files written' % len(changed))


if __name__ == '__main__':
    main(sys.argv[1:])
