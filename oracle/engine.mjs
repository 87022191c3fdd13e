// node --experimental-vm-modules engine.mjs FILE..     a JavaScript engine's opinion of vectors with a `js` line
//
// Each module's JavaScript goes through the engine's own module parser. Compared with the expected answer:
// accepted or not; the modules requested, in order; the exported names; and for each indirect row that the
// exported name is bound to that export of that module (stubs export what is asked of them, each value
// saying `module:name`). What the engine's version does not parse is left out and counted.
import fs from "node:fs";
import vm from "node:vm";

/** Bytes to a string: UTF-8, and a lone surrogate in three-byte form as itself. */
function text(hex) {
    if (hex === "-") return "";
    const b = Buffer.from(hex, "hex");
    let s = "";
    for (let i = 0; i < b.length;) {
        if (b[i] === 0xed && b[i + 1] >= 0xa0) {
            s += String.fromCharCode(0xd000 | ((b[i + 1] & 63) << 6) | (b[i + 2] & 63));
            i += 3;
        } else {
            let n = b[i] < 0x80 ? 1 : b[i] < 0xe0 ? 2 : b[i] < 0xf0 ? 3 : 4;
            s += b.toString("utf8", i, i + n);
            i += n;
        }
    }
    return s;
}

function* blocks(file) {
    let m;
    for (const line of fs.readFileSync(file, "ascii").split("\n")) {
        const f = line.split(" ");
        if (f[0] === "module") m = { name: f[1], class: f[2], lines: [], rules: [], tokens: [] };
        else if (f[0] === "bytes") m.bytes = f[1];
        else if (f[0] === "text") m.text = f[1];
        else if (f[0] === "js") m.js = m.text === "-" ? "" : text(m.text.slice(0, 2 * f[1]) || "-");
        else if (f[0] === "token") m.tokens.push(+f[1]);
        else if (f[0] === "rule") m.rules.push(f[1]);
        else if (f[0] === "end") yield m;
        else m.lines.push(f);
    }
}

const parses = (src) => {
    try {
        new vm.SourceTextModule(src);
        return true;
    } catch {
        return false;
    }
};
const has = {
    source: parses('import source x from "m";'),
    defer: parses('import defer * as x from "m";'),
    assert: parses('import "m" assert { type: "x" };'),
    with: parses('import "m" with { type: "x" };'),
};

const unique = (a) => [...new Set(a)];
const same = (a, b) => a.length === b.length && a.every((x, i) => x === b[i]);

const count = {};
const add = (k, m) => {
    count[k] ??= { n: 0, some: [] };
    count[k].n++;
    if (m && count[k].some.length < 3) count[k].some.push(m);
};
let findings = 0;
const finding = (what, m, more) => {
    findings++;
    add(`FINDING ${what}`, `${m.name}: ${JSON.stringify(m.js)} ${more ?? ""}`);
};

async function names(m, mod) {
    // What each module is asked for.
    const ask = new Map();
    const want = (spec, name) => {
        if (!ask.has(spec)) ask.set(spec, new Set());
        if (name !== undefined) ask.get(spec).add(name);
    };
    const explicit = new Set(), stars = [], indirect = [];
    const source = (at) => m.lines.slice(at).find((f) => f[0] === "source");
    m.lines.forEach((f, at) => {
        if (f[0] === "page" && f[1] !== "statement") {
            // All sources, those with a lone surrogate too, which leave no rows.
            const s = source(at);
            if (["import", "export-all", "export-from"].includes(f[1])) {
                const spec = part(m, s[1], s[2]);
                want(spec);
                for (const g of m.lines.slice(at + 1)) {
                    if (g[0] === "page" || g[0] === "mark") break;
                    if (g[0] === "specifier" && g[1] === "default") want(spec, "default");
                    if (g[0] === "specifier" && (g[1] === "import" || g[1] === "export")) want(spec, part(m, g[2], g[3]));
                }
                if (f[1] === "export-all" && m.lines[at + 2]?.[0] !== "exported") stars.push(spec);
            }
        }
        if (f[0] === "name") explicit.add(text(f[1]));
        if (f[0] === "local" && f[9] === "default") explicit.add("default");
        if (f[0] === "indirect") indirect.push(f);
    });
    const stubs = new Map();
    await mod.link((spec) => {
        if (!stubs.has(spec)) {
            const list = [...(ask.get(spec) ?? [])];
            stubs.set(spec, new vm.SyntheticModule(list, function () {
                for (const n of list) this.setExport(n, `${spec}:${n}`);
            }));
        }
        return stubs.get(spec);
    });
    for (const s of stubs.values()) await s.evaluate();
    // Names that come by stars: not `default`, not an explicit one, and of one module only.
    const by = new Map();
    for (const s of unique(stars)) for (const n of ask.get(s) ?? []) if (n !== "default" && !explicit.has(n)) by.set(n, (by.get(n) ?? 0) + 1);
    const expected = [...explicit, ...[...by].filter(([, n]) => n === 1).map(([n]) => n)].sort();
    const got = Reflect.ownKeys(mod.namespace).filter((k) => typeof k === "string").sort();
    if (same(expected, got)) add("exported names agree");
    else if (m.lines.some((f) => f[0] === "ask" && f[1] === "declaration")) add("exported names differ, in a declaration that the bracket host reads otherwise", `${m.name}: ${JSON.stringify(m.js)}`);
    else finding("exported names differ", m, `expected ${JSON.stringify(expected)} engine ${JSON.stringify(got)}`);
    for (const f of indirect) {
        // statement, span, request (3 fields), import name (3), exported name (3), local name (3)
        const spec = text(f[4]), kind = f[6], exported = text(f[10]);
        const v = mod.namespace[exported];
        const ok = kind === "all" ? typeof v === "object" && v[Symbol.toStringTag] === "Module" : v === `${spec}:${kind === "default" ? "default" : text(f[7])}`;
        if (ok) add(`indirect rows bound as expected (${kind})`);
        else finding("an indirect row is bound elsewhere", m, `${f.join(" ")} engine ${String(v)}`);
    }
}
const part = (m, place, length) => text(m.text.slice(2 * place, 2 * (+place + +length)) || "-");

/** Whether the clauses show the reason that the engine gives: one that the record does not judge. */
function known(m, said) {
    const reserved = "await yield let static implements interface package private protected public eval arguments".split(" ");
    const bound = m.lines.filter((f) => f[0] === "specifier" && f[1] !== "export").map((f) => (f[1] === "import" ? part(m, f[6], f[7]) : part(m, f[2], f[3])));
    const exported = m.lines.filter((f) => f[0] === "specifier" && f[1] === "export").map((f) => part(m, f[2], f[3]));
    if (/^Export '/.test(said)) return exported.some((n) => !bound.includes(n));
    if (/already been declared/.test(said)) return unique(bound).length < bound.length;
    return /reserved word|eval or arguments|Keyword must not contain/.test(said) && bound.some((n) => reserved.includes(n));
}

for (const file of process.argv.slice(2)) {
    for (const m of blocks(file)) {
        add("modules");
        if (m.js === undefined) {
            add("left out: the tokens no longer say what the text says");
            continue;
        }
        const stop = m.lines.find((f) => f[0] === "stop");
        // Phases and `assert` that this engine does not parse; for a stopped module, the words alone.
        const phases = m.lines.filter((f) => f[0] === "page" && f[5] !== "none").map((f) => f[5]);
        const words = stop ? ["source", "defer"].filter((w) => new RegExp(`import ${w} [^f,]`).test(m.js)) : phases;
        const without = words.find((w) => !has[w]) ?? (/"\s+assert\s*\{/.test(m.js) && !has.assert ? "assert" : undefined);
        if (without) {
            add(`left out: the engine does not parse ${without}`);
            continue;
        }
        const faults = m.lines.filter((f) => f[0] === "fault" || f[0] === "closefault");
        const ours = !stop && faults.length === 0;
        let mod, said;
        try {
            mod = new vm.SourceTextModule(m.js, { identifier: m.name });
        } catch (e) {
            said = e.message;
        }
        if (!ours && said) {
            add("both refuse");
            continue;
        }
        if (ours && said) {
            // Where the host was asked nothing, the clauses alone differ.
            const where = m.lines.some((f) => f[0] === "ask") ? "host asked" : "clauses alone";
            if (where === "clauses alone" && !known(m, said)) finding(`the engine refuses clauses: ${said}`, m);
            add(`only the engine refuses (${where}): ${said.replace(/'[^']*'/g, "'..'").replace(/Identifier '..'.*/, "Identifier '..' has already been declared")}`, `${m.name}: ${JSON.stringify(m.js)}`);
            continue;
        }
        if (!ours) {
            const why = stop ? `stop ${stop[1]}${stop[1] === "8" ? ` code ${stop[3]}` : ""}` : `fault ${faults.map((f) => f[1])[0]}`;
            add(`only the expected answer refuses: ${why}`, `${m.name}: ${JSON.stringify(m.js)}`);
            continue;
        }
        add("both accept");
        const sources = m.lines.filter((f) => f[0] === "source").map((f) => part(m, f[1], f[2]));
        const requests = m.lines.filter((f) => f[0] === "request").map((f) => text(f[1]));
        const asked = unique(mod.dependencySpecifiers);
        const whole = asked.filter((s) => s.isWellFormed());
        if (same(asked, unique(sources)) && same(whole, unique(requests))) add("requested modules agree");
        else finding("requested modules differ", m, `expected ${JSON.stringify(unique(sources))} engine ${JSON.stringify(asked)}`);
        // The engine's host hands specifiers on as UTF-8: two ill-formed ones become one there.
        if (asked.length - whole.length > 1) {
            add("left out of linking: more than one ill-formed specifier");
            continue;
        }
        try {
            await names(m, mod);
        } catch (e) {
            finding("linking failed", m, e.message);
        }
    }
}
console.log(`node ${process.version}, V8 ${process.versions.v8}; parses: ${Object.keys(has).filter((k) => has[k]).join(", ")}`);
for (const k of Object.keys(count).sort()) {
    console.log(`${count[k].n}  ${k}`);
    if (/^only|^FINDING|differ/.test(k)) for (const s of count[k].some) console.log(`      ${s}`);
}
console.log(`${findings} findings`);
process.exit(findings ? 1 : 0);
