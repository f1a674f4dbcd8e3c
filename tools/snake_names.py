#!/usr/bin/env python3
"""Brings the repository's own definitions and lemmas to snake case, after port.py: `rootOf` to `root_of`, `at-least-nan`
to `at_least_nan`. Types and facts keep their capitals, and a dash stays beside one. Run once, at the top.

A name is renamed where it is declared, where it is imported from a crate of this repository, and behind the name of a
module of it; fields of records, edits and the pages of docs/ follow. It stops, and writes nothing, where two names
would fall together."""
import collections
import glob
import os
import re
import sys

# lemmas that would have their function's name
OTHER = {n: n.replace("-", "_") + "_lem" for n in ("hull-from", "float-of", "one_more", "put-cutters", "lowest-in", "word-of", "is-nan", "piece-by", "built-words", "front-word",
                                                       "too-deep", "node-from", "solids-number", "piece-entry", "material-entry",
                                                       "light-entry", "cutter-by", "head-by", "put-row")}

STOP = r"\s(){}\[\],;.\"⌜⌝@"
WORD = re.compile(rf"[^{STOP}]+")
HEAD = re.compile(r"^(?:(?:abbrev|unfoldable) )?(?:pub )?(?:(record|data|ruleset) )?(\S+)(.*)$")
USE = re.compile(r"(?:ghost )?(?:pub )?(?:ghost )?use (Rattle\.[\w.+·]+?)(?:\.\{([^}]*)\}| as (\S+?))?;?\s*$", re.S)


def part(p):
    if p[:1].isupper():
        return p
    return re.sub(r"(?<=[a-z0-9])([A-Z])", lambda m: "_" + m.group(1).lower(), p)


def respelled(n):
    if n in OTHER:
        return OTHER[n]
    ps = [part(p) for p in n.split("-")]
    out = ps[0]
    for a, b in zip(ps, ps[1:]):
        out += ("-" if a[:1].isupper() or b[:1].isupper() or not a or not b else "_") + b
    return re.sub(r"^([a-z])([A-Z])", lambda m: m.group(1) + "_" + m.group(2).lower(), out) if n[0].islower() else out


def statements(text):
    """The `use` statements, those over several lines joined."""
    for m in re.finditer(r"(?m)^(?:ghost |pub )*use [^\n{;]*(?:\{[^}]*\})?[^\n;]*;?$", text):
        yield m.group(0)


def module(path):
    c, rest = path.split("/", 1)[1].split("/", 1)
    return "Rattle." + c + "." + rest[:-5].replace("/", ".")


def main():
    files = sorted(glob.glob("crates/*/specs/**/*.antt", recursive=True) + glob.glob("crates/*/proofs/**/*.antt", recursive=True))
    code = sorted(glob.glob("crates/*/src/**/*.rt", recursive=True))
    edits = sorted(glob.glob("crates/**/must-fail/*.edit", recursive=True))
    texts = {f: open(f, encoding="utf-8").read() for f in files + code + edits}
    own = {c for c in os.listdir("crates")}
    declared, fields = {}, set()
    for f in files:
        names, inside = set(), False
        lines = texts[f].split("\n")
        blocks = any(re.match(r"\s*module _", l) for l in lines)
        for l, after in zip(lines, lines[1:] + [""]):
            if l[:1] == " ":
                m = blocks and re.match(r"^ +(?:abbrev |unfoldable )?(?:pub )?([^\s:({]+)\s*(:(?: |$)|$)", l)
                if m and (m.group(2) or re.match(r"^ +:", after)):
                    names.add(m.group(1))
                m = inside and (re.match(r"^\s+(?:pub )?((?:[^\s:({]+ )+):(?: |$)", l) or re.match(r"^\s+pub ([^\s:({]+)\s*$", l))
                if m:
                    fields.update(m.group(1).split())
                continue
            if not l or l.startswith(("--", "use ", "pub use ", "pub mod", "mod ", "unfolding")):
                continue
            m = HEAD.match(l)
            inside = m.group(1) in ("record", "data") if m else False
            # what answers a goal has the goal's name, which is Rattle's
            if m and (m.group(1) or re.match(r"^\s*(:(?! tie\.)|$|--)", m.group(3))):
                names.add(m.group(2))
        declared[f] = names
    modules = {module(f): declared[f] for f in files}
    changed = lambda n: respelled(n) != n
    fields = {n for n in fields if changed(n)}
    everywhere = collections.defaultdict(set)
    said, new = [], {}
    for f in files + code:
        t = texts[f]
        names = set(n for n in declared.get(f, ()) if changed(n))
        aliases = {}
        for s in statements(t):
            m = USE.match(s)
            if not m or m.group(1).split(".")[1] not in own:
                continue
            if m.group(2) is not None:
                names.update(n for n in (x.strip().split(" as ")[0] for x in m.group(2).split(",")) if n in modules.get(m.group(1), ()) and changed(n))
                for x in m.group(2).split(","):
                    at = m.group(1) + "." + x.strip().split(" as ")[0]
                    if at in modules:
                        aliases[x.strip().split(" as ")[-1]] = modules[at]
            else:
                got = m.group(1) if m.group(1) in modules else None
                if got:
                    aliases[m.group(3) or got.rsplit(".", 1)[-1]] = modules[got]
                else:
                    at, n = m.group(1).rsplit(".", 1)
                    if n in modules.get(at, ()) and changed(n):
                        names.add(n)
        everywhere[f] = (names, aliases)
        words = set(WORD.findall(t))
        back = collections.defaultdict(set)
        for n in names | (fields & words):
            back[respelled(n)].add(n)
        for n, olds in back.items():
            bare = re.search(rf"(?<![^{STOP}])(?<!\.){re.escape(n)}(?![^{STOP}])", t)
            if len(olds) > 1 or (bare and n not in names and not (f in code and not re.search(rf"\b{n}\s*:[^:]|let (?:mut )?{n}\b", t))):
                said.append((f, n, sorted(olds)))
    for f, n, olds in said:
        print(f"falls together: {f}: {n} <- {', '.join(olds)}")

    def turn(t, names, aliases):
        def one(m):
            n = m.group(0)
            if n not in names and n not in fields and not (m.start() and t[m.start() - 1] == "."):
                return n
            if m.start() and t[m.start() - 1] == ".":
                before = re.search(rf"[^\s(){{}}\[\],;\"⌜⌝@]+$", t[:m.start() - 1])
                chain = before.group(0) if before else ""
                if chain in aliases and n in aliases[chain]:
                    return respelled(n)
                if chain in modules and n in modules[chain]:
                    return respelled(n)
                return respelled(n) if n in fields else n
            return respelled(n)

        return WORD.sub(one, t)

    for f in files + code:
        new[f] = turn(texts[f], *everywhere[f])
    for f in edits:
        m = re.search(r"(?m)^file: (\S+)", texts[f])
        at = os.path.join(f.split("/must-fail/")[0], m.group(1))
        new[f] = turn(texts[f], *everywhere.get(at, (set(), {})))
    every = {n for ns in declared.values() for n in ns if changed(n)} | fields
    for f in sorted(glob.glob("docs/**/*.md", recursive=True)) + ["README.md"]:
        t = open(f, encoding="utf-8").read()
        new[f] = re.sub(r"`[^`\n]+`", lambda q: WORD.sub(lambda m: respelled(m.group(0)) if m.group(0) in every else m.group(0), q.group(0)[1:-1]).join("``"), t)
        texts[f] = t
    if said and "--anyway" not in sys.argv:
        raise SystemExit(1)
    n = 0
    for f, t in new.items():
        if t != texts[f]:
            open(f, "w", encoding="utf-8").write(t)
            n += 1
    print(f"{len(every)} names, {n} files")


main()
