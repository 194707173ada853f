#!/usr/bin/env python3
"""Respells this repository's definitions and lemmas: words in snake case, types and modules in camel case.

usage: python3 tools/respell.py [--list]      run once, at the top of the repository, right after port.py

A name in lower camel case gets underscores: 'circuitAt' is 'circuit_at'. A dash stays where each part is a name, of a definition, a function or
the library, as in 'length-span'; a plain word is added with an underscore, as in 'span_at'. The proof of a function f is 'f_spec'. A name is turned
wherever it stands as a whole word: in specs/ and proofs/, in the clauses of src/, in the wrong edits, and in the pages. In prose a name with a
dash is turned only between backticks, since 'set-up' is a word of the trade too. Names that Rattle makes (goals, invariants, measures) stay, and so
does a name in a file that imports it from a library. --list prints the table and writes nothing.
"""

import os
import re
import subprocess
import sys

WORD = r"[^\s(){}.;,@\"«»`]+"
DECLARED = re.compile(rf"^ *((?:pub|abbrev|unfoldable|ruleset|data|record|syntax) +)*({WORD}(?: {WORD})*?)(?: \{{[^{{}}]*\}})*(?: \([^()]*\))* (:|=)(?: |$)", re.M)
USE = re.compile(r"^(?:pub )?(?:ghost )?use ([^\s;{]+?)(?:\.\{([^}]*)\})?(?: as \S+)?;?$", re.M)
MADE = re.compile(r"^(returns|invariant|decreases)(-|$)")
WALK = re.compile(r"/proofs/.*/(Proof|Answers|Invariants)\.antt$")
CAMEL = re.compile(r"(?<=[a-z0-9])(?=[A-Z])")


def files(*ends):
    out = subprocess.run(["git", "ls-files"], capture_output=True, text=True, check=True).stdout.split()
    return [f for f in out if f.endswith(ends)]


def read(path):
    with open(path, encoding="utf-8") as it:
        return it.read()


def declared(text):
    for m in DECLARED.finditer(text):
        if m.group(2).split()[0] in ("use", "let", "module", "--", "where"):
            continue
        rest = text[m.end() :].split("\n", 1)[0]
        if re.match(r"(tie|goal|need|needs)\b", rest):
            continue
        yield from (w for w in m.group(2).split() if w not in ("pub", "abbrev", "unfoldable", "ruleset", "data", "record", "syntax"))


def lent(text):
    """The names that a file imports from a library."""
    names = set()
    for m in USE.finditer(text):
        if m.group(2) and (not m.group(1).startswith("Rattle.") or m.group(1).startswith("Rattle.std")):
            names |= {w.split(" as ")[0].strip() for w in m.group(2).split(",")}
    return names


def snake(name):
    if not name[:1].islower():
        return name
    return CAMEL.sub("_", name).replace("__", "_") if CAMEL.search(name) is None else "_".join(p if p.isupper() and len(p) > 1 else p.lower() for p in CAMEL.split(name))


def spelled(name, names):
    parts = [snake(p) for p in name.split("-")]
    return ("-" if all(p in names for p in parts) else "_").join(parts)


def table():
    antt = [f for f in files(".antt") if "/specs/" in f or "/proofs/" in f]
    walks = [f for f in antt if WALK.search(f)]
    rust = [f for f in files(".rt")]
    texts = {f: read(f) for f in antt}
    names = set()
    for f in antt:
        if "/specs/" in f:
            names |= {snake(n) for n in declared(texts[f]) if "-" not in n}
    for f in rust:
        names |= set(re.findall(r"\bfn (\w+)", read(f)))
    for f in antt:
        for n in lent(texts[f]):
            names |= set(n.split("-"))
    names -= {"is", "at", "to", "of", "if", "so", "not", "no", "by", "or", "and", "off", "on", "then", "both", "other", "same", "first", "last", "all", "more", "ind", "rel", "self"}
    rows = {}
    for f in antt:
        for n in declared(texts[f]):
            if f in walks and (MADE.match(n) or re.search(r"-(requires|preserved|init|smaller)(-\d+)?$", n)):
                continue
            if n.endswith("-spec"):
                rows[n] = n.replace("-", "_")
                continue
            new = spelled(n, names)
            if new != n:
                rows[n] = new
    # A lemma that would have its definition's name gets '_lem'.
    definitions = {to for n, to in rows.items() if "-" not in n}
    rows = {n: to + "_lem" if "-" in n and to in definitions else to for n, to in rows.items()}
    rows |= {n: n + "_lem" for f in antt if f not in walks for n in declared(texts[f]) if n in definitions}
    return {n: to for n, to in rows.items() if n != to}, texts


def meet(rows, texts):
    """Names that would fall together."""
    words = {}
    for f, t in texts.items():
        if WALK.search(f):
            continue
        t = re.sub(r"(?m)^((?:pub )?use )[^\s{]+?(\.\{|$| as )", r"\1\2", re.sub(r"--.*", "", t))
        words[f] = {w for w in re.findall(WORD, t) if w not in rows or "-" in w or snake(w) != w}
    bad = 0
    back = {}
    for n, to in rows.items():
        back.setdefault(to, []).append(n)
    for to, olds in sorted(back.items()):
        for f, ws in words.items():
            here = [o for o in olds if o in ws]
            if len(here) + (to in ws) > 1:
                print(f"meet: {' and '.join(here)} would be {to}, which {'stands' if to in ws else 'they share'} in {f}")
                bad += 1
    return bad


def turned(text, rows, prose):
    def word(m):
        return rows.get(m.group(0), m.group(0))

    def camel(m):
        w = m.group(0)
        return rows[w] if w in rows and "-" not in w else w

    def spans(t):
        t = re.sub(r"`[^`\n]*`", lambda m: re.sub(WORD, word, m.group(0)), t)
        return re.sub(r"(?<![\w'-])[a-z]\w*[A-Z]\w*(?![\w'-])", camel, t)

    if prose:
        return spans(text)
    out = []
    for line in text.split("\n"):
        m = re.search(r"(?:^|\s)(--|//)(?:\s|-|$)", line)
        cut = m.start(1) if m else len(line)
        quoted = re.split(r'("(?:[^"\\]|\\.)*")', line[:cut])
        out.append("".join(q if q.startswith('"') else re.sub(WORD, word, q) for q in quoted) + spans(line[cut:]))
    return "\n".join(out)


def main(argv):
    rows, texts = table()
    if argv == ["--list"]:
        for n, to in sorted(rows.items()):
            print(f"{n}\t{to}")
        return 1 if meet(rows, texts) else 0
    if meet(rows, texts):
        return 1
    for f in files(".antt", ".rt", ".edit", ".md"):
        if f.startswith(("docs/PORT", "docs/landings/")) or f == "CHANGELOG.md":
            continue
        old = read(f)
        stay = lent(old) if not f.endswith(".md") else set()
        # A name that had underscores before may be a function's too: it turns where the lemma is declared or imported.
        own = set(declared(old)) | {w.strip() for m in USE.finditer(old) if m.group(2) for w in m.group(2).split(",")}
        stay |= {n for n in rows if "-" not in n and snake(n) == n and n not in own}
        new = turned(old, {n: to for n, to in rows.items() if n not in stay}, f.endswith(".md"))
        if f.endswith(".rt"):
            # Only clauses and ghost items name definitions; a name with a dash would be a difference in code.
            new = turned(old, {n: to for n, to in rows.items() if n not in stay and "-" not in n}, False)
        if new != old:
            with open(f, "w", encoding="utf-8") as it:
                it.write(new)
    return 0


if __name__ == "__main__":
    raise SystemExit(main(sys.argv[1:]))
