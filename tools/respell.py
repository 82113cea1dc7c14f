#!/usr/bin/env python3
"""Respells this repository's own definitions and lemmas: snake case in place of camelCase and of dashes, ' in place of ′.

Run once at the top, after port.py (docs/PORT.md). It goes by names: a name that a file imports from a library keeps its spelling,
and so do the names that the check makes in proofs/F/. Two names that would fall together are listed in TOGETHER.
"""
import glob
import re
import sys

NAME = re.compile(r"(?<![\w'′₀-₉-])[^\W\d][\w'′₀-₉]*(?:-[\w'′₀-₉*+]+)*")
DEFINED = re.compile(r"^ *(?:abbrev |unfoldable )*(?:pub )?(?:record |data |ruleset )?([^\s(){}:=.]+) (?=:|\(|\{)")
IMPORT = re.compile(r"^(?:pub )?(?:ghost )?use ([^\s{;]+?)(?:\.\{([^}]*)\})?(?: as \S+)?;?$", re.M)
# a lemma whose snake case is that of a definition
TOGETHER = {}


def own_crates():
    with open("crates.txt") as f:
        return {l.split(":")[0].split()[0] for l in f if ":" in l and not l.startswith("#")}


def snake(name):
    s = name.replace("-", "_").replace("′", "'")
    return re.sub(r"(?<=[a-z0-9])([A-Z])", lambda m: "_" + m[1].lower(), s)


def worth(name):
    return not name[0].isupper() and ("-" in name or "′" in name or re.search(r"[a-z0-9][A-Z]", name))


def imports(text, own, wanted):
    """The names that the text imports: from this repository's crates, or from elsewhere."""
    found = set()
    for m in IMPORT.finditer(text):
        p = m[1].split(".")
        if (p[0] == "Rattle" and len(p) > 1 and p[1] in own) == wanted:
            for n in (m[2] or "").split(","):
                found.update(n.strip().split(" as "))
    return found


def is_walk(path):
    """Whether a file stands in the folder of one function's proof."""
    return re.match(r"crates/\w+/proofs/.+/", path) is not None


def main():
    own = own_crates()
    antt = sorted(glob.glob("crates/*/specs/**/*.antt", recursive=True) + glob.glob("crates/*/proofs/**/*.antt", recursive=True))
    rust = sorted(glob.glob("crates/*/src/**/*.rt", recursive=True))
    edits = sorted(glob.glob("crates/*/must-fail/*.edit"))
    text = {p: open(p, encoding="utf-8").read() for p in antt + rust + edits}
    said = {}
    defined = set()
    for p in antt:
        if not is_walk(p):
            for l in text[p].split("\n"):
                m = DEFINED.match(l)
                if m:
                    defined.add(m[1])
    global TOGETHER
    by = {}
    for n in defined:
        if not n[0].isupper():
            by.setdefault(snake(n), set()).add(n)
    seen = [set(m[0] for m in NAME.finditer(text[p])) for p in antt]
    for s, ns in sorted(by.items()):
        if any(len(ns & o) > 1 for o in seen):
            first = min(ns, key=lambda n: ("-" in n, "_" in n, n))
            for n in ns - {first}:
                TOGETHER[n] = s + "_law"

    def turned(n):
        return TOGETHER.get(n) or snake(n)

    for p in antt + rust + edits:
        t = text[p]
        foreign = imports(t, own, False)
        known = imports(t, own, True)
        walk = is_walk(p)
        lemma = p.endswith(".antt") and not walk

        def one(m, comment=False):
            n = m[0]
            if n in foreign and n not in known:
                return n
            if not (worth(n) or n in TOGETHER):
                return n
            before = t[m.start() - 1:m.start()]
            if comment or p.endswith((".rt", ".edit")):
                ok = n in defined and ("-" not in n or not comment)
            elif walk:
                ok = n in known or (n in defined and before == ".") or "′" in n
            else:
                ok = True
            if not ok:
                return n.replace("′", "'")
            s = turned(n)
            if s != n:
                said.setdefault(p, {}).setdefault(s, set()).add(n)
            return s

        out = []
        lines = t.split("\n")
        for l in lines:
            c = l.find("--" if p.endswith(".antt") else "//")
            if p.endswith(".edit"):
                c = -1
            code, rest = (l, "") if c < 0 else (l[:c], l[c:])
            t = code
            code = NAME.sub(one, code)
            t = rest
            rest = NAME.sub(lambda m: one(m, True), rest)
            out.append(code + rest)
        new = "\n".join(out)
        if new != text[p]:
            if "--dry" not in sys.argv:
                open(p, "w", encoding="utf-8").write(new)
        # names that fall together in this file
        old = set(m[0] for m in NAME.finditer(text[p]))
        for s, ns in said.get(p, {}).items():
            if len(ns) > 1 or s in old:
                print(f"together: {p}: {s}: {sorted(ns)}" + (" and itself" if s in old else ""))
    print(len(defined), "defined;", sum(worth(n) is not False and bool(worth(n)) for n in defined), "respelled;", TOGETHER)


main()
