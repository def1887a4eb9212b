#!/usr/bin/env python3
"""Respells the repository's own definitions and lemmas as today's Rattle spells names: words in snake case, types and modules in
camel case. Run once at the top of the repository, after /opt/rattle/port/port.py.

It goes by tokens. A name that a file of specs/ or proofs/ declares or binds, and that has a capital inside a word that begins
small (`firstMet`, `entryOf-put-same`), is respelled (`first_met`, `entry_of-put-same`) wherever it stands: in specs/ and proofs/, in
src/, in the edits of must-fail/, and between backquotes in README.md and docs/. Functions of src/, exported C names and strings have no such capital,
and keep their names. Where a lemma already has the new name in the same crate, the lemma gets `_lem` behind it.
"""
import glob
import re

WORD = re.compile(r"[A-Za-z_][A-Za-z0-9_'₀-₉]*(?:-[A-Za-z0-9_'₀-₉]+)*")
# `getD` is std's `get_or` now; port.py had turned some of the names that begin with it.
GET_OR = re.compile(r"^(?:getD|get_d)[-_](?=\w)")


def inner_capital(part):
    return bool(part) and part[0].islower() and re.search("[A-Z]", part) is not None


def has_capital(name):
    return any(inner_capital(p) for p in name.split("-"))


def respelled(name):
    name = GET_OR.sub("get_or-", name)
    parts = []
    for p in name.split("-"):
        parts.append(re.sub("[A-Z]", lambda m: "_" + m.group(0).lower(), p).replace("__", "_") if inner_capital(p) else p)
    return "-".join(parts)


def lines(path):
    with open(path, encoding="utf-8") as f:
        return f.read()


def bare(text, name):
    return re.search(r"(?<![\w'.-])" + re.escape(name) + r"(?![\w'.-])", text) is not None


def main():
    antt = sorted(p for k in ("specs", "proofs") for p in glob.glob(f"crates/*/{k}/**/*.antt", recursive=True))
    code = sorted(glob.glob("crates/*/src/**/*.rt", recursive=True))
    edits = sorted(glob.glob("crates/*/must-fail/*.edit"))
    pages = ["README.md"] + sorted(glob.glob("docs/**/*.md", recursive=True))

    names = {}
    for p in antt:
        for w in WORD.findall(lines(p)):
            if has_capital(w) or GET_OR.match(w):
                names[w] = respelled(w)

    # lemmas that stand in the way, by crate
    moved = {}
    for crate in sorted({p.split("/")[1] for p in antt}):
        here = [p for p in antt if p.split("/")[1] == crate]
        text = "\n".join(lines(p) for p in here)
        for w, to in names.items():
            declared = re.search(r"^\s*(?:pub )?" + re.escape(to) + r" :", text, re.M)
            if declared and bare(text, w):
                moved.setdefault(crate, set()).add(to)

    def turn(text, lemmas=frozenset()):
        def one(m):
            w = m.group(0)
            before, after = text[m.start() - 1:m.start()], text[m.end():m.end() + 1]
            if w in lemmas and before != "." and after != ".":
                return w + "_lem"
            return names.get(w, w)
        return WORD.sub(one, text)

    changed = 0
    for p in antt + code + edits:
        text = lines(p)
        crate = p.split("/")[1]
        lemmas = moved.get(crate, frozenset()) if "/proofs/" in p else frozenset()
        # a lemma of another crate, by its import
        for other, ns in moved.items():
            for n in ns:
                if "/proofs/" in p and re.search(rf"use Rattle\.{other}\.proofs\.[\w.]+\.\{{[^}}]*(?<![\w'-]){n}(?![\w'-])", text):
                    lemmas = lemmas | {n}
        new = turn(text, lemmas)
        if new != text:
            changed += 1
            with open(p, "w", encoding="utf-8") as f:
                f.write(new)
    for p in pages:
        text = lines(p)
        new = re.sub(r"`[^`\n]+`", lambda m: turn(m.group(0)), text)
        if new != text:
            changed += 1
            with open(p, "w", encoding="utf-8") as f:
                f.write(new)
    print(f"{len(names)} names respelled in {changed} files; lemmas that gave way: {sorted((c, sorted(n)) for c, n in moved.items())}")


if __name__ == "__main__":
    main()
