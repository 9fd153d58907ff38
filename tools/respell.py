#!/usr/bin/env python3
"""Respells this repository's own names after port.py: words joined by dashes are joined by underscores, as 'in-slot' to 'in_slot'.

usage: python3 tools/respell.py            at the top of the repository, once, after port.py
       python3 tools/respell.py --check    writes nothing; prints the names that fall together and those that stay

It goes by spelling. A word turns where the repository declares it: in specs/ and proofs/, in the clauses and ghost imports of src/,
and in the texts of must-fail edits. Names that Rattle makes (Goal-.., Need-..) and names imported from the library stay.
"""

import os
import re
import sys
from collections import defaultdict

WORD = re.compile(r'[^\s(){}.;,@"«»:◌]+')
SKIP = re.compile(r'"(?:[^"\\\n]|\\.)*"|(?<![^\s(){}.;,@"«»])--[^\n]*')
DASH = re.compile(r"(?<=[\w'])-(?=[\w'])")
MODIFIERS = r"(?:(?:pub|private|unfoldable|abbrev|opaque|rec)\s+)*"
DECLARED = re.compile(rf"^\s*{MODIFIERS}(?:(?:record|data|module)\s+)?([^\s(){{}}:=.;,@\"«»][^(){{}}:=\"«»;,]*?)\s*(?=[({{:=]|$)", re.M)
BINDER = re.compile(r"[({]\s*([^(){}:;=\"]+?)\s*:")
LET = re.compile(r"\blet\s+([^\s(){}:=]+)")
LAMBDA = re.compile(r"λ\s+([^.(){}]+)\.")
FIELD = re.compile(r"[{;]\s*([^\s(){}:;=]+)\s*=")
MADE = re.compile(r"(?:Need|After|Goes|Seen|At|In|Chosen|Counts|Nearer|WpFn)-")
RT_WORD = re.compile(r"(?<![\w'])[^\W\d][\w']*(?:-[\w']+)+")
RT_SKIP = re.compile(r'//[^\n]*|b?"(?:[^"\\\n]|\\.)*"')
USE = re.compile(r"\buse\s+([\w.']+)\.\{([^}]*)\}", re.S)


def files(top, ends):
    for folder, dirs, names in os.walk(os.path.join(top, "crates")):
        dirs[:] = sorted(d for d in dirs if d != "out")
        for n in sorted(names):
            if n.endswith(ends):
                yield os.path.join(folder, n)


def read(path):
    with open(path, encoding="utf-8") as f:
        return f.read()


def code_of(text):
    return SKIP.sub(" ", text)


def dashed(words):
    for w in words.replace("◌", " ").split():
        if DASH.search(w):
            yield w


def own(path, crates):
    parts = path.split(".")
    return parts[0] == "Rattle" and len(parts) > 1 and parts[1] in crates


def imported(text, crates):
    """The dashed names that a file takes from the library or from what Rattle makes."""
    names = set()
    for m in USE.finditer(text):
        if own(m[1], crates) and m[1].split(".")[-1] not in ("Tie", "Goals"):
            continue
        for item in m[2].split(","):
            for w in dashed(item.split(" as ")[0]):
                names.add(w)
    return names


def declared(text):
    code = code_of(text)
    names = set()
    for pattern in (DECLARED, BINDER, LET, LAMBDA, FIELD):
        for m in pattern.finditer(code):
            names.update(dashed(m[1]))
    return names


def between(skip, text, turn):
    out, at = [], 0
    for m in skip.finditer(text):
        out += [turn(text[at : m.start()]), m[0]]
        at = m.end()
    return "".join(out + [turn(text[at:])])


def turn_words(names, kept):
    def one(m):
        w = m[0]
        return DASH.sub("_", w) if w in names and w not in kept else w

    return lambda text: WORD.sub(one, text)


def turn_rt(names):
    return lambda text: RT_WORD.sub(lambda m: DASH.sub("_", m[0]) if m[0] in names else m[0], text)


def main(argv):
    top = "."
    check = "--check" in argv
    crates = {c for c in os.listdir("crates")}
    texts = {p: read(p) for p in files(top, (".antt", ".rt", ".edit"))}
    names = set()
    for p, t in texts.items():
        if p.endswith(".antt"):
            names |= declared(t) - {w for w in declared(t) if MADE.match(w) and "/proofs/" in p and p.endswith("Proof.antt")}
    turned = {}
    for p, t in texts.items():
        kept = imported(t, crates)
        if p.endswith(".antt"):
            kept |= {w for w in names if MADE.match(w)} if p.endswith("Proof.antt") else set()
            turned[p] = between(SKIP, t, turn_words(names, kept))
        elif p.endswith(".rt"):
            turned[p] = between(RT_SKIP, t, turn_rt(names))
        else:
            turned[p] = re.sub(r"(?m)^(?:old|new): .*$", lambda m: turn_rt(names)(m[0]), t)
    if check:
        report(texts, turned, names, crates)
        return 0
    for p, t in turned.items():
        if t != texts[p]:
            with open(p, "w", encoding="utf-8") as f:
                f.write(t)
    print(f"respell: {sum(t != texts[p] for p, t in turned.items())} files, {len(names)} names")
    return 0


def report(texts, turned, names, crates):
    for p, t in texts.items():
        if not p.endswith((".antt", ".rt")):
            continue
        words = {w for w in re.findall(r"[^\s(){}.;,@\"«»:◌]+", (code_of(t) if p.endswith(".antt") else RT_SKIP.sub(" ", t)))}
        for w in sorted(words & names):
            new = DASH.sub("_", w)
            if new in words:
                print(f"together: {p}: {w} and {new}")
    left = defaultdict(set)
    for p, t in turned.items():
        if p.endswith(".antt"):
            for w in dashed(" ".join(WORD.findall(code_of(t)))):
                if w not in imported(t, crates) and not MADE.match(w):
                    left[w].add(p)
    for w in sorted(left):
        print(f"stays: {w}: {len(left[w])} {sorted(left[w])[0]}")


if __name__ == "__main__":
    raise SystemExit(main(sys.argv[1:]) or 0)
