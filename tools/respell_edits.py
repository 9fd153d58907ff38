#!/usr/bin/env python3
"""Respells the must-fail edits, which port.py leaves as they are.

usage: python3 tools/respell_edits.py      at the top of the repository, after port.py and respell.py

The line that says what an edit shows becomes a comment. Where an edit's text stands in its file no longer, it is brought to today's
spelling, dashes, projections and paths, if it then stands there once; what it is replaced by goes with it.
"""

import os
import re

DASHED = re.compile(r"(?<![\w'-])[^\W\d_][\w']*(?:-[\w']+)+")
PROJECTED = re.compile(r"(?<=[\w')])((?: \.\w+)+)(?!\w)")
BRACKETED = re.compile(r"\(([\w']+(?:\.\w+)+)\)")


def respelled(text):
    text = DASHED.sub(lambda m: m[0].replace("-", "_"), text)
    text = PROJECTED.sub(lambda m: m[1].replace(" ", ""), text)
    text = BRACKETED.sub(r"\1", text)
    return text.replace("Rattle·", "Rattle.")


def read(path):
    with open(path, encoding="utf-8") as f:
        return f.read()


def turned(edit, crate):
    """The edit's text; `texts` has each file as the pairs so far make it."""
    lines, out, texts = edit.split("\n"), [], {}
    path, new = "", None
    for at, line in enumerate(lines):
        if line.startswith("file: "):
            path = line[len("file: ") :].strip()
            if path not in texts:
                texts[path] = read(f"{crate}/{path}") if os.path.isfile(f"{crate}/{path}") else ""
        elif line.startswith("old: "):
            old = line[len("old: ") :]
            new = lines[at + 1][len("new: ") :] if lines[at + 1].startswith("new: ") else ""
            if texts[path].count(old) != 1 and texts[path].count(respelled(old)) == 1:
                old, new = respelled(old), respelled(new)
            texts[path] = texts[path].replace(old, new)
            line = "old: " + old
        elif line.startswith("new: "):
            line = "new: " + new
        elif line.strip() and not line.startswith(("#", "--", "//")):
            line = "# " + line
        out.append(line)
    return "\n".join(out)


def main():
    changed = 0
    for name in sorted(os.listdir("crates")):
        folder = f"crates/{name}/must-fail"
        for file in sorted(os.listdir(folder)) if os.path.isdir(folder) else []:
            if file.endswith(".edit"):
                was = read(f"{folder}/{file}")
                now = turned(was, f"crates/{name}")
                if now != was:
                    changed += 1
                    with open(f"{folder}/{file}", "w", encoding="utf-8") as f:
                        f.write(now)
    print(f"respell_edits: {changed} edits")


if __name__ == "__main__":
    main()
