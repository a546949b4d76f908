#!/usr/bin/env python3
"""Brings the repository's own definitions and lemmas to snake case: a dash in them becomes an underscore, in .antt and .rt files, in must-fail
edits, and between backticks in comments and pages.

    tools/snake_case.py [FOLDER]        in the repository's top, or FOLDER; once, after the toolchain's port.py

A name is the repository's own if a file of definitions or lemmas declares it. Names of the library, and those that the check makes of
the code (goals, steps), keep their hyphens: where both exist, a file's imports decide.
"""

import os
import re
import sys

WORD = r"[A-Za-z_][\w'₀-₉-]*"
NAME = re.compile(r"(?<![\w'₀-₉·-])" + WORD)
DECLARED = re.compile(rf"(?:^|\n|\bwhere\b|\blet\b)\s*(?:(?:pub|abbrev|unfoldable|record|data|open)\s+)*({WORD})\s*:(?!=)")
IMPORT = re.compile(r"^(?:ghost )?use\s+([\w.'+◌-]+)\.\{([^}]*)\}", re.M)
ALIAS = re.compile(rf" as ({WORD})")
TICKED = re.compile(r"`[^`\n]*`")
PAGES = ("README.md", "docs", "tests", "tools", "include", "bindings")


def code_of(text, mark):
    """The text with its comments blanked, of the same length."""
    return re.sub(mark + r"[^\n]*", lambda m: " " * len(m[0]), text)


def files(root, ends):
    for folder, dirs, names in os.walk(root):
        dirs[:] = sorted(d for d in dirs if d not in ("out", "target", ".git"))
        for name in sorted(names):
            if name.endswith(ends):
                yield os.path.join(folder, name)


def read(path):
    with open(path, encoding="utf-8") as f:
        return f.read()


def imports(text):
    """Where each imported name of a file comes from."""
    return {n.split(" as ")[0].strip(): m[1] for m in IMPORT.finditer(text) for n in m[2].split(",") if n.strip()}


def is_own(module, crates):
    parts = module.split(".")
    return parts[0] == "Rattle" and len(parts) > 1 and parts[1] in crates


def snake(text, names):
    return NAME.sub(lambda m: m[0].replace("-", "_") if m[0] in names else m[0], text)


def turned(text, names, mark):
    """Names in code, and in comments between backticks."""
    out = []
    for line in text.split("\n"):
        m = re.search(mark, line)
        code, comment = (line[: m.start()], line[m.start() :]) if m else (line, "")
        out.append(snake(code, names) + TICKED.sub(lambda m: snake(m[0], names), comment))
    return "\n".join(out)


def turned_edit(text, names):
    out = []
    for line in text.split("\n"):
        changed = line.startswith(("old:", "new:"))
        out.append(snake(line, names) if changed else TICKED.sub(lambda m: snake(m[0], names), line))
    return "\n".join(out)


def main(argv):
    root = argv[0] if argv else "."
    inside = os.path.join(root, "crates")
    crates = set(os.listdir(inside))
    texts = {p: read(p) for p in files(inside, (".antt", ".rt", ".edit"))}
    declared = set()
    for path, text in texts.items():
        if path.endswith(".antt") and not re.search(r"/proofs/.+/(Proof|Answers|Invariants)\.antt$", path):
            declared |= {m[1] for m in DECLARED.finditer(code_of(text, r"--(?![\w-])|--$")) if "-" in m[1]}
        if not path.endswith(".edit"):
            declared |= {n for n in ALIAS.findall(text) if "-" in n}
    fell = {n.replace("-", "_") for n in declared} & {m for t in texts.values() for m in re.findall(r"[A-Za-z]\w*_\w*(?=\s*:)", t)}
    print(f"{len(declared)} names; in snake case already: {', '.join(sorted(fell)) or 'none'}")
    for path, text in texts.items():
        if path.endswith(".edit"):
            new = turned_edit(text, declared)
        else:
            foreign = {n for n, m in imports(text).items() if not is_own(m, crates)}
            new = turned(text, declared - foreign, r"--(?![\w-])" if path.endswith(".antt") else r"//")
        if new != text:
            with open(path, "w", encoding="utf-8") as f:
                f.write(new)
    for page in PAGES:
        place = os.path.join(root, page)
        for path in [place] if os.path.isfile(place) else files(place, (".md", ".h", ".c", ".rs", ".py")):
            text = read(path)
            new = TICKED.sub(lambda m: snake(m[0], declared), text)
            if new != text:
                with open(path, "w", encoding="utf-8") as f:
                    f.write(new)
    return 0


if __name__ == "__main__":
    raise SystemExit(main(sys.argv[1:]))
