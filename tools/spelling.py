#!/usr/bin/env python3
"""Spells this repository's own definitions, fields and lemmas as today's Rattle does: words in snake case, types and modules in camel case.

usage: tools/spelling.py [--docs]      at the top of the repository, once, after the kit's port.py

It reads which names the files of specs/ and the lemma files of proofs/ declare, and writes each anew where it stands as a whole word: in those files,
in the clauses of src/, and in the edits of must-fail/. With --docs it turns the names that stand in the pages instead, and nothing else.
A name that a library has too stays, in the files that import it from there. Names that would fall together are told, and nothing is written then.
Names of functions, of exports, strings, inputs and outputs stay.
"""

import os
import re
import sys

NAME = r"[^\s(){}.;,@\"«»\[\]`:]+"
DECLARED = re.compile(
    r"(?m)^ *(?:(?:pub|abbrev|unfoldable|data|record|ruleset) +)*("
    + NAME
    + r"(?: "
    + NAME
    + r")*) :(?= |$)"
)
WORD = re.compile(r"(?<![\w'-])[a-z][\w'-]*(?![\w'-])")
USE = re.compile(r"\buse ([^\s;{]+)(?:\.\{([^;}]*)\})")
# A name that is a tactic's word, and what it is called now. Fields of that name, and comments, keep it.
TACTICS = {"ground": "lent_ground"}
# Names that are English in a comment.
ENGLISH = ("single-goal",)
OLD = re.compile(r"[a-z][\w']*(?:[A-Z-]|_-)[\w'-]*")


# Lemmas that would have a definition's name.
LEMMAS = set()


def snake(name):
    new = re.sub(
        r"(?<=[a-z0-9'_])[A-Z]", lambda m: "_" + m[0].lower(), name
    ).replace("-", "_")
    return new + "_lem" if name in LEMMAS else new


def files(root, *endings):
    for folder, dirs, names in os.walk(root):
        dirs[:] = sorted(d for d in dirs if d not in ("out", ".git", "target"))
        for n in sorted(names):
            if n.endswith(endings):
                yield os.path.join(folder, n)


def read(path):
    with open(path, encoding="utf-8", newline="") as f:
        return f.read()


def is_lemmas(path):
    parts = path.split(os.sep)
    return "specs" in parts or parts[-2] == "proofs" and parts[-1] != "Proof.antt"


def own_names():
    """The declared names that change, each with its files and its new spelling."""
    names = {}
    for path in files("crates", ".antt"):
        if is_lemmas(path):
            for m in DECLARED.finditer(read(path)):
                for name in m[1].split():
                    if OLD.fullmatch(name) and snake(name) != name:
                        names.setdefault(name, set()).add(path)
    defined = {snake(n) for n in names if "-" not in n}
    LEMMAS.update(
        n
        for n in names
        if "-" in n
        and snake(n) in defined
        # what `contracts` states of a function has the function's name
        and not all(p.startswith("crates/contracts/") for p in names[n])
    )
    return names


def from_libraries(text):
    """The names that a text imports from libraries."""
    out = set()
    for m in USE.finditer(text):
        own = m[1].startswith("Rattle.") and not m[1].startswith("Rattle.std.")
        if not own and m[2]:
            out |= {n.strip().split(" as ")[0] for n in m[2].split(",")}
    return out


def clash(names):
    """Names that would fall together, by file: two old ones, or an old one and a declared one that stands there."""
    declared = {
        n
        for path in files("crates", ".antt")
        if is_lemmas(path)
        for m in DECLARED.finditer(read(path))
        for n in m[1].split()
    }
    found = []
    for path in files("crates", ".antt", ".rt"):
        text = read(path)
        lent = from_libraries(text)
        # what the file declares or imports, and what stands in it outside comments
        own = {n for m in DECLARED.finditer(text) for n in m[1].split()}
        own |= {n.strip() for m in USE.finditer(text) if m[2] for n in m[2].split(",")}
        code = re.sub(r"(?m)^\s*(--|//).*", "", text)
        bare = set(re.findall(r"(?<![\w'.-])[a-z][\w'-]*(?![\w'-])", code))
        new = {}
        for w in own:
            if w in names and w not in lent:
                new.setdefault(snake(w), set()).add(w)
        for n, old in new.items():
            if len(old) > 1 or (n in bare and n in declared and path.endswith(".antt")):
                found.append((path, n, sorted(old), n in bare))
    return found


def no_tactics(text):
    """A definition that had a tactic's name, and what imports it; a record's field of that name stands behind a dot or `pub`, and stays."""
    names = "|".join(TACTICS)
    if not re.search(
        r"abbrev pub (%s) :|\.Find\.\{[^}]*\b(%s)\b[^}]*\}" % (names, names), text
    ):
        return text
    lines = text.split("\n")
    for i, line in enumerate(lines):
        if not line.lstrip().startswith(("--", "//", "pub ")) and not re.search(
            r"record \{ ground =", line
        ):
            lines[i] = re.sub(
                r"(?<![\w'.-])(%s)(?![\w'-])" % names,
                lambda m: TACTICS[m[1]],
                line,
            )
    return "\n".join(lines)


def turn(text, names):
    lent = from_libraries(text)

    def word(m):
        w = m[0]
        return snake(w) if w in names and w not in lent else w

    def line(m):
        english = ENGLISH if m[0].lstrip().startswith(("--", "//")) else ()
        return WORD.sub(lambda w: w[0] if w[0] in english else word(w), m[0])

    return re.sub(r"[^\n]+", line, text)


def references(clause, before):
    """What a `&mut` parameter points to, in the form of the other clauses: `x.old` and `x.new`. before: the text up to the clause."""
    head = before[before.rfind("fn ") :]
    for p in re.findall(r"\b(\w+): &(?:'\w+ )?mut\b", head):
        clause = clause.replace(p + ".exit.now", p + ".new")
        clause = clause.replace(p + ".entry.now", p + ".old")
        if clause.startswith("requires"):
            clause = re.sub(r"\b%s\.now\b" % p, p + ".old", clause)
    return clause


def turn_rust(text, names):
    """In Rust the clauses and the ghost items alone."""
    out, at = [], 0
    for m in re.finditer(
        r"ghost use [^;]*;|\b(?:requires|ensures)(?: \w+)? \{|//[^\n]*", text
    ):
        if m.start() < at:
            continue
        end = m.end()
        if m[0].endswith("{"):
            depth = 1
            while depth:
                depth += {"{": 1, "}": -1}.get(text[end], 0)
                end += 1
        clause = turn(text[m.start() : end], names)
        out += [text[at : m.start()], references(clause, text[: m.start()])]
        at = end
    return "".join(out) + text[at:]


def main(argv):
    if argv == ["--docs"]:
        known = set()
        for path in files("crates", ".antt"):
            if is_lemmas(path):
                known |= {n for m in DECLARED.finditer(read(path)) for n in m[1].split()}
        for path in files(".", ".md"):
            text = read(path)
            new = re.sub(
                r"`[^`\n]+`",
                lambda m: WORD.sub(
                    lambda w: snake(w[0]) if snake(w[0]) in known else w[0], m[0]
                ),
                text,
            )
            if new != text:
                open(path, "w", encoding="utf-8", newline="").write(new)
                print(path)
        return 0
    names = own_names()
    bad = clash(names)
    for path, new, old, stands in bad:
        print(
            f"{path}: {', '.join(old)} would be {new}"
            + (", which stands there" if stands else "")
        )
    if bad:
        return 1
    n = 0
    for path in files("crates", ".antt", ".rt", ".edit"):
        text = read(path)
        new = (turn_rust if path.endswith(".rt") else turn)(text, names)
        if path.endswith(".antt") or re.search(
            r"crates/(finder|boundary)/src/lib.rt", path
        ):
            new = no_tactics(new)
        if new != text:
            n += 1
            open(path, "w", encoding="utf-8", newline="").write(new)
    print(f"{len(names)} names, {n} files")
    return 0


if __name__ == "__main__":
    raise SystemExit(main(sys.argv[1:]))
