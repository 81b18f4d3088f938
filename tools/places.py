#!/usr/bin/env python3
"""places: counts, in crates/*/src/*.rt, the places that docs/DESIGN-PASS.md speaks of. It reads, and changes nothing.

    tools/places.py [POINT]     POINT is 1 to 8; without one, the counts of all. A row is a place to look at, not a fault.
"""
import collections
import glob
import os
import re
import sys

os.chdir(os.path.join(os.path.dirname(os.path.abspath(__file__)), ".."))
ONLY = sys.argv[1] if len(sys.argv) > 1 else ""
FILES = sorted(glob.glob("crates/*/src/*.rt"))


def code(path):
    """A file's lines without comments and without tests."""
    text = open(path, encoding="utf-8").read().split("#[cfg(test)]")[0]
    return [re.sub(r"\s*//.*", "", line) for line in text.split("\n")]


def place(path, n):
    return path[len("crates/"):].replace("/src/", "/") + ":" + str(n)


def say(point, what, rows):
    if ONLY in ("", point):
        print(f"{point} {what}: {len(rows)}")
        if ONLY:
            for row in rows:
                print("   ", row)


def blocks(path, head):
    """Items that begin with a line that fits, to the brace that closes them at the same indent."""
    lines = code(path)
    for i, line in enumerate(lines):
        m = re.match(head, line)
        if m:
            indent = len(line) - len(line.lstrip())
            end = next((j for j in range(i, len(lines)) if lines[j].startswith(" " * indent + "}") or (j == i and lines[j].rstrip().endswith("}"))), i)
            yield i + 1, m, lines[i:end + 1]


def functions(path):
    for n, m, body in blocks(path, r"\s*(?:#\[.*\]\s*)?(?:pub )?(?:extern \"C\" )?(?:const )?fn (\w+)"):
        text = "\n".join(body)
        if "{" in text:
            yield n, m.group(1), text


# ---- 1
option, result, plain, flags, numbers = [], [], [], [], []
for f in FILES:
    for n, m, body in blocks(f, r"(?:pub )?enum (\w+)"):
        variants = [v.strip().rstrip(",") for v in body[1:-1] if v.strip() and not v.strip().startswith("#")]
        row = f"{place(f, n)} {m.group(1)} {{ {', '.join(variants)} }}"
        refused = [v for v in variants if re.match(r"(Refused|Bad|Fail|Over)\b", v)]
        held = [v for v in variants if "(" in v]
        derives = "".join(code(f)[max(0, n - 3):n])
        if refused:
            result.append(row)
        elif len(variants) == 2 and len(held) == 1:
            option.append(row)
        elif "PartialEq" not in derives:
            plain.append(row)
    for n, name, text in functions(f):
        head = text.split("{")[0]
        if re.search(r"-> (u8|u16|u32|u64|usize)\b", text) and re.search(r"(refus|Refusal|unlike|_wrong|Outcome)", text.split("\n")[0] + text) and re.search(r"fn \w*(refus|outcome|told|number|kind)\w*", text):
            numbers.append(f"{place(f, n)} {name}")
    for n, m, body in blocks(f, r"(?:pub )?struct (\w+)"):
        fields = " ".join(body)
        if re.search(r"(refusal|number|outcome|ok|found|fate)\s*:", fields):
            flags.append(f"{place(f, n)} {m.group(1)}")
say("1", "own enums of the shape of Option", option)
say("1", "own enums of the shape of Result", result)
say("1", "structs with a number, an outcome or a fate beside values", flags)
say("1", "functions that answer a refusal or a kind as a number", numbers)
say("1", "other enums without PartialEq among their derives", plain)

# ---- 2
shapes = collections.defaultdict(list)
KEEP = set("if else for in while let mut return match fn pub as self true false".split())
for f in FILES:
    for n, name, text in functions(f):
        body = re.sub(r"\b(requires|ensures)\b[^\n]*\n", "", text)
        body = re.sub(r"b?\"[^\"]*\"", "S", body)
        body = body[body.find("fn "):]
        names = {}

        def fold(m):
            w = m.group(0)
            return w if w in KEEP else names.setdefault(w, f"n{len(names)}")

        body = re.sub(r"\b\d[\w.]*\b", "0", body)
        body = re.sub(r"\b[A-Za-z_]\w*\b", fold, body)
        body = re.sub(r"\s+", " ", body)
        if len(text.split("\n")) >= 5 and len(body) > 90:
            shapes[body].append(f"{place(f, n)} {name}")
twins = [" ~ ".join(v) for v in shapes.values() if len(v) > 1]
say("2", "groups of functions of one shape", twins)

# ---- 3
loops, indexed = [], []
for f in FILES:
    lines = code(f)
    for i, line in enumerate(lines):
        if re.match(r"\s*(?:while|loop)\b", line):
            loops.append(f"{place(f, i + 1)} {line.strip()}")
        m = re.match(r"\s*for (\w+) in .*\.\.", line)
        if m and m.group(1) != "_":
            indent = len(line) - len(line.lstrip())
            end = next((j for j in range(i + 1, len(lines)) if lines[j].startswith(" " * indent + "}")), i)
            if re.search(r"\[[^\]]*\b" + m.group(1) + r"\b[^\]]*\]", "\n".join(lines[i + 1:end])):
                indexed.append(f"{place(f, i + 1)} {line.strip()}")
say("3", "while and loop", loops)
say("3", "for over a range whose body indexes by it", indexed)

# ---- 4
equal, order, convert, chains = [], [], [], []
for f in FILES:
    for n, name, text in functions(f):
        body = text[text.find("{\n"):] if "{\n" in text else text
        if re.search(r"\.(\w+) == \w+\.\1\b", body):
            equal.append(f"{place(f, n)} {name}")
        if re.search(r"if (\w+) < (\w+) \{\s*(?:return )?(\1|\2);?\s*\}(?: else \{)?\s*(\1|\2)", body):
            order.append(f"{place(f, n)} {name}")
        if re.search(r"if [^{}]* \{\s*(?:return )?(1|true);?\s*\}(?: else \{)?\s*(0|false)\b", body):
            convert.append(f"{place(f, n)} {name}")
        if re.search(r"-> bool", text) and re.search(r"\{\s*return (true|false);\s*\}", body) and not re.search(r"\b(while|for|match)\b", body):
            chains.append(f"{place(f, n)} {name}")
say("4", "equality field by field", equal)
say("4", "the lesser or the larger by hand", order)
say("4", "1 and 0 of a test by hand", convert)
say("4", "a boolean expression as returns in turn", chains)

# ---- 5
together, where = collections.Counter(), collections.defaultdict(set)
clauses = collections.defaultdict(set)
for f in FILES:
    for n, name, text in functions(f):
        head = re.split(r"\n\s*(?:requires|ensures)|\)\s*(?:->|\{)", text)[0]
        params = re.findall(r"(\w+): (?:&mut )?(?:&)?[\w\[\]:<>']+", head)
        for clause in re.findall(r"requires \w*\s*\{(.*)\}", text):
            for part in clause.split("×"):
                word = part.strip(" ()")
                if re.match(r"[A-Z]\w+ ", word):
                    clauses[re.sub(r"\.(old|now|new)", "", word)].add(f"{place(f, n)} {name}")
        for group in (("w", "h", "x", "y"), ("number", "place", "parent", "cost", "keys", "idx"), ("blocked", "forced", "goals", "p"), ("blocked", "neighbours", "forced"), ("parent", "rank"), ("keys", "idx"), ("buf", "at")):
            if all(g in params for g in group):
                where[" ".join(group)].add(f"{place(f, n)} {name}")
say("5", "parameters that travel together, three functions or more", [f"{k}: {len(v)} functions" for k, v in sorted(where.items()) if len(v) > 2])
say("5", "facts in the requires of three functions or more", [f"{k}: {len(v)} functions" for k, v in sorted(clauses.items()) if len(v) > 2])

# ---- 6
arrays, pairs = [], []
for f in FILES:
    for n, name, text in functions(f):
        if re.search(r"= \[[^\];]*; [^\]]*\]", text):
            arrays.append(f"{place(f, n)} {name}")
        if re.search(r"(keys: &|goals: &\[i32\]|list: &\[i32\])", text.split("{")[0]):
            pairs.append(f"{place(f, n)} {name}")
say("6", "fixed arrays made in a function", arrays)
say("6", "parallel slices, or points as numbers in turn", pairs)

# ---- 7
switches = []
for f in FILES:
    for n, name, text in functions(f):
        m = re.search(r"match (\w+)[^{]*\{((?:[^{}]|\{[^{}]*\})*)\}", text)
        if m and len(re.findall(r"\d+ => [\w:]+\(", m.group(2))) > 1:
            switches.append(f"{place(f, n)} {name}")
say("7", "a number that chooses which function runs", switches)

# ---- 8
answers, lemmas = [], []
for f in sorted(glob.glob("crates/*/proofs/**/*.antt", recursive=True)):
    text = open(f, encoding="utf-8").read()
    if f.endswith("/Answers.antt"):
        answers += re.findall(r"^pub (\S+) : goal\.", text, re.M)
    elif not f.endswith(("/Invariants.antt", "/Lib.antt")):
        lemmas += re.findall(r"^(?:abbrev )?(?:unfoldable )?(?:pub )?(\S+) : ", text, re.M)
say("8", "answers", answers)
say("8", "lemmas and definitions of proofs/", lemmas)
