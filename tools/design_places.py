#!/usr/bin/env python3
"""Counts the places of docs/DESIGN-PASS.md in crates/*/src: design_places.py [COMMIT] [--list].

Without a commit it reads the checkout. Each point is one or more searches of the text; what a search finds is a place to look at, and
the page says what became of it.
"""
import re
import subprocess
import sys

COMMIT = next((a for a in sys.argv[1:] if not a.startswith("-")), None)
LIST = "--list" in sys.argv


def git(*args):
    return subprocess.run(["git", *args], capture_output=True, text=True, check=True).stdout


def sources():
    """The files of crates/*/src with their text."""
    if COMMIT:
        names = git("ls-tree", "-r", "--name-only", COMMIT, "crates").split()
        return {n: git("show", f"{COMMIT}:{n}") for n in names if re.match(r"crates/\w+/src/.*\.rt$", n)}
    names = git("ls-files", "crates").split()
    return {n: open(n).read() for n in names if re.match(r"crates/\w+/src/.*\.rt$", n)}


FILES = sources()


def lines_with(pattern, but=None):
    """The lines that match, without comments, clauses and imports."""
    found = []
    for name, text in sorted(FILES.items()):
        for i, line in enumerate(text.splitlines(), 1):
            if re.match(r"\s*(//|requires|ensures|ghost |use )", line):
                continue
            if re.search(pattern, line) and not (but and re.search(but, line)):
                found.append(f"{name[7:]}:{i}: {line.strip()}")
    return found


def enums():
    """The enums of the shape of Option (one case with content, one without) or Result (a case named for what is wrong)."""
    found = []
    for name, text in sorted(FILES.items()):
        for m in re.finditer(r"^(?:pub )?enum (\w+)[^{]*\{\n(.*?)^\}", text, re.M | re.S):
            body = re.sub(r"//.*", "", m.group(2))
            cases = re.findall(r"^    (\w+)(\(|\s*\{)?", body, re.M)
            full = [c for c, content in cases if content]
            two = len(cases) == 2 and len(full) == 1
            wrong = any(c == "Refused" and content for c, content in cases)
            if two or wrong:
                found.append(f"{name[7:]}:{text[: m.start()].count(chr(10)) + 1}: enum {m.group(1)}")
    return found


def functions():
    """Each function with its text: file, line, name, head, body."""
    for name, text in sorted(FILES.items()):
        for m in re.finditer(r"^( *)(?:pub(?:\(crate\))? )?(?:extern \"C\" )?fn (\w+)(.*?)^\1\{\n(.*?)^\1\}|^( *)(?:pub(?:\(crate\))? )?fn (\w+)([^\n]*)\{\n(.*?)^\5\}", text, re.M | re.S):
            at = text[: m.start()].count("\n") + 1
            if m.group(2):
                yield name, at, m.group(2), m.group(3), m.group(4)
            else:
                yield name, at, m.group(6), m.group(7), m.group(8)


def bools_by_hand():
    """Functions that answer a test and spell true or false in an arm or a return."""
    return [f"{f[7:]}:{at}: {n}" for f, at, n, head, body in functions() if "-> bool" in head and re.search(r"(=>|return) (true|false)|^ *(true|false)$", body, re.M)]


def twins():
    """Functions whose texts are the same but for names, texts and numbers, of three lines or more."""
    shapes = {}
    for f, at, n, head, body in functions():
        shape = re.sub(r"b?\"[^\"]*\"|b'[^']*'|\b\w+\b", "x", re.sub(r"//.*", "", body))
        shape = re.sub(r"\s+", " ", shape)
        if body.count("\n") >= 3 and len(shape) > 60:
            shapes.setdefault(shape, []).append(f"{f[7:]}:{at}: {n}")
    return [" ~ ".join(v) for v in shapes.values() if len(v) > 1]


def groups():
    """Parameters that stand together in the heads of four functions or more."""
    lists = []
    for f, at, n, head, body in functions():
        inside = head.split("->")[0]
        lists.append(re.findall(r"(\w+): ([^,()]+?)(?=,|\)|\n)", inside))
    seen = {}
    for params in lists:
        for size in (2, 3):
            for i in range(len(params) - size + 1):
                key = tuple(f"{a}: {b.strip()}" for a, b in params[i : i + size])
                seen[key] = seen.get(key, 0) + 1
    return [f"{count} times: " + ", ".join(k) for k, count in sorted(seen.items(), key=lambda x: -x[1]) if count >= 4 and len(k) == 3]


POINTS = [
    ("1 enums of the shape of Option or Result", enums()),
    ("1 a number or an offset where 0 is none", lines_with(r"\b(fault|refusal|number|base|wrong|head|n|a) (!=|==) 0\b")),
    ("1 numbers for refusals: a field, a parameter or a result", lines_with(r"Refused\(u\d+\)|\b(number|fault|refusal|base): u(8|32)\b|(refus\w*|number_of|wrong_data|base_of)\(.*-> u(8|32)")),
    ("2 functions that are the same but for names, texts and numbers", twins()),
    ("3 loops: while and loop", lines_with(r"^\s*(while|loop)\b")),
    ("4 tests by hand: true or false in an arm or a return", bools_by_hand()),
    ("4 conversions by hand: a function that is one `as`", [f"{f[7:]}:{at}: {n}" for f, at, n, head, body in functions() if re.fullmatch(r"\s*\w+ as \w+\s*", body)]),
    ("5 three parameters that stand together in four functions or more", groups()),
    ("6 an array with a length or an offset beside it, as two parameters", lines_with(r"fn \w+.*\b(text|line): &mut \[u8[^\]]*\], (used|end|at): usize")),
    ("7 boxed closures, dyn, function pointers", lines_with(r"\bdyn\b|Box<|: fn\(")),
]
for title, found in POINTS:
    print(f"{len(found):4}  {title}")
    if LIST:
        for line in found:
            print("        " + line)
