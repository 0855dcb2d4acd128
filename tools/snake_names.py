#!/usr/bin/env python3
"""Brings the repository's own definitions and lemmas to snake case: hasRoom and has-room become has_room, Plays-on becomes PlaysOn.

usage: snake_names.py [--list] [ROOT]

It was run once, straight after the toolchain's port.py. ROOT (default: the folder above this one) holds crates/. A name is turned where a file of
specs/ or proofs/ declares it; a type keeps its capitals. In .antt files each word that is such a name is turned, in .rt files too (Rust
has no names of that form), but for what stands in quotes; in comments and pages only names in backticks, and names with a capital inside.
--list prints the old and the new names, and those that fall together, and writes nothing.
"""
import collections
import os
import re
import sys

WORD = re.compile(r"[^\s(){}.;,@\"«»`\[\]\\]+")
STRING = re.compile(r'b?"(?:[^"\\]|\\.)*"')
DECLARED = re.compile(r"^(\s*)(?:unfoldable |abbrev )?(?:pub )?(?:data |record )?([^\s(){}.;,@\"«»`\[\]\\:|λ]+)\s*(?::|\(.*:|\{.*:|$)")
NOT_NAMES = ("--", "use ", "pub use ", "mod ", "pub mod ", "rw", "where", "record {", "let ", "module ", "unfolding ")
# Generated names, in the walks by hand, which are turned with their files.
GENERATED = re.compile(r"^(Need|After|Then|Else|At|In)-|^(invariant|decreases|measure)-|^loop-(holds|again|init)|^returns(-|$)")
# Lemmas whose name port.py had turned already, and which a definition's name meets in the same file.
LEMMAS = {
    "crates/protocol/proofs/Order/Steps.antt": ["at_copy", "at_slot", "core_at", "same_version"],
    "crates/protocol/proofs/Order/Invariant.antt": ["core_at"],
    "crates/protocol/proofs/Order/Look.antt": ["core_at"],
    "crates/protocol/proofs/Order/Rows.antt": ["same_version"],
    "crates/protocol/proofs/Written.antt": ["core_at"],
    "crates/protocol/proofs/Digits.antt": ["is_digit"],
    "crates/tables/proofs/Looking.antt": ["one_more"],
}
# Names that stand beside another one of their line, or that an import gives.
MORE = (
    "inShared inPrivate opensPieces failsPieces atLast wholeLine ofReading ofMalformed failsListing isStep isEnd capTold capGot saysOpening "
    "opensListing isAccepted atEndOf"
).split()
PAGES = ["README.md", "docs/ARCHITECTURE.md", "docs/DECISIONS.md", "docs/MODEL.md", "tests/theorems.txt", "examples/README.md"]


def files(root, *ends):
    for folder, dirs, names in os.walk(os.path.join(root, "crates")):
        dirs[:] = sorted(d for d in dirs if d not in ("out", "must-fail"))
        for n in sorted(names):
            if n.endswith(ends):
                yield os.path.join(folder, n)


def declared(root):
    found = collections.defaultdict(set)
    for p in files(root, ".antt"):
        with open(p, encoding="utf-8") as f:
            for line in f:
                if line.strip().startswith(NOT_NAMES):
                    continue
                m = DECLARED.match(line)
                if m and len(m[1]) <= 6:
                    found[m[2]].add(os.path.relpath(p, root))
    return found


def imported(root):
    """Names that come from the library."""
    names = set()
    for p in files(root, ".antt", ".rt"):
        with open(p, encoding="utf-8") as f:
            for line in f:
                line = line.strip()
                m = re.match(r"(?:ghost )?use ([^;]*)", line)
                if m and (not m[1].startswith("Rattle.") or m[1].startswith("Rattle.std")):
                    names.update(WORD.findall(m[1]))
    return names


def turned(name):
    if name[0].isupper():
        return "".join(w[0].upper() + w[1:] for w in name.split("-")) if "-" in name and not name.endswith("-wf") else name
    name = re.sub(r"([A-Z]+)", lambda m: "_" + m[1].lower(), name)
    return re.sub(r"_+", "_", name.replace("-", "_"))


def table(root):
    names, library = declared(root), imported(root)
    t = {}
    for n in names:
        if GENERATED.search(n) or n in library or not re.match(r"[A-Za-z]", n) or re.search(r"[◌·₀-₉₁]", n):
            continue
        m = turned(n)
        if m != n:
            t[n] = m
    t.update((n, turned(n)) for n in MORE)
    t["isStep"] = "is_step_here"
    # A lemma that would have a definition's name ends in _lem.
    camel = {b for a, b in t.items() if "-" not in a}
    for a, b in t.items():
        if "-" in a and (b in names or b in camel):
            t[a] = b + "_lem"
    return t, names, library


def clashes(t, names, library):
    into = collections.defaultdict(list)
    for a, b in t.items():
        into[b].append(a)
    for b, olds in sorted(into.items()):
        if len(olds) > 1 or b in names or b in library:
            yield b, olds, b in names, b in library


def in_text(text, t):
    """Words of a line of code, but for strings."""
    out, at = [], 0
    for m in STRING.finditer(text):
        out += [WORD.sub(lambda w: t.get(w[0], w[0]), text[at : m.start()]), m[0]]
        at = m.end()
    return "".join(out) + WORD.sub(lambda w: t.get(w[0], w[0]), text[at:])


def in_prose(text, t):
    text = re.sub(r"`[^`]*`", lambda m: in_text(m[0], t), text)
    inner = {a: b for a, b in t.items() if re.search("[a-z][A-Z]", a)}
    return WORD.sub(lambda w: inner.get(w[0], w[0]), text)


def in_line(line, t, comment):
    at = line.find(comment)
    if at < 0 or line.count('"', 0, at) % 2:
        return in_text(line, t)
    return in_text(line[:at], t) + in_prose(line[at:], t)


def main(argv):
    dry = "--list" in argv
    argv = [a for a in argv if a != "--list"]
    root = argv[0] if argv else os.path.dirname(os.path.dirname(os.path.realpath(__file__)))
    t, names, library = table(root)
    bad = list(clashes(t, names, library))
    if dry:
        for a, b in sorted(t.items()):
            print(a, b)
        for b, olds, own, std in bad:
            print("together:", b, olds, "declared" if own else "", "library" if std else "")
        return 0
    for p in files(root, ".antt", ".rt"):
        comment = "--" if p.endswith(".antt") else "//"
        with open(p, encoding="utf-8") as f:
            old = f.read()
        own = t | {n: n + "_lem" for n in LEMMAS.get(os.path.relpath(p, root), [])}
        new = "".join(in_line(l, own, comment) for l in old.splitlines(keepends=True))
        if new != old:
            with open(p, "w", encoding="utf-8") as f:
                f.write(new)
    for page in PAGES:
        p = os.path.join(root, page)
        if os.path.exists(p):
            with open(p, encoding="utf-8") as f:
                old = f.read()
            # Pages also have names that port.py turned in the files.
            words = {w for w in WORD.findall(old) if re.fullmatch(r"[a-z]\w*[A-Z]\w*", w) and turned(w) in names}
            own = {w: turned(w) for w in words} | t
            new = in_prose(old, own) if page.endswith(".md") else in_text(old, own)
            if new != old:
                with open(p, "w", encoding="utf-8") as f:
                    f.write(new)
    return 0


if __name__ == "__main__":
    sys.exit(main(sys.argv[1:]))
