#!/usr/bin/env python3
"""Brings the must-fail edits (crates/*/must-fail, tests/wrong-programs) to the spelling that port.py and snake_names.py give the crates.

usage: turn_edits.py OLD WORK TODAY

It was run once. OLD is a clone at the last commit in the old spelling, WORK an empty folder, TODAY the checkout whose files the edits must
fit; the turned edits are written below WORK/out. Edits that lie apart are applied together to a copy of OLD, which then goes through port.py,
snake_names.py and rt fmt, as does a copy without edits: the lines in which the two differ are the new texts. It prints the pairs that are left
to do by hand: where rt fmt lays the changed text out over more lines, or a text does not stand once in TODAY's file. A pair's text may come
out longer or shorter than the old one; the edits that were kept have some of these ends set by hand.
"""
import difflib
import glob
import os
import re
import shutil
import subprocess
import sys

# The folder of the toolchain: `rt doc` prints the path of a page in it.
KIT = os.path.dirname(subprocess.run(["rt", "doc"], capture_output=True, text=True, check=True).stdout.strip())
APART = 8
WORD = re.compile(r"[^\W_][\w'′]*(?:-[^\W_][\w'′]*)*|\S")
NAMES = re.compile(r"(?<![\w-])[a-z]+(?:-[a-z]+)+(?![\w-])")


def read(path):
    with open(path, encoding="utf-8") as f:
        return f.read()


def pairs(root, edit):
    """The pairs of an edit: the file below root, its line, the old and the new text."""
    crate = edit.split("/")[1 if edit.startswith("crates/") else 2]
    lines, file, old = {}, "", ""
    for l in read(f"{root}/{edit}").split("\n"):
        if l.startswith("file: "):
            file = f"crates/{crate}/{l[6:]}"
        elif l.startswith("old: "):
            old = l[5:]
        elif l.startswith("new:"):
            text = lines.setdefault(file, read(f"{root}/{file}"))
            yield file, text[: text.index(old)].count("\n"), old, l[5:]
            lines[file] = text.replace(old, l[5:])


def batches(root, edits):
    made = []
    for e in edits:
        ps = list(pairs(root, e))
        for b in made:
            if not any(p[0] == q[0] and abs(p[1] - q[1]) <= APART for p in ps for _, qs in b for q in qs):
                b.append((e, ps))
                break
        else:
            made.append([(e, ps)])
    return made


def turn(root, to, batch):
    """A copy of root with a batch applied, turned."""
    shutil.copytree(root, to, symlinks=True)
    for _, ps in batch:
        for file, at, old, new in ps:
            lines = read(f"{to}/{file}").split("\n")
            lines[at] = lines[at].replace(old, new)
            with open(f"{to}/{file}", "w", encoding="utf-8") as f:
                f.write("\n".join(lines))
    subprocess.run(["git", "commit", "-qam", "batch"] if batch else ["true"], cwd=to, check=True)
    subprocess.run([sys.executable, f"{KIT}/port/port.py"], cwd=to, check=True, stdout=subprocess.DEVNULL)
    subprocess.run([sys.executable, f"{os.path.dirname(os.path.realpath(__file__))}/snake_names.py", to], check=True)
    for crate in glob.glob(f"{to}/crates/*/"):
        subprocess.run([f"{KIT}/bin/rt", "fmt"], cwd=crate, stdout=subprocess.DEVNULL, stderr=subprocess.DEVNULL)


def places(old, new):
    """For each line of the old text about where it stands in the new one."""
    bare = [[re.sub(r"[^a-z0-9≡∷≤<+*=]|now", "", l.lower()) for l in t] for t in (old, new)]
    at = [0] * len(old)
    for _, i1, i2, j1, j2 in difflib.SequenceMatcher(None, *bare, autojunk=False).get_opcodes():
        for i in range(i1, i2):
            at[i] = j1 + (i - i1) * (1 if i2 - i1 == j2 - j1 else (j2 - j1) / (i2 - i1))
    return at


def part(line, old, was, now):
    """What stands in `was`, the line turned, for the part `old` of the old line, and in `now` for the new text."""
    start = line.index(old)
    words = [[m for m in WORD.finditer(t) if m[0] not in "()"] for t in (line, was)]
    own = [i for i, m in enumerate(words[0]) if m.start() < start + len(old) and m.end() > start]
    if len(words[0]) != len(words[1]) or not own:
        return was.strip(), now.strip()
    i, j = words[1][own[0]].start(), words[1][own[-1]].end()
    i = min(i, len(os.path.commonprefix([was, now])))
    while i > 0 and (was[i - 1] + was[i]).replace("_", "a").isalnum():
        i -= 1
    while j < len(was) and (not now.endswith(was[j:]) or len(now) < i + len(was) - j or was[i:j].count("(") > was[i:j].count(")")):
        j += 1
    return was[i:j], now[i : len(now) - (len(was) - j)]


def main(old, work, today):
    edits = [os.path.relpath(e, old) for e in sorted(glob.glob(f"{old}/crates/*/must-fail/*.edit") + glob.glob(f"{old}/tests/wrong-programs/*/*.edit"))]
    made = batches(old, edits)
    turn(old, f"{work}/0", [])
    for k, batch in enumerate(made, 1):
        turn(old, f"{work}/{k}", batch)
    left = 0
    for k, batch in enumerate(made, 1):
        for edit, ps in batch:
            texts, done = {}, []
            for file, at, o, n in ps:
                a, was, now = (read(f"{r}/{file}").split("\n") for r in (old, f"{work}/0", f"{work}/{k}"))
                here = places(a, was)[at]
                near = [h for h in difflib.SequenceMatcher(None, was, now, autojunk=False).get_opcodes() if h[0] != "equal" and h[1] - 4 <= here <= h[2] + 3]
                try_ = [(o, n)]
                if len(near) == 1 and near[0][2] - near[0][1] == near[0][4] - near[0][3]:
                    _, i, i2, j, _ = near[0]
                    d = int(here) - i if i2 - i > 1 and i <= here < i2 else 0
                    try_ += [part(a[at], o, was[i + d], now[j + d]), (was[i + d].strip(), now[j + d].strip())]
                    if try_[1] != tuple(t.strip() for t in (o, n)):
                        del try_[0]
                text = texts.get(file) or read(f"{today}/{file}")
                found = [t for t in try_ if text.count(t[0]) == 1 and t[0] != t[1]]
                if not found:
                    print(f"by hand: {edit}: {file}: {o!r} to {n!r}")
                    left += 1
                    break
                texts[file] = text.replace(*found[0])
                done += [f"old: {found[0][0]}", f"new: {found[0][1]}"]
            else:
                out, next_ = [], iter(done)
                for l in read(f"{old}/{edit}").split("\n"):
                    out.append(NAMES.sub(lambda m: m[0].replace("-", "_"), l) if l.startswith("#") else next(next_) if re.match("old: |new:", l) else l)
                os.makedirs(os.path.dirname(f"{work}/out/{edit}"), exist_ok=True)
                with open(f"{work}/out/{edit}", "w", encoding="utf-8") as f:
                    f.write("\n".join(out))
    print(f"{len(edits)} edits in {len(made)} batches, {left} by hand")


if __name__ == "__main__":
    main(*sys.argv[1:])
