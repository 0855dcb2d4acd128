#!/usr/bin/env python3
"""Turns proofs of the older form, a Proof.antt that hands each goal to the generated walk, to Invariants.antt and Answers.antt.

usage: walks_to_answers.py NAMES CRATE [FUNCTION..]

It was run once over each crate, after port.py and snake_names.py. NAMES is the names.json that `rt check --generated DIR --old-names` writes
in the crate's folder CRATE. Answers that the check finds alone are left out. A function whose walk it cannot read is left as it is and named.
"""
import json
import os
import re
import sys

TRIVIAL = {"search rules", "omega arith", "search needs"}


def norm(name):
    return re.sub(r"_lem$", "", name).replace("_", "-").lower()


def split_args(text):
    """The arguments of an application: parts in brackets, and bare words."""
    args, at, depth, start = [], 0, 0, None
    while at < len(text):
        ch = text[at]
        if ch in "([{":
            if depth == 0 and start is None:
                start = at
            depth += 1
        elif ch in ")]}":
            depth -= 1
        elif ch.isspace() and depth == 0:
            if start is not None:
                args.append(text[start:at])
                start = None
        elif start is None:
            start = at
        at += 1
    if start is not None:
        args.append(text[start:])
    return args


class Function:
    def __init__(self, entry, path):
        self.e = entry
        self.path = path
        self.parent, self.step, self.new_place = {}, {}, {}
        for (old, parent, step, _callee, fields), new in zip(entry["places"], entry["places_by_name"]):
            self.parent[old] = parent
            self.step[old] = (step[0], step[1], dict(fields))
            self.new_place[old] = new
        self.places = {norm(p): p for p in self.parent}
        self.left = []
        self.aliases = set()

    def chain(self, place):
        while place is not None:
            yield place
            place = self.parent.get(place)

    def find(self, place, word):
        for p in self.chain(place):
            old, new, fields = self.step[p]
            if old and norm(old) == norm(word):
                return new, fields
        # a step that has lost its number
        bare = re.sub(r"\d+$", "", word)
        found = [p for p in self.chain(place) if re.sub(r"\d+$", "", norm(self.step[p][0] or "")) == norm(bare)]
        if len(found) == 1:
            return self.step[found[0]][1], self.step[found[0]][2]
        return None, {}

    def term(self, text, place, helpers, goal, names=("c",)):
        """A term over the record c of a place, with the steps' names of today and no way up by `before`."""
        names = set(names)
        # helpers that only go up to a place
        if self.aliases:
            al = "|".join(sorted(map(re.escape, self.aliases), key=len, reverse=True))
            place_ = r"[\w'-]+(?:\.before)*"
            while True:
                new = re.sub(rf"\((?:{al}) (?:\({place_}\)|{place_})\)", "c", text)
                new = re.sub(rf"let ([\w'-]+) = (?:{al}) (?:\({place_}\)|{place_}) in", r"let \1 = c in", new)
                if new == text:
                    break
                text = new
        # names of places
        for m in re.finditer(r"let ([\w'-]+) = ([\w'-]+)((?:\.before)*) in", text):
            if m[2] in names and m[1] not in names:
                names.add(m[1])
        base = "|".join(sorted(map(re.escape, names), key=len, reverse=True))

        def helped(m):
            h = m[1]
            target = self.new_place[helpers[h]]
            if helpers[h] == place:
                return f"{h} c"
            return f"{h} (goal.at.{goal} c).{target}" if goal else f"{h} {self.up(place, helpers[h])}"

        if helpers:
            hs = "|".join(sorted(map(re.escape, helpers), key=len, reverse=True))
            text = re.sub(rf"(?<![\w.'-])({hs}) (?:{base})(?:\.before)*(?![\w.'-])", helped, text)

        def step(m):
            word, field = m[2], m[3]
            if word in ("args", "before", "lifetimes", "requires", "ranges", "type_inv", "new"):
                return f"c.{word}" + (f".{field}" if field else "")
            field = {"inv": "invariant", "pre": "requires", "left": "false", "right": "true"}.get(field, field)
            if word == "pre":
                return "c.requires" + (f".{field}" if field else "")
            new, fields = self.find(place, word)
            if new is None:
                self.left.append(f"{goal or place}: {m[0]}")
                return m[0]
            # an arm of a match on numbers
            if re.match(r"in-\d+$", new) and re.search(r"\d$", field or ""):
                field = "is"
            elif new == "in_default" and field == "rest":
                return "c.in_default.in_default-own.rest"
            if field:
                field = fields.get(field, field)
            return f"c.{new}" + (f".{field}" if field else "")

        # what a value is in an arm, which was told after the arm
        def told(m):
            chain = list(self.chain(place))
            at = [i for i, p in enumerate(chain) if norm(self.step[p][0]) == norm(m[2])]
            arms = [self.step[p][1] for p in chain[at[0] if at else 0 :] if self.step[p][1].startswith("in-")]
            if not arms:
                self.left.append(f"{goal or place}: {m[0]}")
                return m[0]
            return f"c.{arms[0]}.is"

        text = re.sub(rf"(?<![\w.'-])({base})(?:\.before)*\.(?!before)([\w'-]+)\.given\.1(?![\w'-])", told, text)
        text = re.sub(rf"(?<![\w.'-])({base})(?:\.before)*\.(?!before|in-)([\w'-]+)(?:\.([\w'-]+))?", step, text)
        others = names - {"c"}
        if others:
            ob = "|".join(sorted(map(re.escape, others), key=len, reverse=True))
            text = re.sub(rf"let (?:{ob}) = (?:{base})(?:\.before)* in\s*", "", text)
        text = re.sub(r"(?<![\w.'-])c(?:\.before)+(?![\w.'-])", "c", text)
        text = text.replace("search needs", "search rules")
        return text

    def up(self, place, target):
        n = list(self.chain(place)).index(target) if target in self.chain(place) else None
        if n is None:
            self.left.append(f"{place}: the way to {target}")
            return "c"
        return "c" + ".before" * n


def items(text):
    """The head (comments and imports) and the declarations, each as its lines."""
    lines = text.split("\n")
    head, out, cur = [], [], []
    for i, l in enumerate(lines):
        if not out and not cur and (l.startswith("use ") or (l.startswith("--") and not any(h.startswith("use ") for h in head))):
            head.append(l)
        elif l.strip() == "":
            if cur:
                out.append(cur)
                cur = []
        else:
            cur.append(l)
    if cur:
        out.append(cur)
    # a continued import
    return head, out


def imports(head, crate, function):
    kept = []
    for l in head:
        l = l.replace("borrow.Author.{Needs.needs, ", "borrow.Author.{Rules.rules, ").replace(", Needs.needs}", ", Rules.rules}").replace("borrow.Author.Needs.{needs}", "borrow.Author.Rules.{rules}")
        if not l.startswith("use "):
            continue
        if re.search(r"\.Tie as tie", l):
            continue
        l = re.sub(r",\s*[\w.]*?Statement\.(\{statement\}|statement)", "", l)
        if "Statement" in l:
            if "{" in l and re.search(r"\{[\w.]*Statement", l):
                l = re.sub(r"\{[\w.]*Statement\.(\{statement\}|statement),\s*", "{", l)
            else:
                continue
        kept.append(l)
    return kept


def convert(entry, path, crate, rel):
    text = open(path, encoding="utf-8").read()
    if "tie.spec" not in text and "tie.close" not in text:
        return "no walk of the generated form"
    f = Function(entry, path)
    head, decls = items(text)
    about = [l for l in head if l.startswith("--")]
    uses = imports(head, crate, rel)
    goal_path = f"Rattle.{crate}.proofs.{rel.replace('/', '.')}"
    invs, answers, answered = [], [], {}
    helpers, final, pure = {}, None, []
    loops = {norm(o[0]): (o[1], names, f.e["changed"][i] if i < len(f.e["changed"]) else []) for i, (o, names) in enumerate(f.e["loops"])}
    needs = f.e["needs"]
    by_need = {}
    for (old, new), (place, _n) in zip(needs, f.e["asked_at"]):
        by_need[norm(old)] = (new, place)
    places_used = set()
    for d in decls:
        comments = [l for l in d if l.startswith("--")]
        body = [l for l in d if not l.startswith("--")]
        if not body:
            continue
        sig = body[0]
        m = re.match(r"(abbrev )?(pub )?([^\s:]+) :(.*)$", sig, re.S)
        if not m:
            return f"a declaration that is not read: {sig}"
        name = m[3]
        # a signature over several lines
        k = 1
        while k < len(body) and not re.match(rf"(unfolding |{re.escape(name)}[ =])", body[k]):
            k += 1
        type_ = m[4] + ("\n" + "\n".join(body[1:k]) if k > 1 else "")
        rest = body[k:]
        unf = [l for l in rest if l.startswith("unfolding ")]
        eqs = [l for l in rest if not l.startswith("unfolding ")]
        if re.match(r"(invariant|decreases|measure)-", name):
            kind, lname = re.match(r"(invariant|decreases|measure)-?(.*)$", name).groups()
            lp = loops.get(norm(lname))
            if not lp:
                return f"no loop {lname}"
            new, lvars, changed = lp
            eq = "\n".join(eqs)
            mm = re.match(rf"{re.escape(name)}((?: [^\s=]+)*) =(.*)$", eq, re.S)
            params, b = mm[1].split(), mm[2]
            sub = {}
            for p in params:
                if p.endswith("₀"):
                    sub[p] = "l.initial." + p[:-1]
                elif p != "_":
                    sub[p] = "l." + p
            if len(params) == len(lvars) + sum(map(bool, changed)):
                for i, v in enumerate(lvars):
                    sub[params[i]] = ("l.initial." if i < len(changed) and changed[i] else "l.") + v
                ch = [v for i, v in enumerate(lvars) if i < len(changed) and changed[i]]
                for p, v in zip(params[len(lvars) :], ch):
                    sub[p] = "l." + v
            if sub:
                ps = "|".join(sorted(map(re.escape, sub), key=len, reverse=True))
                b = re.sub(rf"(?<![\w.'₀-])({ps})(?![\w'₀-])", lambda x: sub[x[1]], b)
            live = "l"
            if re.search(r"λ [^.]*(?<![\w'])l(?![\w'])", eq):
                live = "live"
                b = re.sub(r"(?<![\w.'-])l\.(initial\.)?(" + "|".join(map(re.escape, sorted(set(lvars), key=len, reverse=True))) + r")(?![\w'])", r"live.\1\2", b)
            invs.append(comments + [f"abbrev pub {kind}-{new} : goal.{kind}-{new}"] + unf + [f"{kind}-{new} {live} ={b}"])
            continue
        if name.endswith("spec") and "statement" in type_:
            final = (unf, "\n".join(eqs))
            continue
        mm = re.match(r"\s*tie\.Need-(\S+)(.*)$", type_, re.S)
        if mm:
            key = norm(mm[1])
            if key not in by_need:
                like = [k for k in by_need if re.sub(r"(overflow-|-\d+$)", "", k) == re.sub(r"(overflow-|-\d+$)", "", key)]
                if len(like) == 1:
                    key = like[0]
            if key not in by_need:
                f.left.append(f"no goal {mm[1]} for {name}")
                answers.append(comments + [f"-- LEFT {name} : {mm[1]}"] + ["-- " + l for l in unf + eqs])
                answered[name] = None
                continue
            new, place = by_need[key]
            answered[name] = new
            eq = "\n".join(eqs)
            if not unf and re.sub(rf"^{re.escape(name)}[^=]*=", "", eq).strip() in TRIVIAL:
                continue
            e = re.match(rf"{re.escape(name)}(.*?) =(.*)$", eq, re.S)
            params = e[1].replace(" κs", "")
            c = params.split()[0] if params.split() else "c"
            b = f.term(e[2], place, helpers, new, (c,))
            if c != "c":
                params = params.replace(c, "c", 1)
            answers.append(comments + [f"pub {new} : goal.{new}"] + unf + [f"{new}{params} ={b}"])
            continue
        if "tie." in type_:
            if re.match(r"\s*tie\.[^→]*→ tie\.[^→]*$", type_):
                f.aliases.add(name)
                continue
            ms = re.findall(r"\((\w+) : tie\.([\w'-]+)[^()]*\)", type_)
            if len(ms) != 1 or norm(ms[0][1]) not in f.places:
                f.left.append(f"{name}: {type_.strip()[:80]}")
                answers.append(comments + ["-- LEFT"] + body)
                continue
            place = f.places[norm(ms[0][1])]
            if re.search(r"→ tie\.", type_) and re.search(rf"{re.escape(name)} [\w'-]+ = [\w'-]+(\.before)*$", "\n".join(eqs)):
                f.aliases.add(name)
                continue
            helpers[name] = place
            new = f.new_place[place]
            places_used.add(new)
            t = re.sub(r"\((\w+) : tie\.([\w'-]+)[^()]*\)", f"(c : {new})", type_)
            mt = re.match(r"(.*?\(c : [^()]*\))(.*)$", t, re.S)
            t = mt[1] + f.term(mt[2], place, {k: v for k, v in helpers.items() if k != name}, None, (ms[0][0],))
            for x in re.findall(r"tie\.([\w'-]+)", t):
                places_used.add(f.new_place.get(f.places.get(norm(x), ""), ""))
            places_used.discard("")
            t = re.sub(r"tie\.([\w'-]+)[^()→]*", lambda x: f.new_place.get(f.places.get(norm(x[1]), ""), x[0]), t)
            eq = "\n".join(eqs)
            e = re.match(rf"{re.escape(name)}(.*?) =(.*)$", eq, re.S)
            b = f.term(e[2], place, {k: v for k, v in helpers.items() if k != name}, None, (e[1].split()[0],))
            answers.append(comments + [f"{(m[1] or '')}{name} :{t}"] + unf + [f"{name} c{e[1].strip()[len(e[1].split()[0]):]} ={b}"])
            continue
        pure.append((name, d))
        answers.append(d)
    if final:
        unf, eq = final
        mm = re.search(r"tie\.spec(.*)$", eq, re.S)
        if mm:
            body = mm[1].rstrip()
            # the bracket that closes `(tie.spec`
            depth, end = 0, len(body)
            for i, ch in enumerate(body):
                if ch in "([{":
                    depth += 1
                elif ch in ")]}":
                    depth -= 1
                    if depth < 0:
                        end = i
                        break
            args = split_args(body[:end])
            args = [a for a in args if not re.match(r"(invariant|decreases|measure)-", a)]
            order = [n[1] for n in needs]
            spots = assign(args, order, answered, f)
            for a, new in spots:
                if new is None:
                    if a.startswith("(") and not trivial(a) and not re.search(r"\. (refl|[\w.]*\.given)\)$", a):
                        f.left.append(f"an answer with no goal: {a[:100]}")
                        answers.append(["-- LEFT " + a.replace("\n", " ")])
                    continue
                if a in answered or trivial(a):
                    continue
                place = next(p for (o, n), (p, _x) in zip(needs, f.e["asked_at"]) if n == new)
                lam = re.match(r"\(λ (.*?)\. (.*)\)$", a, re.S)
                if lam:
                    params = " " + lam[1].replace(" κs", "")
                    b = lam[2]
                else:
                    params, b = " c", f"{a} c"
                u = list(unf)
                um = re.match(r"unfold ([^()]*?) in (.*)$", b, re.S)
                if um:
                    u = ["unfolding " + um[1]]
                    b = um[2]
                c = params.split()[0]
                b = f.term(b, place, helpers, new, (c,))
                if c != "c":
                    params = params.replace(c, "c", 1)
                answers.append([f"pub {new} : goal.{new}"] + u + [f"{new}{params} = {b}"])
    # what an invariant cites stands beside it
    shared = []
    for name, d in reversed(pure):
        said = "\n".join("\n".join(i) for i in invs + [x for _n, x in shared])
        if re.search(rf"(?<![\w.'-]){re.escape(name)}(?![\w'-])", said):
            answers.remove(d)
            public = []
            for l in d:
                if re.match(rf"(abbrev )?{re.escape(name)}\s*:", l):
                    l = re.sub(r"^(abbrev )?", r"\1pub ", l)
                public.append(l)
            shared.insert(0, (name, public))
    invs = [d for _n, d in shared] + invs
    folder = os.path.dirname(path)
    if invs:
        with open(os.path.join(folder, "Invariants.antt"), "w", encoding="utf-8") as out:
            out.write("\n".join(about + uses + [f"use {goal_path}.Given as goal", ""]) + "\n" + "\n\n".join("\n".join(i) for i in invs) + "\n")
    if answers:
        more = [f"use {goal_path}.Invariants.{{{', '.join(n for n, _d in shared)}}}"] if shared else []
        more += [f"use {goal_path}.Goals.{{{', '.join(sorted(places_used))}}}"] if places_used else []
        with open(os.path.join(folder, "Answers.antt"), "w", encoding="utf-8") as out:
            out.write("\n".join(about + uses + [f"use {goal_path}.Goals as goal"] + more + [""]) + "\n" + "\n\n".join("\n".join(a) for a in answers) + "\n")
    os.remove(path)
    return f.left


def trivial(a):
    lam = re.match(r"\(λ [^.]*\. (.*)\)$", a, re.S)
    return bool(lam) and lam[1].strip() in TRIVIAL


def fits(arg, goal):
    """How well an argument of a walk fits a goal, by its form alone."""
    requires = bool(re.search(r"requires(-|$)", goal))
    lam = re.match(r"\(λ ([^.]*)\. (.*)\)$", arg, re.S)
    if lam:
        if (" κs" in " " + lam[1]) != requires:
            return None
        if requires:
            return 2
        if lam[2].strip() in TRIVIAL:
            return 2 if not goal.startswith(("returns", "loop-")) else 1
        if lam[2].strip() == "refl" or lam[2].strip().endswith(".given"):
            return 2 if goal.startswith("shape_of") else 0.2
        return 3 if goal.startswith(("returns", "loop-")) else 0.5
    return 1 if goal.startswith(("returns", "loop-")) else 0.3


def assign(args, order, answered, f):
    """Each argument of the walk with today's goal: by place where there are as many, and else by the best match that keeps the order."""
    if len(args) == len(order):
        return list(zip(args, order))
    n, m = len(args), len(order)
    best = [[0.0] * (m + 1) for _ in range(n + 1)]
    for i in range(n - 1, -1, -1):
        for j in range(m - 1, -1, -1):
            a = args[i]
            w = (100 if answered.get(a) == order[j] else None) if a in answered else fits(a, order[j])
            best[i][j] = max(best[i + 1][j], best[i][j + 1], -1 if w is None else best[i + 1][j + 1] + w)
    out, i, j = [None] * n, 0, 0
    while i < n and j < m:
        a = args[i]
        w = (100 if answered.get(a) == order[j] else None) if a in answered else fits(a, order[j])
        if w is not None and best[i][j] == best[i + 1][j + 1] + w:
            out[i] = order[j]
            i, j = i + 1, j + 1
        elif best[i][j] == best[i + 1][j]:
            i += 1
        else:
            j += 1
    return list(zip(args, out))


def main(argv):
    names = json.load(open(argv[0], encoding="utf-8"))
    crate_dir = argv[1].rstrip("/")
    crate = os.path.basename(os.path.abspath(crate_dir))
    only = set(argv[2:])
    pre = f"Rattle-{crate}-proofs."
    table = {k[len(pre) : -len(".Lts")]: v for k, v in names.items() if k.startswith(pre) and k.endswith(".Lts")}
    for folder, _dirs, fs in os.walk(os.path.join(crate_dir, "proofs")):
        if "Proof.antt" not in fs:
            continue
        rel = os.path.relpath(folder, os.path.join(crate_dir, "proofs"))
        key = rel.replace("/", ".")
        if only and key not in only:
            continue
        if key not in table:
            print(f"{key}: no names")
            continue
        try:
            left = convert(table[key], os.path.join(folder, "Proof.antt"), crate, rel)
        except (AttributeError, IndexError, StopIteration, KeyError, TypeError) as e:
            left = f"not read: {e!r}"
        if left:
            print(f"{key}: {left}")


if __name__ == "__main__":
    main(sys.argv[1:])
