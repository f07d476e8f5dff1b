#!/usr/bin/env python3
"""Turns proofs/F/Proof.antt of a crate into Invariants.antt and Answers.antt.

usage: python3 tools/answers.py NAMES CRATE [FUNCTION..]

NAMES is a folder with CRATE/names.json, which `rattle check --generated NAMES/CRATE --old-names` writes: for each goal
and each step of a Proof.antt its name today. An answer that only says `search rules` is left out, since the check
tries that by itself. A proof that walks the code by hand is left as it is.
"""
import glob
import json
import os
import re
import sys

HEAD = re.compile(r"^(abbrev )?(pub )?([^\s:(){}]+) : (.*)$")


def flat(name):
    """A goal's or a step's name without what the scripts before this one have turned in it already."""
    name = name.replace("_", "-").lower()
    return re.sub(r"^bounds-", "index-", re.sub(r"^slice-bounds-", "part-", re.sub(r"^overflow-", "", name)))


def blocks(text):
    """The file's parts: runs of lines that begin at a line with no indentation, after an empty line or at a heading."""
    found = []
    for line in text.split("\n"):
        top = line and not line[0].isspace()
        if top and (line.startswith("--") or HEAD.match(line) or line.startswith(("use ", "module ", "record ", "pub record ", "data ", "pub data ", "abbrev "))):
            if found and found[-1][0].startswith("--") and all(x.startswith("--") for x in found[-1]):
                found[-1].append(line)
            else:
                found.append([line])
        elif found:
            found[-1].append(line)
    return ["\n".join(b).rstrip() for b in found]


class Function:
    def __init__(self, table):
        self.needs = {}
        for (old, new), (place, _) in zip(table["needs"], table["asked_at"]):
            self.needs.setdefault(flat(old), []).append((new, place))
        self.places = {}
        for p in table["places"]:
            self.places.setdefault(p[0], p)
        self.new_place = dict(zip([p[0] for p in table["places"]], table["places_by_name"]))
        self.loops = {flat(old): (new, names, changed) for ((old, new), names), changed in zip(table["loops"], table["changed"])}
        self.table = table
        self.variables = {n for _, names in table["loops"] for n in names}
        self.arms = {p[0]: a for p, a in zip(table["places"], table["arms"]) if a}

    def chain(self, place):
        found = []
        while place is not None and place in self.places and place not in found:
            found.append(place)
            place = self.places[place][1]
        return found

    def path(self, place, ups, fields):
        """The fields behind c today for `fields` of the place that is `ups` before `place`."""
        chain = self.chain(place)
        order = sorted(range(len(chain)), key=lambda i: abs(i - ups))
        base, rest = flat(fields[0]), fields[1:]
        for i in order:     # what an arm of a match binds
            arm = self.arms.get(chain[i])
            for new, old, inner in (arm[2] if arm else []):
                if flat(old) == base and inner and rest[:len(inner)] == inner:
                    return [arm[0], new, *rest[len(inner):]]
        for i in order:
            old, new = self.places[chain[i]][2]
            if old and flat(old) == base:
                arm = self.arms.get(chain[i])
                own = [e[0] for e in (arm[2] if arm else []) if flat(e[1]) == base and not e[2] and e[0].endswith("-own")]
                if own and rest and rest[0] == "rest":
                    return [new, own[0], *rest]
                if len(rest) > 1 and rest[0] in ("new", "auto") and rest[1] in "01":
                    n = 0
                    while n + 1 < len(rest) and rest[n + 1] == "1":
                        n += 1
                    names = self.table["params"].get(self.places[chain[i]][3]) or []
                    if n < len(names):
                        at = n + 2 if n + 1 < len(rest) and rest[n + 1] == "0" else n + 1
                        return [new, rest[0], names[n], *rest[at:]]
                if rest and rest[0] == "new" and len(rest) > 1:
                    rest = ["new", rest[1].replace("-", "_"), *rest[2:]]
                elif rest and rest[0].replace("-", "_") in self.variables:
                    rest = [rest[0].replace("-", "_"), *rest[1:]]
                return [new, *rest]
        if base[-1:].isdigit() and base not in ("args", "ranges"):     # a callee named as a field of the record was counted
            for i in order:
                old, new = self.places[chain[i]][2]
                if old and flat(old) == base.rstrip("0123456789"):
                    return self.path(place, i, [old, *rest])
        if base in ("args", "ranges") and rest:
            rest = [rest[0].replace("-", "_"), *rest[1:]]
        if base in ("args", "ranges") and rest:
            for olds, news in self.table["args"]:
                if olds.split(".")[1:] == [base + " ", rest[0]]:
                    rest = [news.split(".")[-1], *rest[1:]]
                    break
        return [{"type-inv": "type_inv"}.get(fields[0], fields[0]), *rest]


def turn_paths(body, var, fn, place):
    """Every path of `var`, and of a name that a `let` binds to one, by today's names."""
    word = r"[\w'₀-₉-]+"
    aliases = {var: (0, [])}     # a name, how many places before the goal's it is, and the fields that follow
    changed = True
    while changed:
        changed = False
        for a, (ups, fields) in list(aliases.items()):
            for m in re.finditer(r"(?:^|(?<=\s)|(?<=\())let (" + word + r") = " + re.escape(a) + r"((?:\.before)*)((?:\." + word + r")*) in(?=\s)", body):
                if m.group(1) in aliases:
                    continue
                more = [f for f in m.group(3).split(".") if f]
                if fields and m.group(2):
                    continue
                aliases[m.group(1)] = (ups + m.group(2).count(".before"), fields + more)
                if not fields and not more:      # a place: its paths begin at `var` today
                    body = body[:m.start()] + re.sub(r"^\s+", "", body[m.end():])
                changed = True
                break
            if changed:
                break
    for a, (ups, fields) in sorted(aliases.items(), key=lambda x: -len(x[0])):
        def turn(m):
            n = ups + m.group(1).count(".before")
            more = [f for f in (m.group(2) or "").split(".") if f]
            if not fields and not more:
                return var if a == var and not m.group(1) else var + "{-" + str(n) + "-}"
            if not fields:
                return var + "." + ".".join(fn.path(place, n, more))
            if not more or m.group(1):
                return m.group(0)
            head, whole = fn.path(place, n, fields), fn.path(place, n, fields + more)
            return a + "." + ".".join(whole[len(head):]) if whole[:len(head)] == head else var + "." + ".".join(whole)
        body = re.sub(r"(?<![\w.'₀-₉-])" + re.escape(a) + r"((?:\.before)*)(?![\w'₀-₉-])((?:\." + word + r")+)?", turn, body)
    body = re.sub(r"\bnot-(true|false) _ (" + word + r"(?:\." + word + r")*\.\1)(?![\w.'-])", r"\2", body)
    return body.replace(".type-inv", ".type_inv")


def invariant(name, lines, fn, kind):
    """An invariant or a measure over the record of the variables."""
    old = name[len(kind) + 1:]
    key = flat(old)
    if key not in fn.loops:
        return None
    new, names, changed = fn.loops[key]
    text = "\n".join(lines)
    m = re.match(re.escape(name) + r"((?: [^\s=]+)*) =\s*(.*)$", text, re.S)
    if not m:
        return None
    args, body = m.group(1).split(), m.group(2)
    to = {}
    n = len(names)
    later = []
    for i, a in enumerate(args[:n]):
        if a.endswith("₀") or (changed[i] and len(args) > n):
            to[a] = f"l.initial.{names[i]}"
            later.append(names[i])
        else:
            to[a] = f"l.{names[i]}"
    for a, v in zip(args[n:], later):
        to[a] = f"l.{v}"
    for a in sorted(to, key=lambda x: -len(x)):
        if a == "_":
            continue
        body = re.sub(r"(?<![\w.'₀-₉-])" + re.escape(a) + r"(?![\w'₀-₉-])(?!\s*=[^=])(?! : )", "\x01" + to[a], body)
    return f"abbrev pub {kind}-{new} : goal.{kind}-{new}\n{kind}-{new} l = " + body.replace("\x01", "")


def turn(folder, table, crate, path):
    text = open(f"{folder}/Proof.antt", encoding="utf-8").read()
    if "Tie as tie" not in text:
        return "by hand"
    fn = Function(table)
    uses, loops, answers, left, own, over = [], [], [], [], [], {}
    for b in blocks(text):
        comment = ""
        lines = b.split("\n")
        while lines and lines[0].startswith("--"):
            comment += lines.pop(0) + "\n"
        b = "\n".join(lines)
        if not lines:
            uses.append(comment.rstrip())
            continue
        if lines[0].startswith("use "):
            if ".Statement." not in lines[0] and not lines[0].rstrip().endswith("Tie as tie"):
                uses.append(comment + "\n".join(lines))
            elif comment:
                uses.append(comment.rstrip())
            continue
        m = HEAD.match(lines[0])
        if m and "statement M" in m.group(4):
            continue
        if m and re.match(r"tie\.invariant-|tie\.decreases-", m.group(4)):
            kind = "invariant" if "invariant" in m.group(4) else "decreases"
            rest, opens = lines[1:], ""
            while rest and rest[0].startswith("unfolding"):
                opens += rest.pop(0) + "\n"
            made = invariant(m.group(3), rest, fn, kind)
            if made is None:
                left.append(m.group(3))
                loops.append(comment + b)
            else:
                head, body = made.split("\n", 1)
                loops.append(comment + head + "\n" + opens + body)
            continue
        m2 = m and re.match(r"tie\.Need-(\S+)", m.group(4))
        if m2:
            name = m.group(3)
            rest, opens = lines[1:], ""
            while rest and rest[0].startswith("unfolding"):
                opens += rest.pop(0) + "\n"
            d = re.match(re.escape(name) + r"((?: [^\s=]+)*) =\s*(.*)$", "\n".join(rest), re.S)
            fits = fn.needs.get(flat(m2.group(1)))
            if not d or not fits:
                left.append(m2.group(1))
                answers.append("-- LEFT\n" + comment + b)
                continue
            new, place = fits[0]
            args, body = d.group(1).split(), d.group(2)
            if body.strip() == "search rules" and not opens:
                continue
            var = args[0] if args else "c"
            body = turn_paths(body, var, fn, place)
            chain = fn.chain(place)
            body = re.sub(re.escape(var) + r"\{-(\d+)-\}", lambda k: f"(goal.at.{new} {var}).{fn.new_place[chain[int(k.group(1))]]}", body)
            for h, at in over.items():
                body = re.sub(r"(?<![\w.'-])" + re.escape(h) + " " + re.escape(var) + r"(?![\w.'-])", f"{h} (goal.at.{new} {var}).{at}", body)
            sep = "\n    " if "\n" in body else " "
            answers.append(f"{comment}pub {new} : goal.{new}\n{opens}{new} {var} ={sep}{body}")
            continue
        at = m and re.match(r"\((\w+) : tie\.([\w'-]+)(?: [\w' -]+)?\) →", m.group(4))
        if at:
            old = next((p for p in fn.places if flat(p) == flat(at.group(2))), None)
            if old:
                b = re.sub(r"tie\." + re.escape(at.group(2)) + r"(?: [\w' -]+)?\)", fn.new_place[old] + ")", turn_paths(b, at.group(1), fn, old))
                over[m.group(3)] = fn.new_place[old]
            else:
                left.append(at.group(2))
        own.append((m.group(3) if m else None, comment + b))     # a lemma or a definition of the file's own
        answers.append(comment + b)
    has_loop = any("goal.invariant-" in x or "goal.decreases-" in x for x in loops)
    mine = [x for x in answers if "goal." in x]
    helpers = [x for x in answers if "goal." not in x]
    if not has_loop:
        loops = []
    for name, b in reversed(own):
        if loops and name and any(name in x for x in loops):
            loops.insert(0, b)
    where = path.replace("/", ".")
    os.remove(f"{folder}/Proof.antt")
    head = "\n".join(uses)
    if loops:
        with open(f"{folder}/Invariants.antt", "w", encoding="utf-8") as f:
            f.write(head + f"\nuse Rattle.{crate}.proofs.{where}.Given as goal\n\n" + "\n\n".join(loops) + "\n")
    if mine or left:
        extra = ""
        with open(f"{folder}/Answers.antt", "w", encoding="utf-8") as f:
            if over:
                extra = f"\nuse Rattle.{crate}.proofs.{where}.Goals.{{{', '.join(sorted(set(over.values())))}}}"
            f.write(head + f"\nuse Rattle.{crate}.proofs.{where}.Goals as goal{extra}\n\n" + "\n\n".join(answers) + "\n")
    return ("left: " + ", ".join(left)) if left else ("with helpers" if helpers else "")


def main():
    names, crate = sys.argv[1:3]
    tables = json.load(open(f"{names}/{crate}/names.json", encoding="utf-8"))
    for p in sorted(glob.glob(f"crates/{crate}/proofs/**/Proof.antt", recursive=True)):
        folder = os.path.dirname(p)
        path = os.path.relpath(folder, f"crates/{crate}/proofs")
        if sys.argv[3:] and path not in sys.argv[3:]:
            continue
        key = f"Rattle-{crate}-proofs.{path.replace('/', '.')}.Lts"
        if key not in tables:
            print(f"{crate}: {path}: no table")
            continue
        said = turn(folder, tables[key], crate, path)
        if said:
            print(f"{crate}: {path}: {said}")


main()
