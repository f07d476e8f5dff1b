#!/usr/bin/env python3
"""Respells the definitions and lemmas of crates/*/specs and crates/*/proofs in snake case, once, after the port.

usage: python3 tools/spell_names.py [--list]     at the top of the repository; --list only prints what it would rename

A name that begins with a small letter and has a dash or a capital within becomes snake case: `putWord` is `put_word`,
`pick-yes` is `pick_yes`, `partsAt-follows` is `parts_at_follows`. A name is respelled in a file only where the file
declares it or imports it from a crate of this repository, and a field also behind a dot or before `=` in a record. In
.rt files that holds of the imports of `ghost use`, of clauses and of comments; names of Rust code, which have no such
form, stay. Goals of Proof.antt keep their names. A lemma that would get a definition's name gets `_lem` after it.
"""
import collections
import glob
import re
import subprocess
import sys

TOKEN = re.compile(r"[A-Za-z_ℕℤ₀-₉α-ωΑ-Ω0-9'\-≢≡≤<>∷→∙◌+*/^%&|!?=#@~⊎]+")
NAME = re.compile(r"[a-z][A-Za-z0-9_']*(?:-[A-Za-z0-9_']+)*'?")
DECLARED = re.compile(r"^( *)(?:(?:unfoldable|abbrev|abstract|opaque|pub)\s+)*(?:(?:data|record)\s+)?([^\s(){}:=\[\],;.]+)\s*(?:[({][^=]*?[)}]\s*)*:\s")
USE = re.compile(r"^(?:pub )?(?:ghost )?use ([^\s{;]+)\.\{([^}]*)\}", re.M)


def snake(name):
    """The name in snake case, or itself."""
    if not NAME.fullmatch(name) or not re.search(r"-|[a-z0-9][A-Z]", name):
        return name
    name = re.sub(r"([a-z0-9])([A-Z])", r"\1_\2", name.replace("-", "_"))
    name = re.sub(r"([A-Z])([A-Z][a-z])", r"\1_\2", name)
    return name.lower()


def own_crates():
    return {p.split("/")[1] for p in glob.glob("crates/*/src")}


def read(path):
    with open(path, encoding="utf-8") as f:
        return f.read()


def declared(text, path):
    """The names that a file declares: its definitions, fields, constructors and those of its `where` blocks."""
    found = set()
    for line in text.split("\n"):
        if line.lstrip().startswith(("--", "use ", "open ", "mod ", "pub mod ")):
            continue
        m = DECLARED.match(line)
        if m and not (path.endswith("Proof.antt") and re.search(r":\s*(tie|goal)\.", line)):
            found.add(m.group(2))
    return found


def imported(text, crates):
    """What a file imports, by name: from this repository's crates, and from elsewhere."""
    ours, others = set(), set()
    for module, names in USE.findall(text):
        first = module.split(".")
        to = ours if first[0] == "Rattle" and len(first) > 1 and first[1] in crates else others
        for n in names.split(","):
            n = n.strip()
            if n:
                to.add(n.split(" as ")[0].strip())
                to.add(n.split(" as ")[-1].strip())
    return ours, others


def words_of(text):
    """The words of a file of specs/ or proofs/, without comments and the modules that it imports from."""
    text = re.sub(r"--.*", "", text)
    text = re.sub(r"(?m)^((?:pub )?use )[^\s{]*", r"\1", text)
    return set(TOKEN.findall(re.sub(r"(?<=[\w')])\.[\w'-]+", "", text)))


def main():
    crates = own_crates()
    antt = sorted(p for c in crates for p in glob.glob(f"crates/{c}/specs/**/*.antt", recursive=True) + glob.glob(f"crates/{c}/proofs/**/*.antt", recursive=True))
    code = sorted(p for c in crates for p in glob.glob(f"crates/{c}/src/**/*.rt", recursive=True))
    texts = {p: read(p) for p in antt + code}
    names = {p: declared(texts[p], p) for p in antt}
    everything = set().union(*names.values())
    new = {n: snake(n) for n in everything if snake(n) != n}
    # two names of one file, or of what it imports, that would fall together
    clash = collections.defaultdict(set)
    plan = {}
    for p in antt + code:
        ours, others = imported(texts[p], crates)
        mine = (names.get(p, set()) | ours) & set(new)
        mine -= others - names.get(p, set())
        plan[p] = mine
        if p.endswith(".rt"):
            continue    # a clause that cites a definition does not see the function of that name
        words = words_of(texts[p])
        for n in mine:
            if new[n] in words or any(m != n and new[m] == new[n] for m in mine):
                clash[n].add(p)
    # a lemma that would have its function's name gets `_lem`
    for n in [n for n in clash if "-" in n]:
        new[n] += "_lem"
        del clash[n]
    for n in list(clash):
        if all(new[n] not in words_of(texts[p]) and not any(m != n and new[m] == new[n] for m in plan[p]) for p in clash[n]):
            del clash[n]
    if "--list" in sys.argv:
        for n in sorted(clash):
            print("the lemma", new[n], "gets _lem beside", n, "in", *sorted(clash[n]))
        print(len(new), "names,", len(clash), "lemmas with _lem beside a definition, of those in snake case already")
        return
    # a lemma that has, in snake case already, the name that a definition beside it gets
    lemmas = collections.defaultdict(set)
    for n, where in clash.items():
        for p in where:
            lemmas[p].add(new[n])
    fields = {n for n in new}
    changed = 0
    for p in antt + code:
        mine = plan[p]
        t = texts[p]

        def turn(m):
            w = m.group(0)
            before = t[max(0, m.start() - 200):m.start()]
            if w in lemmas[p] and not before.endswith("."):
                return w + "_lem"
            if w not in new:
                return w
            if w in mine or before.endswith("."):
                return new[w]
            comment = re.search(r"(--|//).*`[^`\n]*$", before)
            if comment and "`" in t[m.end():m.end() + 60].split("\n")[0]:
                return new[w]
            after = t[m.end():m.end() + 3]
            if p.endswith(".antt") and w in fields and re.match(r" (=|:) ", after) and re.search(r"[{;]\s*$", before):
                return new[w]
            return w
        t2 = TOKEN.sub(turn, t)
        if t2 != t:
            changed += 1
            with open(p, "w", encoding="utf-8") as f:
                f.write(t2)
    for c in sorted(crates):
        subprocess.run(["rt", "fmt"], cwd=f"crates/{c}", stdout=subprocess.DEVNULL, check=False)
    print(f"{changed} files, {len(new)} names")


main()
