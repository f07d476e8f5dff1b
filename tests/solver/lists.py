"""lists.py LIBRARY SEED: conflict lists and reasons, from random walks over the divider and from Z3's searches, on
grids and yards where enumeration ends. No valid division has all literals of a list; or all of a reason, and the
negation of what follows from it. Two judges say so: judge.py, by enumeration, and clingo, on division.lp."""
import json
import random
import shutil
import subprocess
import sys
import tempfile
import time

import judge
from counted import ROOT, Keeping, Tally, plan, zuntjev

try:
    import z3_yard
except ImportError:
    z3_yard = None

PROGRAM = str(ROOT / "tests" / "solver" / "division.lp")


def undo_some(divider, standing, source):
    for _ in range(source.randint(1, len(standing))):
        divider.undo(standing.pop())


def next_lit(divider, free, source):
    """A literal to notify. Sometimes the table has another variable set before, as a solver has it that decided it and
    did not notify it yet; it may be false where something follows. The literal is true in the table, if set there."""
    if source.random() < 0.2:
        divider.table[source.choice(free)] = source.randint(1, 4)
    v = source.choice(free)
    code = divider.table[v]
    return 2 * v + (source.randrange(2) if code == 0 else (code + 1) % 2)


def walk(divider, source, steps):
    """Random notifications, bursts and undoing; all lists and reasons are fetched, as the divider keeps them. 14 may
    come, since the table's levels are nobody's: nothing has changed then."""
    standing = []
    if isinstance(divider.initialize(), zuntjev.Conflict):
        return
    for _ in range(steps):
        free = [v for v in divider.variables if v not in {lit // 2 for lit in standing}]
        if standing and (not free or source.random() < 0.15):
            undo_some(divider, standing, source)
            continue
        if not free:
            return
        lit = next_lit(divider, free, source)
        try:
            answer = divider.propagate(lit, source.choice((0, 0, 0, 1, -1)))
        except zuntjev.Refused as refused:
            if refused.number != 14:
                raise
            divider.fill_table({})
            continue
        standing.append(lit)
        if isinstance(answer, zuntjev.Consistent):
            for follows in answer.handed:
                divider.reason(follows)
        elif isinstance(answer, zuntjev.Conflict):
            undo_some(divider, standing, source)


def lists_of(pens, gates, library, source, steps):
    """The different conflict lists and reasons of a plan, and how many calls gave them."""
    dividers = [Keeping(*plan(pens, gates), library=library)]
    walk(dividers[0], source, steps)
    if z3_yard:
        dividers.append(Keeping(*plan(pens, gates), library=library))
        z3_yard.solve(plan(pens, gates), True, divider=dividers[1])
    conflicts = {tuple(sorted(lits)) for divider in dividers for lits in divider.conflict_lists}
    reasons = {tuple(sorted(lits)) for divider in dividers for lits in divider.reason_lists}
    return sorted(conflicts), sorted(reasons), sum(divider.calls for divider in dividers)


def facts(pens, gates, lists):
    """The plan and the lists for division.lp."""
    made = ["variable(%d)." % v for v in judge.variables(pens, gates)]
    for p, (heads, sizes, lits) in enumerate(pens):
        made.append("pen(%d,%d)." % (p, heads))
        made += ["size(%d,%d)." % (p, size) for size in sizes]
        made += ["size_lit(%d,%d,%d)." % (p, sizes[j + 1], lit) for j, lit in enumerate(lits if sizes else ())]
    made += ["gate(%d,%d,%d)." % gate for gate in gates]
    for k, lits in enumerate(lists):
        made.append("list(%d)." % k)
        made += ["in(%d,%d)." % (k, lit) for lit in lits]
    return "\n".join(made) + "\n"


def models(pens, gates, lists, most=0):
    """clingo's models, each the set of its atoms; at most so many, 0 for all."""
    with tempfile.NamedTemporaryFile("w", suffix=".lp") as file:
        file.write(facts(pens, gates, lists))
        file.flush()
        ran = subprocess.run(["clingo", "--outf=2", "-Wnone", PROGRAM, file.name, str(most)], capture_output=True,
                             text=True, timeout=60)
    told = json.loads(ran.stdout)
    if told["Result"] not in ("SATISFIABLE", "UNSATISFIABLE"):
        raise RuntimeError("clingo: %s %s" % (told["Result"], ran.stderr))
    return [set(model["Value"]) for call in told["Call"] for model in call.get("Witnesses", [])]


def by_clingo(pens, gates, lists, divisions, source):
    """Whether clingo finds the same divisions, a model for a list that one of them has, and none for these lists."""
    found = {frozenset(int(atom[5:-1]) for atom in model) for model in models(pens, gates, [])}
    if found != divisions:
        return "clingo's divisions %s, not %s" % (found, divisions)
    if divisions:
        true = source.choice(sorted(map(sorted, divisions)))
        lits = [2 * v + (v not in true) for v in judge.variables(pens, gates)]
        if not models(pens, gates, lists + [source.sample(lits, len(lits) // 2)], 1):
            return "clingo finds no model for a part of %s" % lits
    kept = models(pens, gates, lists, 1) if lists else []
    if kept:
        picked = next(int(atom[7:-1]) for atom in kept[0] if atom.startswith("picked"))
        return "clingo has a model with %s: %s" % (lists[picked], kept[0])
    return None


def plans(source):
    """The dozen pens, grids and random yards."""
    dozen = zuntjev.read_plan((ROOT / "examples" / "dozen_pens.txt").read_text())
    yield [tuple(pen) for pen in dozen.pens], [tuple(gate) for gate in dozen.gates]
    for rows, columns, count in ((3, 3, 16), (2, 5, 8)):
        for _ in range(count):
            yield judge.grid(source, rows, columns, 0.7)
    for _ in range(40):
        yield judge.yard(source)


def judged(tally, library, source):
    """Judges the lists of all plans; what is wrong is said of the first plan where it is."""
    has_clingo = shutil.which("clingo") is not None
    figures, wrong = [0] * 4, {"enumeration": None, "clingo": None}
    for pens, gates in plans(source):
        divisions = judge.by_gates(pens, gates)
        conflicts, reasons, calls = lists_of(pens, gates, library, source, 60 * len(gates))
        figures = [a + b for a, b in zip(figures, (1, calls, len(conflicts), len(reasons)))]
        kept = [lits for lits in conflicts + reasons if not judge.refuted(lits, divisions)]
        if kept:
            wrong["enumeration"] = wrong["enumeration"] or "%s: %s" % (judge.lines(pens, gates), kept[0])
        if has_clingo and not wrong["clingo"]:
            wrong["clingo"] = by_clingo(pens, gates, conflicts + reasons, divisions, source)
    print("%d grids and yards, %d calls: %d conflict lists and %d reasons" % tuple(figures))
    tally.test("there are lists to judge", min(figures) > 0)
    tally.test("the lists by enumeration", wrong["enumeration"] is None, wrong["enumeration"])
    if has_clingo:
        tally.test("the lists by clingo", wrong["clingo"] is None, wrong["clingo"])
        print("    each judged by enumeration and by clingo")
    else:
        tally.skip("no clingo: the lists by it; enumeration judged them")


def main(library, seed):
    tally, started = Tally(), time.time()
    if z3_yard is None:
        tally.skip("no python3-z3: the lists of Z3's searches; those of random walks are judged")
    judged(tally, zuntjev.load(library), random.Random(seed))
    print("%d s" % (time.time() - started))
    tally.end()


main(*sys.argv[1:])
