"""clients.py LIBRARY DIVIDE SEED YARDS GRIDS: on random yards every division that a client finds, and on 8 x 8 grids
with planted sizes one, by the judge. The clients are examples/python/z3_yard.py, where z3 can be imported, and the
program DIVIDE (examples/rust); '-' in its place: it could not be made."""
import random
import re
import subprocess
import sys
import time

import judge
from counted import Keeping, Tally, plan, zuntjev

try:
    import z3
    import z3_yard
except ImportError:
    z3 = None


class Client:
    """A client, and what it took in sum. `divisions` gives the list of those that it finds in a plan."""

    def __init__(self, name):
        self.name, self.calls, self.conflicts, self.propagations, self.noted = name, 0, 0, 0, 0

    def took(self, calls, conflicts, propagations):
        self.calls += calls
        self.conflicts += conflicts
        self.propagations += propagations

    def figures(self):
        return "%d calls, %d conflicts, %d propagations" % (self.calls, self.conflicts, self.propagations)


class Levelled(Keeping):
    """A divider that tests the table: the literal to be notified is of the current level there. What stood before at
    other levels is counted. The end of a search tells nothing of it: refusal 14 comes only where what follows is false
    in the table, and what stands is never proposed."""

    earlier = 0

    def propagate(self, lit, pending=0):
        if self.table[lit // 2] != 3 + lit % 2:
            raise RuntimeError("%d is notified, and its code is %d" % (lit, self.table[lit // 2]))
        self.earlier += sum(0 < code < 3 for code in self.table)
        return super().propagate(lit, pending)


class Z3(Client):
    def __init__(self, library):
        super().__init__("Z3 %s" % z3.get_version_string())
        self.library, self.earlier = library, 0

    def divisions(self, pens, gates, every):
        """The propagator's own count of calls is compared with the divider's, which counts by itself: building and
        the fetches of conflicts' lists are not in it."""
        divider = Levelled(*plan(pens, gates), library=self.library)
        found, took = z3_yard.solve(plan(pens, gates), every, divider=divider)
        assert took.calls == divider.calls - 1 - len(divider.conflict_lists), "calls are counted wrong"
        assert took.conflicts == len(divider.conflict_lists) and took.propagations == len(divider.reason_lists)
        self.took(took.calls, took.conflicts, took.propagations)
        self.noted += divider.noted
        self.earlier += divider.earlier
        return [frozenset(true) for true in found]


class Divide(Client):
    def __init__(self, program):
        super().__init__("examples/rust")
        self.program = program

    def divisions(self, pens, gates, every):
        ran = subprocess.run([self.program] + ["--all"] * every, input=judge.lines(pens, gates), capture_output=True,
                             text=True, timeout=60)
        *lines, last = ran.stdout.splitlines() or [""]
        count = re.fullmatch(r"(\d+) valid divisions?(?: in all)?: (\d+) calls, (\d+) conflicts, (\d+) propagations",
                             last)
        if ran.stderr or not count:
            raise RuntimeError(ran.stderr.strip() or "no line that counts: " + last)
        self.took(*map(int, count.groups()[1:]))
        found = [[int(lit) for lit in line.split()[1:]] for line in lines if line.startswith("literals:")]
        known = judge.variables(pens, gates)
        if len(found) != int(count[1]) or any(sorted(lit // 2 for lit in lits) != known for lits in found):
            raise RuntimeError("not a literal of each variable, or another count: " + ran.stdout)
        return [frozenset(lit // 2 for lit in lits if lit % 2 == 0) for lits in found]


def asked(client, pens, gates, every):
    """What a client finds; None where it fails, which is said."""
    try:
        return client.divisions(pens, gates, every)
    except (zuntjev.Refused, RuntimeError, AssertionError, subprocess.TimeoutExpired) as failure:
        print("%s: %s: %s" % (client.name, type(failure).__name__, failure))
        return None


def yards(tally, clients, seed, count):
    """All divisions of random yards. The two enumerations of the judge must agree where both are short."""
    source, solutions, solvable, agreed = random.Random(seed), 0, 0, True
    wrong = {client.name: None for client in clients}
    for _ in range(count):
        pens, gates = judge.yard(source)
        expected = judge.by_gates(pens, gates)
        if len(judge.variables(pens, gates)) <= 9:
            agreed = agreed and expected == judge.plainly(pens, gates)
        solutions += len(expected)
        solvable += bool(expected)
        for client in clients:
            found = asked(client, pens, gates, True) if wrong[client.name] is None else None
            if wrong[client.name] is None and (found is None or len(found) != len(expected) or set(found) != expected):
                wrong[client.name] = "%s: found %s, not %s" % (judge.lines(pens, gates).split("\n"), found, expected)
    print("%d random yards, %d of them with a valid division, %d valid divisions in all" % (count, solvable, solutions))
    tally.test("the two enumerations agree", agreed)
    tally.test("yards with and without a division", 0 < solvable < count)
    for client in clients:
        tally.test("all divisions by " + client.name, wrong[client.name] is None, wrong[client.name])
        print("    %s: %s" % (client.name, client.figures()))


def grids(tally, clients, seed, count):
    """A division of grids of 8 x 8 with planted sizes, so that there is one."""
    source = random.Random(seed)
    for client in clients:
        client.calls = client.conflicts = client.propagations = 0
    for n in range(count):
        pens, gates = judge.grid(source, 8, 8, 0.6)
        for client in clients:
            found = asked(client, pens, gates, False)
            tally.test("grid %d by %s" % (n, client.name), found and len(found) == 1 and
                       judge.is_valid(pens, gates, found[0]), found, judge.lines(pens, gates))
    print("%d grids of 8 x 8, one division each" % count)
    for client in clients:
        print("    %s: %s" % (client.name, client.figures()))


def main(library, divide, seed, yard_count, grid_count):
    tally, clients = Tally(), []
    if z3 is None:
        tally.skip("no python3-z3: the divisions that Z3 finds")
    else:
        clients.append(Z3(zuntjev.load(library)))
    if divide == "-":
        tally.skip("no rustc: the divisions that examples/rust finds")
    else:
        clients.append(Divide(divide))
    started = time.time()
    yards(tally, clients, seed, int(yard_count))
    if z3 is not None:
        tally.test("literals come to Z3's propagator in bursts", clients[0].noted > 0)
        tally.test("the table has earlier levels", clients[0].earlier > 0)
    if clients:
        grids(tally, clients, seed, int(grid_count))
    print("%d s" % (time.time() - started))
    tally.end()


main(*sys.argv[1:])
