"""z3_yard.py: Z3 divides a yard, with the divider as its user propagator. It reads a plan in yard's lines from
standard input, and prints a valid division, or every one, and what it took. It was tried with Z3 4.8.12.

Usage: z3_yard.py [--all] [--columns N] [--library FILE] < PLAN

The exit status is 0 where a division was found, 1 where there is none or the plan cannot be read or built.

    --all           every valid division, not only one
    --columns N     N pens stand in a row of the picture; without it that is read off the gates where it can be
    --library FILE  the shared library, if it is not target/c/libzuntjev.so (zuntjev.py says how it is made)
"""
import argparse
import sys

import z3

import picture
import zuntjev


def guarded(callback):
    """A callback whose exception ends the search: Z3 itself would print it and go on. `solve` raises it again."""
    def with_guard(self, *arguments):
        if self.failure is None:
            try:
                callback(self, *arguments)
            except Exception as failure:
                self.failure = failure
                if self.cb is not None:
                    self.conflict([])
    return with_guard


class Propagator(z3.UserPropagateBase):
    """The divider as Z3 sees it. A level is one of Z3's scopes; every list here is in the order of its levels, so that
    going back cuts its end off.

    waiting   (level, literal) that Z3 has fixed, and that are to be notified
    standing  (level, literal) that were notified
    handed    (level, literal) that were handed on to Z3; until Z3 fixes them, more is pending
    value     of each variable that Z3 has fixed: the level and the literal that is true
    """

    def __init__(self, solver, divider, take_division):
        super().__init__(solver)
        self.divider, self.take_division = divider, take_division
        self.level, self.waiting, self.standing, self.handed, self.value = 0, [], [], [], {}
        self.in_conflict, self.failure = False, None
        self.calls = self.conflicts = self.propagations = 0
        self.bools = {v: z3.Bool("v%d" % v) for v in divider.variables}
        self.handle, self.variable = {}, {}
        for v, known in self.bools.items():
            number = self.add(known)  # later versions of Z3 have no number: they know a variable by its term
            self.handle[v] = known if number is None else number
            self.variable[self.key(self.handle[v])] = v
        self.add_fixed(self.on_fixed)
        self.add_final(self.on_final)

    @staticmethod
    def key(handle):
        return handle.get_id() if isinstance(handle, z3.ExprRef) else handle

    def fresh(self, *_):
        raise NotImplementedError("one search at a time")

    def push(self):
        self.level += 1

    @guarded
    def pop(self, scopes):
        """Z3 goes back: what was notified since then is undone, the newest first."""
        self.level -= scopes
        while self.standing and self.standing[-1][0] > self.level:
            self.divider.undo(self.standing.pop()[1])
            self.calls += 1
        self.waiting = [(level, lit) for level, lit in self.waiting if level <= self.level]
        self.handed = [(level, lit) for level, lit in self.handed if level <= self.level]
        self.value = {v: (level, lit) for v, (level, lit) in self.value.items() if level <= self.level}
        self.in_conflict = False

    @guarded
    def on_fixed(self, handle, value):
        """Z3 has fixed a variable. What was handed on comes back in a burst: it is gathered until all of it is here."""
        v = self.variable[self.key(handle)]
        lit = 2 * v + (0 if z3.is_true(value) else 1)
        self.value[v] = self.level, lit
        self.waiting.append((self.level, lit))
        if not self.in_conflict and all(lit // 2 in self.value for _, lit in self.handed):
            self.notify()

    @guarded
    def on_final(self):
        """Z3 has fixed all: with nothing waiting and no conflict this is a valid division."""
        self.notify()
        if self.in_conflict:
            return
        if len(self.standing) < len(self.bools):
            raise RuntimeError("Z3 ended with a variable unset")
        self.take_division(self, {v for v, (_, lit) in self.value.items() if lit % 2 == 0})

    def notify(self):
        """Notifies what waits, level by level; all of a level but the last is only noted."""
        while self.waiting and not self.in_conflict:
            level, lit = self.waiting.pop(0)
            self.fill_table(level)
            answer = self.divider.propagate(lit, sum(other == level for other, _ in self.waiting))
            self.calls += 1
            self.standing.append((level, lit))
            if isinstance(answer, zuntjev.Conflict):
                self.conflicts += 1
                self.refute(answer.lits)
            elif isinstance(answer, zuntjev.Consistent):
                self.hand_on(answer.handed)

    def fill_table(self, current):
        """The codes as they are seen from a level: later ones are unset there."""
        codes = {v: (3 if level == current else 1) + lit % 2
                 for v, (level, lit) in self.value.items() if level <= current}
        self.divider.fill_table(codes)

    def refute(self, lits):
        """These cannot hold together: Z3 learns from them, and goes back."""
        self.in_conflict = True
        self.conflict([self.handle[lit // 2] for lit in lits])

    def hand_on(self, lits):
        """Each literal goes to Z3 with its reason, which is fetched while all that it rests on still stands."""
        for lit in lits:
            reason = self.divider.reason(lit)
            self.calls += 1
            self.propagations += 1
            self.handed.append((self.level, lit))
            known = self.bools[lit // 2]
            self.propagate(z3.Not(known) if lit % 2 else known, [self.handle[r // 2] for r in reason])


def solve(plan, every=False, library=None, divider=None):
    """The valid divisions, each as the set of the variables that are true, and the propagator with its counts."""
    divisions = []

    def take(propagator, true):
        divisions.append(true)
        if every:  # this one is out from now on
            propagator.refute([lit for _, lit in propagator.standing])

    solver = z3.SimpleSolver()
    divider = divider or zuntjev.Divider(*plan, library=library)
    propagator = Propagator(solver, divider, take)
    propagator.calls += 1
    answer = divider.initialize()
    if isinstance(answer, zuntjev.Conflict):
        propagator.conflicts += 1
    elif not divider.variables:
        divisions.append(set())
    elif solver.check() == z3.unknown and propagator.failure is None:
        raise RuntimeError("Z3 gave up: " + solver.reason_unknown())
    if propagator.failure is not None:
        raise propagator.failure
    return divisions, propagator


def main(arguments):
    parser = argparse.ArgumentParser(prog="z3_yard.py", description="Z3 divides a yard, a plan in yard's lines.")
    parser.add_argument("--all", action="store_true", help="every valid division, not only one")
    parser.add_argument("--columns", type=int, metavar="N", help="N pens stand in a row of the picture")
    parser.add_argument("--library", metavar="FILE", help="the shared library, if not target/c/libzuntjev.so")
    chosen = parser.parse_args(arguments)
    try:
        plan = zuntjev.read_plan(sys.stdin.read())
        if plan.same_size or plan.extra_walls:
            sys.exit("z3_yard.py: an option is on: it is not promised then that what is found is a division")
        if chosen.columns is not None and not picture.fits(plan.pens, plan.gates, chosen.columns):
            sys.exit("z3_yard.py: with %d pens in a row some gate is not between neighbours" % chosen.columns)
        divisions, took = solve(plan, chosen.all, zuntjev.load(chosen.library))
    except (zuntjev.Refused, OSError, RuntimeError) as failure:
        sys.exit("z3_yard.py: %s" % failure)
    for true in divisions:
        print(picture.shown(plan.pens, plan.gates, true, chosen.columns))
    print("%d valid division%s%s: %d calls, %d conflicts, %d propagations" % (
        len(divisions), "" if len(divisions) == 1 else "s", " in all" if chosen.all else "",
        took.calls, took.conflicts, took.propagations))
    return 0 if divisions else 1


if __name__ == "__main__":
    sys.exit(main(sys.argv[1:]))
