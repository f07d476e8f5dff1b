"""counted.py: what the tests of this folder share: counting, and a divider that keeps what it hands out."""
import pathlib
import sys

ROOT = pathlib.Path(__file__).resolve().parent.parent.parent
sys.path.insert(0, str(ROOT / "examples" / "python"))
import zuntjev  # noqa: E402  (found by the line above)


class Tally:
    """Counts tests, and says which failed."""

    def __init__(self):
        self.passed = self.failed = self.skipped = 0

    def test(self, what, good, *details):
        if good:
            self.passed += 1
        else:
            self.failed += 1
            print(what + ": FAILED", *details, sep="\n    ")
        return good

    def skip(self, why):
        self.skipped += 1
        print("skipped: " + why)

    def end(self):
        print("%d passed, %d failed" % (self.passed, self.failed) + ", %d skipped" % self.skipped * (self.skipped > 0))
        sys.exit(1 if self.failed else 0)


def plan(pens, gates):
    return zuntjev.Plan([zuntjev.Pen(*pen) for pen in pens], [zuntjev.Gate(*gate) for gate in gates], False, False)


class Keeping(zuntjev.Divider):
    """A divider that keeps each conflict's list, and each reason together with the negation of what follows from it:
    literals that cannot hold together. It counts its calls too."""

    def __init__(self, *arguments, **options):
        self.conflict_lists, self.reason_lists, self.calls, self.noted = [], [], 0, 0
        super().__init__(*arguments, **options)

    def call(self, name, *arguments):
        self.calls += 1
        return super().call(name, *arguments)

    def answered(self, answer):
        given = super().answered(answer)
        self.noted += isinstance(given, zuntjev.Noted)
        if isinstance(given, zuntjev.Conflict):
            self.conflict_lists.append(tuple(given.lits))
        return given

    def reason(self, lit):
        lits = super().reason(lit)
        self.reason_lists.append((*lits, lit ^ 1))
        return lits
