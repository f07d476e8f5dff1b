"""module.py LIBRARY: examples/python/zuntjev.py on the cases of tests/cases, whose answers were written by hand, and on
what README.md and docs/HOST.md show."""
import re
import sys

from counted import ROOT, Tally, zuntjev

LIBRARY = zuntjev.load(sys.argv[1])
CASES = ROOT / "tests" / "cases"


def answer_of(divider, letter, numbers):
    """What yard writes for a line; None for nothing."""
    if letter == "V":
        if numbers[0] < len(divider.table):
            divider.table[numbers[0]] = numbers[1]
        return None
    if letter == "U":
        divider.undo(*numbers)
        return "C"
    if letter == "R":
        return "\t".join(["R", *map(str, divider.reason(*numbers) if numbers else divider.last())])
    given = divider.initialize() if letter == "I" else divider.propagate(*numbers)
    if isinstance(given, zuntjev.Consistent):
        return "\t".join(["C", *map(str, given.handed)])
    return "X" if isinstance(given, zuntjev.Conflict) else "L"


def session(text):
    """What yard writes for its input, by the module."""
    try:
        plan = zuntjev.read_plan(text)
        divider = zuntjev.Divider(*plan, library=LIBRARY)
    except zuntjev.Refused as refused:
        return ["E\t%d" % refused.number]
    written = []
    for line in text.split("\n"):
        letter, numbers = zuntjev.read_line(line) or ("", [])
        if letter and letter not in "OPG":
            try:
                written.append(answer_of(divider, letter, numbers))
            except zuntjev.Refused as refused:
                written.append("E\t%d" % refused.number)
    return [line for line in written if line is not None]


def cases(tally):
    for given in sorted(CASES.glob("*.in")):
        expected = given.with_suffix(".out").read_bytes().decode().split("\n")[:-1]
        written = session(given.read_bytes().decode("latin-1"))
        tally.test("tests/cases/" + given.name, written == expected, "expected %s" % expected, "written %s" % written)
    blocks = (CASES / "builds.txt").read_text().split("---\n")[:-1]
    expected = (CASES / "builds.expected").read_text().split("\n")[:-1]
    written = ["".join(session(block)) or "-" for block in blocks]
    wrong = [n + 1 for n, (a, b) in enumerate(zip(expected, written)) if a != b]
    tally.test("tests/cases/builds.txt", len(blocks) == len(expected) > 0 and not wrong, "blocks %s" % wrong)


def refused_with(call):
    try:
        call()
    except zuntjev.Refused as refused:
        return str(refused)
    return "not refused"


def meanings(tally):
    """The numbers and their meanings are those of README's table, without what stands there in brackets."""
    rows = re.findall(r"^\| (\d+) \| ([^|]*) \|$", (ROOT / "README.md").read_text(), re.M)
    expected = {int(number): re.sub(r" \(.*?\)|; .*", "", meaning) for number, meaning in rows}
    tally.test("the refusals' meanings", expected == zuntjev.MEANINGS and len(rows) == 18,
               "README.md %s" % expected, "zuntjev.py %s" % zuntjev.MEANINGS)
    adapter = (ROOT / "examples" / "rust" / "propagator.rs").read_text()
    given = re.findall(r'^        (\d+) => (?:\{\s*)?"([^"]*)"', adapter, re.M)
    in_rust = {int(number): re.sub(r"\\\n *", "", meaning) for number, meaning in given}
    tally.test("the refusals' meanings in propagator.rs", in_rust == {n: m for n, m in expected.items() if n < 17},
               "propagator.rs %s" % in_rust)
    two = zuntjev.Divider([zuntjev.Pen(1, [], [])] * 2, [zuntjev.Gate(0, 1, 0)], library=LIBRARY)
    for call, said in (
            (lambda: zuntjev.Divider([zuntjev.Pen(2**40, [], [])], [], library=LIBRARY), "build is refused with 2: "),
            (lambda: two.propagate(2**32), "propagate is refused with 9: a literal that"),
            (lambda: two.undo(0), "undo is refused with 11: the literal to be undone"),
            (lambda: two.reason(0), "calc_reason is refused with 15: no reason"),
            (lambda: two.run(0, 2), "run is refused with 18: every run"),
            (lambda: two.check(), "not refused"),
            (lambda: zuntjev.read_plan("P\t1\t0\nQ\n"), "line 2 is refused with 17: a malformed line")):
        written = refused_with(call)
        tally.test(said, written.startswith(said), written)
    two.state[0][32] ^= 255  # the highest byte of pen 0's heads is 35; this one alone makes 254 of 1 head
    tally.test("another weight within its range", refused_with(two.check) == "not refused")
    two.state[0][35] ^= 255
    written = refused_with(two.check)
    tally.test("a weight out of its range", written.startswith("check is refused with 7: a buffer is too"), written)


def shown(tally):
    """The yard of README.md: the lengths of docs/HOST.md's table, its runs and its page."""
    plan = zuntjev.read_plan((ROOT / "examples" / "dozen_pens.txt").read_text())
    divider = zuntjev.Divider(*plan, library=LIBRARY)
    lengths = [buffer[1] for buffer in (divider.state, divider.log, divider.log[2:], divider.values, divider.list,
                                        divider.buffer, divider.sheet)]
    tally.test("the buffers' lengths", lengths == [133440, 352, 8, 22, 88, 90, 468], lengths)
    for lit in (1, 7, 9, 17, 33, 4, 20, 24):
        divider.propagate(lit, 1)
    tally.test("the runs", (divider.run(0, 11), divider.run(11, 0), divider.run(7, 7)) ==
               ([9, 3, 4, 5, 16], [8, 15, 4, 3, 9], []), divider.run(0, 11), divider.run(11, 0))
    divider = zuntjev.Divider(*plan, library=LIBRARY)
    for lit in (1, 7, 9, 17, 33, 35):
        divider.propagate(lit, 1)
    host = (ROOT / "docs" / "HOST.md").read_text()
    block = host[host.index("target/c/page 1 7 9 17 33 35"):].split("\n\n")[1]
    expected = "".join(line[4:] + "\n" for line in block.split("\n"))
    tally.test("the page", divider.page() == expected and expected.count("\n") == 7, divider.page())
    pens = [zuntjev.Pen(3, [3, 7], [0]), zuntjev.Pen(4, [4, 7], [2])]
    divider = zuntjev.Divider(pens, [zuntjev.Gate(0, 1, 4)], library=LIBRARY)
    answers = [divider.initialize(), divider.propagate(5), divider.reason(0), divider.undo(5), divider.propagate(0, 1)]
    tally.test("the example in zuntjev.py", answers == [zuntjev.Consistent([]), zuntjev.Consistent([0, 2]), [5], None,
                                                        zuntjev.Noted()], answers)


def main():
    tally = Tally()
    cases(tally)
    meanings(tally)
    shown(tally)
    tally.end()


main()
