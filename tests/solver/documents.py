"""documents.py [TOOL..]: runs each command of docs/SOLVERS.md, but those that need a TOOL, which is missing; and judges
what the clients print there, and what the document shows of it. The picture of README.md, drawn by hand, is compared
with that of the same division."""
import re
import subprocess
import sys

import judge
from counted import ROOT, Tally, zuntjev
import picture

DOCUMENT = (ROOT / "docs" / "SOLVERS.md").read_text()
DOZEN = zuntjev.read_plan((ROOT / "examples" / "dozen_pens.txt").read_text())
LAST = r"1 valid division: \d+ calls, \d+ conflicts, \d+ propagations"
NEEDS = {"cc ": "cc", "python3 ": "z3", "rustc ": "rustc", "target/c/divide": "rustc"}


def commands():
    """Each command with the indented lines that follow its block, if it is the last one there."""
    for block, after in re.findall(r"```sh\n(.*?)```\n((?:\n(?:    [^\n]*\n)+)?)", DOCUMENT, re.S):
        *lines, last = block.splitlines()
        yield from ((line, "") for line in lines)
        yield last, "".join(line[4:] + "\n" for line in after.strip("\n").splitlines())


def is_listing(text):
    """Whether this is what divide prints of a valid division: its groups, as the judge finds them, and its literals."""
    *groups, literals, last = text.splitlines() or ["", ""]
    lits = [int(lit) for lit in literals.split()[1:]]
    true = {lit // 2 for lit in lits if lit % 2 == 0}
    region, weight = judge.region_weights(DOZEN.pens, DOZEN.gates, true)
    expected = ["%d heads: pens %s" % (weight[low], " ".join(str(p) for p in sorted(region) if region[p] == low))
                for low in sorted(weight)]
    return (groups == expected and re.fullmatch(LAST, last) and judge.is_valid(DOZEN.pens, DOZEN.gates, true)
            and [lit // 2 for lit in lits] == judge.variables(DOZEN.pens, DOZEN.gates))


def is_picture(text, pictures):
    drawn, _, last = text.rstrip("\n").rpartition("\n")
    return drawn in pictures and re.fullmatch(LAST, last)


def hand_drawn(tally):
    """README's picture of the division that opens gates 0, 2, 3, 4, 6, 8 and 16, and its groups as a list."""
    drawn = re.findall(r"^    [+|].{39}[+|]          ([+|].{39}[+|])$", (ROOT / "README.md").read_text(), re.M)
    true = set(range(22)) - {0, 2, 3, 4, 6, 8, 16, 17, 18, 19}
    made = picture.shown(DOZEN.pens, DOZEN.gates, true).split("\n")
    tally.test("README.md's picture", made == drawn and len(drawn) == 10, *made)
    listed = picture.listing(DOZEN.pens, DOZEN.gates, true).split("\n")
    tally.test("the same as a list", listed == [
        "10 heads: pens 0 1", "8 heads: pens 2 3", "15 heads: pens 4 5 6", "13 heads: pens 7 10 11",
        "10 heads: pens 8 9", "open gates: 0 2 3 4 6 8 16"], *listed)
    ring = [zuntjev.Gate(p, (p + 1) % 3, 2 * p) for p in range(3)]
    tally.test("no picture of a ring of three pens", picture.columns_of([zuntjev.Pen(1, [], [])] * 3, ring) is None)


def run_all(tally, missing):
    """Every command ends well and says nothing on standard error but the progress of building."""
    pictures = {picture.shown(DOZEN.pens, DOZEN.gates, true) for true in judge.by_gates(DOZEN.pens, DOZEN.gates)}
    tally.test("five divisions of the dozen pens", len(pictures) == 5)
    tally.test("commands of docs/SOLVERS.md", len(list(commands())) == 5)
    for command, shown in commands():
        lacks = [tool for start, tool in NEEDS.items() if command.startswith(start) and tool in missing]
        if lacks:
            tally.skip("no %s: %s" % (lacks[0], command))
            continue
        ran = subprocess.run(command, shell=True, cwd=ROOT, capture_output=True, text=True)
        good = ran.returncode == 0
        if command.startswith("python3 "):
            good = good and is_picture(ran.stdout, pictures) and is_picture(shown, pictures)
        elif command.startswith("target/c/divide"):
            good = good and is_listing(ran.stdout) and ran.stdout == shown
        elif not command.startswith("./build-c "):
            good = good and not ran.stdout + ran.stderr + shown
        tally.test("docs/SOLVERS.md: " + command, good, ran.stdout, ran.stderr)


def messages(tally, missing):
    """What the clients say of input that is not a plan, a plan that cannot be built, an option, and no division."""
    clients = [("z3", "python3 examples/python/z3_yard.py", "z3_yard.py"), ("rustc", "target/c/divide", "divide")]
    given = [("P\n", ": line 1 is "), ("P\t1\t0\nG\t0\t1\t0\n", "is refused with 6: an end of a gate is no pen"),
             ("O\t1\t0\n", ": an option is on"),
             ("P\t3\t1\t2\n", "0 valid divisions in all: 1 calls, 1 conflicts, 0 propagations")]
    for tool, command, name in clients:
        if tool in missing:
            tally.skip("no %s: what %s says of mistakes" % (tool, name))
            continue
        for text, said in given:
            ran = subprocess.run(command + " --all", shell=True, input=text, cwd=ROOT, capture_output=True, text=True)
            written = ran.stdout + ran.stderr
            good = written.count("\n") == 1 and said in written and ran.returncode != 0
            tally.test("%s of %r" % (name, text), good, written)


def main(missing):
    tally = Tally()
    hand_drawn(tally)
    run_all(tally, missing)
    messages(tally, missing)
    swapped = re.search(r"```rust\n(.*?)```", DOCUMENT, re.S)[1]
    tally.test("the line to swap", swapped in (ROOT / "examples" / "rust" / "divide.rs").read_text())
    tally.test("lines of at most 120 characters", max(map(len, DOCUMENT.split("\n"))) <= 120)
    tally.end()


main(sys.argv[1:])
