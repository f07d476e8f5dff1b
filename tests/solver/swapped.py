"""swapped.py DIVIDE ORIGINAL SEED: the program of examples/rust, and the same with one line changed, so that it has the
Rust original in the place of propagator.rs, print the same on random grids: divisions, calls, conflicts and
propagations. A pen has at most two sizes: with more the original stops where size literals contradict each other
(docs/DIFFERENCES.md)."""
import random
import subprocess
import sys

import judge
from counted import Tally


def printed(program, text):
    ran = subprocess.run([program, "--all"], input=text, capture_output=True, text=True, timeout=60)
    return ran.stdout + ran.stderr


def main(divide, original, seed):
    tally, source, divisions = Tally(), random.Random(seed), 0
    for n in range(100):
        rows, columns = source.choice(((3, 3), (2, 5), (3, 4), (4, 4)))
        text = judge.lines(*judge.grid(source, rows, columns, 0.7, most_others=1))
        expected, written = printed(original, text), printed(divide, text)
        divisions += expected.count("literals:")
        tally.test("grid %d by examples/rust and by the original" % n, written == expected, text, written, expected)
    tally.test("divisions to compare", divisions >= 100)
    print("100 grids, %d divisions, the same by the Rust original" % divisions)
    tally.end()


main(*sys.argv[1:])
