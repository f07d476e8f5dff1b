"""The crates of crates.txt, and how the prover of the kit is called on one of them: for scripts that check a copy of
a crate, or build one apart, which no command of rt does."""
import os
import subprocess

ROOT = os.path.dirname(os.path.dirname(os.path.abspath(__file__)))


def kit():
    """The folder of the Rattle kit, by the page that `rt doc` names; None where rt is not on the PATH."""
    try:
        said = subprocess.run(["rt", "doc"], text=True, stdout=subprocess.PIPE, check=True).stdout.strip()
    except (OSError, subprocess.CalledProcessError):
        return None
    return os.path.dirname(said)


KIT = kit()
RATTLE = f"{KIT}/bin/rattle"


def listed():
    """By name, each crate's words before the colon and the libraries that it uses, as crates.txt has them."""
    found = {}
    with open(f"{ROOT}/crates.txt", encoding="utf-8") as lines:
        for line in lines:
            head, colon, deps = line.split("#")[0].partition(":")
            if colon:
                name, *words = head.split()
                found[name] = words, deps.split()
    return found


CRATES = listed()


def is_program(name):
    return os.path.exists(f"{ROOT}/crates/{name}/src/main.rt")


def is_static(name):
    return "staticlib" in CRATES[name][0]


def below(name):
    """The repository's crates below this one, each after those that it uses."""
    found = []
    for dep in CRATES[name][1]:
        if dep in CRATES:
            found += [it for it in [*below(dep), dep] if it not in found]
    return found


def words(name):
    """What follows `rattle check` or `rattle build` of the crate in a folder that holds its src/, specs/ and proofs/: over
    the libraries that rt built in this checkout (`rt check` or `rt all check`), at one job."""
    built = {it: f"{ROOT}/crates/{it}/out/rlib" for it in below(name)}
    found = ["--crate-name", name, "src/main.rt" if is_program(name) else "src/lib.rt"]
    for dep in ["std", *CRATES[name][1]]:
        found += ["--extern", f"{dep}={built.get(dep, f'{KIT}/rlibs')}/{dep}.rlib"]
    for folder in [f"{KIT}/rlibs", *built.values()]:
        found += ["-L", f"dependency={folder}"]
    found += ["--antt-project", f"{KIT}/rattle/logic/antt-project.json", "--logic-built", f"{KIT}/logic_built"]
    found += ["--jobs", "1", "--links", f"{name}="]
    return found + (["--crate-type", "staticlib"] if is_static(name) else [])
