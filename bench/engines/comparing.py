"""Runs of the program under many settings, each of which has to leave a text that something else made: for bench/pgbench and bench/tolls."""
import itertools
import subprocess
import sys
from pathlib import Path

from script.places import PROGRAM, environment

PLANS = [
    [f"unit={unit}", f"explore={explore}", f"abort={abort}"]
    for unit, explore, abort in itertools.product(("op", "chain"), ("strata", "steal"), ("lazy", "eager"))
] + [["plan=auto"]]
CHOICES = [
    [*plan, f"workers={workers}", f"ahead={ahead}"] for plan, workers, ahead in itertools.product(PLANS, (1, 2, 4, 16), (0, 1, 2))
]


def add_program(parser):
    """The option that says which program is run, for bench/databases too."""
    parser.add_argument("--program", type=built, default=str(PROGRAM))


def built(path):
    if not Path(path).exists():
        sys.exit("the program is not built: run ./morph once before")
    return path


def compare(program, words, text, wanted):
    """Runs the program once; a run that leaves something else ends the script with status 1."""
    ran = subprocess.run([program, *words], input=text, capture_output=True, env=environment(), check=False)
    if (ran.returncode, ran.stdout, ran.stderr) == (0, wanted, b""):
        return
    print(f"differs: {' '.join(words)}: status {ran.returncode}, {ran.stderr[-200:]!r}")
    pairs = itertools.zip_longest(wanted.splitlines(), ran.stdout.splitlines())
    for number, (want, got) in enumerate(pairs, 1):
        if want != got:
            print(f"line {number}: {want!r} is wanted, {got!r} is written")
            break
    sys.exit(1)


def compare_all(program, words, text, wanted):
    """Runs the program under each of the choices, and returns how many they are."""
    for choice in CHOICES:
        compare(program, [*words, *choice], text, wanted)
    return len(CHOICES)
