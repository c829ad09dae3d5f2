"""The crates that the program is made of, and whether what was built is up to date."""
import hashlib

from script.places import BUILT, CRATES, PROGRAM, TOP

FLOOR = 5000  # what a proof takes before it begins, in bytes of code


class Tree:
    """The crates below the program, lowest first, and the program at the end, as they are now."""

    def __init__(self):
        lines = (line.split("#")[0].partition(":") for line in (TOP / "crates.txt").read_text().splitlines())
        self.uses = {name.split()[0]: uses.split() for name, _, uses in lines if name.strip()}
        self.below, self.stamps = {}, {}
        self.visit("morph")

    def visit(self, crate):
        if crate not in self.below:
            low = [name for name in self.uses[crate] if name in self.uses]
            for name in low:
                self.visit(name)
            self.below[crate] = low
            self.stamps[crate] = self.stamp(crate)

    def sources(self, crate, *parts):
        files = (file for part in parts for file in (CRATES / crate / part).rglob("*"))
        return sorted(file for file in files if file.suffix in (".rt", ".antt"))

    def stamp(self, crate):
        """A checksum of all that the crate is built from: its sources, what it uses, and the stamps of the crates
        below it."""
        total = hashlib.sha256(repr([self.uses[crate], *(self.stamps[low] for low in self.below[crate])]).encode())
        for file in self.sources(crate, "src", "specs", "proofs"):
            text = file.read_bytes()
            total.update(f"{file.relative_to(CRATES)} {len(text)}\n".encode() + text)
        return total.hexdigest()

    def sizes(self):
        """How much there is to prove of each crate, by the bytes of its code."""
        return {crate: FLOOR + sum(file.stat().st_size for file in self.sources(crate, "src")) for crate in self.below}

    def chains(self, weights):
        """For each crate its weight and that of the heaviest chain of crates above it."""
        chains = dict(weights)
        for crate in reversed(self.below):
            for low in self.below[crate]:
                chains[low] = max(chains[low], weights[low] + chains[crate])
        return chains


def made_of(crate):
    """What is built of the crate."""
    return PROGRAM if crate == "morph" else BUILT / f"{crate}.rlib"


def stamp_file(crate):
    return BUILT / f"{crate}.stamp"


def has_stamp(file, stamp):
    try:
        return file.read_text() == stamp
    except FileNotFoundError:
        return False


def is_built(tree, crate):
    """Whether it was built from what is there now."""
    return made_of(crate).exists() and has_stamp(stamp_file(crate), tree.stamps[crate])
