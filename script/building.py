"""Proves the crates of the tree and builds the program."""
import os
import shutil
import sys
import time
from concurrent.futures import FIRST_COMPLETED, ThreadPoolExecutor, wait

from script.commands import Commands, alone, end_on_signals, failure_of
from script.places import BUILT, CRATES, PROGRAM, TOP, find_kit, say
from script.terminal import Line, duration
from script.tree import Tree, is_built, made_of, stamp_file

TARGET = "x86_64-unknown-linux-gnu"
MEMORY = 4 << 30  # what a proof may take
# Seconds that crates of the longest chain take on four processors, beside others. For the others these are reckoned
# from the size of their code.
SECONDS = {"morph_base": 39, "interleaving_core": 34, "op_words": 39, "op_eval": 17, "abort_eager": 34,
           "steal_explorer": 49, "morph_engine": 58, "batch_pipe": 76, "morph_cli": 56, "morph": 28}
BYTES_A_SECOND = 1200


class Proofs:
    """Proves crates, each by the compiler of the toolchain, which builds a crate that is proved and no other."""

    def __init__(self, tree, kit):
        self.tree, self.kit, self.commands = tree, kit, Commands()

    def words(self, crate):
        """The crate's root and the libraries that it uses. Those of the tree have their statements alone, which the
        crates above load in a fraction of the time that the proofs would take."""
        kit = self.kit
        yield from ("--crate-name", crate, "src/main.rt" if crate == "morph" else "src/lib.rt")
        for name in ["std", *self.tree.uses[crate]]:
            folder = BUILT if name in self.tree.uses else kit / "rlibs"
            yield from ("--extern", f"{name}={folder}/{name}.rlib")
        for folder in (BUILT, kit / "rlibs"):
            yield from ("-L", f"dependency={folder}")
        yield from ("--antt-project", f"{kit}/rattle/logic/antt-project.json", "--logic-built", f"{kit}/logic_built")

    def prove(self, crate, jobs, gives_way):
        """Proves and builds a crate. Whether it is proved, the seconds that it took, and what was said."""
        begun = time.monotonic()
        stamp_file(crate).unlink(missing_ok=True)
        if crate == "morph":
            form = ["--toolchain", f"{self.kit}/toolchain", "--backend", "llvm", "-o", f"{PROGRAM}.o"]
        else:
            form = ["--statements", "-o", str(made_of(crate))]
        command = [f"{self.kit}/bin/rattle", "build", *self.words(crate), "--jobs", str(jobs), *form]
        status, said = self.commands.run(["nice", "-n", "19"] * gives_way + command, CRATES / crate)
        if status == 0 and crate == "morph":
            status, said = self.link()
        if status == 0 and Tree().stamps[crate] == self.tree.stamps[crate]:
            stamp_file(crate).write_text(self.tree.stamps[crate])
        return status == 0, time.monotonic() - begun, said

    def link(self):
        """Links the program beside the one that may be running, and then puts it in its place."""
        kit, new = self.kit, f"{PROGRAM}.new"
        status, said = self.commands.run(
            [f"{kit}/bin/rattle-link", "--target", TARGET, "--toolchain", f"{kit}/toolchain", "-o", new, f"{PROGRAM}.o",
             f"{kit}/c/libos_c.a", f"{kit}/c/liblibc_c.a"], BUILT)
        if status == 0:
            os.replace(new, PROGRAM)
        return status, said


class Progress:
    """Says how far the proofs are: one line of a terminal that is kept up to date, and else a line for each crate."""

    def __init__(self, tree, proved):
        sizes = tree.sizes()
        self.seconds = {crate: SECONDS.get(crate, size / BYTES_A_SECOND) for crate, size in sizes.items()}
        self.chains, self.all = tree.chains(self.seconds), len(tree.below)
        self.line, self.begun, self.proved = Line(), time.monotonic(), len(proved)
        self.left, self.running = set(tree.below) - proved, {}
        self.took = self.expected = 0

    def start(self, crate):
        self.running[crate] = time.monotonic()
        self.show()

    def end(self, crate, seconds):
        self.left.discard(crate)
        self.running.pop(crate)
        self.took, self.expected = self.took + seconds, self.expected + self.seconds[crate]
        self.proved += 1
        if self.line.is_shown:
            self.show()
        else:
            say(f"{crate} is proved, after {seconds:.0f} seconds ({self.proved} of {self.all})")

    def show(self):
        # A crate of which nothing is known yet is taken to be a quarter of the time that is known.
        pace = (self.took + 30) / (self.expected + 30)
        now = time.monotonic()
        left = max((pace * self.chains[crate] - (now - self.running.get(crate, now)) for crate in self.left), default=0)
        names = ", ".join(sorted(self.running, key=lambda crate: -self.chains[crate]))
        self.line.show(f"{self.proved} of {self.all} crates proved, about {duration(max(left, 1))} left: {names}")

    def close(self):
        self.line.clear()
        if self.line.is_shown and not self.left:
            say(f"all {self.all} crates are proved, after {duration(time.monotonic() - self.begun)}")


def clear_of_others(kit):
    """Drops what another toolchain built."""
    note, name = BUILT / "toolchain", f"{kit} {(kit / 'bin/rattle').stat().st_mtime_ns}"
    if not note.exists() or note.read_text() != name:
        shutil.rmtree(BUILT, ignore_errors=True)
        BUILT.mkdir(parents=True, exist_ok=True)
        note.write_text(name)


def proved_crates(tree):
    """The crates that are built from what is there now. A library fits those below it as they were built then: if one
    is built anew, all above it are too."""
    proved = set()
    for crate in tree.below:
        if proved.issuperset(tree.below[crate]) and is_built(tree, crate):
            proved.add(crate)
    return proved


def build(tree, kit):
    """Proves and builds all that is not built from what is there now: the crate with the longest chain above it over
    all processors, and beside it others, which give way to it."""
    processors = len(os.sched_getaffinity(0))
    most = max(1, min(processors, os.sysconf("SC_PHYS_PAGES") * os.sysconf("SC_PAGE_SIZE") // MEMORY))
    chains, proofs, running = tree.chains(tree.sizes()), Proofs(tree, kit), {}
    proved = proved_crates(tree)
    left = sorted(set(tree.below) - proved, key=lambda crate: -chains[crate])
    progress = Progress(tree, proved)
    with ThreadPoolExecutor(most) as pool:
        try:
            while left or running:
                ready = [crate for crate in left if proved.issuperset(tree.below[crate])]
                share = min(processors, max(2, processors // (len(ready) + len(running))))
                for crate in ready[:most - len(running)]:
                    is_longest = all(chains[other] <= chains[crate] for other in running.values())
                    jobs = processors if is_longest else share
                    left.remove(crate)
                    running[pool.submit(proofs.prove, crate, jobs, not is_longest)] = crate
                    progress.start(crate)
                for run in wait(running, timeout=1, return_when=FIRST_COMPLETED).done:
                    crate = running.pop(run)
                    well, seconds, said = run.result()
                    if not well:
                        progress.line.clear()
                        print(said, end="", file=sys.stderr)
                        raise failure_of(said, BUILT, f"{crate} is not proved: the lines above say why")
                    proved.add(crate)
                    progress.end(crate, seconds)
                progress.show()
        finally:
            proofs.commands.stop()
            progress.close()


def proved_program():
    """The program, proved and built from what is there now."""
    if not is_built(Tree(), "morph"):
        with alone(TOP / "crates.txt", "proves and builds"):
            tree = Tree()
            if not is_built(tree, "morph"):
                kit = find_kit("rattle")
                clear_of_others(kit)
                count = len(tree.below) - len(proved_crates(tree))
                say(f"{count} of {len(tree.below)} crates are not proved as they are now: they are proved first")
                end_on_signals()
                build(tree, kit)
    return PROGRAM
