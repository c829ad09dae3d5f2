"""Where things are, what the program is run with, and how the script speaks."""
import os
import shutil
import sys
from pathlib import Path

TOP = Path(__file__).resolve().parent.parent
CRATES = TOP / "crates"
BUILT = CRATES / "morph/out/built"  # of each crate its library, and a stamp of what it was built from; and the program
PROGRAM = BUILT / "morph"
TRIED = CRATES / "morph/out/tried"  # the program without proofs, and its stamp

# A batch takes about as much memory as the one before it. By default the C library gives the end of the heap back to
# the system after each batch, and of small pieces it keeps seven of a size at hand and joins the others, to cut them
# anew in the next batch. So it is told to keep the heap, and all small pieces at hand. It also asks the system for
# large pages: the operations of a batch are read at random places, and a page of 2 MiB saves most look-ups of
# addresses. It can do so only for a piece of 2 MiB, and the heap mostly grows by less, so it grows by 16 MiB at a time: what
# is not used of them takes no memory. All threads share one heap, so that what one of them drops serves the next batch,
# whichever thread makes it.
# Variables that are set already are left alone.
KEPT = {
    "MALLOC_TRIM_THRESHOLD_": "33554432",
    "MALLOC_MMAP_THRESHOLD_": "33554432",
    "MALLOC_TOP_PAD_": "16777216",
    "GLIBC_TUNABLES": "glibc.malloc.tcache_count=65535:glibc.malloc.hugetlb=1:glibc.malloc.arena_max=1",
}


class Failure(Exception):
    """Why the script cannot go on, in one line for its caller."""


def say(text):
    if sys.stderr:
        print(f"morph: {text}", file=sys.stderr, flush=True)


def environment():
    """The variables that the program is run with."""
    return {**KEPT, **os.environ}


def find_kit(tool):
    """The folder of the toolchain, of which `rt` on the path is a part, and which has to have this tool."""
    rt = shutil.which("rt")
    if not rt:
        raise Failure("the toolchain is missing: its command 'rt' is not on the path, and the program is not built")
    kit = Path(rt).resolve().parents[1]
    if not (kit / "bin" / tool).exists():
        raise Failure(f"the toolchain is not whole: there is no {kit / 'bin' / tool}")
    return kit
