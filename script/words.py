"""What the script says of itself: its help, its version, and its answer to wrong words."""
import shutil
import subprocess
from pathlib import Path

from script.places import TOP
from script.settings import SETTINGS
from script.tree import Tree, is_built

USAGE = """usage: ./morph app=ledger|grep|toll [name=value ...] < INPUT
       ./morph self=ledger|grep|toll [name=value ...]
       ./morph try name=value ...    ./morph install DIR    ./morph --help"""

HELP = """morph: a transactional stream processing engine whose answer is proved

  ./morph app=ledger < FILE   reads events, applies each as one transaction, and writes what became of it. The
                              first call proves and builds the program, which takes minutes; later calls start
                              at once, until a source changes
  ./morph self=ledger         the same for events that the program makes itself
  ./morph try WORDS..         runs the program without any proof, and with checks that make it slow, for a first
                              look. The first call compiles it for half a minute; it is kept until a source changes
  ./morph install DIR         puts the proved program into a folder, where it runs without the toolchain
  ./morph --help, --version   print this page; which state of the sources this is, and what is built of it
  --quiet                     beside other words: no progress, and no hint that input is awaited

Settings, in any order, each at most once; one of app and self is needed:

{settings}
Statuses: 0 done; 1 the script could not prove, build or install; 2 the words are wrong; 3 a line was refused
(the last line of output says which, and why); 4 reading failed; 5 writing failed; 6 out of memory; 7 more than
2^30 bytes of input.

Examples:

  ./morph try app=ledger < examples/ledger.txt
  ./morph self=ledger events=1000000 notes=on

docs/USAGE.md has the lines of input and output, and recipes; README.md what is proved; docs/ARCHITECTURE.md how
it works; docs/CONTRIBUTING.md how it is built."""


def help_text():
    lines = []
    for setting in SETTINGS.values():
        values = setting.choices() + (f" ({setting.default})" if setting.default else "")
        lines.append(f"  {setting.name:<8} {values:<28} {setting.meaning}\n")
    return HELP.format(settings="".join(lines))


def version_text():
    """The state of the sources by git, what is built of it, and the toolchain on the path."""
    built = "is proved and built from these sources" if is_built(Tree(), "morph") else "is not built from these sources"
    return f"morph, {commit()}\nThe program {built}.\nToolchain: {toolchain()}"


def commit():
    try:
        said = subprocess.run(["git", "-C", TOP, "describe", "--always", "--dirty=, changed since"],
                              capture_output=True, text=True, check=True).stdout.strip()
    except (OSError, subprocess.CalledProcessError):
        return "not in a git repository"
    return f"at commit {said}"


def toolchain():
    rt = shutil.which("rt")
    if not rt:
        return "none on the path"
    name = Path(rt).resolve().parents[1] / "KIT-ID"
    return name.read_text().strip() if name.exists() else rt
