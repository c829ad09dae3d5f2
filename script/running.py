"""Runs the program, in place of the script or as a child whose progress is shown."""
import contextlib
import os
import resource
import select
import signal
import stat
import subprocess
import time
from pathlib import Path

from script.places import environment, say
from script.terminal import Line, duration

PAUSE = 0.5  # seconds between two looks at a run
PATIENCE = 2  # seconds after which a run is long
PIECE = 1 << 20


def run(program, words, is_quiet):
    """Runs the program with these words. If it is a child, its status is returned."""
    given = dict(word.partition("=")[::2] for word in words)
    if "app" in given and os.isatty(0) and not is_quiet:
        say("event lines are awaited on standard input; Ctrl-D at the start of a line ends them")
    if not is_quiet and wants_progress(given):
        return watch(program, words, given)
    os.execve(program, [str(program), *words], environment())


def wants_progress(given):
    """Whether standard error is a terminal that shows nothing else: neither notes nor input that is being typed."""
    speaks = given.get("notes") == "on" or given.get("watch") == "on" or given.get("check", "off") != "off"
    return os.isatty(2) and not speaks and not ("app" in given and os.isatty(0))


class Course:
    """How far a run is, by what can be seen of it from outside: where it is in its input, or how much it has read."""

    def __init__(self, given):
        self.begun, self.reads = time.monotonic(), "app" in given
        self.is_file = self.reads and stat.S_ISREG(os.fstat(0).st_mode)
        self.first = self.counted = os.lseek(0, 0, os.SEEK_CUR) if self.is_file else 0
        self.lines = 0

    def seconds(self):
        return time.monotonic() - self.begun

    def text(self, pid):
        try:
            if self.is_file:
                return self.text_of_file(pid)
            if self.reads:
                return self.text_of_pipe(pid)
        except (OSError, ValueError):
            pass  # the run has ended, or the system does not show it
        return f"running for {duration(self.seconds())}"

    def text_of_file(self, pid):
        fields = dict(line.split(":", 1) for line in Path(f"/proc/{pid}/fdinfo/0").read_text().splitlines())
        place, size = int(fields["pos"]), os.fstat(0).st_size
        while self.counted < place:
            piece = os.pread(0, min(PIECE, place - self.counted), self.counted)
            if not piece:
                break
            self.lines, self.counted = self.lines + piece.count(b"\n"), self.counted + len(piece)
        part = (place - self.first) / max(size - self.first, 1)
        left = f", {duration(self.seconds() * (1 - part) / part)} left" if part > 0 else ""
        pace = self.lines / self.seconds()
        return f"{100 * part:.0f} % read, {self.lines:,} lines, {pace:,.0f} a second{left}"

    def text_of_pipe(self, pid):
        fields = dict(line.split(": ") for line in Path(f"/proc/{pid}/io").read_text().splitlines())
        megabytes = int(fields["rchar"]) / 1e6
        return f"{megabytes:,.1f} MB read in {duration(self.seconds())}, {megabytes / self.seconds():,.1f} MB a second"


def watch(program, words, given):
    """Runs the program as a child. Its status is returned; a signal that ends it ends the script too."""
    # If the output goes to the terminal as well, it goes through the script, which takes its own line away first.
    is_shared = os.isatty(1)
    line, course = Line(), Course(given)
    # The signals that Python ignores stay ignored, as they do in a program that takes the script's place.
    child = subprocess.Popen([str(program), *words], env=environment(), restore_signals=False,
                             stdout=subprocess.PIPE if is_shared else None)
    for number in (signal.SIGINT, signal.SIGQUIT):
        signal.signal(number, signal.SIG_IGN)  # a terminal sends them to the child as well
    for number in (signal.SIGTERM, signal.SIGHUP):
        signal.signal(number, lambda number, _: child.send_signal(number))

    def look():
        if course.seconds() >= PATIENCE:
            line.show(course.text(child.pid))

    if is_shared:
        hand_on(child.stdout, line, look)
        look = line.clear
    status = wait_for(child, look)
    line.clear()
    if status < 0:
        return end_by(-status)
    return status


def end_by(number):
    """Ends the script by the signal that ended the program, without a core file of its own."""
    resource.setrlimit(resource.RLIMIT_CORE, (0, 0))
    with contextlib.suppress(OSError):  # of SIGKILL nothing can be set
        signal.signal(number, signal.SIG_DFL)
    os.kill(os.getpid(), number)
    return 128 + number


def hand_on(source, line, look):
    """Writes what comes from the source to standard output. Progress is shown until the first of it."""
    has_begun = False
    while True:
        while not has_begun and not select.select([source], [], [], PAUSE)[0]:
            look()
        piece = os.read(source.fileno(), PIECE)
        line.clear()
        has_begun = True
        if not piece:
            break
        try:
            while piece:
                piece = piece[os.write(1, piece):]
        except OSError:
            break
    source.close()


def wait_for(child, look):
    while True:
        try:
            return child.wait(PAUSE)
        except subprocess.TimeoutExpired:
            look()
