"""Commands of the toolchain, run so that they end with the script."""
import contextlib
import fcntl
import os
import shutil
import signal
import subprocess
import sys

from script.places import Failure, say

OWN_GROUP = {"process_group": 0} if sys.version_info >= (3, 11) else {"preexec_fn": os.setpgrp}
SCARCE = 64 << 20  # with less of the disk left than this, a command that failed is taken to have filled it


class Commands:
    """Runs commands, and stops those that are still running when it is told to."""

    def __init__(self):
        self.runs, self.stopped = set(), False

    def run(self, command, folder, variables=None):
        """The status of a command, and what it said."""
        # A group of its own, so that the copies that the compiler makes of itself end with it; and no session of its
        # own, since `nice` weighs against the processes of one session alone.
        try:
            run = subprocess.Popen(command, cwd=folder, stdin=subprocess.DEVNULL, stdout=subprocess.PIPE,
                                   stderr=subprocess.STDOUT, errors="replace", env=variables, **OWN_GROUP)
        except OSError as error:
            raise Failure(f"the toolchain does not run: {error.filename}: {error.strerror}") from error
        self.runs.add(run)
        if self.stopped:
            self.stop()
        said = run.communicate()[0]
        self.runs.discard(run)
        return run.returncode, said

    def stop(self):
        self.stopped = True
        for run in list(self.runs):
            with contextlib.suppress(ProcessLookupError):
                os.killpg(run.pid, signal.SIGTERM)


def end_on_signals():
    """Has the signals that end the script raise SystemExit, so that its commands end too."""
    for number in (signal.SIGTERM, signal.SIGHUP):
        signal.signal(number, lambda number, _: sys.exit(128 + number))


@contextlib.contextmanager
def alone(place, what):
    """Waits until no other call of the script in this tree does the same."""
    descriptor = os.open(place, os.O_RDONLY)
    try:
        try:
            fcntl.flock(descriptor, fcntl.LOCK_EX | fcntl.LOCK_NB)
        except BlockingIOError:
            say(f"another call {what} here; this one waits for it")
            fcntl.flock(descriptor, fcntl.LOCK_EX)
        yield
    finally:
        os.close(descriptor)


def failure_of(said, folder, otherwise):
    """Why a command failed: the disk is full, or else what is given."""
    if "No space left on device" in said or shutil.disk_usage(folder).free < SCARCE:
        return Failure(f"the disk is full: there is no room in {folder}")
    return Failure(otherwise)
