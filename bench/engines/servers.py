"""Servers of databases for the scripts of bench/: each is started in a scratch folder, on a Unix socket there, and is ended when its `with` ends.

PostgreSQL refuses to run as root. If root runs a script, the server is run as the user `postgres`, or as `nobody` if there is none. Nothing is
durable: PostgreSQL has `fsync`, `synchronous_commit` and `full_page_writes` off and the least WAL, and Redis saves nothing; all else is as the
distribution has it. Servers are started by `setpriv` (util-linux), so that the system ends a server even if its script is killed.
"""
import os
import pwd
import shutil
import signal
import socket
import subprocess
import time
from contextlib import contextmanager
from pathlib import Path

POSTGRES_FOLDERS = Path("/usr/lib/postgresql")  # where Debian has them, by version
PATIENCE = 30  # seconds until a server has to answer, and to end
DATABASE = "postgres"
USER = "bench"  # of the database, not of the system
SETTINGS = ("listen_addresses=", "fsync=off", "synchronous_commit=off", "full_page_writes=off", "wal_level=minimal", "max_wal_senders=0")


class Missing(Exception):
    """What is not installed, or does not start."""


def end_at_signals():
    """Makes SIGTERM and SIGHUP end the script as an exception does, so that servers are ended."""
    for number in (signal.SIGTERM, signal.SIGHUP):
        signal.signal(number, lambda got, _: (_ for _ in ()).throw(SystemExit(128 + got)))


def find(command):
    """The path of a command of PostgreSQL, of the newest version that there is."""
    versions = sorted(POSTGRES_FOLDERS.glob("*/bin"), key=lambda folder: float(folder.parent.name), reverse=True)
    for folder in versions:
        if (folder / command).exists():
            return str(folder / command)
    found = shutil.which(command)
    if not found:
        raise Missing(f"no {command} is installed")
    return found


def version(command):
    """The last number that a command says of itself with --version."""
    words = subprocess.run([command, "--version"], capture_output=True, text=True, check=True).stdout.split()
    return next(word.removeprefix("v=") for word in words if word.removeprefix("v=")[:1].isdigit())


def run_quietly(words):
    """Runs a command, which has to succeed, and returns what it wrote."""
    done = subprocess.run(words, capture_output=True, text=True, check=False)
    if done.returncode != 0:
        raise Missing(f"{Path(words[0]).name}: {done.stderr.strip() or done.stdout.strip()}")
    return done.stdout


def ordinary_user():
    """Words in front of a command that run it as an ordinary user, and its number; nothing if this is one already."""
    if os.geteuid() != 0:
        return [], os.geteuid()
    for name in ("postgres", "nobody"):
        try:
            user = pwd.getpwnam(name)
        except KeyError:
            continue
        return ["setpriv", f"--reuid={user.pw_uid}", f"--regid={user.pw_gid}", "--clear-groups"], user.pw_uid
    raise Missing("there is no user to run PostgreSQL as")


@contextmanager
def started(words, answers, log):
    """A server, once it answers; it is ended behind the `with`."""
    with open(log, "wb") as said:
        server = subprocess.Popen(words, stdin=subprocess.DEVNULL, stdout=said, stderr=said)
    try:
        wait_until(answers, server, log)
        yield server
    finally:
        server.send_signal(signal.SIGINT)
        try:
            server.wait(PATIENCE)
        except subprocess.TimeoutExpired:
            server.kill()
            server.wait()


def wait_until(answers, server, log):
    end = time.monotonic() + PATIENCE
    while not answers():
        if server.poll() is not None or time.monotonic() > end:
            raise Missing(f"a server does not start: {log.read_text()[-300:]}")
        time.sleep(0.05)


class Postgres:
    """A server that runs: its process, and how to speak to it."""

    def __init__(self, folder):
        self.folder = folder
        self.process = None
        self.connection = f"host={folder} user={USER} dbname={DATABASE}"

    def psql(self, *words):
        """Runs psql, stops at the first error, and returns what it wrote: rows with bars between columns, and nothing else."""
        return run_quietly([find("psql"), "-X", "-q", "-A", "-t", "-v", "ON_ERROR_STOP=1", self.connection, *words])

    def answers(self):
        return subprocess.run([find("pg_isready"), "-q", "-h", self.folder, "-U", USER], check=False).returncode == 0


@contextmanager
def postgres(scratch, settings=()):
    """A PostgreSQL server whose files are in a new folder of this one."""
    folder, log = Path(scratch) / "postgres", Path(scratch) / "postgres.log"
    as_user, number = ordinary_user()
    os.chmod(scratch, 0o711)
    folder.mkdir(mode=0o700)
    os.chown(folder, number, -1)
    run_quietly([*as_user, find("initdb"), "-D", str(folder / "data"), "-U", USER, "-A", "trust", "-E", "UTF8", "--locale=C", "-N"])
    words = [find("postgres"), "-D", str(folder / "data"), "-k", str(folder)]
    for setting in (*SETTINGS, *settings):
        words += ["-c", setting]
    server = Postgres(str(folder))
    with started(["setpriv", "--pdeathsig=INT", *as_user[1:], *words], server.answers, log) as server.process:
        yield server


class Redis:
    """A server that runs: its process, and how to speak to it."""

    def __init__(self, path):
        self.path = path
        self.process = None

    def say(self, command):
        """Sends a command, and returns the first line of what comes back."""
        with socket.socket(socket.AF_UNIX, socket.SOCK_STREAM) as line:
            line.connect(self.path)
            line.sendall(command.encode() + b"\r\n")
            return line.makefile().readline().strip()

    def answers(self):
        try:
            return self.say("PING") == "+PONG"
        except OSError:
            return False


@contextmanager
def redis(scratch):
    """A Redis server whose socket is in this folder."""
    command = shutil.which("redis-server")
    if not command:
        raise Missing("no redis-server is on the path")
    server = Redis(str(Path(scratch) / "redis.sock"))
    words = [command, "--port", "0", "--unixsocket", server.path, "--save", "", "--appendonly", "no", "--dir", str(scratch)]
    with started(["setpriv", "--pdeathsig=INT", *words], server.answers, Path(scratch) / "redis.log") as server.process:
        yield server


def family(process):
    """The process and all below it."""
    parents = {}
    for status in Path("/proc").glob("[0-9]*/stat"):
        try:
            behind = status.read_text().rsplit(")", 1)[1].split()
        except OSError:
            continue  # it has ended
        parents[int(status.parent.name)] = int(behind[1])
    found = {process}
    while True:
        more = {child for child, parent in parents.items() if parent in found} - found
        if not more:
            return found
        found |= more


def number_in(path, name):
    """The number of KiB behind a name in a file of /proc, 0 if the process has ended."""
    try:
        lines = Path(path).read_text().splitlines()
    except OSError:
        return 0
    return next((int(line.split()[1]) for line in lines if line.startswith(name + ":")), 0)


def memory_of(process):
    """KiB of a process and all below it now; what several share counts once."""
    return sum(number_in(f"/proc/{one}/smaps_rollup", "Pss") for one in family(process))
