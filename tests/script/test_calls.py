"""What calls of the script do, with a toolchain of stubs."""
import os
import signal
import subprocess
import tempfile
import time
import unittest

from stubs import CRATES, PATH, TOP, Terminal, Tree

WORDS = ("app=ledger",)
EVENTS = "D 1 0 0 1 1\n"


class Calls(unittest.TestCase):
    def setUp(self):
        self.tree = Tree()
        self.addCleanup(self.tree.remove)

    def build(self):
        self.assertEqual(self.tree.run(*WORDS, given=EVENTS).returncode, 0)
        self.tree.log()

    def wait_for(self, holds):
        for _ in range(1500):
            if holds():
                return
            time.sleep(0.02)
        self.fail("it did not come")

    def at_once(self, count, *words):
        """So many calls at once, of which one works and the others wait for it. What each wrote to standard error."""
        self.tree.set("hold")
        files = [self.tree.folder / f"errors{number}" for number in range(count)]
        calls = []
        for file in files:
            with open(file, "w") as errors:
                calls.append(self.tree.start(*words, stdout=subprocess.DEVNULL, stderr=errors))
        self.wait_for(lambda: sum("this one waits for it" in file.read_text() for file in files) == count - 1)
        self.tree.unset("hold")
        self.assertEqual([call.wait(30) for call in calls], [0] * count)
        return [file.read_text() for file in files]

    def terminal(self):
        try:
            terminal = Terminal()
        except OSError:
            self.skipTest("there are no terminals here")
        self.addCleanup(terminal.close)
        return terminal


class Answers(Calls):
    """What is answered before anything is built."""

    def test_help(self):
        for word in ("--help", "-h"):
            done = self.tree.run(word)
            self.assertEqual((done.returncode, done.stderr), (0, ""))
            for text in ("workers", "1 to 16 (1)", "strata, steal (strata)", "Statuses:", "docs/USAGE.md", "install DIR"):
                self.assertIn(text, done.stdout)
            self.assertEqual(done.stdout.count("\n  ./morph try app=ledger < examples/ledger.txt\n"), 1)
            self.assertLessEqual(max(map(len, done.stdout.splitlines())), 120)

    def test_version(self):
        done = self.tree.run("--version")
        self.assertEqual((done.returncode, done.stderr), (0, ""))
        self.assertIn("is not built from these sources", done.stdout)
        self.build()
        self.assertIn("is proved and built from these sources", self.tree.run("--version").stdout)

    def test_no_words(self):
        done = self.tree.run()
        self.assertEqual((done.returncode, done.stdout), (2, ""))
        self.assertIn("usage: ./morph app=", done.stderr)

    def test_wrong_words(self):
        for words in (("worker=4", "app=ledger"), ("try", "app=leger"), ("install",), ("--quite", "app=ledger")):
            done = self.tree.run(*words)
            self.assertEqual((done.returncode, done.stdout), (2, ""))
            self.assertIn("--help", done.stderr)
        self.assertIn("did you mean '--quiet'?", done.stderr)

    def tearDown(self):
        self.assertNotIn("try", self.tree.log())


class Builds(Calls):
    """How the program is proved and built."""

    def test_first_and_second_call(self):
        first = self.tree.run(*WORDS, given=EVENTS)
        self.assertEqual(first.returncode, 0)
        self.assertEqual(sorted(self.tree.log()), sorted([*CRATES, "link"]))
        lines = first.stderr.splitlines()
        self.assertEqual(lines[0], "morph: 4 of 4 crates are not proved as they are now: they are proved first")
        self.assertEqual([line.rpartition("(")[2] for line in lines[1:]], [f"{n} of 4)" for n in (1, 2, 3, 4)])
        second = self.tree.run(*WORDS, given=EVENTS)
        self.assertEqual((second.returncode, second.stderr, self.tree.log()), (0, "", []))

    def test_only_what_changed_and_what_is_above(self):
        self.build()
        self.tree.edit("left", "2")
        self.tree.run(*WORDS, given=EVENTS)
        self.assertEqual(self.tree.log(), ["left", "morph", "link"])
        os.utime(self.tree.top / "crates/low/src/lib.rt")
        self.tree.run(*WORDS, given=EVENTS)
        self.assertEqual(self.tree.log(), [])

    def test_a_crate_that_is_not_proved(self):
        self.tree.set("fails-left", "error: no proof\n")
        done = self.tree.run(*WORDS, given=EVENTS)
        self.assertEqual((done.returncode, done.stdout), (1, ""))
        self.assertTrue(done.stderr.endswith("error: no proof\nmorph: left is not proved: the lines above say why\n"))
        self.tree.log()
        self.tree.unset("fails-left")
        self.assertEqual(self.tree.run(*WORDS, given=EVENTS).returncode, 0)
        self.assertNotIn("low", self.tree.log())

    def test_interrupted_and_called_again(self):
        for number, status in ((signal.SIGINT, 130), (signal.SIGTERM, 143)):
            self.build()
            self.tree.edit("left", str(number))
            self.tree.edit("right", str(number))
            self.tree.set("hold-left")
            call = self.tree.start(*WORDS, stdout=subprocess.DEVNULL, stderr=subprocess.DEVNULL)
            self.wait_for(lambda: self.tree.has_log("left") and self.tree.is_stamped("right"))
            call.send_signal(number)
            self.assertEqual(call.wait(10), status)
            self.tree.log()
            self.tree.unset("hold-left")
            self.assertEqual(self.tree.run(*WORDS, given=EVENTS).returncode, 0)
            self.assertEqual(self.tree.log(), ["left", "morph", "link"])

    def test_calls_at_once(self):
        said = self.at_once(3, *WORDS)
        self.assertEqual(sorted(self.tree.log()), sorted([*CRATES, "link"]))
        self.assertEqual(sum("another call proves and builds here; this one waits for it" in error for error in said), 2)

    def test_a_running_program_is_replaced(self):
        self.build()
        run = self.tree.start(*WORDS, stdin=subprocess.PIPE, stdout=subprocess.PIPE, text=True)
        self.assertIn("program", run.stdout.readline())
        self.tree.edit("morph", "2")
        self.assertEqual(self.tree.run(*WORDS, given=EVENTS).returncode, 0)
        self.assertIn("end", run.communicate("x\n", timeout=20)[0])
        self.assertEqual(run.returncode, 0)

    def test_one_line_on_a_terminal(self):
        terminal = self.terminal()
        call = self.tree.start(*WORDS, stdout=subprocess.DEVNULL, stderr=terminal.theirs)
        self.assertEqual(call.wait(60), 0)
        said = terminal.read()
        self.assertIn("\r\x1b[Kmorph: 0 of 4 crates proved, about ", said)
        self.assertIn("\r\x1b[Kmorph: 3 of 4 crates proved, about ", said)
        self.assertIn("\r\x1b[Kmorph: all 4 crates are proved, after ", said)
        self.assertNotIn("is proved, after", said.replace("are proved", ""))
        self.assertEqual(said.count("\n"), 2)


class Troubles(Calls):
    """What goes wrong outside gets one clear line."""

    def test_no_toolchain(self):
        for words in (WORDS, ("try", *WORDS), ("install", "somewhere")):
            done = self.tree.run(*words, env={"PATH": PATH})
            self.assertEqual((done.returncode, done.stdout), (1, ""))
            self.assertEqual(done.stderr, "morph: the toolchain is missing: its command 'rt' is not on the path, "
                                          "and the program is not built\n")

    def test_a_toolchain_that_is_not_whole(self):
        self.tree.unset("bin/rattle")
        done = self.tree.run(*WORDS)
        self.assertEqual(done.returncode, 1)
        self.assertEqual(done.stderr, f"morph: the toolchain is not whole: there is no {self.tree.kit}/bin/rattle\n")

    def test_no_toolchain_is_needed_once_it_is_built(self):
        self.build()
        self.assertEqual(self.tree.run(*WORDS, given=EVENTS, env={"PATH": PATH}).returncode, 0)

    def test_a_full_disk(self):
        self.tree.set("fills-low")
        done = self.tree.run(*WORDS)
        self.assertEqual((done.returncode, done.stdout), (1, ""))
        self.assertIn("morph: the disk is full: there is no room", done.stderr.splitlines()[-1])

    def test_a_disk_that_the_compiler_finds_full(self):
        self.tree.set("fails-low", "error: No space left on device (os error 28)\n")
        done = self.tree.run(*WORDS)
        self.assertEqual(done.returncode, 1)
        self.assertEqual(done.stderr.splitlines()[-1], f"morph: the disk is full: there is no room in {self.tree.built}")

    def as_somebody(self):
        """How a call is made by somebody who may not write the tree."""
        for folder in (self.tree.top / "crates/morph/out", self.tree.top / "crates/morph"):
            if folder.exists():
                self.addCleanup(folder.chmod, 0o755)
                folder.chmod(0o555)
        if os.getuid() != 0:
            return {}
        how = {"user": 65534, "group": 65534, "extra_groups": [], "python": "/usr/bin/python3"}
        reads = [how["python"], "-c", f"open({str(self.tree.top / 'crates.txt')!r})"]
        try:
            subprocess.run(reads, check=True, capture_output=True, user=65534, group=65534, extra_groups=[])
        except (OSError, subprocess.SubprocessError):
            self.skipTest("nobody else may read this tree, or run this Python")
        return how

    def test_a_tree_that_may_not_be_written(self):
        how = self.as_somebody()
        for words in (WORDS, ("try", *WORDS)):
            done = self.tree.run(*words, **how)
            self.assertEqual((done.returncode, done.stdout), (1, ""))
            last = done.stderr.splitlines()[-1]
            self.assertIn("cannot be written", last)
            self.assertIn("copy the sources to a folder that you may write to", last)
            self.assertNotIn("Traceback", done.stderr)

    def test_a_tree_that_may_not_be_written_and_is_built(self):
        self.build()
        self.assertEqual(self.tree.run(*WORDS, given=EVENTS, **self.as_somebody()).returncode, 0)


class Tries(Calls):
    """The program without proofs."""

    def test_it_is_kept(self):
        first = self.tree.run("try", *WORDS, given=EVENTS)
        self.assertEqual((first.returncode, self.tree.log()), (0, ["try"]))
        self.assertIn("nothing of this run is proved", first.stderr)
        self.assertIn("half a minute", first.stderr)
        second = self.tree.run("try", *WORDS, given=EVENTS)
        self.assertEqual((second.returncode, self.tree.log()), (0, []))
        self.assertEqual(second.stderr, "morph: nothing of this run is proved; ./morph without 'try' proves the "
                                        "program and runs it\n")
        self.assertEqual([line.split()[0] for line in second.stdout.splitlines()], ["program", "kept", "end"])
        self.assertEqual(sorted(path.name for path in (self.tree.top / "crates/morph/out/tried").iterdir()),
                         ["morph", "stamp"])

    def test_it_is_compiled_anew_after_an_edit(self):
        self.tree.run("try", *WORDS, given=EVENTS)
        self.tree.edit("low", "2")
        self.tree.log()
        self.tree.run("try", *WORDS, given=EVENTS)
        self.assertEqual(self.tree.log(), ["try"])

    def test_a_disk_that_is_full_when_it_is_kept(self):
        tried = self.tree.top / "crates/morph/out/tried"
        linker = self.tree.kit / "toolchain/bin/ld.lld"
        linker.write_text(f"#!/bin/sh\nln -s /dev/full {tried}/morph.new.part\necho program > program\n")
        done = self.tree.run("try", *WORDS)
        self.assertEqual((done.returncode, done.stdout), (1, ""))
        self.assertEqual(done.stderr.splitlines()[-1], f"morph: the disk is full: there is no room in {tried}")
        self.assertFalse((tried / "morph").exists() or (tried / "stamp").exists())

    def test_status(self):
        self.tree.run("try", *WORDS, given=EVENTS)
        self.assertEqual(self.tree.run("try", *WORDS, given="status 3\n").returncode, 3)

    def test_what_does_not_compile(self):
        self.tree.set("fails-try", "error: no such name\n")
        done = self.tree.run("try", *WORDS)
        self.assertEqual((done.returncode, done.stdout), (1, ""))
        self.assertTrue(done.stderr.endswith("error: no such name\nmorph: the program does not compile: the lines above "
                                             "say why\n"))

    def test_calls_at_once(self):
        said = self.at_once(2, "try", *WORDS)
        self.assertEqual(self.tree.log(), ["try"])
        self.assertEqual(sum("another call compiles the program here" in error for error in said), 1)
        for error in said:
            self.assertEqual(error.count("nothing of this run is proved"), 1)


class Runs(Calls):
    """The program in place of the script, or as its child."""

    def setUp(self):
        super().setUp()
        self.build()

    def test_it_takes_the_place_of_the_script(self):
        call = self.tree.start(*WORDS, "notes=off", stdin=subprocess.PIPE, stdout=subprocess.PIPE, text=True)
        output = call.communicate(EVENTS, timeout=20)[0]
        self.assertEqual(output.splitlines()[0], f"program {call.pid} app=ledger notes=off")

    def test_variables(self):
        self.assertIn("kept 33554432\n", self.tree.run(*WORDS, given=EVENTS).stdout)
        own = self.tree.variables(MALLOC_TRIM_THRESHOLD_="5")
        self.assertIn("kept 5\n", self.tree.run(*WORDS, given=EVENTS, env=own).stdout)

    def test_status(self):
        for status in (0, 3, 4, 7):
            self.assertEqual(self.tree.run(*WORDS, given=f"status {status}\n").returncode, status)

    def test_a_terminal_for_input(self):
        for words, is_asked in ((WORDS, True), (("--quiet", *WORDS), False), (("self=ledger",), False)):
            terminal = self.terminal()
            call = self.tree.start(*words, stdin=terminal.theirs, stdout=subprocess.DEVNULL, stderr=subprocess.PIPE,
                                   text=True)
            terminal.type(b"x\n\x04")
            said = call.communicate(timeout=20)[1]
            self.assertEqual(call.returncode, 0)
            self.assertEqual(said.count("\n"), 1 if is_asked else 0)
            self.assertEqual("event lines are awaited on standard input; Ctrl-D" in said, is_asked)

    def with_progress(self, *words, given, stdout=subprocess.DEVNULL):
        """A call whose standard error is a terminal, and whose input is a file."""
        terminal = self.terminal()
        file = tempfile.TemporaryFile()
        self.addCleanup(file.close)
        file.write(given.encode())
        file.seek(0)
        return self.tree.start(*words, stdin=file, stdout=stdout, stderr=terminal.theirs), terminal

    def hold(self):
        """A line that lets the program wait until this is taken back."""
        self.tree.set("hold-run")
        return f"hold {self.tree.kit}/hold-run\n"

    def test_progress(self):
        call, terminal = self.with_progress(*WORDS, given=self.hold() + EVENTS)
        self.assertTrue(terminal.wait_for("% read"))
        self.tree.unset("hold-run")
        self.assertEqual(call.wait(20), 0)
        self.assertRegex(terminal.read(), r"\r\x1b\[Kmorph: \d+ % read, \d+ lines, \d+ a second")
        self.assertTrue(terminal.read().endswith("\r\x1b[K"))

    def test_progress_of_a_pipe(self):
        terminal = self.terminal()
        call = self.tree.start(*WORDS, stdin=subprocess.PIPE, stdout=subprocess.DEVNULL, stderr=terminal.theirs)
        call.stdin.write(self.hold().encode())
        call.stdin.close()
        self.assertTrue(terminal.wait_for("MB read"))
        self.tree.unset("hold-run")
        self.assertEqual(call.wait(20), 0)
        self.assertRegex(terminal.read(), r"\r\x1b\[Kmorph: \d+\.\d MB read in \d+ s, \d+\.\d MB a second")

    def test_no_progress(self):
        for words in (("--quiet", *WORDS), (*WORDS, "notes=on")):
            call, terminal = self.with_progress(*words, given=self.hold())
            time.sleep(1)
            self.tree.unset("hold-run")
            self.assertEqual((call.wait(20), terminal.read()), (0, ""))

    def test_output_on_the_same_terminal(self):
        terminal = self.terminal()
        call, errors = self.with_progress(*WORDS, given=self.hold(), stdout=terminal.theirs)
        self.assertTrue(terminal.wait_for("kept"))
        time.sleep(0.5)
        self.tree.unset("hold-run")
        self.assertEqual(call.wait(20), 0)
        self.assertEqual([line.split()[0] for line in terminal.read().splitlines()], ["program", "kept", "end"])
        self.assertNotIn("read", errors.read())

    def test_status_and_signals_of_a_child(self):
        call, _ = self.with_progress(*WORDS, given="status 3\n")
        self.assertEqual(call.wait(20), 3)
        call, _ = self.with_progress(*WORDS, given="signal KILL\n")
        self.assertEqual(call.wait(20), -signal.SIGKILL)
        call, terminal = self.with_progress(*WORDS, given=self.hold())
        self.assertTrue(terminal.wait_for("% read"))
        call.send_signal(signal.SIGTERM)
        self.assertEqual(call.wait(20), -signal.SIGTERM)


class Installs(Calls):
    """The program in a folder of its own."""

    def test_install(self):
        folder = self.tree.folder / "a folder/bin"
        for _ in range(2):
            done = self.tree.run("install", str(folder))
            self.assertEqual((done.returncode, done.stdout), (0, ""))
            self.assertIn(f"installed as {folder}/morph; it needs Linux on x86-64", done.stderr)
        self.assertEqual(sorted(path.name for path in folder.iterdir()), ["morph", "morph-program"])
        link = self.tree.folder / "link"
        link.symlink_to(folder / "morph")
        for command in (folder / "morph", link):
            for variables, kept in (({}, "33554432"), ({"MALLOC_TRIM_THRESHOLD_": "5"}, "5")):
                done = subprocess.run([command, "app=ledger", "size=5"], input="status 3\n", capture_output=True, text=True,
                                      env={"PATH": PATH, **variables}, timeout=20)
                self.assertEqual(done.returncode, 3)
                self.assertRegex(done.stdout, rf"program \d+ app=ledger size=5\nkept {kept}\n")

    def test_what_is_no_folder_for_it(self):
        self.build()
        for name, said in ((str(self.tree.top), "is there already, and is not an installed morph"),
                           (str(self.tree.top / "crates.txt"), "is not a folder")):
            done = self.tree.run("install", name)
            self.assertEqual(done.returncode, 1)
            self.assertIn(said, done.stderr)
        self.assertIn("script.main", (self.tree.top / "morph").read_text())


class Settings(unittest.TestCase):
    def test_memory_settings_stand_once(self):
        files = [TOP / "morph", *(TOP / "bench").iterdir(), *(TOP / "script").glob("*.py")]
        having = [file.name for file in files if file.is_file() and "MALLOC_TRIM" in file.read_text(errors="replace")]
        self.assertEqual(having, ["places.py"])


if __name__ == "__main__":
    unittest.main()
