"""The scripts of examples/, over the program if it is built, and over a small reference of the ledger."""
import os
import random
import re
import subprocess
import sys
import tempfile
import unittest
from pathlib import Path

TOP = Path(__file__).resolve().parents[2]
sys.path.insert(0, str(TOP))

from script.places import PROGRAM, environment  # noqa: E402
from script.tree import Tree, is_built  # noqa: E402
from script.trying import PROGRAM as TRIED, is_tried  # noqa: E402

EXAMPLES = TOP / "examples"


def program_there():
    """The program as it is now, if it is built, proved or not."""
    tree = Tree()
    return PROGRAM if is_built(tree, "morph") else TRIED if is_tried(tree) else None


class Ledger:
    """The ledger by hand: events of right lines one at a time, over two maps."""

    def __init__(self, is_second):
        self.greatest = 10**13 if is_second else 10**12
        self.values = {"acct": {}, "asset": {}}

    def apply(self, line):
        """What the event is worth, as the line of its output without the timestamp."""
        letter, _, *numbers = line.split()
        numbers = list(map(int, numbers))
        if letter == "D":
            account, asset, a, b = numbers
            return self.move([("acct", account, a), ("asset", asset, b)])
        if letter == "M":
            source, a, *targets = numbers
            return self.move([("acct", source, -a * len(targets))] + [("acct", target, a) for target in targets])
        source, target, from_asset, to_asset, a, b = numbers
        return self.move([("acct", source, -a), ("asset", from_asset, -b), ("acct", target, a), ("asset", to_asset, b)])

    def move(self, changes):
        after = [self.values[table].get(key, 0) + change for table, key, change in changes]
        if any(not 0 <= value <= self.greatest for value in after):
            return "A"
        for (table, key, _), value in zip(changes, after):
            self.values[table][key] = value
        return " ".join(["C", *map(str, after)])

    def closing(self):
        return [f"{table} {key} {value}\n" for table in self.values for key, value in sorted(self.values[table].items()) if value]


def by_hand(text):
    """The output of the reference."""
    lines = text.splitlines()
    ledger, output, batch, done = Ledger(lines[:1] == ["morph 2"]), [], [], {"C": 0, "A": 0}
    for line in [*lines, "P"]:
        if line == "P":
            for event in sorted(batch, key=lambda event: int(event.split()[1])):
                said = ledger.apply(event)
                done[said[0]] += 1
                output.append(f"{event.split()[1]} {said}\n")
            batch = []
        elif line and not line.startswith("#") and line != "morph 2":
            batch.append(line)
    return "".join([*output, *ledger.closing(), f"committed {done['C']} aborted {done['A']}\n"])


def by_program(text):
    done = subprocess.run([program_there(), "app=ledger"], input=text, capture_output=True, text=True,
                          env=environment(), timeout=60)
    assert done.returncode == 0, done.stdout
    return done.stdout


def balances(output):
    return [line for line in output.splitlines() if line.startswith(("acct", "asset"))]


def drawn_batches(draw, count):
    """Batches of events between few accounts, with rising times."""
    time = 100
    for _ in range(count):
        batch = []
        for _ in range(draw.randrange(1, 12)):
            time += 1
            (a, b), (c, d) = draw.sample(range(5), 2), draw.sample(range(5), 2)
            kind = draw.randrange(3)
            batch.append((f"D {time} {a} {c} {draw.randrange(300)} {draw.randrange(9)}\n",
                          f"X {time} {a} {b} {c} {d} {draw.randrange(300)} {draw.randrange(9)}\n",
                          f"M {time} {a} {draw.randrange(200)} {b} {(b + 1) % 5 if (b + 1) % 5 != a else b}\n")[kind])
            if kind == 2 and len(set(batch[-1].split()[4:])) == 1:
                batch[-1] = f"M {time} {a} 7 {b}\n"
        draw.shuffle(batch)
        yield "".join(batch) + "P\n"


class Examples(unittest.TestCase):
    """Each check is made with the reference; with the program too, if it is built."""

    def setUp(self):
        self.runs = [by_hand] + [by_program] * (program_there() is not None)
        folder = tempfile.TemporaryDirectory()
        self.addCleanup(folder.cleanup)
        self.folder = Path(folder.name)

    def call(self, script, *words, given=""):
        return subprocess.run([sys.executable, EXAMPLES / script, *map(str, words)], input=given, capture_output=True,
                              text=True, timeout=60)

    def test_reference(self):
        for name in ("ledger.txt", "payments.txt"):
            text = (EXAMPLES / name).read_text()
            self.assertEqual(len({run(text) for run in self.runs}), 1, name)

    def test_payments(self):
        names = self.folder / "names.csv"
        done = self.call("payments", "events", EXAMPLES / "payments.csv", names)
        self.assertEqual((done.returncode, done.stdout), (0, (EXAMPLES / "payments.txt").read_text()))
        self.assertEqual(done.stderr, "6 payments between 3 accounts\n")
        for run in self.runs:
            report = self.call("payments", "report", names, given=run(done.stdout))
            self.assertEqual(report.stdout.splitlines(), ["row 4: not paid, the balance does not allow it", "bob: 15.25",
                                                          "carol: 140.25"])

    def test_payments_that_are_none(self):
        for row, said in (("a,b,1.234", "no whole number"), ("a,b,-1", "no whole number"), ("a,b,x", "no amount"),
                          ("a,b,NaN", "no whole number"), ("a,a,1", "same account"), ("a,,1", "no `to`"), ("a,b", "no `amount`")):
            file = self.folder / "payments.csv"
            file.write_text(f"from,to,amount\n{row}\n")
            done = self.call("payments", "events", file, self.folder / "names.csv")
            self.assertEqual((done.returncode, done.stdout), (1, ""))
            self.assertIn("row 1: ", done.stderr)
            self.assertIn(said, done.stderr)
            self.assertFalse((self.folder / "names.csv").exists())

    def test_a_file_without_the_columns(self):
        file = self.folder / "payments.csv"
        for head in ("from;to;amount", "from,to"):
            file.write_text(f"{head}\na,b,1\n")
            done = self.call("payments", "events", file, self.folder / "names.csv")
            self.assertEqual((done.returncode, done.stdout), (1, ""))
            self.assertIn("has to name the columns", done.stderr)
        file.write_text("\ufefffrom,to,amount\n,b,1\n")
        self.assertEqual(self.call("payments", "events", file, self.folder / "names.csv").returncode, 0)

    def test_a_report_of_a_run_that_was_cut_off(self):
        names = self.folder / "names.csv"
        names.write_text("bob\n")
        for output in ("", "1 C 5 0\n", "1 C 5 0\nacct 0\n", "1"):
            self.assertEqual(self.call("payments", "report", names, given=output).returncode, 1, output)

    def test_a_second_day(self):
        names, first, second = (self.folder / name for name in ("names.csv", "first.csv", "second.csv"))
        first.write_text("from,to,amount\n,ann,10\n,bob,5\nann,bob,2.50\n")
        second.write_text("from,to,amount\nbob,cid,7\n,ann,1\n")
        for run in self.runs:
            names.unlink(missing_ok=True)
            output = run(self.call("payments", "events", first, names).stdout)
            events = self.call("payments", "events", second, names, 1000001).stdout
            report = self.call("payments", "report", names, given=run(self.go_on(output, events).stdout))
            self.assertEqual(report.stdout.splitlines(), ["ann: 8.50", "bob: 0.50", "cid: 7.00"])

    def test_many_payments(self):
        file = self.folder / "payments.csv"
        file.write_text("from,to,amount\n" + "".join(f",n{row % 7},1\n" for row in range(2500)))
        lines = self.call("payments", "events", file, self.folder / "names.csv").stdout.splitlines()
        self.assertEqual([at for at, line in enumerate(lines) if line == "P"], [1001, 2002])

    def go_on(self, output, second):
        for name, text in (("output", output), ("second", second)):
            (self.folder / name).write_text(text)
        return self.call("go_on", self.folder / "output", self.folder / "second")

    def test_a_stream_that_is_cut_in_two(self):
        draw = random.Random(3)
        for turn in range(12):
            head = "morph 2\n"
            batches = list(drawn_batches(draw, draw.randrange(2, 9)))
            cut = draw.randrange(1, len(batches))
            first, second = ("".join(part) for part in (batches[:cut], batches[cut:]))
            for run in self.runs:
                gone_on = self.go_on(run(head + first), head + second)
                self.assertEqual((gone_on.returncode, gone_on.stderr), (0, ""))
                self.assertEqual(balances(run(gone_on.stdout)), balances(run(head + first + second)), turn)

    def test_the_example_cut_in_two(self):
        text = (EXAMPLES / "ledger.txt").read_text()
        first, second, third = text.split("P\n")
        for run in self.runs:
            gone_on = self.go_on(run(first + "P\n" + second), third)
            self.assertEqual(gone_on.returncode, 0, gone_on.stderr)
            self.assertEqual(balances(run(gone_on.stdout)), balances(run(text)))

    def test_cells(self):
        gone_on = self.go_on("7 C 5\ncell 3 5\ncell 9 1\ncommitted 2 aborted 0\n", "G 9 0 10 3 9\n")
        self.assertEqual(gone_on.stdout, "W 1 3 5\nW 2 9 1\nP\nG 9 0 10 3 9\n")

    def test_what_cannot_go_on(self):
        done = self.go_on("7 C 5 0\nrefused line 9: form\n", "")
        self.assertEqual((done.returncode, done.stdout), (1, ""))
        self.assertIn("did not end with status 0", done.stderr)
        done = self.go_on("acct 1 5\nacct 2 6\nacct 3 6\ncommitted 1 aborted 0\n", "D 3 0 0 1 1\n")
        self.assertEqual(done.returncode, 1)
        self.assertIn("a timestamp of the second file is 3", done.stderr)
        self.assertEqual(done.stdout, "")
        done = self.go_on("1 C 9000 3 1 0\nspd 3 9000\nat 1 4\ncommitted 1 aborted 0\n", "T 9 1 3 90\n")
        self.assertEqual((done.returncode, done.stdout), (1, ""))
        self.assertIn("cannot be set by events", done.stderr)

    @unittest.skipUnless(program_there(), "the program is not built")
    def test_a_stream_that_does_not_end(self):
        run = subprocess.Popen([program_there(), "app=ledger"], stdin=subprocess.PIPE, stdout=subprocess.PIPE,
                               env=environment())
        for time in (1, 2):
            run.stdin.write(f"D {time} 0 0 5 0\nP\n".encode())
            run.stdin.flush()
            self.assertEqual(os.read(run.stdout.fileno(), 100), f"{time} C {5 * time} 0\n".encode())
        self.assertEqual(run.communicate(timeout=20)[0], b"acct 0 10\ncommitted 2 aborted 0\n")


def code_of(cell):
    """The pieces of code in a table's cell."""
    return re.findall(r"`([^`]*)`", cell)


class Pages(unittest.TestCase):
    """What the pages show is what the program prints."""

    def test_readme(self):
        table = (TOP / "README.md").read_text().split("## What it prints")[1].split("\n\n`C`")[0]
        rows = [line.split("|")[1:] for line in table.splitlines() if line.startswith("| ") and "examples/" not in line]
        text = (EXAMPLES / "ledger.txt").read_text()
        self.assertEqual([code for row in rows for code in code_of(row[0])],
                         [line for line in text.splitlines() if line and not line.startswith("#")])
        self.assertEqual(sorted(code for row in rows for code in code_of(row[1])), sorted(by_hand(text).splitlines()))

    def test_payments(self):
        table = (TOP / "docs/USAGE.md").read_text().split("| `payments.csv` |")[1].split("\n\n")[0]
        rows = [line.split("|")[1:] for line in table.splitlines()[2:]]
        csv, text = ((EXAMPLES / f"payments.{kind}").read_text() for kind in ("csv", "txt"))
        self.assertEqual([code for row in rows for code in code_of(row[0])], csv.splitlines()[1:])
        self.assertEqual([code for row in rows for code in code_of(row[1])], text.splitlines())
        self.assertEqual([code for row in rows for code in code_of(row[2])], by_hand(text).splitlines())

    @unittest.skipUnless(program_there(), "the program is not built")
    def test_lines_that_are_refused(self):
        page = (TOP / "docs/USAGE.md").read_text().split("### Lines that are refused")[1].split("## Output")[0]
        causes, mistakes = page.split("refused as `form`:")
        lines = [("form", code) for row in mistakes.split("And as")[0].splitlines() if row.startswith("| ")
                 for code in code_of(row.split("|")[2])]
        lines += [(code_of(row.split("|")[1])[0], code) for row in causes.splitlines() if row.startswith("| `")
                  and "then" not in row for code in code_of(row.split("|")[3])]
        self.assertGreater(len(lines), 15)
        for cause, line in lines:
            app = "app=grep" if line.startswith("G") else "app=ledger"
            head = "morph 2\n" if line.startswith("M") and cause != "form" else ""
            said = subprocess.run([program_there(), app], input=head + line.replace("\u2420", " ") + "\n", text=True,
                                  capture_output=True, env=environment(), timeout=60).stdout
            self.assertEqual(said, f"refused line {2 if head else 1}: {cause}\n", line)


if __name__ == "__main__":
    unittest.main()
