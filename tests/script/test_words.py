"""The script's table of settings is that of the program, and its answers to words are the program's."""
import itertools
import random
import re
import subprocess
import sys
import unittest
from pathlib import Path

TOP = Path(__file__).resolve().parents[2]
sys.path.insert(0, str(TOP))

from script.places import PROGRAM, environment  # noqa: E402
from script.settings import SETTINGS, complaint  # noqa: E402
from script.tree import Tree, is_built  # noqa: E402
from script.trying import PROGRAM as TRIED, is_tried  # noqa: E402

RUN_TEXT = TOP / "crates/run_text"
RANGES = {"workers": "worker_counts", "size": "sizes", "seed": "seeds", "events": "event_counts", "ahead": "ahead_counts"}
WORDS = {"app": "app_in", "self": "app_in", "unit": "unit_in", "explore": "explore_in", "abort": "abort_in",
         "plan": "auto_in", "notes": "switch_in", "watch": "switch_in", "check": "check_in"}


def number(text):
    return int(text.replace("_", ""))


class Table(unittest.TestCase):
    """The table against the sources."""

    def setUp(self):
        self.words = (RUN_TEXT / "specs/Words.antt").read_text()
        self.values = (RUN_TEXT / "specs/Values.antt").read_text()

    def test_names(self):
        names = re.findall(r'b"(\w+)=",', (RUN_TEXT / "src/names.rt").read_text())
        self.assertEqual(names, list(SETTINGS))
        self.assertEqual(re.findall(r'^text_of \w+ = codes "(\w+)"', self.words, re.M), list(SETTINGS))

    def test_ranges(self):
        for name, defined in RANGES.items():
            least, greatest = re.search(rf"^{defined} = from_to (\d+) (\d+)$", self.values, re.M).groups()
            self.assertEqual(SETTINGS[name].values, (int(least), int(greatest)), name)

    def test_words(self):
        said = dict(re.findall(r'^(\w+_word \w+) = (codes "\w+")', self.values, re.M))
        for name, defined in WORDS.items():
            body = re.search(rf"^{defined} value =((?:.*\n)+?)\n", self.values, re.M).group(1)
            body = re.sub(r"\w+_word \w+", lambda word: said[word.group()], body)
            self.assertEqual(sorted(re.findall(r'codes "(\w+)"', body)), sorted(SETTINGS[name].values), name)

    def test_every_setting_is_compared(self):
        self.assertEqual(sorted([*RANGES, *WORDS]), sorted(SETTINGS))

    def test_defaults(self):
        choices = (RUN_TEXT / "src/choices.rt").read_text()
        defaults = dict(re.findall(r"pub const DEFAULT_(\w+): u64 = ([\d_]+);", choices))
        self.assertEqual(set(defaults), {name.upper() for name in RANGES})
        for name, default in defaults.items():
            self.assertEqual(number(SETTINGS[name.lower()].default), number(default), name)

    def test_usage_page(self):
        page = (TOP / "docs/USAGE.md").read_text()
        rows = dict(re.findall(r"^\| `(\w+)` \| (.*) \|$", page.split("## Settings")[1].split("\n## ")[0], re.M))
        self.assertEqual(list(rows), list(SETTINGS))
        for name, row in rows.items():
            setting, cells = SETTINGS[name], row.split("|")
            default = cells[-1].strip().strip("`")
            self.assertEqual(default, setting.default or "", name)
            if setting.is_number():
                self.assertTrue(cells[0].startswith("{} to {}".format(*setting.values)), name)
            else:
                words = re.findall(r"`(\w+)`", cells[0].split(":")[0])
                self.assertEqual(sorted(words), sorted(setting.values), name)


class Answers(unittest.TestCase):
    """What is said of words."""

    def test_right_words(self):
        for words in (["app=ledger"], ["self=toll", "seed=0", "events=1000000"], ["app=grep", "plan=auto", "workers=16"],
                      ["app=ledger", "check=text", "abort=lazy", "plan=fixed", "workers=1", "ahead=0", "watch=off"],
                      ["watch=on", "size=1", "notes=on", "app=toll"], ["app=ledger", "ahead=2", "check=off"]):
            self.assertIsNone(complaint(words), words)

    def test_wrong_words(self):
        for words, said in (
            (["worker=4", "app=ledger"], "'worker=4': there is no setting 'worker': did you mean 'workers=4'?"),
            (["app=ledger", "workers=17"], "'workers=17': the values of 'workers' are 1 to 16"),
            (["app=ledger", "workers=0"], "'workers=0': the values of 'workers' are 1 to 16"),
            (["app=ledger", "workers=01"], "'workers=01': the values of 'workers' are 1 to 16"),
            (["app=ledger", "size="], "'size=': the values of 'size' are 1 to 1000000"),
            (["app=ledger", "workers=٣"], "'workers=٣': the values of 'workers' are 1 to 16"),
            (["app=leger"], "'app=leger': the values of 'app' are ledger, grep, toll: did you mean 'ledger'?"),
            (["ledger"], "'ledger' is no setting: did you mean 'app=ledger'?"),
            (["app"], "'app' is no setting: it needs a value, as 'app=ledger'"),
            (["instal"], "'instal' is no setting: did you mean 'install'?"),
            (["a/b.txt"], "'a/b.txt' is no setting: events are read from standard input, as ./morph app=ledger < a/b.txt"),
            (["xyzzy"], "'xyzzy' is no setting"),
            (["app=ledger", "size=5", "size=5"], "'size=5': 'size' is given twice"),
            (["app=ledger", "self=ledger"], "'app' and 'self' exclude each other: give one of them"),
            (["app=ledger", "seed=1"], "'seed' goes with 'self' alone: it says which events are made"),
            (["app=ledger", "plan=auto", "unit=op"], "'unit' does not go with plan=auto, which chooses it for each batch"),
            (["app=ledger", "ahead=1", "watch=on"], "'ahead=1' and 'watch=on' exclude each other"),
            (["app=ledger", "check=on", "workers=2"], "'check=on' needs workers=1"),
            (["app=ledger", "check=text", "plan=auto"], "'check=text' needs plan=fixed"),
        ):
            self.assertEqual(complaint(words), said)
        self.assertIn("one of 'app' and 'self' is missing", complaint(["workers=2"]))
        self.assertIn("one of 'app' and 'self' is missing", complaint([]))


def program_there():
    """The program as it is now, if it is built, proved or not."""
    tree = Tree()
    return PROGRAM if is_built(tree, "morph") else TRIED if is_tried(tree) else None


def drawn_words(draw):
    """Words that the program may accept or not."""
    words = ["app=ledger"] if draw.random() < 0.9 else []
    values = {"workers": ["1", "2", "16", "17", "0", "01"], "size": ["1", "7", "1000000", "1000001", ""], "seed": ["0", "x"],
              "events": ["0", "1000001"], "ahead": ["0", "2", "3"], "self": ["ledger", "toll"], "app": ["grep", "x"]}
    for name in draw.sample(list(SETTINGS), draw.randrange(4)):
        setting = SETTINGS[name]
        known = values[name] if name in values else [*setting.values, "other"]
        words.append(f"{name}={draw.choice(known)}")
    if draw.random() < 0.05:
        words.append(draw.choice(["", "=", "app", "x=1", "App=ledger", " app=ledger", "app==ledger"]))
    draw.shuffle(words)
    return words


class Agreement(unittest.TestCase):
    """The script refuses the words that the program refuses, and no others."""

    @unittest.skipUnless(program_there(), "the program is not built")
    def test_random_words(self):
        draw, program, refused = random.Random(5), program_there(), 0
        cases = [drawn_words(draw) for _ in range(150)]
        cases += [["app=ledger", *pair] for pair in itertools.combinations(
            ["workers=2", "abort=eager", "plan=auto", "ahead=1", "watch=on", "check=on", "unit=op", "seed=1"], 2)]
        for words in cases:
            status = subprocess.run([program, *words], stdin=subprocess.DEVNULL, capture_output=True,
                                    env=environment(), timeout=60).returncode
            self.assertEqual(status == 2, complaint(words) is not None, words)
            refused += status == 2
        self.assertTrue(40 < refused < len(cases) - 40)


if __name__ == "__main__":
    unittest.main()
