"""The settings that the program accepts, and what is wrong with words that are none.

The table is that of the program: src/values.rt of crates/run_text has the values, and specs/Values.antt and
specs/NoSettings.antt beside it say what they mean. tests/script compares the two.
"""
import difflib
import re
from typing import NamedTuple, Optional, Tuple

APPLICATIONS = ("ledger", "grep", "toll")
SWITCH = ("off", "on")
NUMBER = re.compile("0|[1-9][0-9]*")


class Setting(NamedTuple):
    """A setting: its values, which are words or a range of numbers, the value if it is not given, and its meaning."""

    name: str
    values: Tuple
    default: Optional[str]
    meaning: str

    def is_number(self):
        return isinstance(self.values[0], int)

    def accepts(self, value):
        if not self.is_number():
            return value in self.values
        least, greatest = self.values
        return NUMBER.fullmatch(value) is not None and least <= int(value[:20]) <= greatest

    def choices(self):
        """The values in words."""
        return "{} to {}".format(*self.values) if self.is_number() else ", ".join(self.values)


SETTINGS = {
    setting.name: setting
    for setting in (
        Setting("app", APPLICATIONS, None, "the application whose events are read"),
        Setting("self", APPLICATIONS, None, "the application whose events the program makes itself"),
        Setting("workers", (1, 16), "1", "how many workers may evaluate a batch"),
        Setting("size", (1, 1_000_000), "10000", "the number of ids of each table"),
        Setting("unit", ("op", "chain"), "op", "what a worker takes as a whole"),
        Setting("explore", ("strata", "steal"), "strata", "level by level, or from deques"),
        Setting("abort", ("lazy", "eager"), "lazy", "when an operation's failure is dealt with"),
        Setting("plan", ("fixed", "auto"), "fixed", "auto: the program chooses the three above"),
        Setting("seed", (0, 10**12), "1", "with self: the seed of the events"),
        Setting("events", (0, 1_000_000), "1000", "with self: how many events are made"),
        Setting("notes", SWITCH, "off", "a line for each batch, on standard error"),
        Setting("ahead", (0, 2), "0", "how many batches are read ahead"),
        Setting("watch", SWITCH, "off", "audits balances beside each batch"),
        Setting("check", ("off", "on", "text"), "off", "checks a journal of each batch"),
    )
}
# What the script takes itself, and what it does with a run.
COMMANDS = ("try", "install", "--help", "--version", "--quiet")


def near(word, words):
    """A question that names the nearest of the words, if one is near."""
    found = difflib.get_close_matches(word, words, 1, 0.6)
    return f": did you mean '{found[0]}'?" if found else ""


def complaint(words):
    """Why the program would not accept the words, or None if it would."""
    given = {}
    for word in words:
        name, equals, value = word.partition("=")
        problem = problem_of(word, name, equals, value)
        if problem:
            return problem
        if name in given:
            return f"'{word}': '{name}' is given twice"
        given[name] = value
    return problem_together(given)


def problem_of(word, name, equals, value):
    """What is wrong with one word, or None."""
    if not equals:
        return f"'{word}' is no setting{guess(word)}"
    setting = SETTINGS.get(name)
    if setting is None:
        found = difflib.get_close_matches(name, SETTINGS, 1, 0.6)
        meant = f": did you mean '{found[0]}={value}'?" if found else ""
        return f"'{word}': there is no setting '{name}'{meant}"
    if not setting.accepts(value):
        meant = "" if setting.is_number() else near(value, setting.values)
        return f"'{word}': the values of '{name}' are {setting.choices()}{meant}"
    return None


def guess(word):
    """What was meant by a word without `=`."""
    if word in APPLICATIONS:
        return f": did you mean 'app={word}'?"
    if word in SETTINGS:
        return f": it needs a value, as '{word}={SETTINGS[word].values[0]}'"
    if "/" in word or "." in word:
        return f": events are read from standard input, as ./morph app=ledger < {word}"
    return near(word, [*COMMANDS, *SETTINGS])


def problem_together(given):
    """What is wrong with settings of which each is right by itself, or None."""
    if "app" in given and "self" in given:
        return "'app' and 'self' exclude each other: give one of them"
    if "app" not in given and "self" not in given:
        return "one of 'app' and 'self' is missing: give app=ledger to read events, or self=ledger to have them made"
    for name in ("seed", "events"):
        if name in given and "self" not in given:
            return f"'{name}' goes with 'self' alone: it says which events are made"
    for name in ("unit", "explore", "abort"):
        if name in given and given.get("plan") == "auto":
            return f"'{name}' does not go with plan=auto, which chooses it for each batch"
    apart = [f"{name}={given[name]}" for name, idle in IDLE if given.get(name, idle) != idle]
    if len(apart) > 1:
        return f"'{apart[0]}' and '{apart[1]}' exclude each other"
    return problem_of_check(given)


# Settings of which at most one may be other than this.
IDLE = (("ahead", "0"), ("watch", "off"), ("check", "off"))


def problem_of_check(given):
    """Why journals cannot be checked with these settings, or None."""
    if given.get("check", "off") == "off":
        return None
    for name, needed in (("workers", "1"), ("abort", "lazy"), ("plan", "fixed")):
        if given.get(name, needed) != needed:
            return f"'check={given['check']}' needs {name}={needed}"
    return None
