"""What a call of ./morph does, by its words."""
import errno
import sys

from script import settings, words
from script.building import proved_program
from script.installing import install
from script.places import Failure, say
from script.running import run
from script.trying import tried_program

WRONG_WORDS = 2  # the status that the program has for them too


def refuse(complaint):
    say(complaint)
    say("./morph --help lists the settings")
    return WRONG_WORDS


def call(given):
    """Does what the words ask for, and returns the status."""
    is_quiet = "--quiet" in given
    given = [word for word in given if word != "--quiet"]
    command = given[0] if given else None
    if command is None:
        print(words.USAGE, file=sys.stderr)
        return WRONG_WORDS
    if command in ("--help", "-h", "help"):
        print(words.help_text())
        return 0
    if command in ("--version", "-V", "version"):
        print(words.version_text())
        return 0
    if command == "install":
        if len(given) != 2:
            return refuse("install takes the name of one folder: ./morph install DIR")
        say(install(proved_program(), given[1]))
        return 0
    is_try = command == "try"
    complaint = settings.complaint(given[is_try:])
    if complaint:
        return refuse(complaint)
    program = tried_program() if is_try else proved_program()
    return run(program, given[is_try:], is_quiet)


def reason(error):
    """A failure of the system in one line."""
    name = error.filename or "a file"
    if error.errno in (errno.EROFS, errno.EACCES, errno.EPERM):
        return f"{name} cannot be written ({error.strerror}): copy the sources to a folder that you may write to"
    if error.errno in (errno.ENOSPC, errno.EDQUOT):
        return f"the disk is full: there is no room for {name}"
    return f"{name}: {error.strerror}"


def main(given):
    try:
        return call(given)
    except Failure as failure:
        say(failure)
    except OSError as error:
        say(reason(error))
    except KeyboardInterrupt:
        return 130
    return 1
