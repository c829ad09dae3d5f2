"""Copies the proved program to a folder, where it runs without the toolchain."""
import os
import re
import shutil
from pathlib import Path

from script.places import KEPT, Failure

# It sets the variables unless they are set, and ignores the signal of a closed pipe as ./morph does, so that the
# program ends with the same status.
WRAPPER = """#!/bin/sh
# Runs morph-program, which lies beside this file, with the memory settings that it was measured with.
{settings}trap '' PIPE
exec "$(dirname -- "$(readlink -f -- "$0")")/morph-program" "$@"
"""


def library_version(program):
    """The least version of GNU's C library that has what the program calls."""
    found = re.findall(rb"GLIBC_(\d+)\.(\d+)", program.read_bytes())
    return ".".join(map(str, max((int(major), int(minor)) for major, minor in found))) if found else "2"


def put(file, text_or_program):
    """Puts a file in its place whole, also if the one before it is being run."""
    new = file.with_name(f".{file.name}.new")
    if isinstance(text_or_program, str):
        new.write_text(text_or_program)
    else:
        shutil.copyfile(text_or_program, new)
    new.chmod(0o755)
    os.replace(new, file)


def install(program, name):
    """Puts the program and a wrapper into the folder of this name. Returns what to say of it."""
    folder = Path(name)
    wrapper = folder / "morph"
    if folder.exists() and not folder.is_dir():
        raise Failure(f"{folder} is not a folder")
    if wrapper.is_dir() or (wrapper.exists() and "morph-program" not in wrapper.read_text(errors="replace")):
        raise Failure(f"{wrapper} is there already, and is not an installed morph: name another folder")
    folder.mkdir(parents=True, exist_ok=True)
    settings = "".join(f': "${{{name}={value}}}"\nexport {name}\n' for name, value in KEPT.items())
    put(folder / "morph-program", program)
    put(wrapper, WRAPPER.format(settings=settings))
    return (f"installed as {wrapper}; it needs Linux on x86-64 (x86-64-v2 or later) and GNU's C library "
            f"{library_version(program)} or later, and no toolchain")
