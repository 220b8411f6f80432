"""Counts the instructions that a run of a program takes: by the processor's own counters where `perf` reads them, else by callgrind.

Instructions do not waver with what else the machine does, so they decide where seconds cannot.
"""

import functools
import re
import shutil
import subprocess

PERF = ["perf", "stat", "-x,", "-e", "instructions:u", "--"]
CALLGRIND = ["valgrind", "--tool=callgrind", "--callgrind-out-file=/dev/null", "--"]
COUNTERS = (
    ("perf", PERF, re.compile(rb"^([0-9]+),[^,]*,instructions:u", re.M)),
    ("callgrind", CALLGRIND, re.compile(rb"Collected : ([0-9]+)")),
)


def counted_by(words, form, command, source=subprocess.DEVNULL, wanted=0):
    """The instructions of a command as a counter reports them, or None where it reports none or the command ends with another status."""
    ran = subprocess.run([*words, *command], stdin=source, stdout=subprocess.DEVNULL, stderr=subprocess.PIPE)
    found = form.search(ran.stderr)
    return int(found[1]) if found and ran.returncode == wanted else None


@functools.lru_cache(maxsize=None)
def counter():
    """The name, the words and the form of the first counter that counts here, or None."""
    for name, words, form in COUNTERS:
        if shutil.which(words[0]) and counted_by(words, form, ["true"]) is not None:
            return name, words, form
    return None


def count(program, word, text, wanted=0):
    """The instructions of a run of the program over the text in a file, or None where nothing counts here."""
    found = counter()
    if found is None:
        return None
    _, words, form = found
    with open(text, "rb") as source:
        return counted_by(words, form, [str(program), word], source, wanted)
