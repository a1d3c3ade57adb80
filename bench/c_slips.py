#!/usr/bin/env python3
"""Which of the tests in C refuses a slip of the glue: `bench/c_slips.py [NAME..]`, with the names of slips, or the first letters of
some, and all if none is named.

A slip is a file `bench/c_slips/NAME.slip`, written as those of `bench/slips.py` are; `refused by` names the test program of
`c/tests` that has to fail or to hang, or `journals`, if a journal of the tests has to be refused. Prints for each `refused`,
or `PASSES`; or `BAD SLIP`, if the text doesn't stand there once or can't be compiled. Fails if a slip isn't refused. Needs `cc`
and the library for C (`./mtapi prove`); takes some seconds a slip, and a minute if the test hangs.
"""

import glob
import os
import shutil
import subprocess
import sys
import tempfile

from c_tasks import ARCHIVE
from common import TOP
from slips import C_SLIPS, changed_files, slips_in

HANG = 40  # seconds after which a test counts as one that hangs
BETWEEN = {"memory": ("malloc", "calloc", "realloc", "free"), "refused_threads": ("pthread_create",)}


def ran(room, test):
    """What is wrong with a test program over the library in this folder, or nothing."""
    words = [f"-Wl,--wrap={each}" for each in BETWEEN.get(test, ())]
    program, source = os.path.join(room, test), os.path.join(room, "c", "tests", test + ".c")
    subprocess.run(["cc", "-std=c11", "-O1", *words, source, os.path.join(room, "libmtapi.a"), "-pthread", "-o", program], check=True)
    try:
        done = subprocess.run([program], env={**os.environ, "JOURNALS": room}, capture_output=True, text=True, timeout=HANG)
    except subprocess.TimeoutExpired:
        return "hangs"
    said = (done.stdout + done.stderr).strip().split("\n")[0]
    return said or (f"status {done.returncode}" if done.returncode else "")


def judged(room):
    """What is wrong with a journal of a test that has many nodes, or nothing."""
    wrong = ran(room, "rounds")
    journals = glob.glob(os.path.join(room, "*.journal"))
    done = subprocess.run(["python3", os.path.join(room, "c", "tests", "judge.py"), *journals], capture_output=True, text=True)
    return wrong or done.stdout.split("\n")[0]


def tried(slip):
    """What is to be said of a slip."""
    with tempfile.TemporaryDirectory() as room:
        for folder in ("c", "bench"):
            shutil.copytree(os.path.join(TOP, folder), os.path.join(room, folder))
        texts, wrong = changed_files(room, slip)
        for name, text in texts.items():
            with open(os.path.join(room, name), "w") as file:
                file.write(text)
        if not wrong and subprocess.run([os.path.join(room, "c", "build"), ARCHIVE, room], capture_output=True).returncode:
            wrong = "isn't compiled"
        if wrong:
            return f"BAD SLIP: {wrong}"
        said = judged(room) if slip.refused_by == "journals" else ran(room, slip.refused_by)
        return f"refused: {said}" if said else "PASSES"


def main():
    slips = slips_in(C_SLIPS)
    if not os.path.exists(ARCHIVE):
        sys.exit("build the library for C first: ./mtapi prove")
    faults = 0
    for slip in slips:
        if not sys.argv[1:] or any(slip.name.startswith(word) for word in sys.argv[1:]):
            said = tried(slip)
            faults += not said.startswith("refused")
            print(f"{slip.name}: {said}", flush=True)
    sys.exit(1 if faults else 0)


if __name__ == "__main__":
    main()
