#!/usr/bin/env python3
"""What refuses a slip that a definition and the code share, or a wrong body: `bench/slips.py [NAME..]`, with the names of slips,
or the first letters of some, and all if none is named.

A slip is a file `bench/slips/NAME.slip` of such lines, of which the three in the middle may stand several times:

    say: what a program with this slip would do
    file: crates/action_fn/specs/Answers.antt
    old: of_some f [] = Fails ErrArgSize
    new: of_some f [] = Fails ErrActionFailed
    refused by: action_fn worked_answers

The old text stands once in its file, on one line or on several, and becomes the new one. Where both a definition and the code have what slips, both are
changed, so that the code's own proof refuses nothing; a definition that no code computes is changed alone. A wrong body is a
slip of the code alone, which the clauses of its function have to refuse. Further pairs of `old` and `new` behind a `file` are
of the same file.

`refused by` names what has to fail: a crate and one of its functions (`table::Results::put`), whose proof is tried
(`rt check --only`); a crate alone, all of whose proofs are; or `case NAME`, where NAME is a crate, whose tests, program and
cases are run unproved, or what a line of the output of `mtapi_examples` has that isn't as the stored output says.

Each slip is made in a copy of the repository in a scratch folder, over the proved libraries that checks left in `out/rlib` here
and what else they kept on this machine, and is taken back before the next one. Prints for each `refused`, with the first
complaint; `PROVES`, if nothing fails; or `BAD SLIP`, if the text doesn't stand there once or a changed file has a fault of its
own. Fails if a slip isn't refused. A slip takes 10 to 60 seconds; several calls may run beside one another, each on slips of its
own.

With `--together` before the names, wrong bodies of one crate that stand in several of its functions are tried at once, by one
check of the whole crate: that each function is refused by goals of its own shows in what the check says of it. It is several
times as fast where a crate has many. Slips of definitions, and what runs a case, are tried one by one all the same.

`bench/slips.py --match` tries none: in a second it tells of each slip, those of the glue in `bench/c_slips` too, whose text doesn't
stand once in today's text, or that names no crate or test, and fails if there is one. The gate calls it.
"""

import collections
import glob
import os
import re
import shutil
import subprocess
import sys
import tempfile

from common import TOP

SLIPS = os.path.join(TOP, "bench", "slips")
C_SLIPS = os.path.join(TOP, "bench", "c_slips")
SECONDS = 900  # that one check or one run may take
SHOWN = 200  # letters of a complaint
COMPLAINT = re.compile(r"^(\S+?):\d+:\d+: error: (.*)$", re.M)
IS_TRIED = re.compile(r"not proved|must prove")  # the function's goals were tried
SAID_OF_FUNCTION = re.compile(r"^fn (\S+): ((?:no proof|not proved).*)$", re.M)
NOT_DECIDED = re.compile(r"declarations? that depends? on")

Slip = collections.namedtuple("Slip", "name say changes refused_by")
Change = collections.namedtuple("Change", "file old new")


def slip_in(path):
    """The slip that this file tells."""
    name, say, refused_by, file, old, changes = os.path.basename(path).removesuffix(".slip"), "", "", None, None, []
    with open(path) as lines:
        for line in lines:
            word, _, rest = line.rstrip("\n").partition(": ")
            if word == "say":
                say = rest
            elif word == "file":
                file = rest
            elif word == "old":
                old = rest
            elif word == "new":
                changes.append(Change(file, old, rest))
            elif word == "refused by":
                refused_by = rest
            elif line.strip():
                sys.exit(f"{path}: no such line: {line}")
    if not (say and refused_by and changes):
        sys.exit(f"{path}: a slip has a line `say`, a change and a line `refused by`")
    return Slip(name, say, changes, refused_by)


def slips_in(folder):
    """All slips of a folder, by their names."""
    return [slip_in(path) for path in sorted(glob.glob(os.path.join(folder, "*.slip")))]


def named(words):
    """The slips of these names, or whose names begin so; all if there are no words."""
    slips = slips_in(SLIPS)
    for word in words:
        if not any(slip.name.startswith(word) for slip in slips):
            sys.exit(f"no slip's name begins with {word}")
    return [slip for slip in slips if not words or any(slip.name.startswith(word) for word in words)]


def linked(source, target):
    """A further name of this file where the disk allows it, or a copy."""
    try:
        os.link(source, target)
    except OSError:
        shutil.copy2(source, target)


def scratch_copy(folder):
    """A copy of the repository in this folder. Of what checks made it has the proved libraries."""
    shutil.copytree(os.path.join(TOP, "crates"), os.path.join(folder, "crates"), ignore=shutil.ignore_patterns("out", "must-fail"))
    for library in glob.glob(os.path.join(TOP, "crates", "*", "out", "rlib")):
        shutil.copytree(library, os.path.join(folder, os.path.relpath(library, TOP)), copy_function=linked)
    for file in ("crates.txt", "HANDLES"):
        shutil.copy(os.path.join(TOP, file), folder)
    subprocess.run(["git", "init", "-q", folder], check=True)


def changed_files(folder, slip):
    """The texts of the files that the slip changes, by their names, and what is wrong with the slip, or nothing."""
    texts = {}
    for change in slip.changes:
        path = os.path.join(folder, change.file)
        if not os.path.exists(path):
            return texts, f"no file {change.file}"
        if change.file not in texts:
            with open(path) as file:
                texts[change.file] = file.read()
        old = re.compile(r"\s+".join(re.escape(word) for word in change.old.split()))
        times = len(old.findall(texts[change.file]))
        if times != 1:
            return texts, f"stands {times} times in {change.file}: {change.old}"
        texts[change.file] = old.sub(lambda _: change.new.strip(), texts[change.file])
    return texts, ""


def made(folder, slip):
    """Makes the slip in the folder. What is wrong with it, or nothing."""
    texts, wrong = changed_files(folder, slip)
    for name, text in texts.items():
        with open(os.path.join(folder, name), "w") as file:
            file.write(text)
    return wrong


def made_beside(folder, slip):
    """Makes the slip beside others, or leaves it out. What is wrong with it, or nothing."""
    texts, wrong = changed_files(folder, slip)
    for name, text in texts.items() if not wrong else ():
        with open(os.path.join(folder, name), "w") as file:
            file.write(text)
    return wrong


def mismatch(slip):
    """Why the slip can't be tried on today's text, or nothing."""
    wrong = changed_files(TOP, slip)[1]
    crate, _, case = slip.refused_by.partition(" ")
    if not wrong and crate != "case" and not os.path.isdir(os.path.join(TOP, "crates", crate)):
        return f"no crate {crate}"
    return wrong


def mismatch_in_c(slip):
    """Why the slip of the glue can't be tried on today's text, or nothing."""
    wrong = changed_files(TOP, slip)[1]
    if not wrong and slip.refused_by != "journals" and not os.path.exists(os.path.join(TOP, "c", "tests", slip.refused_by + ".c")):
        return f"no test {slip.refused_by}"
    return wrong


def taken_back(folder, slip):
    """The files of the slip as they were, with their times, so that no library counts as old."""
    for change in slip.changes:
        if os.path.exists(os.path.join(TOP, change.file)):
            shutil.copy2(os.path.join(TOP, change.file), os.path.join(folder, change.file))


def is_body(slip):
    """Whether the slip is one of code alone, in the crate one of whose functions has to be refused."""
    crate, _, function = slip.refused_by.partition(" ")
    return crate != "case" and function and all(change.file.startswith(f"crates/{crate}/src/") for change in slip.changes)


def rounds_of(slips):
    """These wrong bodies in rounds: in each those of one crate, of each of its functions one at most."""
    left = sorted(slips, key=lambda slip: (slip.refused_by, slip.name))
    while left:
        crate, taken = left[0].refused_by.split()[0], {}
        for slip in left:
            if slip.refused_by.split()[0] == crate:
                taken.setdefault(slip.refused_by, slip)
        yield list(taken.values())
        left = [slip for slip in left if slip not in taken.values()]


def own_complaint(function, said, complaints):
    """The first complaint about this function itself, and not about one that it calls, or nothing."""
    line = next((text for name, text in said if name.partition("::")[2] == function), "")
    if "did not prove" in line:
        return line
    parts = set(function.split("::"))
    own = (f"{file}: {text}" for file, text in complaints if parts <= set(file.split("/")) and not NOT_DECIDED.search(text))
    return next(own, "") if line else ""


def checked_together(folder, slips):
    """Checks a crate with all of these wrong bodies: for each `refused`, `PROVES`, or `BAD SLIP` where it has to be tried alone, and why."""
    at = os.path.join(folder, "crates", slips[0].refused_by.split()[0])
    found = {slip.name: ("BAD SLIP", wrong) for slip in slips if (wrong := made_beside(folder, slip))}
    try:
        _, out, err = said_by(["rt", "check", "--jobs", "1"], at, seconds=len(slips) * SECONDS)
    except subprocess.TimeoutExpired:
        return {slip.name: ("BAD SLIP", "no answer in time") for slip in slips}
    finally:
        for slip in slips:
            taken_back(folder, slip)
    said = SAID_OF_FUNCTION.findall(out + err)
    complaints = [(os.path.normpath(file), text) for file, text in COMPLAINT.findall(out + err)]
    if not said and not re.search(r"^logic=", out + err, re.M):
        return {slip.name: ("BAD SLIP", (out + err).strip()[-SHOWN:]) for slip in slips}
    for slip in slips:
        why = own_complaint(slip.refused_by.split()[1], said, complaints)
        found.setdefault(slip.name, ("refused", why) if why else ("PROVES", slip.refused_by))
    return found


def said_by(command, crate, stdin=subprocess.DEVNULL, seconds=SECONDS):
    """The status of a command in a crate's folder, and what it wrote on both streams."""
    done = subprocess.run(command, cwd=crate, stdin=stdin, capture_output=True, text=True, timeout=seconds)
    return done.returncode, done.stdout, done.stderr


def checked(folder, slip):
    """Checks what the slip names: `refused`, `PROVES` or `BAD SLIP`, and why."""
    crate, _, function = slip.refused_by.partition(" ")
    at = os.path.join(folder, "crates", crate)
    status, out, err = said_by(["rt", "check", "--jobs", "1"] + (["--only", function] if function else []), at)
    complaints = [(os.path.normpath(file), text) for file, text in COMPLAINT.findall(out + err)]
    first = next((f"{file}: {text}" for file, text in complaints if not NOT_DECIDED.search(text)), (out + err).strip()[-200:])
    changed = {os.path.relpath(os.path.join(folder, change.file), at) for change in slip.changes}
    if status == 0:
        return "PROVES", slip.refused_by
    if any(file in changed and "specs/" in file for file, _ in complaints) or (function and not IS_TRIED.search(out + err)):
        return "BAD SLIP", first
    return "refused", first


def program_answers(at):
    """How the program of this crate answers, unproved: its output, and whether that and its status are as stored."""
    name, words, stdin = os.path.basename(at), [], subprocess.DEVNULL
    if os.path.exists(os.path.join(at, "args")):
        words = open(os.path.join(at, "args")).read().split("\n")[:-1]
    if os.path.exists(os.path.join(at, "stdin")):
        stdin = open(os.path.join(at, "stdin"))
    data = []
    for file in sorted(glob.glob(os.path.join(at, "data", "**"), recursive=True)):
        if os.path.isfile(file):
            data += ["--data", f"{os.path.relpath(file, os.path.join(at, 'data'))}={os.path.relpath(file, at)}"]
    _, out, err = said_by(["rt", "try", "--steps", "1", "--seconds", "300"] + data + ["--"] + words, at, stdin)
    ended = re.search(r"^run=ended status=(\d+)", err, re.M)
    if not ended:
        return out, f"{name}: no answer: {err.strip()[-200:]}"
    wanted = open(os.path.join(at, "status")).read().strip() if os.path.exists(os.path.join(at, "status")) else "0"
    stored = open(os.path.join(at, "stdout")).read() if os.path.exists(os.path.join(at, "stdout")) else ""
    if ended[1] != wanted:
        return out, f"{name}: status {ended[1]} in place of {wanted}"
    return out, "" if out == stored else f"{name}: {first_difference(out, stored)}"


def first_difference(out, stored):
    """The first line of the output that isn't as stored."""
    for one, other in zip(out.split("\n") + [""], stored.split("\n") + [""]):
        if one != other:
            return f"{one!r} in place of {other!r}"
    return "another length"


def tests_answer(at):
    """What is wrong with the tests of this crate, run unproved."""
    status, out, err = said_by(["rt", "try", "--test", "--seconds", "300"], at)
    failed = re.findall(r"^test (\S+) \.\.\. FAILED", out + err, re.M)
    return "" if status == 0 and " 0 failed" in out else f"{os.path.basename(at)}: {' '.join(failed) or (out + err).strip()[-200:]}"


def cases_answer(at):
    """What is wrong with the ends of the inputs in the folder cases/."""
    _, out, err = said_by(["rt", "try", "--steps", "1", "--seconds", "300", "--cases", "cases"], at)
    ends = [re.sub(r" runners=(?:.*?( output=differs).*|.*)$", r"\1", line) for line in (out + err).split("\n") if line.startswith("case=")]
    wanted = open(os.path.join(at, "cases.wanted")).read().split("\n")[:-1]
    other = [line for line in ends if line not in wanted] + [line for line in wanted if line not in ends]
    return f"{os.path.basename(at)}: {other[0]}" if other else ""


def has_tests(at):
    """Whether the crate has tests."""
    return any("#[test]" in open(file).read() for file in glob.glob(os.path.join(at, "src", "**", "*.rt"), recursive=True))


def run(folder, slip):
    """Runs the case that the slip names, unproved: `refused`, `PROVES` or `BAD SLIP`, and why."""
    name = slip.refused_by.removeprefix("case ")
    at = os.path.join(folder, "crates", name)
    if not os.path.isdir(at):
        out, wrong = program_answers(os.path.join(folder, "crates", "mtapi_examples"))
        stored = open(os.path.join(folder, "crates", "mtapi_examples", "stdout")).read().split("\n")
        here = [line for line in out.split("\n") if name in line and line not in stored]
        return ("refused", here[0]) if here else ("PROVES" if not wrong else "BAD SLIP", wrong or slip.refused_by)
    wrong = ""
    if os.path.exists(os.path.join(at, "src", "main.rt")):
        wrong = program_answers(at)[1]
    if not wrong and os.path.isdir(os.path.join(at, "cases")):
        wrong = cases_answer(at)
    if not wrong and has_tests(at):
        wrong = tests_answer(at)
    return ("refused", wrong) if wrong else ("PROVES", slip.refused_by)


def tried(folder, slip):
    """What becomes of the slip: a word, and why."""
    wrong = made(folder, slip)
    try:
        if wrong:
            return "BAD SLIP", wrong
        return run(folder, slip) if slip.refused_by.startswith("case ") else checked(folder, slip)
    except subprocess.TimeoutExpired:
        return "BAD SLIP", f"no answer after {SECONDS} seconds"
    finally:
        taken_back(folder, slip)


def matched():
    """Tells of each slip that can't be tried on today's text. The status."""
    slips, in_c = named([]), slips_in(C_SLIPS)
    wrong = [(slip.name, why) for slip in slips if (why := mismatch(slip))]
    wrong += [(slip.name, why) for slip in in_c if (why := mismatch_in_c(slip))]
    for name, why in wrong:
        print(f"BAD SLIP {name}: {why}")
    print(f"{len(slips) + len(in_c) - len(wrong)} slips stand in today's text, {len(wrong)} don't")
    return 1 if wrong else 0


def main():
    if sys.argv[1:] == ["--match"]:
        return matched()
    are_together = sys.argv[1:2] == ["--together"]
    slips, counts = named(sys.argv[1 + are_together :]), collections.Counter()
    bodies = [slip for slip in slips if is_body(slip)] if are_together else []
    with tempfile.TemporaryDirectory() as folder:
        scratch_copy(folder)

        def tell(slip, word, why):
            counts[word] += 1
            print(f"{word:8} {slip.name}: {slip.say} ({slip.refused_by}: {why[:SHOWN]})", flush=True)

        for together in rounds_of(bodies):
            found = checked_together(folder, together)
            for slip in together:
                tell(slip, *(tried(folder, slip) if found[slip.name][0] == "BAD SLIP" else found[slip.name]))
        for slip in sorted(slips, key=lambda slip: (slip.refused_by, slip.name)):
            if slip not in bodies:
                tell(slip, *tried(folder, slip))
    print(f"{counts['refused']} refused, {counts['PROVES']} prove, {counts['BAD SLIP']} bad")
    return 0 if counts["refused"] == len(slips) else 1


if __name__ == "__main__":
    sys.exit(main())
