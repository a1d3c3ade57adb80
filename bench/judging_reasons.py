#!/usr/bin/env python3
"""Compares what `mtapi judge` says of many journals with the machine of `reference_machine.py`: `bench/judging_reasons.py [few]
[SEED]`.

The journals are histories that the reference machine walks by itself, in one text or the other, each also with one thing
changed, as in `judging.py`. Compared are whether a journal is legal, the first line that isn't, and what is named in its
place: each line has to be the same call with a reply that the reference allows there, and where the reference allows
one reply alone, that one has to be named; of picks all, if they are at most twelve. Where the reason says that an object
is live, was never made, or stopped being live in a line, how far a task has come, or who has a lock, the reference has
to say the same. A table of journals that are no run of a workload has what is written of each. Prints each difference in full, and how many reasons of each kind there were, and ends with 1 if something differs. With `few` it is 300 of the
journals. The program has to be built: run `./mtapi prove` before.
"""

import os
import random
import re
import subprocess
import sys
from collections import Counter

from common import TOP
from judging import changed
from made_histories import walked
from reference_machine import Machine
from reference_text import BadLine, OBJECTS, read_entry, read_journal

PROGRAM = os.environ.get("MTAPI_JUDGE", os.path.join(TOP, "crates", "mtapi_judge", "out", "mtapi_judge"))
FEW, WALKS = 300, 30
MOST = 12  # picks that are named at most
LIVENESS = re.compile(r"(\S+) is (no|a) live ([a-z -]+): (none was made with this handle|.* in line (\d+))")
HEAD = "mtapi-journal 2 workers=1 callers=1 tasks=1024 actions=64 groups=128 queues=16 objects=16 priorities=4 generations=4294967295"
WORKLOAD = ["action a job=1 kind=add", "start t job=1 args=1,2,3", "wait t timeout=inf"]
START = "c0 task_start 1 1,2,3 0 18446744073709551615 0 - -> handle t1.0"
LOOK = "c0 task_look t1.0 0 -> ended completed 6"
RUN = ["c0 initialize -> ok", "c0 release -> ok", "c0 action_create 1 add 18446744073709551615 -> handle a1.0", START]
RUN += ["w0 pick -> picked t1.0 a1.0 add 1,2,3", "w0 finish t1.0 add 1,2,3 completed 6 -> ok", LOOK, "c0 close -> ok", "w0 pick -> stop"]
RUN += ["c0 final -> ok"]
# Workloads beside the journal above, and what is written of it, which is no run of them.
NO_RUNS = [
    (["node max_tasks=7"] + WORKLOAD, HEAD, RUN, f"the workload has tasks=7, and the journal tasks=1024\njournal line 1: {HEAD}\n"),
    (WORKLOAD + ["caller c"], HEAD, RUN, f"the workload has callers=2, and the journal callers=1\njournal line 1: {HEAD}\n"),
    (
        [WORKLOAD[0], "start t job=1 args=1,2,4", WORKLOAD[2]], HEAD, RUN,
        f"c0 has another entry for this statement\nline 2: start t job=1 args=1,2,4\njournal line 5: {START}\n",
    ),
    (
        WORKLOAD[:2] + ["# a remark", "cancel t"] + WORKLOAD[2:], HEAD, RUN,
        f"c0 has another entry for this statement\nline 4: cancel t\njournal line 8: {LOOK}\n",
    ),
    (
        WORKLOAD[:2], HEAD, RUN, f"c0 has another entry for the close of the node\njournal line 8: {LOOK}\n",
    ),
    (WORKLOAD, HEAD, RUN[:-1], "c0 has no entry for the end of the node\n"),
    (WORKLOAD, HEAD, RUN[:6], "c0 has no entry for this statement\nline 3: wait t timeout=inf\n"),
    (["begin"] + WORKLOAD, HEAD, RUN[:1] + RUN[2:], "c0 has another entry for this statement\nline 1: begin\njournal line 3: " + RUN[2] + "\n"),
    (WORKLOAD, HEAD, RUN[:8] + ["w0 pick -> stop", "w0 pick -> stop"] + RUN[9:], "w0 has an entry more than its part\njournal line 11: w0 pick -> stop\n"),
    (WORKLOAD, HEAD, RUN[:6] + [LOOK + " after 3"] + RUN[7:8] + RUN[8:10] + ["w0 pick -> stop"], "w0 has an entry more than its part\njournal line 12: w0 pick -> stop\n"),
]  # fmt: skip
KINDS = {"semaphore": "sem", "reader-writer lock": "rwl", "segment": "shmem"}


def machine_before(journal, count):
    """The machine after so many entries."""
    machine = Machine(journal.text, journal.settings)
    for entry in journal.entries[:count]:
        assert machine.may_come(entry)
    return machine


def first_illegal(journal):
    """The place of the first entry that may not come, from 0, or None."""
    machine = Machine(journal.text, journal.settings)
    for place, entry in enumerate(journal.entries):
        if not machine.may_come(entry):
            return place
    return None


class First:
    """Chooses the first of what there is, for a machine that has a choice."""

    def choice(self, choices):
        self.choices = choices
        return choices[0]

    def randrange(self, most):
        return 0


def expected(journal, place):
    """What the reference answers at this place: a reply, and all picks where there is a choice."""
    machine = machine_before(journal, place)
    entry = journal.entries[place]
    if not 0 <= entry.who < machine.seats:
        return None, []
    machine.chooses = First()
    reply, _ = machine.row(entry.who, entry.op, None, entry.fields)
    picks = [one[0] for one in getattr(machine.chooses, "choices", [])]
    return reply, picks


def is_live_as(text, handle_word, kind, kept, count):
    """Whether the object of this word is live after so many entries, and whether it was ever made."""
    machine = machine_before(kept, count)
    handle = next((one for one in machine.lists[kind] if word_of(text, kind, one) == handle_word), None)
    return handle is not None and machine.live(kind, handle) is not None, handle is not None


def word_of(text, kind, handle):
    if text == 1:
        return str(handle)
    return f"{'atgqmsrh'[OBJECTS.index(kind)]}{handle >> 32}.{handle & 0xFFFFFF}"


STAYS = re.compile(r"([atgqmsrh]?\d[\d.]*) (hasn't begun|runs on (\S+), which took it in line (\d+)|ended before it began: (\S+)|ended in line (\d+))")
HELD = re.compile(r"(\S+) is held: (\S+) took it in line (\d+)")
HOLDERS = {"mutex": lambda one: [one.owner], "sem": lambda one: one.holders, "rwl": lambda one: [*one.readers, one.writer]}


def task_of(machine, journal, word):
    return next((one for handle, one in machine.lists["task"].items() if word_of(journal.text, "task", handle) == word), None)


def wrong_progress(journal, place, why):
    """What is wrong in what a reason says of a task, or None."""
    found = STAYS.search(why)
    if not found:
        return None
    task = task_of(machine_before(journal, place), journal, found[1])
    if task is None:
        return "there is no such task"
    if found[2] == "hasn't begun":
        return None if task.state == "scheduled" else "it has begun"
    if found[3]:
        taken = journal.entries[int(found[4]) - 2]
        same = taken.op == "pick" and taken.reply[1] == task.handle and found[3] == f"w{task.worker}" and taken.who == task.worker
        return None if same and task.state == "running" else "it runs elsewhere"
    if found[5]:
        ended = task.end[1] if task.end and task.end[0] == "error" else task.end and task.end[0]
        return None if task.state == "ended" and task.kind is None and ended == found[5] else "it ended otherwise"
    before = task_of(machine_before(journal, int(found[6]) - 2), journal, found[1])
    after = task_of(machine_before(journal, int(found[6]) - 1), journal, found[1])
    return None if before.state == "running" and after.state == "ended" else "it ended elsewhere"


def wrong_holder(journal, place, why):
    """What is wrong in what a reason says of a lock, or None."""
    found = HELD.search(why)
    if not found:
        return None
    machine, taken = machine_before(journal, place), journal.entries[int(found[3]) - 2]
    seat = int(found[2][1:]) + (machine.workers if found[2][0] == "c" else 0)
    for kind, holders in HOLDERS.items():
        for handle, one in machine.lists[kind].items():
            if word_of(journal.text, kind, handle) == found[1] and taken.op in (f"{kind}_look", "tally_lock") and seat in holders(one):
                return None if taken.who == seat else "another seat took it"
    return "it isn't held by this seat"


def wrong_reason(journal, place, why):
    """What is wrong in what a reason says of an object, or None."""
    return wrong_liveness(journal, place, why) or wrong_progress(journal, place, why) or wrong_holder(journal, place, why)


def wrong_liveness(journal, place, why):
    """What is wrong in what a reason says of whether an object is live, or None."""
    found = LIVENESS.search(why)
    if not found:
        return None
    word, live, kind, how, line = found.groups()
    kind = KINDS.get(kind, kind)
    now, made = is_live_as(journal.text, word, kind, journal, place)
    if live == "a":
        before, _ = is_live_as(journal.text, word, kind, journal, int(line) - 2)
        after, _ = is_live_as(journal.text, word, kind, journal, int(line) - 1)
        return None if now and not before and after else "it isn't live, or was made elsewhere"
    if line is None:
        return None if not made else "it was made"
    before, _ = is_live_as(journal.text, word, kind, journal, int(line) - 2)
    after, _ = is_live_as(journal.text, word, kind, journal, int(line) - 1)
    return None if made and not now and before and not after else "it is live, or stopped being live elsewhere"


def wrong_lines(journal, place, lines):
    """What is wrong in the lines that are named as allowed, or None."""
    given, entries = journal.entries[place], []
    for line in lines:
        try:
            entry = read_entry(line, journal.text, journal.settings)
        except BadLine:
            return f"no line: {line}"
        if (entry.who, entry.op, entry.fields) != (given.who, given.op, given.fields) or entry.reply == given.reply:
            return f"another call, or the reply itself: {line}"
        if not machine_before(journal, place).may_come(entry):
            return f"not allowed: {line}"
        entries.append(entry.reply)
    reply, picks = expected(journal, place)
    if reply is None or reply[0] == "handle" and given.op.endswith(("create", "start", "enqueue")):
        return None if reply is None and not entries or reply and len(entries) == 1 else f"named: {entries}"
    wanted = picks if picks else [reply]
    if len(wanted) <= MOST and sorted(map(repr, wanted)) != sorted(map(repr, entries)):
        return f"named {entries}, and not {wanted}"
    return None if entries else "nothing is named"


def wrong_in(text, output, status):
    """What is wrong in the output for this journal, or None."""
    journal = read_journal(text)
    if isinstance(journal, str):
        return None if status == 3 and not output else "the reference refuses it"
    place = first_illegal(journal)
    lines = output.split("\n")
    if place is None:
        return None if (status, output) == (0, "legal\n") else "it is legal"
    if status != 1 or lines[0] != f"illegal line {place + 2}: {text.split(chr(10))[place + 1]}":
        return f"the first illegal line is {place + 2}"
    if not lines[1].startswith("why: ") or len(lines[1]) < 10:
        return "no reason"
    named = lines[2:-1]
    if any(not line.startswith("instead: ") for line in named) or lines[-1]:
        return "another form"
    return wrong_lines(journal, place, [line[len("instead: ") :] for line in named]) or wrong_reason(journal, place, lines[1])


def shape(why):
    """A reason without its numbers and handles."""
    return re.sub(r"\b[a-z]?[0-9][0-9.,]*\b", "N", why)


def journals(rng, few):
    """The journals that are judged: the kind of change and the text."""
    made = list(walked(rng, 12 if few else WALKS))
    for kind, _, text in list(made):
        if kind == "a walk":
            made += [one for one in changed(rng, "", text) if one[0] != "another workload"]
    made = [(kind, text) for kind, _, text in made]
    return rng.sample(made, FEW) if few else made


def wrong_runs():
    """How many of the journals that are no runs are told otherwise than the table says."""
    wrong = 0
    for workload, head, lines, wanted in NO_RUNS:
        text = "".join(line + "\n" for line in workload + [head] + lines)
        done = subprocess.run([PROGRAM, "run"], input=text, capture_output=True, text=True, timeout=60)
        if (done.returncode, done.stdout) != (1, f"not a run: {wanted}"):
            wrong += 1
            print(f"DIFFERENCE, no run: {done.returncode} {done.stdout}, and not {wanted}of\n{text}")
    return wrong


def main():
    few = sys.argv[1:2] == ["few"]
    seeds = sys.argv[2:] if few else sys.argv[1:]
    if not os.access(PROGRAM, os.X_OK):
        sys.exit("build the program first: ./mtapi prove")
    counts, shapes, differences = Counter(), Counter(), wrong_runs()
    for kind, text in journals(random.Random(int(seeds[0]) if seeds else 1), few):
        done = subprocess.run([PROGRAM], input=text, capture_output=True, text=True, timeout=60)
        wrong = wrong_in(text, done.stdout, done.returncode)
        counts[{0: "legal", 1: "illegal"}.get(done.returncode, "refused")] += 1
        if done.returncode == 1:
            shapes[shape(done.stdout.split("\n")[1])] += 1
        if wrong:
            differences += 1
            print(f"DIFFERENCE, {kind}: {wrong}\n{done.stdout}of\n{text}")
    for words, count in shapes.most_common():
        print(f"{count:5} {words}")
    print(f"{counts.total()} journals: {dict(counts)}, {differences} differences")
    sys.exit(1 if differences else 0)


if __name__ == "__main__":
    main()
