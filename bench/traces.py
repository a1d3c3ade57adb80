#!/usr/bin/env python3
"""Checks what `mtapi trace` writes: `bench/traces.py [SEED]`, or `bench/traces.py TRACE..` for traces that were kept.

A trace has to keep the rules of the Trace Event format, as far as they concern its phases: required fields, complete
events (X) alone in place of B and E, slices of a track that lie in one another or apart, flows with one start (s) and one
end (f) at slices of their tracks, counters (C) that are never negative, and one name (M) for each track. It is also
compared with its journal: a slice for each task that was picked and for each call, a flow for each pick of a task whose
start is there, counters that are counted again here, and the names of the workload.

The journals are those of runs of the examples and of generated workloads, and histories that the reference machine walks
by itself. Prints a line for each kind, and each fault, and ends with 1 where there is one. Four times the entries may take
at most 4.6 times the processor time. The programs have to be built: run `./mtapi prove` before.
"""

import json
import os
import random
import re
import subprocess
import sys
import tempfile
from collections import Counter

from common import COMMAND, TOP, cost, need_command
from generated import workload as generated_workload
from made_histories import walked
from made_workloads import workloads

PROGRAM = os.path.join(TOP, "crates", "mtapi_trace", "out", "mtapi_trace")
HANG = 60.0  # seconds after which a program is stopped
RATIO = 4.6
TRIES = 9
CHANGED = 400  # histories with another reply
FIELDS = {
    "X": {"name": str, "cat": str, "pid": int, "tid": int, "ts": int, "dur": int, "args": dict},
    "s": {"name": str, "cat": str, "pid": int, "tid": int, "ts": int, "id": int},
    "f": {"name": str, "cat": str, "pid": int, "tid": int, "ts": int, "id": int, "bp": str},
    "C": {"name": str, "pid": int, "ts": int, "args": dict},
    "M": {"name": str, "pid": int, "args": dict},
}  # fmt: skip


# --- The format ------------------------------------------------------------------------------------------------------


def faults_of_fields(event):
    """What is wrong with an event by itself."""
    fields = FIELDS.get(event.get("ph"))
    if fields is None:
        return [f"the phase of {event}"]
    wrong = [name for name, kind in fields.items() if type(event.get(name)) is not kind]
    low = [name for name in ("ts", "dur", "id") if name in fields and name not in wrong and event[name] < (name == "dur")]
    if event["ph"] == "C" and not wrong and not all(type(value) is int and value >= 0 for value in event["args"].values()):
        low.append("args")
    return [f"{name} of {event}" for name in wrong + low]


def faults_of_nesting(slices):
    """Slices of one track that overlap."""
    open_until = []
    for event in sorted(slices, key=lambda it: (it["ts"], -it["dur"])):
        while open_until and open_until[-1] <= event["ts"]:
            open_until.pop()
        if open_until and event["ts"] + event["dur"] > open_until[-1]:
            yield f"{event} overlaps another slice of its track"
        open_until.append(event["ts"] + event["dur"])


def faults_of_flows(flows, slices):
    """Flows without one start and one later end, or whose ends lie in no slice."""
    begins = {(it["tid"], it["ts"]) for it in slices}
    by_id = {}
    for event in flows:
        by_id.setdefault(event["id"], []).append(event)
        if (event["tid"], event["ts"]) not in begins and not any(
            it["tid"] == event["tid"] and it["ts"] <= event["ts"] < it["ts"] + it["dur"] for it in slices
        ):
            yield f"{event} lies in no slice"
    for events in by_id.values():
        if [it["ph"] for it in events] != ["s", "f"] or events[0]["ts"] >= events[1]["ts"]:
            yield f"no pair: {events}"
        elif any(events[0][name] != events[1][name] for name in ("name", "cat", "id")):
            yield f"two names: {events}"


def format_faults(trace):
    """How a trace breaks the rules of the format."""
    events = trace.get("traceEvents") if isinstance(trace, dict) else None
    if not isinstance(events, list):
        return ["no list traceEvents"]
    faults = [fault for event in events for fault in faults_of_fields(event)]
    if faults:
        return faults
    slices = [it for it in events if it["ph"] == "X"]
    named = Counter(it["tid"] for it in events if it["ph"] == "M" and it["name"] == "thread_name")
    tracks = {it["tid"] for it in events if it["ph"] in "Xsf"}
    faults += [f"track {track} has {named[track]} names" for track in tracks | set(named) if named[track] != 1]
    for track in tracks:
        faults += faults_of_nesting([it for it in slices if it["tid"] == track])
    return faults + list(faults_of_flows([it for it in events if it["ph"] in "sf"], slices))


# --- The journal -----------------------------------------------------------------------------------------------------


def entries_of(journal):
    """Each line behind the head line as its time, seat, op, fields, reply and number beside it."""
    for time_, line in enumerate(journal.splitlines()[1:], 1):
        front, behind = line.split(" -> ")
        reply, _, beside = behind.partition(" after ")
        words = front.split()
        yield time_, words[0], words[1], words[2:], reply.split(), int(beside or 0)


def ends_task(op, reply):
    return (op == "finish" and reply == ["ok"]) or (op in ("watch_end", "tally_end") and reply[0] == "ended")


class Actions:
    """The actions of a journal that weren't deleted, and which waiting tasks no worker can take."""

    def __init__(self, journal):
        self.workers = int(re.search(r" workers=(\d+)", journal).group(1))
        self.known, self.jobs, self.asked = {}, {}, {}

    def note(self, op, fields, reply):
        """Follows an entry. Whether it deletes or disables an action."""
        if reply[0] == "handle":
            if op == "action_create":
                self.known[reply[1]] = [fields[0], int(fields[2]), True]
            elif op == "queue_create":
                self.jobs[reply[1]] = fields[1]
            elif op == "task_start":
                self.asked[reply[1]] = fields[0], int(fields[3])
            elif op == "task_enqueue":
                self.asked[reply[1]] = self.jobs.get(fields[0]), int(fields[2])
        if op not in ("action_delete", "action_disable", "action_enable") or reply != ["ok"] or fields[0] not in self.known:
            return False
        if op == "action_delete":
            del self.known[fields[0]]
        else:
            self.known[fields[0]][2] = op == "action_enable"
        return op != "action_enable"

    def is_left(self, task):
        wanted, cores = self.asked[task]
        masks = [mask for job, mask, enabled in self.known.values() if enabled and job == wanted]
        return wanted is not None and not any(mask & cores & 1 << worker for mask in masks for worker in range(self.workers))


def expected(journal):
    """How many slices and flows the journal has, and the counts of tasks that wait, as (time, handle of a queue, count)."""
    tasks, calls, flows, counts = 0, 0, 0, []
    waiting, retains, runs, actions = {}, {}, set(), Actions(journal)

    def counted(time_, queue):
        counts.append((time_, queue, sum(1 for it in waiting.values() if it == queue)))

    for time_, seat, op, fields, reply, _ in entries_of(journal):
        if reply == ["pending"]:
            continue
        if op == "pick":
            if reply[0] == "picked":
                tasks += 1
                runs.add(seat)
                flows += reply[1] in waiting
                if reply[1] in waiting:
                    counted(time_, waiting.pop(reply[1]))
            continue
        if ends_task(op, reply) and seat in runs:
            runs.remove(seat)
            continue
        calls += 1
        gone = None
        if actions.note(op, fields, reply):
            left = [task for task in waiting if actions.is_left(task)]
            queues = {waiting.pop(task) for task in left}
            for queue in [None] + list(retains):
                if queue in queues:
                    counted(time_, queue)
        if op == "queue_create" and reply[0] == "handle":
            retains[reply[1]] = fields[5] == "1"
            counted(time_, reply[1])
        elif op in ("task_start", "task_enqueue") and reply[0] == "handle":
            queue = fields[0] if op == "task_enqueue" and fields[0] in retains else None
            waiting[reply[1]] = queue
            counted(time_, queue)
        elif (op == "task_cancel" and reply == ["ok"]) or (op == "task_look" and reply[0] == "ended"):
            gone = fields[0]
        elif op == "any_look" and reply[0] == "given":
            gone = reply[1]
        elif op in ("queue_disable", "queue_delete") and reply == ["ok"] and fields[0] in retains:
            if op == "queue_delete" or not retains[fields[0]]:
                waiting = {task: queue for task, queue in waiting.items() if queue != fields[0]}
                counted(time_, fields[0])
        if gone in waiting:
            counted(time_, waiting.pop(gone))
    return tasks, calls, flows, counts


def statements_of(text):
    """The names of a workload: of its parts in order, and for each name behind that of its part the line that binds it."""
    parts, lines = ["main"], {}
    for line, words in enumerate(map(str.split, text.splitlines()), 1):
        if words and words[0] == "caller":
            parts.append(words[1])
        elif words and words[0] in ("start", "enqueue", "queue"):
            lines[f"{parts[-1]}.{words[1]}"] = line
    return parts, lines


def run_faults(trace, text, journal):
    """How a trace differs from its journal and its workload."""
    events = trace["traceEvents"]
    tasks, calls, flows, counts = expected(journal)
    slices = Counter(it["cat"] for it in events if it["ph"] == "X")
    found = slices["task"], slices["call"] + slices["wait"], sum(it["ph"] == "s" for it in events)
    faults = [] if found == (tasks, calls, flows) else [f"tasks, calls, flows {found} in place of {(tasks, calls, flows)}"]
    told = [(it["ts"], it["args"]["tasks"]) for it in events if it["ph"] == "C"]
    if told != [(time_, count) for time_, _, count in counts]:
        faults.append(f"other counts: {told[:20]} in place of {counts[:20]}")
    queues = {(queue, it["name"]) for (_, queue, _), it in zip(counts, (it for it in events if it["ph"] == "C"))}
    if len(queues) != len({queue for queue, _ in queues}):
        faults.append(f"queues with two names: {queues}")
    parts, lines = statements_of(text)
    tracks = sorted((it["tid"], it["args"]["name"]) for it in events if it["ph"] == "M" and it["name"] == "thread_name")
    names = [name for _, name in tracks]
    if text and names[: len(parts)] != parts:
        faults.append(f"tracks {names} in place of {parts}")
    for it in events:
        if text and it.get("cat") == "task" and it["args"].get("line") != lines.get(it["name"], 0):
            faults.append(f"no name of the workload: {it}")
    last = len(journal.splitlines())
    return faults + [f"{it} ends behind the journal" for it in events if it["ph"] == "X" and it["ts"] + it["dur"] > last]


# --- All of it -------------------------------------------------------------------------------------------------------


def traced(text):
    """The trace of an input, as the program writes it."""
    done = subprocess.run([PROGRAM], input=text, capture_output=True, text=True, timeout=HANG)
    if done.returncode != 0 or done.stderr:
        sys.exit(f"status {done.returncode}: {done.stderr}")
    return done.stdout


def ran(text):
    """The journal of a run of a workload."""
    done = subprocess.run([COMMAND, "run", "--journal"], input=text, capture_output=True, text=True, timeout=HANG)
    return done.stdout[re.search("^mtapi-journal ", done.stdout, re.M).start() :]


def checked(kind, inputs, legal=True):
    """Prints how many traces were checked, and each fault. A journal that may be no history is compared with nothing."""
    faults, count, events = [], 0, 0
    for text, journal in inputs:
        joined = text if not text or text.endswith("\n") else text + "\n"
        trace = json.loads(traced(joined + journal))
        count, events = count + 1, events + len(trace["traceEvents"])
        faults += format_faults(trace) or (run_faults(trace, text, journal) if legal else [])
    print(f"{kind}: {count} traces with {events} events, {len(faults)} faults", flush=True)
    for fault in faults[:20]:
        print(f"    {fault}")
    return not faults


def seconds(text):
    """The least processor time of some runs of the program."""
    times = []
    with tempfile.TemporaryFile("w+") as file:
        file.write(text)
        for _ in range(TRIES):
            file.seek(0)
            times.append(cost([PROGRAM], file)[0])
    return min(times)


def is_linear():
    """Whether four times the tasks take no more than so many times the processor time."""
    texts = ["".join(f"{line}\n" for line in generated_workload(count, 4)) for count in (4_750, 19_000)]
    journals = [ran(text) for text in texts]
    times = [seconds(text + journal) for text, journal in zip(texts, journals)]
    size = len(traced(texts[1] + journals[1]))
    print(f"19,000 tasks, {len(journals[1].splitlines()) - 1} entries: {times[1]:.3f} s, {size} bytes; 4,750: {times[0]:.3f} s")
    right = checked("generated", zip(texts, journals))
    return right and times[1] <= RATIO * times[0]


def main():
    words = sys.argv[1:]
    if words and not words[0].isdigit():
        faults = []
        for name in words:
            with open(name) as file:
                faults += [f"{name}: {fault}" for fault in format_faults(json.load(file))]
        print("\n".join(faults) or f"{len(words)} traces, 0 faults")
        sys.exit(1 if faults else 0)
    need_command()
    rng = random.Random(int(words[0]) if words else 1)
    runs = [(text, ran(text)) for text in workloads(rng)]
    histories = list(walked(rng))
    changed = [journal for kind, _, journal in histories if not kind.startswith("a ")]
    right = [
        checked("workloads", runs),
        checked("journals alone", [("", journal) for _, journal in runs]),
        checked("walked histories", [("", journal) for kind, _, journal in histories if kind.startswith("a ")]),
        checked("with another reply", [("", journal) for journal in rng.sample(changed, CHANGED)], False),
        is_linear(),
    ]
    sys.exit(0 if all(right) else 1)


if __name__ == "__main__":
    main()
