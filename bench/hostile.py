#!/usr/bin/env python3
"""Input that means harm, given to `mtapi`: `bench/hostile.py [WORD]`, where only cases with this word in their name are
run.

Prints for each case its status, its seconds and what it wrote, and fails where one takes longer than the limit, hangs,
is ended by a signal, or has another status than the case allows. The seconds are those on the clock or those of the
processors, whichever are fewer, so that other work on the machine counts less; a case that takes too long is tried
again. The command has to be built: run `./mtapi prove` before.
"""

import os
import resource
import subprocess
import sys
import tempfile
import time

from common import COMMAND, need_command

LIMIT = 2.0  # seconds that a case may take
HANG = 60.0  # seconds after which it is stopped
TRIES = 3
MOST_BYTES = 1_048_576
MOST_STATEMENTS = 20_000
RUN, REFUSED, READ_FAULT, WRITE_FAULT = 0, 3, 4, 5

# For each statement the lines that make what it uses, and itself, where N stands for a new number each time.
STATEMENTS = {
    "caller": ([], "caller cN"),
    "node": ([], "node"),
    "begin": ([], "begin"),
    "action": ([], "action aN job=1 kind=add"),
    "action_delete": (["action a job=1 kind=add"], "action_delete a"),
    "action_enable": (["action a job=1 kind=add"], "action_enable a"),
    "action_disable": (["action a job=1 kind=add"], "action_disable a"),
    "start": (["action a job=1 kind=add"], "start tN job=1 args=N,1"),
    "start detached": (["action a job=1 kind=add"], "start tN job=1 args=N,1 detached=yes"),
    "start without an action": ([], "start tN job=1"),
    "enqueue": (["action a job=1 kind=add", "queue q id=1 job=1"], "enqueue tN queue=q args=N"),
    "enqueue ordered": (["node workers=4", "action a job=1 kind=add", "queue q id=1 job=1 ordered=yes"], "enqueue tN queue=q args=N"),
    "enqueue retained": (["node max_tasks=65536", "action a job=1 kind=add", "queue q id=1 job=1 retain=yes", "queue_disable q"], "enqueue tN queue=q"),
    "wait": (["action a job=1 kind=add", "start t job=1"], "wait t timeout=nowait"),
    "cancel": (["action a job=1 kind=add", "start t job=1"], "cancel t"),
    "group": ([], "group gN"),
    "wait_all": (["group g"], "wait_all g timeout=inf"),
    "wait_any": (["group g"], "wait_any g timeout=inf"),
    "group_delete": (["group g"], "group_delete g"),
    "queue": (["action a job=1 kind=add"], "queue qN id=N job=1"),
    "queue_get": (["action a job=1 kind=add", "queue r id=1 job=1"], "queue_get qN id=1"),
    "queue_enable": (["action a job=1 kind=add", "queue q id=1 job=1"], "queue_enable q"),
    "queue_disable": (["action a job=1 kind=add", "queue q id=1 job=1"], "queue_disable q"),
    "queue_delete": (["action a job=1 kind=add", "queue q id=1 job=1"], "queue_delete q"),
    "mutex": ([], "mutex mN id=N"),
    "mutex_get": (["mutex m id=1"], "mutex_get mN id=1"),
    "mutex_delete": (["mutex m id=1"], "mutex_delete m"),
    "lock recursive": (["mutex m id=1 recursive=yes"], "lock m timeout=inf"),
    "lock twice": (["mutex m id=1"], "lock m timeout=inf"),
    "unlock": (["mutex m id=1"], "unlock m key=1"),
    "sem": ([], "sem sN id=N limit=1"),
    "sem_get": (["sem s id=1 limit=1"], "sem_get sN id=1"),
    "sem_delete": (["sem s id=1 limit=1"], "sem_delete s"),
    "sem_lock": (["sem s id=1 limit=65535"], "sem_lock s timeout=nowait"),
    "sem_unlock": (["sem s id=1 limit=1"], "sem_unlock s"),
    "rwl": ([], "rwl rN id=N limit=1"),
    "rwl_get": (["rwl r id=1 limit=1"], "rwl_get rN id=1"),
    "rwl_delete": (["rwl r id=1 limit=1"], "rwl_delete r"),
    "rwl_lock": (["rwl r id=1 limit=32"], "rwl_lock r mode=reader timeout=nowait"),
    "rwl_unlock": (["rwl r id=1 limit=1"], "rwl_unlock r mode=reader"),
    "shmem": ([], "shmem sN id=N cells=4096"),
    "shmem_get": (["shmem s id=1 cells=1"], "shmem_get sN id=1"),
    "shmem_delete": (["shmem s id=1 cells=1"], "shmem_delete s"),
    "attach": (["shmem s id=1 cells=1"], "attach s"),
    "detach": (["shmem s id=1 cells=1"], "detach s"),
    "read": (["shmem s id=1 cells=1", "attach s"], "read s cell=0"),
    "write": (["shmem s id=1 cells=1", "attach s"], "write s cell=0 value=7"),
}


def text(lines):
    return "".join(f"{line}\n" for line in lines).encode()


def of_one_kind(first, statement):
    """As many statements as a workload may have, all but the first of one kind."""
    more = (statement.replace("N", str(i)) for i in range(MOST_STATEMENTS - len(first)))
    return text([*first, *more])


def filled(line):
    """A text of as many bytes as a workload may have, of this line again and again."""
    return (line * (MOST_BYTES // len(line) + 1))[:MOST_BYTES]


def longest_tasks():
    """Tasks with sixteen large arguments, as many as the bytes allow."""
    lines, size = [b"action a job=1 kind=max\n"], 24
    args = ",".join(["-9223372036854775808"] * 16)
    for i in range(MOST_STATEMENTS):
        line = f"start t{i} job=1 args={args}\n".encode()
        if size + len(line) > MOST_BYTES:
            break
        lines.append(line)
        size += len(line)
    return b"".join(lines)


def watches(workers):
    """Tasks that each look as often as a watch may, with a wait for each."""
    lines = [f"node workers={workers} max_tasks=2000", "action a job=1 kind=watch"]
    lines += [f"start t{i} job=1 args=64" for i in range(2_000)]
    lines += [f"wait t{i} timeout=inf" for i in range(2_000)]
    return text(lines)


def fight(workers):
    """Main and eight further callers, each with 2,000 statements, that all take one mutex and give it back."""
    parts = [[f"node workers={workers}", "mutex m id=1", "begin"]]
    parts += [[f"caller c{i}", "mutex_get m id=1"] for i in range(8)]
    for part in parts:
        part += ["lock m timeout=inf", "unlock m key=1"] * ((2_000 - len(part)) // 2)
    return text(line for part in parts for line in part)


def tallies(workers):
    """Tasks that all fight for one mutex and one segment."""
    lines = [f"node workers={workers} max_tasks=9000", "action a job=1 kind=tally", "mutex m id=1", "shmem s id=1 cells=1", "group g"]
    lines += [f"start t{i} job=1 args=1,1,0,1 group=g" for i in range(9_000)]
    return text([*lines, "wait_all g timeout=inf", "attach s", "read s cell=0"])


def long_wait():
    """A wait of a million looks for a task that nobody takes."""
    return text(["action a job=1 kind=add", "queue q id=1 job=1 retain=yes", "queue_disable q", "enqueue t queue=q", "wait t timeout=1000000"])


def workloads():
    """The name of each text, its bytes, and the statuses that it may have."""
    for name, (first, statement) in STATEMENTS.items():
        yield f"20,000 times {name}", of_one_kind(first, statement), (RUN, REFUSED)
    yield "20,001 statements", text(f"group g{i}" for i in range(20_001)), (REFUSED,)
    yield "1,048,576 line feeds", filled(b"\n"), (RUN,)
    yield "1,048,576 spaces", filled(b" "), (REFUSED,)
    yield "1,048,576 bytes of comments", filled(b"#" + b"x" * 510 + b"\n"), (RUN,)
    yield "1,048,576 zeros", filled(b"\0"), (REFUSED,)
    yield "1,048,576 bytes of every value", filled(bytes(range(256))), (REFUSED,)
    yield "1,048,576 bytes of short lines", filled(b"node\n#\n#\n"), (REFUSED,)
    yield "1,048,576 bytes of long tasks", longest_tasks(), (RUN,)
    yield "1,048,577 bytes", filled(b"\n") + b"\n", (REFUSED,)
    yield "16 MiB", filled(b"\n") * 16, (REFUSED,)
    for workers in (1, 4, 16):
        yield f"64 looks of each of 2,000 watches, {workers} workers", watches(workers), (RUN,)
        yield f"9 parts of 2,000 statements that fight for a mutex, {workers} workers", fight(workers), (RUN,)
        yield f"9,000 tallies of one cell, {workers} workers", tallies(workers), (RUN,)
    yield "a wait of 1,000,000 looks", long_wait(), (RUN,)


SMALL = text(["action a job=1 kind=max", "start t job=1 args=3,9,4", "wait t timeout=inf"])


class Case:
    """A call of the program: its status, its seconds, what it wrote and what it said."""

    def __init__(self, command, data=None):
        given = {"input": data} if data is not None else {"stdin": subprocess.DEVNULL}
        before, start = resource.getrusage(resource.RUSAGE_CHILDREN), time.perf_counter()
        try:
            done = subprocess.run(command, capture_output=True, timeout=HANG, **given)
            self.status, self.out, self.err = done.returncode, done.stdout, done.stderr
        except subprocess.TimeoutExpired:
            self.status, self.out, self.err = None, b"", b""
        took, after = time.perf_counter() - start, resource.getrusage(resource.RUSAGE_CHILDREN)
        self.seconds = min(took, after.ru_utime + after.ru_stime - before.ru_utime - before.ru_stime)


def tried(name, allowed, command, data=None):
    """Prints the line of a case. Whether it is as it should be."""
    for _ in range(TRIES):
        case = Case(command, data)
        if case.status is None or case.seconds <= LIMIT:
            break
    if case.status is None:
        why = "  HANGS"
    elif case.status not in allowed:
        why = "  WRONG STATUS"
    else:
        why = "  TOO SLOW" if case.seconds > LIMIT else ""
    said = case.err.decode(errors="replace").strip().splitlines()
    print(f"{name}: status {case.status}, {case.seconds:.2f} s, {len(case.out)} bytes, says {said[:1]}{why}", flush=True)
    return not why


def redirected(name, allowed, line, room):
    """A case that a shell sets up: `line` is its command, where PROGRAM stands for the program, and SMALL for a file
    with a workload."""
    small = os.path.join(room, "small.workload")
    with open(small, "wb") as file:
        file.write(SMALL)
    return tried(name, allowed, ["bash", "-c", line.replace("PROGRAM", COMMAND).replace("SMALL", small).replace("FOLDER", room)])


REDIRECTED = (
    ("no input at all", "PROGRAM run </dev/null", (RUN,)),
    ("a closed input", "PROGRAM run <&-", (READ_FAULT,)),
    ("a folder as input", "PROGRAM run <FOLDER", (READ_FAULT,)),
    ("an input that never ends", "PROGRAM run </dev/zero", (REFUSED,)),
    ("a full disk", "PROGRAM run <SMALL >/dev/full", (WRITE_FAULT,)),
    ("a full disk for messages too", "PROGRAM run <SMALL >/dev/full 2>/dev/full", (WRITE_FAULT,)),
    ("a closed output", "PROGRAM run <SMALL >&-", (WRITE_FAULT,)),
    ("a closed pipe", "PROGRAM run <SMALL > >(exec true) & sleep 0.2; wait $!", (RUN, WRITE_FAULT)),
    ("a pipe closed before the first byte", "{ sleep 0.3; PROGRAM run <SMALL; echo $? >FOLDER/status; } | true; exit $(cat FOLDER/status)", (WRITE_FAULT,)),
    ("closed messages", "echo foo | PROGRAM run 2>&-", (REFUSED,)),
    ("everything closed", "PROGRAM run <&- >&- 2>&-", (READ_FAULT,)),
    ("no word", "PROGRAM <SMALL", (2,)),
    ("a word that isn't UTF-8", "PROGRAM $'\\xff' <SMALL", (2,)),
    ("20,000 words", "PROGRAM $(seq 20000) <SMALL", (2,)),
)


def main():
    need_command()
    word = sys.argv[1] if len(sys.argv) > 1 else ""
    good = [tried(name, allowed, [COMMAND, "run"], data) for name, data, allowed in workloads() if word in name]
    with tempfile.TemporaryDirectory() as room:
        good += [redirected(name, allowed, line, room) for name, line, allowed in REDIRECTED if word in name]
    for tasks in ("19000 1", "19000 16"):
        if word in f"gen {tasks}":
            good.append(tried(f"gen {tasks}", (RUN,), [COMMAND, "gen", *tasks.split()]))
    print(f"{len(good)} cases, {good.count(False)} not as they should be")
    sys.exit(0 if all(good) else 1)


if __name__ == "__main__":
    main()
