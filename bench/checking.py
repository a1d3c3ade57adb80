#!/usr/bin/env python3
"""What `mtapi check` costs, in processor time and in memory. Prints a line for each figure.

Judges the journals of runs of generated workloads, of about 15,000 and 60,000 entries, and journals that are made to
cost much: a group of 20,000 members, a queue of 20,000 tasks, 1,000 actions of one job beside 20,000 tasks that wait,
1,000 disables beside them that end nothing (of an action whose cores another one covers, and of one that has a core of
its own), and 20,000 slots that are used once or twice. Fails where a verdict is another one than expected, or where
four times the entries take more than 4.6 times the time. The command has to be built: run `./mtapi prove` before.
"""

import os
import subprocess
import sys
import tempfile
import time

from common import COMMAND, need_command

RATIO = 4.6  # of the times, at four times the entries
TRIES = 3
HANG = 120.0  # seconds after which a check is stopped
MANY = 20_000
CORES = "18446744073709551615"
HEAD = "mtapi-journal 2 workers=1 callers=1 tasks=65536 actions=1024 groups=128 queues=16 objects=16 priorities=4 generations=4294967295"
START = ["c0 initialize -> ok", "c0 release -> ok"]
END = ["c0 close -> ok", "w0 pick -> stop", "c0 final -> ok"]
ACTION = f"c0 action_create 1 add {CORES} -> handle a1.0"


def generated(tasks):
    """A workload of so many tasks in a group, of two actions."""
    lines = [f"node workers=4 max_tasks={tasks}", "action a job=1 kind=add", "action b job=2 kind=triangle", "group g"]
    for i in range(tasks):
        lines.append(f"start t{i} job=1 args={i},7 group=g" if i % 2 == 0 else f"start t{i} job=2 args={i % 64} group=g")
    lines.append("wait_all g timeout=inf")
    return "".join(line + "\n" for line in lines)


def journal_of(workload):
    """The journal that a run of this workload leaves."""
    done = subprocess.run([COMMAND, "run", "--journal"], input=workload, capture_output=True, text=True, timeout=HANG)
    if done.returncode:
        sys.exit(f"status {done.returncode} of a run: {done.stderr}")
    return done.stdout[done.stdout.index("mtapi-journal ") :]


def made(lines):
    """A journal of these entries between the first ones and the last ones."""
    return "".join(line + "\n" for line in [HEAD] + START + lines + END)


def cut(lines, generations):
    """A journal of these entries behind the first ones, of a node whose slots are used so often and which may have as
    many tasks as there are in the other journals. It ends before the tasks do."""
    head = HEAD.replace("tasks=65536", f"tasks={MANY}").replace("generations=4294967295", f"generations={generations}")
    return "".join(line + "\n" for line in [head] + START + [ACTION] + lines)


def run_of(task):
    """A worker takes this task and ends it."""
    return [f"w0 pick -> picked t1.{task} a1.0 add 1", f"w0 finish t1.{task} add 1 completed 1 -> ok"]


def many_members():
    """One group that all tasks are put into, and looks that give them one after another."""
    lines = [ACTION, "c0 group_create -> handle g1.0"]
    lines += [f"c0 task_start 1 1 0 {CORES} 0 g1.0 -> handle t1.{i}" for i in range(MANY)]
    for i in range(MANY):
        lines += run_of(i) + [f"c0 any_look g1.0 0 -> given t1.{i} completed 1"]
    return made(lines)


def many_queued():
    """One ordered queue that all tasks are put into."""
    lines = [ACTION, "c0 queue_create 1 1 0 65536 1 0 -> handle q1.0"]
    lines += [f"c0 task_enqueue q1.0 1 {CORES} 0 - -> handle t1.{i}" for i in range(MANY)]
    for i in range(MANY):
        lines += run_of(i) + [f"c0 task_look t1.{i} 0 -> ended completed 1"]
    return made(lines)


def waiting():
    """A queue that is disabled and keeps its tasks, all of which wait there."""
    lines = [ACTION, "c0 queue_create 1 1 0 65536 0 1 -> handle q1.0", "c0 queue_disable q1.0 -> ok"]
    return lines + [f"c0 task_enqueue q1.0 1 {CORES} 0 - -> handle t1.{i}" for i in range(MANY)]


def many_actions():
    """A thousand actions of the job of tasks that wait, each made and taken away."""
    lines = waiting()
    lines += [f"c0 action_create 1 add {CORES} -> handle a1.{i}" for i in range(1, 1000)]
    lines += [f"c0 action_delete a1.{i} -> ok" for i in range(1, 1000)]
    return made(lines)


def many_disables():
    """A thousand times one of two actions of the job of tasks that wait is disabled, which ends none of them."""
    lines = waiting() + [f"c0 action_create 1 add {CORES} -> handle a1.1"]
    lines += ["c0 action_disable a1.1 -> ok", "c0 action_enable a1.1 -> ok"] * 1000
    return made(lines)


def many_other_cores():
    """The same, but the two actions have a worker each, so that each of them is the only one on its core."""
    lines = waiting() + ["c0 action_create 1 add 2 -> handle a1.1", "c0 action_disable a1.0 -> ok", "c0 action_create 1 add 1 -> handle a1.2"]
    lines += ["c0 action_disable a1.1 -> ok", "c0 action_enable a1.1 -> ok"] * 1000
    return made(lines).replace("workers=1", "workers=2").replace("w0 pick -> stop\n", "w0 pick -> stop\nw1 pick -> stop\n")


def start(generation, task):
    """A task is started under this handle."""
    return f"c0 task_start 1 1 0 {CORES} 0 - -> handle t{generation}.{task}"


def used(generation, task):
    """A task is taken, ended and looked at."""
    handle = f"t{generation}.{task}"
    return [f"w0 pick -> picked {handle} a1.0 add 1", f"w0 finish {handle} add 1 completed 1 -> ok", f"c0 task_look {handle} 0 -> ended completed 1"]


def used_up():
    """All slots are used once, and then starts are refused, each behind a task that ends."""
    lines = [start(1, i) for i in range(MANY)]
    for i in range(MANY):
        lines += used(1, i) + [f"c0 task_start 1 1 0 {CORES} 0 - -> status MTAPI_ERR_TASK_LIMIT"]
    return cut(lines, 1)


def used_twice():
    """All slots hold tasks, each of which ends before its slot is used again."""
    lines = [start(1, i) for i in range(MANY)]
    for i in range(MANY):
        lines += used(1, i) + [start(2, i)]
    return cut(lines, 2)


def check(path):
    """The status and the line of one check, its processor seconds and the kilobytes that it held at most."""
    with open(path, "rb") as text, tempfile.TemporaryFile() as out:
        child = subprocess.Popen([COMMAND, "check"], stdin=text, stdout=out)
        ends = time.monotonic() + HANG
        while True:
            done, status, usage = os.wait4(child.pid, os.WNOHANG)
            if done:
                break
            if time.monotonic() > ends:
                child.kill()
                sys.exit(f"no verdict after {HANG} seconds")
            time.sleep(0.005)
        child.returncode = os.waitstatus_to_exitcode(status)
        out.seek(0)
        return child.returncode, out.read().decode(), usage.ru_utime + usage.ru_stime, usage.ru_maxrss


def cost(folder, what, workload, journal, wanted):
    """The least processor seconds of a check of this journal behind this workload, whose verdict has to be this."""
    path = os.path.join(folder, "input")
    with open(path, "w") as file:
        file.write(workload + journal)
    runs = [check(path) for _ in range(TRIES)]
    for status, line, _, _ in runs:
        if (status, line) != wanted:
            sys.exit(f"{what}: status {status}, {line.strip() or 'no verdict'}")
    seconds = min(took for _, _, took, _ in runs)
    room = max(most for _, _, _, most in runs)
    print(f"{what}: {journal.count(chr(10)) - 1} entries, {seconds:.3f} s, {room} kB")
    return seconds


def main():
    need_command()
    yes, no = (0, "yes\n"), (9, "no: not a run\n")
    with tempfile.TemporaryDirectory() as folder:
        figures = []
        for tasks in (4_995, 19_990):
            workload = generated(tasks)
            figures.append(cost(folder, f"a run of {tasks} tasks", workload, journal_of(workload), yes))
        ratio = figures[1] / figures[0]
        bad = ratio > RATIO
        print(f"ratio {ratio:.2f}{'  TOO SLOW' if bad else ''}")
        for what, journal in (
            ("a group of many members", many_members()),
            ("a queue of many tasks", many_queued()),
            ("many actions of one job", many_actions()),
            ("many disables", many_disables()),
            ("many disables of an action on a core of its own", many_other_cores()),
            ("slots that are used up", used_up()),
            ("slots that are used twice", used_twice()),
        ):
            # They are legal, and no run of the empty workload.
            cost(folder, what, "", journal, no)
    sys.exit(1 if bad else 0)


if __name__ == "__main__":
    main()
