#!/usr/bin/env python3
"""Compares `mtapi orders` with a search that leaves nothing out, and with real runs: `bench/orders_random.py [COUNT [SEED]]`.

COUNT random workloads of up to four parts (300 if not given), and the examples and cases that are small enough: the
set of reports, and whether there is a deadlock, have to be those of `reference_orders.py`, over the machine of
`reference_machine.py`; and the report of each of three runs by the command has to be in the set, where a run that
doesn't end wants a deadlock. Workloads with too many states or reports for either are counted and left out. Prints a
line for each difference, and the counts; ends with 1 where something differs. Build the programs first: `./mtapi
prove`; or ORDERS and MTAPI in the environment name other builds of `mtapi_orders` and of the command.
"""

import os
import random
import subprocess
import sys

from common import TOP
from made_workloads import Part
from reference_orders import all_orders
from reference_text import PURE

PROGRAM = os.environ.get("ORDERS", os.path.join(TOP, "crates", "mtapi_orders", "out", "mtapi_orders"))
COMMAND = os.environ.get("MTAPI", os.path.join(TOP, "crates", "mtapi_cli", "out", "mtapi_cli"))
MOST_STATES, MOST_SECONDS = 12_000, 20.0
REAL_RUNS, RUN_SECONDS = 3, 5.0


def small(rng):
    """A small workload of mixed statements, where waits may be for good."""
    workers = rng.randrange(1, 4)
    node = [f"node workers={workers}", f"priorities={rng.randrange(1, 5)}"]
    if rng.random() < 0.3:
        node.append(f"max_tasks={rng.randrange(1, 4)}")
    main = Part(rng, workers)
    main.bind("action", "action", f"job=1 kind={rng.choice(PURE)}")
    flag = lambda: rng.choice(["yes", "no"])
    for kind, rest in [
        ("action", f"job=2 kind=watch cores={rng.choice(['0', 'all'])}"),
        ("action", f"job=3 kind={rng.choice(PURE)}"),
        ("action", "job=4 kind=tally"),
        ("queue", f"id=1 job=1 priority={rng.randrange(3)} ordered={flag()} retain={flag()}"),
        ("mutex", f"id=1 recursive={flag()}"),
        ("sem", "id=1 limit=1"),
        ("rwl", "id=1 limit=1"),
        ("shmem", "id=1 cells=2"),
    ]:
        if rng.random() < 0.55:
            main.bind(kind, kind, rest)
    for _ in range(rng.randrange(0, 4)):
        main.step()
    if rng.random() < 0.7:
        main.lines.append("begin")
    for _ in range(rng.randrange(1, 5)):
        main.step()
    lines = [" ".join(node)] + main.lines
    for name in "bcd"[: rng.choice([0, 1, 1, 2])]:
        part = Part(rng, workers)
        for kind in ("queue", "mutex", "sem", "rwl", "shmem"):
            if rng.random() < 0.5:
                part.bind(kind, kind + "_get", f"id={rng.choice([1, 1, 1, 2])}")
        for _ in range(rng.randrange(1, 5)):
            part.step()
        lines += [f"caller {name}"] + part.lines
    return "".join(waits_changed(rng, line) + "\n" for line in lines)


def waits_changed(rng, line):
    """The line, whose timeout may become another: some waits for good, and few looks."""
    if "timeout=" not in line:
        return line
    front = line[: line.index("timeout=")]
    if rng.random() < 0.35:
        return front + "timeout=inf"
    return line if "inf" in line else front + rng.choice(["timeout=nowait", "timeout=1", "timeout=2"])


def found_by_program(text):
    """What the program tells: its reports, or None where it tells them by line; each text of a line; how many reports there
    are; the count of deadlocks. None where it tells no whole answer."""
    try:
        done = subprocess.run([PROGRAM, "200000"], input=text, capture_output=True, text=True, timeout=MOST_SECONDS)
    except subprocess.TimeoutExpired:
        return None
    if done.returncode in (3, 10):
        return None
    if done.returncode != 0:
        raise ValueError(f"status {done.returncode}: {done.stderr.strip()}")
    lines = done.stdout.split("\n")[:-1]
    words = lines[0].split()
    if words[0] == "at":
        return None
    if "unproved" in words:
        raise ValueError(f"a stop that isn't shown to be a deadlock: {lines[0]}")
    count, deadlocks = int(words[0]), int(words[3])
    return None if count > 100 else reports_in(lines[1:], count), texts_in(lines[1:]), count, deadlocks


def texts_in(lines):
    """Each text of a line that a page tells before it tells reports and deadlocks by themselves."""
    found = set()
    for line in lines:
        if line.startswith(("report ", "deadlock ")):
            break
        if not line[2:].startswith("(no "):
            found.add(line[2:])
    return found


def reports_in(lines, count):
    """The whole reports of a page: the lines that all have, with those that differ put in their places."""
    shape, own, place = [], {}, None
    for line in lines:
        if line.startswith("report "):
            place = own.setdefault(int(line.split()[1]), [])
        elif line.startswith("deadlock "):
            break
        elif place is not None:
            place.append(line[2:])
        elif line.startswith("  "):
            shape.append(line[2:])
        elif line.startswith("? "):
            shape.append(None)
    if count == 0:
        return set()
    if count == 1:
        return {tuple(shape)}
    found = set()
    for number in range(1, count + 1):
        further = iter(own[number])
        whole = [next(further) if line is None else line for line in shape]
        found.add(tuple(line for line in whole if not line.startswith("(no ")))
    if len(found) != count:
        raise ValueError("a report is told twice")
    return found


def run_for_real(name, text, told, counts):
    """Runs a workload by the command. Whether a run shows what the program doesn't tell."""
    for _ in range(REAL_RUNS):
        try:
            done = subprocess.run([COMMAND, "run"], input=text, capture_output=True, text=True, timeout=RUN_SECONDS)
        except subprocess.TimeoutExpired:
            counts["runs that hung"] += 1
            if told[3] == 0:
                print(f"{name}: a run doesn't end, and no deadlock is told")
                return True
            continue
        if done.returncode != 0:
            print(f"{name}: a run ends with status {done.returncode}: {done.stderr.strip()}")
            return True
        counts["real runs"] += 1
        report = tuple(done.stdout.split("\n")[:-1])
        if report not in told[0] if told[0] is not None else not set(report) <= told[1]:
            print(f"{name}: the report of a run isn't told: " + "; ".join(report))
            return True
    return False


def compared(name, text, counts):
    """Compares one workload. Whether it differs."""
    try:
        told = found_by_program(text)
    except ValueError as error:
        print(f"{name}: {error}", flush=True)
        return True
    if told and run_for_real(name, text, told, counts):
        return True
    whole = told and all_orders(text, MOST_STATES, MOST_SECONDS)
    if not whole:
        counts["left out"] += 1
        return False
    reports, stuck = whole
    counts["compared"] += 1
    counts["with several reports"] += len(reports) > 1
    counts["by line"] += told[0] is None
    counts["with a deadlock"] += stuck
    texts = {line for report in reports for line in report}
    same = told[0] in (None, reports) and told[1] == texts and told[2] == len(reports)
    if same and (told[3] > 0) == stuck:
        return False
    print(f"{name}: {told[2]} reports and {told[3]} deadlocks in place of {len(reports)} and {stuck}")
    for report in sorted(reports ^ (told[0] or set()))[:2]:
        print("  " + ("made up: " if report in (told[0] or set()) else "missed: ") + "; ".join(report))
    for text in sorted(texts ^ told[1])[:4]:
        print(f"  line {'made up' if text in told[1] else 'missed'}: {text}")
    return True


def stored():
    """The examples, and the cases of the program."""
    data, cases = os.path.join(TOP, "crates", "mtapi_examples", "data"), os.path.join(TOP, "crates", "mtapi_orders", "cases")
    for folder, end in ((data, ".workload"), (os.path.join(data, "cases"), ".workload"), (cases, "")):
        for name in sorted(os.listdir(folder)) if os.path.isdir(folder) else []:
            if name.endswith(end) and not name.endswith(".stdout"):
                with open(os.path.join(folder, name)) as file:
                    yield name, file.read()


def main():
    count = int(sys.argv[1]) if len(sys.argv) > 1 else 300
    seed = int(sys.argv[2]) if len(sys.argv) > 2 else 1
    if not os.access(PROGRAM, os.X_OK):
        sys.exit("build the programs first: ./mtapi prove")
    words = ("compared", "with several reports", "by line", "with a deadlock", "left out", "real runs", "runs that hung")
    counts, differ = dict.fromkeys(words, 0), 0
    for name, text in stored():
        differ += compared(name, text, counts)
    for number in range(seed, seed + count):
        text = small(random.Random(number))
        if compared(f"workload {number}", text, counts):
            differ += 1
            print(text)
    print(", ".join(f"{value} {what}" for what, value in counts.items()) + f", {differ} differ")
    sys.exit(1 if differ else 0)


if __name__ == "__main__":
    main()
