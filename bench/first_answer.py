#!/usr/bin/env python3
"""What a newcomer's first commands answer, and what they take: `bench/first_answer.py [all] [test] [prove] [gate]`.

Clones the repository as it is committed into a folder of its own, asks for the usage text, the help and the version,
runs `./mtapi run < examples/first.workload` there before anything is proved, and prints the seconds on the clock and
those of the processors. With `all` further calls of the unproved program follow: each kind of input and output, faults,
files that are verified, compared and bounded, two at once and a stop in the middle. With `test` the tests run, and are
stopped once before. With `prove` the clone is proved and built, stopped once on the way, and the proved program answers
too; then a source changes. With `gate` the gate runs in a second clone, after which `./mtapi prove` has nothing to do;
that takes hours. Prints a line for each call, and fails where an answer is another one than expected, where faulty words,
the first answer or the tests take longer than their bounds on a machine with no other work, or where a process is left.
"""

import os
import pty
import re
import signal
import subprocess
import sys
import tempfile
import time

from common import TOP

MOST_PROCESSORS, MOST_CLOCK = 60.0, 90.0  # seconds of the first answer
MOST_WORDS = 0.1  # seconds until faulty words are told their usage
MOST_TEST = 360 if os.cpu_count() >= 4 else 720  # seconds of the tests, with no other work on the machine
WITHIN = 600  # seconds after which an unproved run is stopped
PROVED_WITHIN = 7200  # and a proof
USAGE = re.search(r'^message end\.Usage = codes "(.*)" \+\+', open(f"{TOP}/crates/mtapi_top/specs/Command.antt").read(), re.M)[1]
FIRST = "examples/first.workload"
ACTION = "action a job=1 kind=add\n"
# Words that are none, and what the error output then begins with: a few, for their time. `mtapi test` has one of each word.
FAULTY = [
    ("", USAGE), ("it", "mtapi: no word 'it'"), ("rnu", "mtapi: no word 'rnu': perhaps run\n" + USAGE),
    ("run --jurnal", "mtapi: no option '--jurnal': perhaps --journal\n"),
    ("gen 0", "mtapi: no number of tasks: 0: 1 to 19,000\n"), ("bounded", "usage: mtapi bounded [-v] FILE [LOOKS]\n"),
]
# A call: its name, the command line of a shell, and the status, the output and what the error output says.
TOLD = [
    ("help", "./mtapi --help", 0, USAGE, ""),
    ("-h", "./mtapi -h", 0, USAGE, ""),
    ("help on a word", "./mtapi run --help", 0, "./mtapi run [FILE]  ", ""),
    ("version", "./mtapi --version", 0, "mtapi ", ""),
    ("run, of no file", "./mtapi run nothing", 4, "", "mtapi: read fault: nothing: no such file\n"),
    ("picture, of no file", "./mtapi picture nothing", 4, "", "mtapi: read fault: nothing: no such file\n"),
    ("check, of no journal", f"./mtapi check {FIRST}", 3, "", f"mtapi: {FIRST}: no journal here: use run --journal\n"),
    ("trace, of no file", "./mtapi trace nothing", 4, "", "mtapi: read fault: nothing: no such file\n"),
    ("trace, of no journal", f"./mtapi trace <{FIRST}", 3, "", "mtapi: standard input: no journal here: use run --journal\n"),
    ("picture, of no journal", f"./mtapi picture <{FIRST}", 3, "", "mtapi: standard input: no journal here: use run --journal\n"),
    ("install, of nothing proved", "./mtapi install installed; status=$?; ! [ -e installed ] && exit $status", 1, "",
     "nothing was installed: mtapi_cli isn't proved"),
    ("new", "./mtapi new ../own own_node", 0, "../own: a repository with the program crates/own_node and the ", ""),
    ("new, of a folder in use", "./mtapi new ../own", 1, "", "mtapi: ../own isn't empty\n"),
    ("new, of a name in use", "./mtapi new ../other while", 1, "", "while can't be the name of the program"),
]
HANGS = "mutex m id=1\\nlock m timeout=inf\\nbegin\\ncaller c\\nmutex_get m id=1\\nlock m timeout=inf\\n"
CALLS = [
    ("a pipe that pauses", f"(head -n 1 {FIRST}; sleep 3; tail -n +2 {FIRST}) | ./mtapi run", 0, "main.t completed 6\n", ""),
    ("generated", "./mtapi gen 64 2", 0, "tasks 64 completed 64 cancelled 0 error 0 refused 0 sum ", ""),
    ("many generated", "./mtapi gen 19000", 0, "tasks 19000 completed 19000 cancelled 0 error 0 refused 0 sum 96938214\n", ""),
    ("no workload", "echo nothing | ./mtapi run", 3, "", "mtapi: line 1: "),
    ("no workload in a file", "./mtapi run README.md", 3, "", "mtapi: './mtapi explain README.md' tells every mistake\n"),
    ("empty input", "./mtapi run </dev/null", 0, "", ""),
    ("closed input", "./mtapi run <&-", 4, "", "mtapi: read fault"),
    ("a folder as input", "./mtapi run <docs", 4, "", "mtapi: read fault"),
    ("a full disk", f"./mtapi run <{FIRST} >/dev/full", 5, "", "mtapi: write fault"),
    ("a closed output", f"./mtapi run <{FIRST} >&-", 5, "", "mtapi: write fault"),
    ("a journal that is judged", f"cat {FIRST} journal | ./mtapi check", 0, "yes\n", ""),
    ("a journal of another run", f"(printf '{ACTION}'; cat journal) | ./mtapi check", 9, "no: not a run\n", ""),
    ("a file", f"./mtapi run {FIRST}", 0, "main.t completed 6\n", ""),
    ("a journal that is kept", f"./mtapi run --journal {FIRST} >kept; ./mtapi check {FIRST} kept", 0, "yes\n", ""),
    ("a journal in a pipe", f"./mtapi run --journal {FIRST} | ./mtapi check {FIRST} -", 0, "yes\n", ""),
    ("a picture", f"./mtapi picture {FIRST}", 0, "<svg ", ""),
    ("a picture of a pipe", "./mtapi picture <kept", 0, "<svg ", ""),
    ("a picture of what was kept", f"./mtapi picture {FIRST} kept", 0, "<svg ", ""),
    ("a trace", f"./mtapi trace {FIRST}", 0, '{"traceEvents":[', ""),
    ("a trace of a pipe", "./mtapi trace <kept", 0, '{"traceEvents":[', ""),
    ("a trace of what was kept", f"./mtapi trace {FIRST} kept", 0, '{"traceEvents":[', ""),
    ("explain", "./mtapi explain README.md", 3, "README.md:1:", ""),
    ("explain, of a pipe", "./mtapi explain <README.md", 3, "line 1, column ", ""),
    ("verify", f"./mtapi verify {FIRST}", 0, "main.t completed 6\nyes\n", ""),
    ("verify, of a pipe", f"./mtapi verify <(cat {FIRST})", 0, "main.t completed 6\nyes\n", ""),
    ("verify, of no workload", "./mtapi verify README.md", 3, "", "mtapi: line 1: "),
    ("verify, of no file", "./mtapi verify nothing", 4, "", "mtapi: read fault: nothing: no such file\n"),
    ("expect", f"./mtapi expect {FIRST} examples/first.report", 0, "", "mtapi: as expected\n"),
    ("expect another report", f"./mtapi expect {FIRST} /dev/null", 1, "--- /dev/null\n", ""),
    ("bounded", f"printf '{HANGS}' >hangs; ./mtapi bounded hangs 500", 1, "= main 2 1\n! c 6 MRAPI_TIMEOUT\n",
     "mtapi: line 6: lock of c ran out of its 500 looks; it waits for the mutex m of line 5 (mutex_get m id=1)"
     "; main has held it since line 2 (lock m timeout=inf)\n"),
    ("more output than is shown", "python3 bench/generated.py 19000 >many; ./mtapi run --journal <many", 126, "", "mtapi: no answer: "),
]
faults = []


def report(name, right, seconds, more=""):
    """Prints the line of a call, and keeps its name where it was wrong."""
    print(f"{'ok   ' if right else 'WRONG'} {name:28} {seconds:6.1f} s {more}", flush=True)
    if not right:
        faults.append(name)


def call(clone, name, line, status, output, errors, within=WITHIN):
    """Runs one call in the clone, and reports it."""
    begin = time.monotonic()
    done = subprocess.run(["bash", "-c", line], cwd=clone, capture_output=True, text=True, timeout=within)
    same = done.stdout.startswith(output) if output else done.stdout == ""
    right = done.returncode == status and same and errors in done.stderr
    report(name, right, time.monotonic() - begin, "" if right else f"{done.returncode} {done.stdout[:200]!r} {done.stderr!r}")
    return done


def told(clone):
    """Words that need no program: faulty ones at once."""
    for words, begins in FAULTY:
        begin = time.monotonic()
        done = subprocess.run(["./mtapi", *words.split()], cwd=clone, capture_output=True, text=True)
        seconds = time.monotonic() - begin
        right = done.returncode == 2 and done.stdout == "" and done.stderr.startswith(begins) and seconds <= MOST_WORDS
        report(f"words: {words}", right, seconds, "" if right else repr(done.stderr))
    for it in TOLD:
        call(clone, *it)


def processor_seconds():
    """What ended processes have taken so far."""
    taken = os.times()
    return taken.children_user + taken.children_system


def first_answer(clone):
    """The first call in a fresh clone, with what it takes; the compiler's processes are counted with it."""
    with open(f"{clone}/{FIRST}", "rb") as given, open(f"{clone}/examples/first.report", "rb") as wanted:
        before, begin = processor_seconds(), time.monotonic()
        done = subprocess.run(["./mtapi", "run"], cwd=clone, stdin=given, capture_output=True)
        clock, processors = time.monotonic() - begin, processor_seconds() - before
        right = done.returncode == 0 and done.stdout == wanted.read() and done.stderr.count(b"\n") == 1
    report("the first answer", right, clock, f"of the processors {processors:.1f} s")
    if processors > MOST_PROCESSORS or clock > MOST_CLOCK:
        report("its bounds", False, clock, f"{MOST_PROCESSORS} s of the processors, {MOST_CLOCK} s on the clock")


def processes_of(clone):
    """The processes that work in the clone."""
    found = []
    for pid in filter(str.isdigit, os.listdir("/proc")):
        try:
            if os.readlink(f"/proc/{pid}/cwd").startswith(clone):
                found.append(pid)
        except OSError:
            pass
    return found


def stopped(clone, words, after, signal_number, status):
    """Stops a call, so long after its begin; a terminal sends the signal to the whole group. Nothing may be left of it."""
    begin = time.monotonic()
    with open(f"{clone}/{FIRST}", "rb") as given:
        run = subprocess.Popen(["./mtapi", *words], cwd=clone, stdin=given, stderr=subprocess.PIPE, stdout=subprocess.PIPE,
                               start_new_session=True)
        time.sleep(after)
        (os.killpg if signal_number == signal.SIGINT else os.kill)(run.pid, signal_number)
        run.communicate(timeout=60)
    time.sleep(1)
    left = processes_of(clone)
    report(f"{' '.join(words)}, {signal_number.name}", run.returncode == status and not left, time.monotonic() - begin, f"left: {left}")


def from_a_terminal(clone):
    """A workload that is typed at a terminal."""
    begin = time.monotonic()
    outer, inner = pty.openpty()
    run = subprocess.Popen(["./mtapi", "run"], cwd=clone, stdin=inner, stdout=subprocess.PIPE, stderr=subprocess.PIPE)
    with open(f"{clone}/{FIRST}", "rb") as given:
        os.write(outer, given.read() + b"\x04")
    output, _ = run.communicate(timeout=WITHIN)
    report("a terminal", run.returncode == 0 and output == b"main.t completed 6\n", time.monotonic() - begin)


def two_at_once(clone):
    """Two calls side by side."""
    begin = time.monotonic()
    runs = [subprocess.Popen(["./mtapi", "gen", str(n)], cwd=clone, stdout=subprocess.PIPE, stderr=subprocess.PIPE) for n in (5, 6)]
    outputs = [it.communicate(timeout=WITHIN)[0] for it in runs]
    right = [it.startswith(b"tasks %d completed %d " % (n, n)) for it, n in zip(outputs, (5, 6))]
    report("two at once", all(right) and not any(it.returncode for it in runs), time.monotonic() - begin)


def unproved(clone):
    """Every call of the unproved program."""
    journal = call(clone, "a journal", f"./mtapi run --journal <{FIRST}", 0, "main.t completed 6\nmtapi-journal ", "")
    with open(f"{clone}/journal", "w") as kept:
        kept.write(journal.stdout.split("\n", 1)[-1])
    for it in CALLS:
        call(clone, *it)
    from_a_terminal(clone)
    two_at_once(clone)
    stopped(clone, ["run"], 10, signal.SIGINT, 130)
    stopped(clone, ["run"], 10, signal.SIGTERM, 143)


def tested(clone):
    """All tests, with what they take."""
    stopped(clone, ["test"], 20, signal.SIGINT, 130)
    before, begin = processor_seconds(), time.monotonic()
    done = subprocess.run(["./mtapi", "test"], cwd=clone, capture_output=True, text=True, timeout=PROVED_WITHIN)
    clock, processors = time.monotonic() - begin, processor_seconds() - before
    last = done.stdout.splitlines()[-1:] or [""]
    right = done.returncode == 0 and re.fullmatch(r"[1-9][0-9]* passed, 0 failed", last[0]) is not None
    report("test", right and clock <= MOST_TEST, clock, f"of the processors {processors:.1f} s: {last[0]}")


def proved(clone):
    """Proves, is stopped, goes on, answers; and answers unproved once a source has changed."""
    stopped(clone, ["prove"], 30, signal.SIGINT, 130)
    before = processor_seconds()
    call(clone, "prove", "./mtapi prove", 0, "", "proved and built", PROVED_WITHIN)
    report("what prove takes", True, 0.0, f"of the processors {processor_seconds() - before:.1f} s")
    call(clone, "prove again", "./mtapi prove", 0, "", "proved and built")
    answer = call(clone, "the proved program", f"./mtapi run <{FIRST}", 0, "main.t completed 6\n", "")
    report("nothing told of it", answer.stderr == "", 0.0)
    line = f"echo '// changed' >>crates/byte_io/src/lib.rt; ./mtapi run <{FIRST}"
    call(clone, "a changed source", line, 0, "main.t completed 6\n", "a source has changed")


def cloned(folder, name):
    """A fresh clone of what is committed."""
    clone = os.path.join(os.path.realpath(folder), name)
    subprocess.run(["git", "clone", "-q", TOP, clone], check=True)
    return clone


def gated(clone):
    """Runs the gate, and asks for a proof of what it proved."""
    call(clone, "the gate", ".ci/run >gate.log 2>&1", 0, "", "", PROVED_WITHIN)
    begin = time.monotonic()
    done = subprocess.run(["./mtapi", "prove", "--command"], cwd=clone, capture_output=True, text=True, timeout=WITHIN)
    seconds = time.monotonic() - begin
    report("prove after the gate", done.returncode == 0 and "proving" not in done.stderr and seconds < 10, seconds, done.stderr)
    call(clone, "the gate's program", f"./mtapi run <{FIRST}", 0, "main.t completed 6\n", "")


def main():
    words = set(sys.argv[1:])
    if words - {"all", "test", "prove", "gate"}:
        sys.exit(__doc__)
    with tempfile.TemporaryDirectory(prefix="first_answer-") as folder:
        clone = cloned(folder, "clone")
        told(clone)
        first_answer(clone)
        if "all" in words:
            unproved(clone)
        if "test" in words:
            tested(clone)
        if "prove" in words:
            proved(clone)
        if "gate" in words:
            gated(cloned(folder, "gated"))
    sys.exit(f"wrong: {', '.join(faults)}" if faults else 0)


main()
