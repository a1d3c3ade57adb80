"""What the scripts of this folder share: the built command, a program of a script's own, and what a run of one costs."""

import os
import shutil
import subprocess
import sys

TOP = os.path.dirname(os.path.dirname(os.path.abspath(__file__)))
COMMAND = os.path.join(TOP, "crates", "mtapi_cli", "out", "mtapi_cli")

# A function of the programs that are told by a number of words what to do; they use `std::env`.
WORDS = r"""
/// So many words, 100 at most.
fn words(rt: &HostRuntime) -> u64 {
    let mut count = 0;
    if let Ok(all) = env::args(rt) {
        for _word in all.skip(1) {
            if count < 100 {
                count += 1;
            }
        }
    }
    count
}
"""


def need_command():
    """Ends the script where the command hasn't been built."""
    if not os.access(COMMAND, os.X_OK):
        sys.exit("build the command first: ./mtapi prove")


def with_crate(folder, name, libraries, files):
    """Makes a copy of the repository in this folder, with a further crate of these files over these libraries. The
    crate's folder.

    A file without a folder stands in `src`."""
    shutil.copytree(os.path.join(TOP, "crates"), os.path.join(folder, "crates"), ignore=shutil.ignore_patterns("out", "must-fail"))
    shutil.copy(os.path.join(TOP, "HANDLES"), folder)
    with open(os.path.join(TOP, "crates.txt")) as old, open(os.path.join(folder, "crates.txt"), "w") as new:
        new.write(old.read() + f"{name}: {libraries}\n")
    crate = os.path.join(folder, "crates", name)
    os.makedirs(os.path.join(crate, "src"))
    for file, text in files.items():
        path = os.path.join(crate, file if "/" in file else os.path.join("src", file))
        os.makedirs(os.path.dirname(path), exist_ok=True)
        with open(path, "w") as target:
            target.write(text.lstrip("\n"))
    subprocess.run(["git", "init", "-q", folder], check=True)
    return crate


def built(folder, name, libraries, files):
    """The program of such a crate, proved and built over what checks kept on this machine."""
    crate = with_crate(folder, name, libraries, files)
    done = subprocess.run(["rt", "run"], cwd=crate, stdin=subprocess.DEVNULL, capture_output=True, text=True)
    program = os.path.join(crate, "out", name)
    if not os.path.exists(program):
        sys.exit(done.stdout + done.stderr)
    return program


def cost(command, stdin=None, stdout=subprocess.DEVNULL):
    """The processor seconds of one run, and the kilobytes that it held at most. It has to end with the status 0."""
    child = subprocess.Popen(command, stdin=stdin, stdout=stdout)
    _, status, usage = os.wait4(child.pid, 0)
    child.returncode = os.waitstatus_to_exitcode(status)
    if child.returncode:
        sys.exit(f"status {child.returncode} of {command}")
    return usage.ru_utime + usage.ru_stime, usage.ru_maxrss


def go_first():
    """Puts this process, and those that it starts, before all others (`SCHED_RR`). Whether that is allowed."""
    try:
        os.sched_setscheduler(0, os.SCHED_RR, os.sched_param(1))
        return True
    except OSError:
        return False
