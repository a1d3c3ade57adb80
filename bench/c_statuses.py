#!/usr/bin/env python3
"""Which statuses each function of `mtapi.h` and `mrapi.h` answers in the tests in C: `bench/c_statuses.py [--table]`.

Each test is linked with a layer between it and the library that notes what is answered. Prints each status that a function may
answer, by docs/calls.md and docs/c.md, and answers in no test, and each that it answers and may not; fails if there is one. With
`--table` also each function with what it answers and the tests that call it. Left out are the statuses that no test can reach:
ERR_SPENT, and want of memory for a thread's seat. Needs `cc` and the library for C (`./mtapi prove`); takes a minute.
"""

import collections
import glob
import os
import re
import subprocess
import sys
import tempfile

from c_slips import BETWEEN
from c_tasks import ARCHIVE
from common import TOP

FOLDER = os.path.join(TOP, "c")
ANY = {"SUCCESS", "NODE_NOTINIT", "CALLER_LIMIT"}  # of each call that reaches the node
STAND = {"SUCCESS", "NODE_NOTINIT"}
OWN = {"SUCCESS", "PARAMETER"}
NUMBERED = {"ATTR_NUM", "ATTR_SIZE", "PARAMETER"}
STOPPED = ANY | {"PARAMETER", "TIMEOUT"}
WAITED = STOPPED | {"DEADLOCK"}
STARTED = ANY | {"PARAMETER", "JOB_INVALID", "GROUP_INVALID", "ACTION_DISABLED", "NO_CORE", "TASK_LIMIT"}
ENDED = {"TASK_CANCELLED", "ACTION_DELETED", "ACTION_DISABLED", "QUEUE_DELETED"}
LEFT_OUT = {"FUNC_NOT_IMPLEMENTED"}
CONTEXT = {"SUCCESS", "CONTEXT_INVALID", "CONTEXT_OUTOFCONTEXT"}

# What each function may answer, beside what an action sets.
MTAPI = {
    "nodeattr_init": OWN, "actionattr_init": OWN, "taskattr_init": OWN, "queueattr_init": OWN, "groupattr_init": OWN,
    "nodeattr_set": {"SUCCESS", "FUNC_NOT_IMPLEMENTED"} | NUMBERED,
    "actionattr_set": {"SUCCESS", "ATTR_READONLY"} | NUMBERED,
    "taskattr_set": {"SUCCESS", "FUNC_NOT_IMPLEMENTED"} | NUMBERED,
    "queueattr_set": {"SUCCESS", "ATTR_READONLY"} | NUMBERED,
    "groupattr_set": LEFT_OUT, "group_set_attribute": LEFT_OUT, "group_get_attribute": LEFT_OUT,
    "action_set_attribute": LEFT_OUT, "queue_set_attribute": LEFT_OUT, "context_runtime_notify": LEFT_OUT,
    "node_get_attribute": ANY | NUMBERED | LEFT_OUT,
    "action_get_attribute": ANY | NUMBERED | {"ACTION_INVALID"},
    "task_get_attribute": ANY | NUMBERED | LEFT_OUT | {"TASK_INVALID"},
    "queue_get_attribute": ANY | NUMBERED | {"QUEUE_INVALID"},
    "initialize": {"SUCCESS", "PARAMETER", "NODE_INITIALIZED", "NODE_INITFAILED", "MEMORY"},
    "finalize": STAND | {"DEADLOCK"}, "ext_finalize": STAND | {"DEADLOCK", "JOURNAL"},
    "domain_id_get": ANY, "node_id_get": ANY,
    "action_create": ANY | {"PARAMETER", "JOB_INVALID", "ACTION_LIMIT"},
    "action_delete": STOPPED | {"ACTION_INVALID"}, "action_disable": STOPPED | {"ACTION_INVALID"},
    "action_enable": ANY | {"ACTION_INVALID"}, "job_get": ANY | {"JOB_INVALID", "DOMAIN_NOTSHARED"},
    "context_status_set": CONTEXT | {"PARAMETER"}, "context_taskstate_get": CONTEXT, "context_instnum_get": CONTEXT,
    "context_numinst_get": CONTEXT, "context_corenum_get": CONTEXT,
    "task_start": STARTED, "task_enqueue": STARTED | {"QUEUE_INVALID", "QUEUE_DISABLED", "QUEUE_LIMIT"},
    "task_cancel": ANY | {"TASK_INVALID"},
    "task_wait": WAITED | ENDED | {"TASK_INVALID", "WAIT_PENDING"},
    "group_create": ANY | {"GROUP_LIMIT"}, "group_delete": ANY | {"GROUP_INVALID"},
    "group_wait_all": WAITED | ENDED | {"GROUP_INVALID"},
    "group_wait_any": WAITED | ENDED | {"GROUP_INVALID", "GROUP_COMPLETED"},
    "queue_create": ANY | {"PARAMETER", "JOB_INVALID", "QUEUE_EXISTS", "QUEUE_LIMIT"},
    "queue_get": ANY | {"QUEUE_INVALID", "DOMAIN_NOTSHARED"}, "queue_enable": ANY | {"QUEUE_INVALID"},
    "queue_delete": STOPPED | {"QUEUE_INVALID"}, "queue_disable": STOPPED | {"QUEUE_INVALID"},
    "affinity_init": OWN, "affinity_set": OWN | {"CORE_NUM"}, "affinity_get": OWN | {"CORE_NUM"},
}
LOCKED = ANY | {"PARAMETER", "TIMEOUT"}
MRAPI = {
    "initialize": {"SUCCESS", "NODE_INITIALIZED", "NODE_INITFAILED", "MEMORY"},
    "finalize": STAND | {"DEADLOCK"}, "domain_id_get": ANY, "node_id_get": ANY,
    "shmem_attach": ANY | {"PARAMETER", "SHM_INVALID", "SHM_ATTACHED", "MEMORY"},
    "ext_shmem_attach": ANY | {"PARAMETER", "SHM_INVALID", "SHM_ATTACHED"},
    "shmem_detach": ANY | {"PARAMETER", "SHM_INVALID", "SHM_NOTATTACHED"},
    "ext_shmem_read": ANY | {"PARAMETER", "SHM_INVALID", "SHM_NOTATTACHED"},
    "ext_shmem_write": ANY | {"PARAMETER", "SHM_INVALID", "SHM_NOTATTACHED"},
}
for name, kind in (("mutex", "MUTEX"), ("sem", "SEM"), ("rwl", "RWL"), ("shmem", "SHM")):
    fixed = {"ATTR_NUM", "ATTR_READONLY"}
    MRAPI[name + "_init_attributes"] = OWN
    MRAPI[name + "_set_attribute"] = fixed | ({"SUCCESS", "ATTR_SIZE", "PARAMETER"} if name == "mutex" else set())
    MRAPI[name + "_get_attribute"] = ANY | NUMBERED | {kind + "_INVALID"}
    MRAPI[name + "_create"] = ANY | {"PARAMETER", kind + "_EXISTS", kind + "_LIMIT"}
    MRAPI[name + "_get"] = ANY | {"PARAMETER", kind + "_ID_INVALID"}
    MRAPI[name + "_delete"] = ANY | {"PARAMETER", kind + "_INVALID", "SHM_ATTACHED" if name == "shmem" else kind + "_LOCKED"}
    if name != "shmem":
        again = set() if name == "sem" else {kind + "_LOCKED"}
        MRAPI[name + "_lock"] = LOCKED | {kind + "_INVALID", "DEADLOCK"} | again
        MRAPI[name + "_trylock"] = LOCKED | {kind + "_INVALID"} | again
        MRAPI[name + "_unlock"] = ANY | {"PARAMETER", kind + "_INVALID", kind + "_NOTLOCKED"}
MRAPI["mutex_unlock"] |= {"MUTEX_KEY", "MUTEX_LOCKORDER"}
# What the profile leaves out of MRAPI.
IS_LEFT_OUT = re.compile(r"rmem_|resource|dynamic_|node_\w+_attribute|(test|wait|wait_any|cancel)$")


def declared():
    """The functions of the headers that tell a status, each with the type of its result and its parameters."""
    found = {}
    for header in ("mtapi.h", "mrapi.h"):
        with open(os.path.join(FOLDER, header)) as file:
            text = re.sub(r"/\*.*?\*/", "", file.read(), flags=re.S)
        for result, name, parameters in re.findall(r"(?m)^([a-z][\w *]*?)\b(m[tr]api_\w+)\(([^;{]*?)\);", text):
            if re.search(r"_status_t \*status$", parameters.strip()):
                found[name] = (result.strip(), " ".join(parameters.split()))
    return found


def layer(functions):
    """The text of the layer."""
    lines = ["#define _GNU_SOURCE", '#include "mtapi.h"', '#include "mrapi.h"', "#include <pthread.h>", "#include <stdlib.h>",
        "static pthread_mutex_t one = PTHREAD_MUTEX_INITIALIZER;", "static FILE *told;",
        "static void note(const char *name, unsigned status)", "{", "    pthread_mutex_lock(&one);",
        '    if (!told) told = fopen(getenv("TOLD"), "a");', '    fprintf(told, "%s %u\\n", name, status);', "    fflush(told);",
        "    pthread_mutex_unlock(&one);", "}"]
    for name, (result, parameters) in functions.items():
        passed = ", ".join(re.findall(r"(\w+)(?=,|$)", parameters))
        lines += [f"{result} __real_{name}({parameters});", f"{result} __wrap_{name}({parameters});",
            f"{result} __wrap_{name}({parameters})", "{", f"    uint32_t *out = status, code; status = &code;",
            f"    {'' if result == 'void' else result + ' given = '}__real_{name}({passed});", f'    note("{name}", code);',
            "    if (out) *out = code;", *([] if result == "void" else ["    return given;"]), "}"]
    return "\n".join(lines) + "\n"


def names():
    """The statuses of each interface by number, without the front of their names."""
    found = {"mtapi": {}, "mrapi": {}}
    for each in found:
        with open(os.path.join(FOLDER, each + ".h")) as file:
            for name, number in re.findall(r"^    M[TR]API_(\w+) = (\d+)", file.read().split("char *m")[0], flags=re.M):
                found[each].setdefault(int(number), re.sub(r"^(EXT_)?ERR_", "", name))
    return found


def run(room, functions):
    """What each function answers in each test."""
    seen = collections.defaultdict(lambda: collections.defaultdict(set))
    with open(os.path.join(room, "layer.c"), "w") as file:
        file.write(layer(functions))
    subprocess.run([os.path.join(FOLDER, "build"), ARCHIVE, room], check=True)
    subprocess.run(["cc", "-std=c11", "-I", FOLDER, "-c", "layer.c", "-o", "layer.o"], cwd=room, check=True)
    for source in sorted(glob.glob(os.path.join(FOLDER, "tests", "*.c"))):
        test = os.path.basename(source)[:-2]
        words = [f"-Wl,--wrap={each}" for each in (*functions, *BETWEEN.get(test, ()))]
        command = ["cc", "-std=c11", "-O1", *words, source, "layer.o", "libmtapi.a", "-pthread", "-o", test]
        subprocess.run(command, cwd=room, check=True)
        told = os.path.join(room, test + ".told")
        subprocess.run([os.path.join(room, test)], env={**os.environ, "TOLD": told}, check=True, stdout=subprocess.DEVNULL)
        with open(told) as file:
            for line in set(file):
                name, number = line.split()
                seen[name][int(number)].add(test)
    return seen


def main():
    functions, known, faults = declared(), names(), 0
    with tempfile.TemporaryDirectory() as room:
        seen = run(room, functions)
    for name in functions:
        front, rest = name.split("_", 1)
        left_out = front == "mrapi" and IS_LEFT_OUT.match(rest)
        may = {"NOT_SUPPORTED"} if left_out else (MTAPI if front == "mtapi" else MRAPI).get(rest)
        answered = {known[front].get(number, str(number)): tests for number, tests in seen[name].items()}
        if may is None:
            faults += 1
            print(f"{name}: not in the table of this script")
            continue
        set_by_actions = {"UNKNOWN", "RESULT_SIZE", "ARG_SIZE", "ACTION_FAILED", "ACTION_CANCELLED"} | {each for each in answered if each.isdigit()}
        waits = rest in ("task_wait", "group_wait_all", "group_wait_any")
        for each in sorted(may - set(answered)):
            faults += 1
            print(f"{name}: {each} in no test")
        for each in sorted(set(answered) - may - (set_by_actions if waits else set())):
            faults += 1
            print(f"{name}: answers {each} ({', '.join(sorted(answered[each]))})")
        if sys.argv[1:] == ["--table"]:
            tests = sorted(set().union(*answered.values()))
            print(f"{name} | {' '.join(sorted(answered))} | {' '.join(tests)}")
    sys.exit(1 if faults else 0)


if __name__ == "__main__":
    main()
