"""A judge of journals of its own: `verdict` answers what `mtapi check` has to write of an input.

Written in the plainest way from what the runtime is required to do, and without a look at its definitions
(`crates/*/specs`) or its code, so that it shares nothing with the command that it judges. The text of a journal stands
in `reference_text.py`, the machine of one thread in `reference_machine.py`; here are workloads, and what a run of one
leaves. A workload is read as one that has no faults.
"""

from types import SimpleNamespace

from reference_machine import WORK, legal
from reference_text import DEFAULTS, read_journal

# Each statement: the op that it asks for, and the op's fields, in order. `NAME` is the object of the name behind the
# statement's word, `last` is that of a look, and every other word is an option.
STATEMENTS = {
    "begin": "release",
    "action": "action_create job kind cores",
    "action_delete": "action_delete NAME",
    "action_enable": "action_enable NAME",
    "action_disable": "action_disable NAME",
    "start": "task_start job args priority cores detached group",
    "enqueue": "task_enqueue queue args cores detached group",
    "wait": "task_look NAME last",
    "cancel": "task_cancel NAME",
    "group": "group_create",
    "wait_all": "all_look NAME last",
    "wait_any": "any_look NAME last",
    "group_delete": "group_delete NAME",
    "queue": "queue_create id job priority limit ordered retain",
    "queue_get": "queue_get id",
    "queue_enable": "queue_enable NAME",
    "queue_disable": "queue_disable NAME",
    "queue_delete": "queue_delete NAME",
    "mutex": "mutex_create id recursive",
    "mutex_get": "mutex_get id",
    "mutex_delete": "mutex_delete NAME",
    "lock": "mutex_look NAME last",
    "unlock": "mutex_unlock NAME key",
    "sem": "sem_create id limit",
    "sem_get": "sem_get id",
    "sem_delete": "sem_delete NAME",
    "sem_lock": "sem_look NAME last",
    "sem_unlock": "sem_unlock NAME",
    "rwl": "rwl_create id limit",
    "rwl_get": "rwl_get id",
    "rwl_delete": "rwl_delete NAME",
    "rwl_lock": "rwl_look NAME mode last",
    "rwl_unlock": "rwl_unlock NAME mode",
    "shmem": "shmem_create id cells",
    "shmem_get": "shmem_get id",
    "shmem_delete": "shmem_delete NAME",
    "attach": "shmem_attach NAME",
    "detach": "shmem_detach NAME",
    "read": "shmem_read NAME cell",
    "write": "shmem_write NAME cell value",
}
ABSENT = {
    "args": "", "priority": "0", "cores": "all", "detached": "no", "group": None, "limit": "65536", "ordered": "no", "retain": "no",
    "recursive": "no",
}  # fmt: skip
FLAGS = {"no": 0, "yes": 1, "reader": 0, "writer": 1}
NODE_KEYS = {f"max_{kind}": kind for kind in ("tasks", "actions", "groups", "queues", "objects")}


def read_workload(text):
    """The settings and the parts of a workload without faults; a part is a list of statements: word, name, and options
    by key."""
    settings, parts = dict(DEFAULTS), [[]]
    for line in text.split("\n"):
        words = line.split()
        if not words or words[0].startswith("#"):
            continue
        if words[0] == "node":
            for word in words[1:]:
                key, value = word.split("=", 1)
                settings[NODE_KEYS.get(key, key)] = int(value)
        elif words[0] == "caller":
            parts.append([])
        else:
            name = words[1] if words[0] != "begin" else None
            options = dict(word.split("=", 1) for word in words[2:])
            parts[-1].append(SimpleNamespace(word=words[0], name=name, options=options))
    settings["callers"] = len(parts)
    return settings, parts


def field_of(key, value, names):
    """The field of an op that an option gives."""
    if key in ("group", "queue"):
        return None if value is None else names[value]
    if key == "cores":
        return 2**64 - 1 if value == "all" else sum(2 ** int(core) for core in value.split(","))
    if key == "args":
        return tuple(int(one) for one in value.split(",")) if value else ()
    if key == "kind":
        return value
    return FLAGS[value] if value in FLAGS else int(value)


def fields_of(statement, names, last):
    """The fields of the op that a statement asks for; names stand for their handles."""
    fields = []
    for key in STATEMENTS[statement.word].split()[1:]:
        if key == "NAME":
            fields.append(names[statement.name])
        elif key == "last":
            fields.append(last)
        else:
            fields.append(field_of(key, statement.options.get(key, ABSENT.get(key)), names))
    return tuple(fields)


def most_looks(timeout):
    """How often a statement may look, or None."""
    return {"nowait": 1, "inf": None}[timeout] if timeout in ("nowait", "inf") else 1 + int(timeout)


def took(entries, statement, names):
    """Takes the entries of a statement out of the front of a seat's list. Whether they stand there."""
    op = STATEMENTS[statement.word].split()[0]
    timeout = statement.options.get("timeout")
    if not entries:
        return False
    if timeout is None:
        entry = entries.pop(0)
        right = (entry.op, entry.fields, entry.beside) == (op, fields_of(statement, names, 0), 0)
    else:
        looks = 0
        if statement.word == "wait" and entries[0].reply == ("pending",):
            first = entries.pop(0)
            if (first.op, first.fields) != (op, fields_of(statement, names, 0)) or not entries:
                return False
            looks = 1 + first.beside
        entry = entries.pop(0)
        looks += 1 + entry.beside
        most = most_looks(timeout)
        last = 1 if looks == most else 0
        right = (entry.op, entry.fields) == (op, fields_of(statement, names, last)) and entry.reply != ("pending",)
        right = right and (most is None or looks <= most)
    if statement.word == "begin":
        right = right and entry.reply == ("ok",)
    if statement.name not in names:
        names[statement.name] = entry.reply[1] if entry.reply[0] == "handle" else 0
    return right


def took_plain(entries, op, any_number=False):
    """The same of an op without fields that the run makes by itself, and that has to be Ok."""
    if not entries:
        return False
    entry = entries.pop(0)
    return (entry.op, entry.reply) == (op, ("ok",)) and (any_number or entry.beside == 0)


def is_part(entries, part, main):
    """Whether these are the entries of a caller's part."""
    names = {}
    if main:
        released = any(statement.word == "begin" for statement in part)
        if not took_plain(entries, "initialize") or not released and not took_plain(entries, "release"):
            return False
    elif not took_plain(entries, "enter", any_number=True):
        return False
    if not all(took(entries, statement, names) for statement in part):
        return False
    if main and not (took_plain(entries, "close") and took_plain(entries, "final")):
        return False
    return not entries


def is_worker(entries):
    """Whether these are the entries of a worker: any of its ops, with any answer but a status, up to its one stop."""
    if any(entry.op not in WORK or entry.reply[0] == "status" for entry in entries):
        return False
    stops = [place for place, entry in enumerate(entries) if entry.reply == ("stop",)]
    return stops == [len(entries) - 1]


def is_run(settings, parts, entries):
    """Whether these entries are a run of the workload. They have to be legal."""
    workers = settings["workers"]
    of_seat = [[entry for entry in entries if entry.who == who] for who in range(workers + len(parts))]
    if not all(is_worker(of_seat[who]) for who in range(workers)):
        return False
    if not all(is_part(list(of_seat[workers + place]), part, place == 0) for place, part in enumerate(parts)):
        return False
    # Main's last two entries are its close and its final.
    closes = next(place for place, entry in enumerate(entries) if entry.op == "close" and entry.who == workers)
    if any(entry.who > workers for entry in entries[closes:]):
        return False
    return (entries[-1].who, entries[-1].op) == (workers, "final")


def verdict(workload, text):
    """What the command says of this journal behind this workload."""
    journal = read_journal(text)
    if isinstance(journal, str):
        return journal
    place = legal(journal.text, journal.settings, journal.entries)
    if place:
        return f"no: illegal entry {place}"
    settings, parts = read_workload(workload)
    if settings != journal.settings or not is_run(settings, parts, journal.entries):
        return "no: not a run"
    return "yes"
