"""The text of a journal, read and written in the plainest way, by `docs/journal-text.md`. A part of `reference.py`."""

import math
import re
from types import SimpleNamespace

MTAPI = """SUCCESS TIMEOUT GROUP_COMPLETED ERR_PARAMETER ERR_NODE_INITIALIZED ERR_NODE_NOTINIT ERR_ACTION_INVALID ERR_ACTION_LIMIT
ERR_ACTION_FAILED ERR_ACTION_DELETED ERR_ACTION_DISABLED ERR_ARG_SIZE ERR_JOB_INVALID ERR_NO_CORE ERR_TASK_INVALID ERR_TASK_LIMIT
ERR_TASK_CANCELLED ERR_GROUP_INVALID ERR_GROUP_LIMIT ERR_QUEUE_INVALID ERR_QUEUE_LIMIT ERR_QUEUE_DELETED ERR_QUEUE_DISABLED
ERR_QUEUE_EXISTS ERR_WAIT_PENDING ERR_ATTR_NUM ERR_ATTR_READONLY ERR_CORE_NUM ERR_SPENT""".split()
MRAPI = """SUCCESS TIMEOUT ERR_PARAMETER ERR_NODE_NOTINIT ERR_MUTEX_INVALID ERR_MUTEX_ID_INVALID ERR_MUTEX_EXISTS ERR_MUTEX_LIMIT
ERR_MUTEX_LOCKED ERR_MUTEX_NOTLOCKED ERR_MUTEX_KEY ERR_MUTEX_LOCKORDER ERR_SEM_INVALID ERR_SEM_ID_INVALID ERR_SEM_EXISTS ERR_SEM_LOCKED
ERR_SEM_NOTLOCKED ERR_RWL_INVALID ERR_RWL_ID_INVALID ERR_RWL_EXISTS ERR_RWL_LIMIT ERR_RWL_LOCKED ERR_RWL_NOTLOCKED ERR_SHM_INVALID
ERR_SHM_ID_INVALID ERR_SHM_EXISTS ERR_SHM_LIMIT ERR_SHM_ATTACHED ERR_SHM_NOTATTACHED ERR_SPENT ERR_SEM_LIMIT""".split()
MTAPI = ["MTAPI_" + name for name in MTAPI]
MRAPI = ["MRAPI_" + name for name in MRAPI]

PURE = ["add", "mul", "max", "div", "gcd", "echo", "triangle", "fail"]
KINDS = PURE + ["watch", "tally"]

# The kinds of objects, each by its number less one, and the letter of its handles in text 2.
OBJECTS = ["action", "task", "group", "queue", "mutex", "sem", "rwl", "shmem"]
LETTERS = "atgqmsrh"

# The head line's keys, each with its last value. All begin at 1.
SETTINGS = {
    "workers": 16, "callers": 9, "tasks": 65_536, "actions": 1024, "groups": 1024, "queues": 256, "objects": 256, "priorities": 8,
    "generations": 4_294_967_295,
}  # fmt: skip
DEFAULTS = {
    "workers": 1, "callers": 1, "tasks": 1024, "actions": 64, "groups": 128, "queues": 16, "objects": 16, "priorities": 4,
    "generations": 4_294_967_295,
}  # fmt: skip

# The fields of each op: n a number, i a whole number, c a mask of cores, b 1 or 0, k a kind, l a list, h a handle, o a
# handle or none, e an end. A + marks those that only an open node takes.
OPS = {
    "initialize": "", "release": "+", "enter": "", "close": "", "final": "", "job_get": "n",
    "action_create": "nkc+", "action_delete": "h+", "action_disable": "h+", "action_enable": "h+",
    "task_start": "nlncbo+", "task_enqueue": "hlcbo+", "task_look": "hb", "task_cancel": "h",
    "group_create": "+", "group_delete": "h+", "all_look": "hb", "any_look": "hb",
    "queue_create": "nnnnbb+", "queue_get": "n", "queue_enable": "h+", "queue_disable": "h+", "queue_delete": "h+",
    "pick": "", "finish": "hkle", "asked": "h", "watch_end": "h",
    "tally_lock": "h", "tally_read": "h", "tally_write": "hi", "tally_end": "h",
    "mutex_create": "nb+", "mutex_get": "n", "mutex_delete": "h+", "mutex_look": "hb", "mutex_unlock": "hn",
    "sem_create": "nn+", "sem_get": "n", "sem_delete": "h+", "sem_look": "hb", "sem_unlock": "h",
    "rwl_create": "nn+", "rwl_get": "n", "rwl_delete": "h+", "rwl_look": "hbb", "rwl_unlock": "hb",
    "shmem_create": "nn+", "shmem_get": "n", "shmem_delete": "h+", "shmem_attach": "h", "shmem_detach": "h",
    "shmem_read": "hn", "shmem_write": "hni",
}  # fmt: skip
REPLIES = {
    "ok": "", "pending": "", "idle": "", "stop": "", "handle": "h", "number": "i", "ended": "e", "given": "he", "picked": "hhkl",
    "asked": "b", "status": "s",
}  # fmt: skip


def in_words(value):
    """A whole number's range: 64 bits with a sign."""
    return -(2**63) <= value < 2**63


def answer_of(kind, args):
    """The end of a task of this pure kind on these arguments."""
    failed = ("error", "MTAPI_ERR_ACTION_FAILED")
    least, most = {"max": (1, 16), "div": (2, 2), "gcd": (2, 2), "triangle": (1, 1)}.get(kind, (0, 16))
    if not least <= len(args) <= most:
        return ("error", "MTAPI_ERR_ARG_SIZE")
    if kind == "echo":
        return ("completed", args)
    if kind in ("add", "mul"):
        value = 0 if kind == "add" else 1
        for number in args:
            value = value + number if kind == "add" else value * number
            if not in_words(value):
                return failed
    elif kind == "max":
        value = max(args)
    elif kind == "div":
        if args[1] == 0:
            return failed
        value = abs(args[0]) // abs(args[1])
        value = value if (args[0] < 0) == (args[1] < 0) else -value
    elif kind == "gcd":
        value = math.gcd(*args)
    elif kind == "triangle":
        if not 0 <= args[0] <= 1_000_000:
            return failed
        value = args[0] * (args[0] + 1) // 2
    else:
        return failed
    return ("completed", (value,)) if in_words(value) else failed


class BadLine(Exception):
    """A line outside the grammar."""


def number(word, least, most):
    """The number that this word spells."""
    if not re.fullmatch("0|-?[1-9][0-9]*", word):
        raise BadLine
    value = int(word)
    if not least <= value <= most:
        raise BadLine
    return value


def read_handle(word, text):
    """The handle that this word spells."""
    named = re.fullmatch(r"([atgqmsrh])([0-9]+)\.([0-9]+)", word)
    if text == 2 and named:
        generation, slot = number(named[2], 1, 2**32 - 1), number(named[3], 0, 2**24 - 1)
        return generation * 2**32 + (LETTERS.index(named[1]) + 1) * 2**24 + slot
    value = number(word, 0, 2**64 - 1)
    if write_handle(value, text) != word:
        raise BadLine
    return value


def write_handle(handle, text):
    """How a journal spells this handle."""
    generation, kind, slot = handle >> 32, handle >> 24 & 255, handle & 2**24 - 1
    if text == 2 and generation >= 1 and 1 <= kind <= 8:
        return f"{LETTERS[kind - 1]}{generation}.{slot}"
    return str(handle)


def read_list(word):
    """The list that this word spells."""
    if word == "-":
        return ()
    words = word.split(",")
    if len(words) > 16:
        raise BadLine
    return tuple(number(one, -(2**63), 2**63 - 1) for one in words)


def write_list(numbers):
    return ",".join(str(one) for one in numbers) or "-"


def read_field(form, words, text):
    """The field of this form that the next words spell; takes them out of the list."""
    if not words:
        raise BadLine
    word = words.pop(0)
    if form == "n":
        return number(word, 0, 2**32 - 1)
    if form == "i":
        return number(word, -(2**63), 2**63 - 1)
    if form == "c":
        return number(word, 0, 2**64 - 1)
    if form == "b":
        return number(word, 0, 1)
    if form == "l":
        return read_list(word)
    if form == "h":
        return read_handle(word, text)
    if form == "o":
        return None if word == "-" else read_handle(word, text)
    if form == "k" and word in KINDS and (word != "tally" or text == 2):
        return word
    if form == "s" and (word in MTAPI or word in MRAPI):
        return word
    if form == "e" and word == "cancelled":
        return (word,)
    if form == "e" and word == "completed" and words:
        return (word, read_list(words.pop(0)))
    if form == "e" and word == "error" and words and words[0] in MTAPI:
        return (word, words.pop(0))
    raise BadLine


def write_field(form, value, text):
    if form in "h" or form == "o" and value is not None:
        return write_handle(value, text)
    if form == "o":
        return "-"
    if form == "l":
        return write_list(value)
    if form == "e":
        return " ".join(write_list(part) if isinstance(part, tuple) else part for part in value)
    return str(value)


def read_entry(line, text, settings):
    """The entry that this line of a journal spells: seat, op with its fields, reply, and the number beside it."""
    words = line.split(" ")
    seat = re.fullmatch("([wc])([0-9]+)", words.pop(0))
    if not seat or not words:
        raise BadLine
    workers = settings["workers"]
    who = number(seat[2], 0, (workers if seat[1] == "w" else settings["callers"]) - 1)
    who += workers if seat[1] == "c" else 0
    word = words.pop(0)
    if word not in OPS or text == 1 and word.startswith("tally_"):
        raise BadLine
    fields = tuple(read_field(form, words, text) for form in OPS[word].rstrip("+"))
    if word == "finish" and (fields[1] not in PURE or fields[3] != answer_of(fields[1], fields[2])):
        raise BadLine
    if not words or words.pop(0) != "->" or not words or words[0] not in REPLIES:
        raise BadLine
    reply = words.pop(0)
    reply = (reply,) + tuple(read_field(form, words, text) for form in REPLIES[reply])
    beside = 0
    if words:
        if words.pop(0) != "after" or len(words) != 1:
            raise BadLine
        beside = number(words.pop(0), 1, 2**64 - 1)
    return SimpleNamespace(who=who, op=word, fields=fields, reply=reply, beside=beside)


def write_entry(entry, text, settings):
    """The line of an entry."""
    workers = settings["workers"]
    words = [f"w{entry.who}" if entry.who < workers else f"c{entry.who - workers}", entry.op]
    words += [write_field(form, value, text) for form, value in zip(OPS[entry.op].rstrip("+"), entry.fields)]
    words += ["->", entry.reply[0]]
    words += [write_field(form, value, text) for form, value in zip(REPLIES[entry.reply[0]], entry.reply[1:])]
    if entry.beside:
        words += ["after", str(entry.beside)]
    return " ".join(words)


def read_head(line):
    """The text and the settings of a head line."""
    words = line.split(" ")
    if len(words) != 2 + len(SETTINGS) or words[0] != "mtapi-journal" or words[1] not in ("1", "2"):
        raise BadLine
    settings = {}
    for word, (key, most) in zip(words[2:], SETTINGS.items()):
        if not word.startswith(key + "="):
            raise BadLine
        settings[key] = number(word[len(key) + 1 :], 1, most)
    return int(words[1]), settings


def write_head(text, settings):
    """The head line of these settings."""
    return f"mtapi-journal {text} " + " ".join(f"{key}={settings[key]}" for key in SETTINGS)


def read_journal(text):
    """The journal that this text is, or the message of the command that refuses it."""
    lines = text.split("\n")
    cut = lines.pop()
    journal = SimpleNamespace(text=0, settings=None, entries=[])
    if not text:
        return "mtapi: journal line 1"
    for place, line in enumerate(lines, 1):
        try:
            if place == 1:
                journal.text, journal.settings = read_head(line)
            else:
                journal.entries.append(read_entry(line, journal.text, journal.settings))
        except BadLine:
            return f"mtapi: journal line {place}"
    return "mtapi: journal cut short" if cut else journal
