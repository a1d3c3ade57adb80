"""Histories for `judging.py`: walks of the reference machine through all ops and most refusals, some others, and wrong
replies in them."""

from types import SimpleNamespace

from reference_machine import Machine
from reference_text import KINDS, MRAPI, MTAPI, OBJECTS, OPS, PURE, answer_of, read_journal, write_entry, write_head

WALKS = 600
STEPS = 70  # of a walk
WRONG = 6  # changed replies of a walk

# Histories of what a walk seldom meets; ALL is the mask of every core.
HISTORIES = [
    """mtapi-journal 2 workers=2 callers=2 tasks=3 actions=1 groups=1 queues=1 objects=1 priorities=2 generations=1
c0 initialize -> ok
c0 action_create 1 watch ALL -> handle a1.0
c0 task_start 1 5 0 ALL 0 - -> handle t1.0
w0 pick -> picked t1.0 a1.0 watch 5
w0 watch_end t1.0 -> status MTAPI_ERR_PARAMETER
w0 asked t1.0 -> asked 0
w1 asked t1.0 -> status MTAPI_ERR_TASK_INVALID
c0 task_cancel t1.0 -> ok
w0 asked t1.0 -> asked 1
w0 asked t1.0 -> status MTAPI_ERR_PARAMETER
c0 task_look t1.0 0 -> pending
c1 task_look t1.0 0 -> status MTAPI_ERR_WAIT_PENDING
w0 watch_end t1.0 -> ended cancelled
c1 task_look t1.0 0 -> status MTAPI_ERR_WAIT_PENDING
c0 task_look t1.0 1 -> ended cancelled
c0 task_start 1 0 1 ALL 0 - -> handle t1.1
c0 task_start 1 1 0 ALL 0 - -> handle t1.2
c0 task_start 1 1 0 ALL 0 - -> status MTAPI_ERR_TASK_LIMIT
w0 pick -> picked t1.2 a1.0 watch 1
""",
    """mtapi-journal 2 workers=2 callers=1 tasks=2 actions=1 groups=1 queues=1 objects=1 priorities=1 generations=2
c0 initialize -> ok
c0 action_create 1 tally ALL -> handle a1.0
c0 mutex_create 1 1 -> handle m1.0
c0 shmem_create 2 1 -> handle h1.0
c0 shmem_attach h1.0 -> ok
c0 shmem_write h1.0 0 9223372036854775807 -> ok
c0 shmem_detach h1.0 -> ok
c0 task_start 1 1,2,0,1 0 ALL 0 - -> handle t1.0
c0 task_start 1 1,2,0,-1 0 ALL 0 - -> handle t1.1
w0 pick -> picked t1.0 a1.0 tally 1,2,0,1
w1 pick -> picked t1.1 a1.0 tally 1,2,0,-1
w0 tally_lock t1.0 -> asked 1
w1 tally_lock t1.1 -> pending
c0 shmem_delete h1.0 -> status MRAPI_ERR_SHM_ATTACHED
c0 mutex_delete m1.0 -> status MRAPI_ERR_MUTEX_LOCKED
c0 mutex_look m1.0 0 -> pending
w0 tally_end t1.0 -> status MTAPI_ERR_PARAMETER
w0 tally_read t1.0 -> number 9223372036854775807
w0 tally_write t1.0 0 -> status MTAPI_ERR_PARAMETER
w0 tally_end t1.0 -> ended error MTAPI_ERR_ACTION_FAILED
w1 tally_lock t1.1 -> asked 1
w1 tally_read t1.1 -> number 9223372036854775807
w1 tally_end t1.1 -> status MTAPI_ERR_PARAMETER
w1 tally_write t1.1 9223372036854775806 -> ok
w1 tally_end t1.1 -> ended completed 9223372036854775806
c0 mutex_delete m1.0 -> ok
c0 shmem_delete h1.0 -> ok
w1 pick -> idle
""",
    """mtapi-journal 2 workers=2 callers=1 tasks=6 actions=2 groups=2 queues=1 objects=1 priorities=2 generations=4294967295
c0 initialize -> ok
c0 action_create 1 add ALL -> handle a1.0
c0 queue_create 1 1 0 2 0 1 -> handle q1.0
c0 queue_disable q1.0 -> ok
c0 group_create -> handle g1.0
c0 task_enqueue q1.0 1 ALL 0 g1.0 -> handle t1.1
c0 task_enqueue q1.0 2 ALL 0 g1.0 -> handle t1.0
c0 task_enqueue q1.0 3 ALL 0 g1.0 -> status MTAPI_ERR_QUEUE_LIMIT
c0 task_start 1 4 1 ALL 0 g1.0 -> handle t1.2
w0 pick -> picked t1.2 a1.0 add 4
c0 any_look g1.0 0 -> pending
c0 queue_delete q1.0 -> ok
w1 pick -> idle
c0 any_look g1.0 0 -> given t1.1 error MTAPI_ERR_QUEUE_DELETED
c0 all_look g1.0 0 -> pending
w0 finish t1.2 add 4 completed 4 -> ok
c0 all_look g1.0 1 -> status MTAPI_ERR_QUEUE_DELETED
c0 any_look g1.0 1 -> status MTAPI_GROUP_COMPLETED
c0 group_create -> handle g1.1
c0 task_start 1 5 0 ALL 0 g1.1 -> handle t1.3
c0 task_start 1 6 0 2 0 g1.1 -> handle t1.4
w0 pick -> picked t1.3 a1.0 add 5
w0 finish t1.3 add 5 completed 5 -> ok
c0 group_delete g1.1 -> ok
c0 task_cancel t1.3 -> status MTAPI_ERR_TASK_INVALID
c0 task_look t1.4 0 -> status MTAPI_ERR_PARAMETER
c0 action_disable a1.0 -> ok
c0 task_cancel t1.4 -> status MTAPI_ERR_TASK_INVALID
c0 close -> ok
w1 pick -> stop
w0 pick -> stop
c0 final -> ok
""",
]


class Walk:
    """A history that the reference machine walks: a seat, an op and fields by chance, and a reply that it allows."""

    def __init__(self, rng):
        self.rng = rng
        most = {"workers": 3, "callers": 3, "tasks": 6, "actions": 4, "groups": 3, "queues": 3, "objects": 2, "priorities": 2}
        self.settings = {key: rng.randrange(1, value + 1) for key, value in most.items()}
        self.settings["generations"] = rng.choice([1, 2, 3, 4_294_967_295])
        self.text = rng.choice([1, 2, 2])
        self.kinds = KINDS if self.text == 2 else KINDS[:-1]
        # Each walk asks for some ops often, and lets its workers do much or little.
        self.ops = [op for op in OPS if op != "finish" and not (self.text == 1 and op.startswith("tally"))]
        self.ops += ["task_start"] * 12 + ["task_enqueue"] * 8 + ["task_look", "all_look", "any_look"] * 3
        self.ops += rng.choices(self.ops, k=6) * 8
        self.works = rng.choice([0.1, 0.3, 0.5])
        self.machine = Machine(self.text, self.settings, rng)
        self.entries = []
        self.begin()
        closes = rng.choice([rng.randrange(20, STEPS), STEPS])
        begun = len(self.entries)
        while len(self.entries) < begun + STEPS:
            if len(self.entries) == begun + closes:
                self.ask(self.machine.workers, "close", ())
            self.step()

    def begin(self):
        """Opens the node, mostly, and makes some objects."""
        if self.rng.random() < 0.05:
            return
        self.ask(self.machine.workers, "initialize", ())
        if self.rng.random() < 0.03:
            # A mutex is locked as often as may be.
            self.ask(self.machine.workers, "mutex_create", (1, 1))
            for _ in range(66):
                self.ask(self.machine.workers, "mutex_look", (self.handle("mutex"), 0))
        for kind in ("action", "action", "queue", "group", "mutex", "sem", "rwl", "shmem"):
            op = kind + "_create"
            if self.rng.random() < 0.8:
                self.ask(self.machine.workers, op, tuple(self.field(op, place, form) for place, form in enumerate(OPS[op].rstrip("+"))))

    def ask(self, who, op, fields):
        """Makes a step, but only sometimes where its reply says nothing new."""
        reply, _ = self.machine.row(who, op, None, fields)
        if not reply or reply[1:] and reply[1] is None:
            return
        dull = reply[0] in ("idle", "stop") or op == "all_look" and reply == ("ok",)
        dull = dull or reply[0] == "status" and reply[1].endswith(("NOTINIT", "INVALID", "PARAMETER", "NO_CORE", "COMPLETED", "NOTLOCKED"))
        if not dull or self.rng.random() < 0.06:
            reply = self.machine.answer(who, op, fields)
            self.entries.append(SimpleNamespace(who=who, op=op, fields=fields, reply=reply, beside=0))

    def handle(self, kind):
        """A handle of this kind: mostly live, else of any other object, or of none."""
        rng, live = self.rng, self.machine.all_live(kind)
        if live and rng.random() < 0.93:
            return rng.choice(live).handle
        listed = [handle for one in OBJECTS for handle in self.machine.lists[one]]
        return rng.choice(listed) if listed and rng.random() < 0.7 else rng.choice([0, 2**32, 4_328_521_728, 2**64 - 1])

    def args(self):
        rng = self.rng
        if rng.random() < 0.5:
            ids = [rng.choice([one.id for one in self.machine.all_live(kind)] * 4 + [rng.randrange(2)]) for kind in ("mutex", "shmem")]
            return tuple((ids + [rng.choice([0, 0, 0, 1, 2]), rng.choice([1, 7, 2**63 - 1, -5])])[: rng.choice([4, 4, 4, 4, 3])])
        return tuple(rng.choice([0, 1, 1, 2, -1, 64, 65, 2**63 - 1, -(2**63)]) for _ in range(rng.choice([0, 1, 1, 1, 2, 2, 3])))

    def field(self, op, place, form):
        """Some value for this field of this op."""
        rng, word = self.rng, op.split("_")[0]
        if form == "h":
            others = {"all_look": "group", "any_look": "group", "task_enqueue": "queue"}
            return self.handle(others.get(op, word if word in OBJECTS else "task"))
        if form == "o":
            return self.handle("group") if rng.random() < 0.55 else None
        if form == "k":
            return rng.choice(self.kinds + self.kinds[8:] * 3)
        if form == "l":
            return self.args()
        if form == "c":
            return rng.choice([2**64 - 1] * 5 + [1, 2, 3, 0, 4])
        if form == "b":
            return rng.randrange(2)
        if form == "i":
            return rng.choice([0, 5, -5, 2**63 - 1, -(2**63)])
        if op == "queue_create" and place == 3:
            return rng.choice([1, 1, 2, 65_536, 65_537, 0])
        if op in ("action_create", "job_get", "task_start") and place == 0 or op == "queue_create" and place == 1:
            return rng.choice([1] * 8 + [2, 0, 65_535, 65_536])
        if op in ("sem_create", "rwl_create", "shmem_create") and place == 1:
            return rng.choice([1, 1, 2, 2, 2, 0, 32, 33, 4096, 4097, 65_535, 65_536])
        return rng.choice([0, 0, 1, 1, 2])

    def step(self):
        """Asks for something."""
        rng, machine = self.rng, self.machine
        if rng.random() < self.works:
            self.work()
            return
        op = rng.choice(self.ops)
        seldom = op in ("close", "final", "initialize", "release", "enter") or op.endswith(("_delete", "_disable"))
        if seldom and rng.random() < 0.7:
            return
        fields = tuple(self.field(op, place, form) for place, form in enumerate(OPS[op].rstrip("+")))
        who = rng.randrange(machine.workers, machine.seats) if rng.random() < 0.95 else rng.randrange(machine.seats)
        self.ask(who, op, fields)

    def work(self):
        """Something that a worker asks for: mostly what its task wants next."""
        rng, machine = self.rng, self.machine
        who = rng.randrange(machine.workers) if rng.random() < 0.97 else rng.randrange(machine.seats)
        task = machine.runs_on(who)
        if not task or rng.random() < 0.05:
            self.ask(who, "pick", ())
            return
        handle = task.handle if rng.random() < 0.95 else self.handle("task")
        kind = task.kind if rng.random() < 0.95 else rng.choice(self.kinds)
        args = task.args if rng.random() < 0.95 else self.args()
        if kind in PURE:
            self.ask(who, "finish", (handle, kind, args, answer_of(kind, args)))
        elif kind == "watch":
            self.ask(who, rng.choice(["asked", "asked", "watch_end"]), (handle,))
        else:
            ops = ["tally_lock", "tally_read", "tally_write", "tally_end", "tally_end"]
            op = ops[task.stage] if rng.random() < 0.8 else rng.choice(ops)
            value = (task.kept or 0) + (task.args + (0, 0, 0, 0))[3]
            value = value if -(2**63) <= value < 2**63 and rng.random() < 0.8 else rng.choice([0, 5])
            if task.stage == 2 and not -(2**63) <= task.kept + task.args[3] < 2**63 and rng.random() < 0.5:
                op = "tally_end"
            self.ask(who, op, (handle, value) if op == "tally_write" else (handle,))


def wrong(rng, entries, place):
    """Another reply of this entry, mostly one that another row of its kind has."""
    entry = entries[place]
    words = [entry.op.split("_")[0].upper(), "NOTINIT", "PARAMETER", "TIMEOUT"]
    near = [name for name in MTAPI + MRAPI if any(word in name for word in words)]
    reply = rng.choice(
        [("status", rng.choice(near)), ("status", rng.choice(near)), ("status", rng.choice(MTAPI + MRAPI)), ("ok",), ("pending",)]
        + [("idle",), ("stop",), ("asked", rng.randrange(2)), ("number", rng.randrange(3)), ("ended", ("cancelled",))]
        + [rng.choice(entries).reply, rng.choice(entries).reply]
    )
    if entry.reply[0] == "handle" and rng.random() < 0.6:
        reply = ("handle", max(0, entry.reply[1] + rng.choice([1, 2**32, -(2**32), 2**24, 2**16, 2**31])) % 2**64)
    if entry.reply[0] == "picked" and rng.random() < 0.6:
        picks = [one.reply for one in entries if one.reply[0] == "picked"]
        reply = rng.choice(picks)[:2] + rng.choice(picks)[2:]
    return SimpleNamespace(**{**vars(entry), "reply": reply})


def written(text, settings, entries):
    """The text of a journal."""
    lines = [write_head(text, settings)] + [write_entry(one, text, settings) for one in entries]
    return "".join(line + "\n" for line in lines)


def walked(rng, count=WALKS):
    """Histories that the machine walks, so many, or that stand above: the kind of change, the workload, the text."""
    walks = [Walk(rng) for _ in range(count)]
    walks = [("a walk", WRONG, walk.text, walk.settings, walk.entries) for walk in walks]
    for text in HISTORIES:
        kept = read_journal(text.replace("ALL", str(2**64 - 1)))
        walks.append(("a history", 10 * WRONG, kept.text, kept.settings, kept.entries))
    for kind, tries, text, settings, entries in walks:
        yield kind, "", written(text, settings, entries)
        for _ in range(tries):
            place = rng.randrange(len(entries))
            changed_entries = entries[:place] + [wrong(rng, entries, place)] + entries[place + 1 :]
            yield f"another reply in {kind}", "", written(text, settings, changed_entries)
