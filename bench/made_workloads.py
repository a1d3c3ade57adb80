"""Workloads for `judging.py`: the examples, some short ones, and generated ones of mixed statements."""

import os

from common import TOP
from reference_text import KINDS, PURE

GENERATED = 20
EXAMPLES = os.path.join(TOP, "crates", "mtapi_examples", "data")
SHORT = [
    "",
    "node max_tasks=1 generations=1\naction a job=1 kind=add\nstart t job=1 args=1\nwait t timeout=inf\nstart u job=1 args=2\n",
    "action a job=1 kind=add\nqueue q id=1 job=1 retain=yes\nqueue_disable q\nenqueue t queue=q args=1\nwait t timeout=3\n",
    "action a job=1 kind=add\nqueue q id=1 job=1 retain=yes\nqueue_disable q\nenqueue t queue=q args=1\nqueue_delete q\n",
    "action a job=1 kind=add\nqueue q id=1 job=1 limit=2 retain=yes\nqueue_disable q\nenqueue t queue=q\nenqueue u queue=q\n"
    "enqueue v queue=q\n",
    "node workers=4\naction a job=1 kind=echo\nqueue q id=1 job=1 ordered=yes\ngroup g\nenqueue x queue=q args=1 group=g\n"
    "enqueue y queue=q args=2 group=g\nenqueue z queue=q args=3 group=g\n" + "wait_any g timeout=inf\n" * 4,
    "mutex m id=1 recursive=yes\nlock m timeout=inf\nlock m timeout=inf\nunlock m key=1\nunlock m key=2\nunlock m key=1\nunlock m key=1\n",
    "sem s id=1 limit=1\nsem_lock s timeout=inf\nsem_lock s timeout=3\nsem_unlock s\nsem_unlock s\n",
    "rwl r id=1 limit=1\nrwl_lock r mode=reader timeout=inf\nrwl_lock r mode=writer timeout=nowait\nrwl_unlock r mode=reader\n",
    "node max_objects=1\nshmem s id=1 cells=1\nattach s\nwrite s cell=0 value=7\ndetach s\nshmem_delete s\nshmem r id=1 cells=1\n"
    "attach r\nread r cell=0\nattach s\n",
    "node workers=2\naction a job=1 kind=add\nqueue q id=1 job=1 retain=yes\nqueue_disable q\nenqueue t queue=q args=1\naction_delete a\n"
    "wait t timeout=inf\n",
]


class Part:
    """A caller's part that is being made: its lines, and its names by what they are bound to.

    Nothing in it waits for good: what another caller may withhold is waited for with a number of looks, a lock is given
    up again, and nobody waits while holding one."""

    def __init__(self, rng, workers):
        self.rng, self.workers = rng, workers
        self.lines, self.names, self.count = [], {}, 0
        self.plain = set()  # the tasks and groups that end by themselves

    def bind(self, kind, word, rest):
        name = f"{kind[0]}{self.count}"
        self.count += 1
        self.lines.append(f"{word} {name} {rest}".strip())
        self.names.setdefault(kind, []).append(name)
        return name

    def use(self, kind, word, rest=""):
        if kind in self.names:
            name = self.rng.choice(self.names[kind])
            self.lines.append(f"{word} {name} {rest}".strip())

    def timeout(self, plain=False):
        few = f"timeout={self.rng.randrange(12)}"
        return self.rng.choice(["timeout=inf", "timeout=inf", few] if plain else ["timeout=nowait", few])

    def options_of_task(self):
        rng, words = self.rng, []
        if rng.random() < 0.8:
            args = [rng.choice([0, 1, 2, 3, 5, -4, 64, 65, 2**62]) for _ in range(rng.randrange(1, 5))]
            words.append("args=" + ",".join(str(one) for one in args))
        if rng.random() < 0.2:
            words.append(f"cores={rng.randrange(self.workers + 1)}")
        if rng.random() < 0.15:
            words.append("detached=yes")
        group = None
        if rng.random() < 0.4 and "group" in self.names:
            group = rng.choice(self.names["group"])
            words.append("group=" + group)
        return words, group

    def start(self):
        words, group = self.options_of_task()
        job = self.rng.choice([1, 1, 2, 3, 4, 5])
        if job == 4:
            words = [word for word in words if not word.startswith("args=")] + [f"args=1,1,{self.rng.randrange(3)},{self.rng.randrange(9)}"]
        if self.rng.random() < 0.3:
            words.append(f"priority={self.rng.randrange(4)}")
        self.plain.add(self.bind("task", "start", " ".join([f"job={job}"] + words)))

    def enqueue(self):
        if "queue" in self.names:
            words, group = self.options_of_task()
            self.plain.discard(group)
            self.bind("task", "enqueue", " ".join(["queue=" + self.rng.choice(self.names["queue"])] + words))

    def wait(self):
        for kind, words in (("task", ["wait"]), ("group", ["wait_all", "wait_any"])):
            if kind in self.names and self.rng.random() < 0.6:
                name = self.rng.choice(self.names[kind])
                self.lines.append(f"{self.rng.choice(words)} {name} {self.timeout(name in self.plain)}")

    def lock(self):
        """Takes a mutex, once or twice, does something with a segment, and gives the mutex up."""
        if "mutex" not in self.names:
            return
        rng, name = self.rng, self.rng.choice(self.names["mutex"])
        self.lines.append(f"lock {name} {self.timeout(True)}")
        if rng.random() < 0.5:
            self.lines.append(f"lock {name} {self.timeout(True)}")
        self.segment()
        self.lines += [f"unlock {name} key={key}" for key in ([1] if rng.random() < 0.3 else []) + [2, 1]]

    def segment(self):
        rng = self.rng
        cell = f"cell={rng.randrange(3)}"
        word, rest = rng.choice([("attach", ""), ("attach", ""), ("detach", ""), ("read", cell), ("write", cell + " value=-9")])
        self.use("shmem", word, rest)

    def step(self):
        """Adds some statement."""
        rng = self.rng
        number = rng.randrange(1, 4)
        rng.choice(
            [
                self.start, self.start, self.start, self.enqueue, self.enqueue, self.wait, self.wait, self.wait, self.lock, self.segment,
                lambda: self.use("task", "cancel"),
                lambda: self.plain.add(self.bind("group", "group", "")),
                lambda: self.use("group", "group_delete") if rng.random() < 0.4 else None,
                lambda: self.bind("action", "action", f"job={number} kind={rng.choice(KINDS[:9])}"),
                lambda: self.use("action", rng.choice(["action_enable", "action_disable", "action_delete"])),
                lambda: self.bind("queue", "queue", f"id={number} job={number} limit=2 retain={rng.choice(['yes', 'no'])}"),
                lambda: self.use("queue", rng.choice(["queue_enable", "queue_enable", "queue_disable", "queue_delete"])),
                lambda: self.bind("sem", "sem", f"id={number} limit={number}"),
                lambda: self.use("sem", "sem_lock", self.timeout()),
                lambda: self.use("sem", rng.choice(["sem_unlock", "sem_unlock", "sem_delete"])),
                lambda: self.bind("rwl", "rwl", f"id={number} limit={number}"),
                lambda: self.use("rwl", "rwl_lock", f"mode={rng.choice(['reader', 'writer'])} {self.timeout()}"),
                lambda: self.use("rwl", "rwl_unlock", f"mode={rng.choice(['reader', 'writer'])}"),
                lambda: self.use("rwl", "rwl_delete") if rng.random() < 0.3 else None,
                lambda: self.bind("mutex", "mutex", f"id={number} recursive={rng.choice(['yes', 'no'])}"),
                lambda: self.use("mutex", "mutex_delete") if rng.random() < 0.3 else None,
                lambda: self.bind("shmem", "shmem", f"id={number} cells={number}"),
                lambda: self.use("shmem", "shmem_delete") if rng.random() < 0.3 else None,
            ]
        )()  # fmt: skip

    def gets(self):
        """Binds names to what main has made."""
        for kind in ("queue", "mutex", "sem", "rwl", "shmem"):
            self.bind(kind, kind + "_get", f"id={self.rng.choice([1, 1, 1, 2, 4])}")


def generated(rng):
    """A workload of mixed statements."""
    workers = rng.randrange(1, 4)
    tight = [f"max_tasks={rng.randrange(2, 7)}", f"generations={rng.randrange(1, 4)}", f"max_objects={rng.randrange(1, 4)}", "max_groups=2"]
    node = [f"node workers={workers}", f"priorities={rng.randrange(1, 5)}"] + [word for word in tight if rng.random() < 0.4]
    main = Part(rng, workers)
    main.bind("action", "action", f"job=1 kind={rng.choice(PURE)}")
    main.bind("action", "action", f"job=2 kind=watch cores={rng.choice(['0', 'all'])}")
    main.bind("action", "action", f"job=3 kind={rng.choice(PURE)}")
    main.bind("action", "action", "job=4 kind=tally")
    flags = f"ordered={rng.choice(['yes', 'no'])} retain={rng.choice(['yes', 'no'])}"
    main.bind("queue", "queue", f"id=1 job=1 priority={rng.randrange(3)} {flags}")
    main.bind("mutex", "mutex", f"id=1 recursive={rng.choice(['yes', 'no'])}")
    main.bind("sem", "sem", "id=1 limit=2")
    main.bind("rwl", "rwl", "id=1 limit=1")
    main.bind("shmem", "shmem", "id=1 cells=2")
    lines = [" ".join(node)]
    for _ in range(rng.randrange(2, 12)):
        main.step()
    if rng.random() < 0.7:
        main.lines.append("begin")
    for _ in range(rng.randrange(4, 25)):
        main.step()
    lines += main.lines
    for name in "bcd"[: rng.randrange(4)]:
        part = Part(rng, workers)
        part.gets()
        for _ in range(rng.randrange(2, 15)):
            part.step()
        lines += [f"caller {name}"] + part.lines
    return "".join(line + "\n" for line in lines)


def workloads(rng):
    """The examples, the short workloads and the generated ones."""
    texts = []
    for name in sorted(os.listdir(EXAMPLES)):
        if name.endswith(".workload"):
            with open(os.path.join(EXAMPLES, name)) as file:
                texts.append(file.read())
    return texts + SHORT + [generated(rng) for _ in range(GENERATED)]
