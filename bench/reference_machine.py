"""The machine of one thread, which says what each op of a node may answer. A part of `reference.py`.

Lists and dicts, no pools, no index of ready tasks, and no proofs.
"""

import re
from types import SimpleNamespace

from reference_text import OBJECTS, OPS, answer_of, in_words

WORK = ["pick", "finish", "asked", "watch_end", "tally_lock", "tally_read", "tally_write", "tally_end"]
RESOURCE = re.compile("mutex_|sem_|rwl_|shmem_")


def says(reply, change=None):
    """What a row answers, and what it changes."""
    return reply, change


def status(name):
    return says(("status", name))


OK = ("ok",)
PENDING = ("pending",)


class Machine:
    """The state of a node, and the row of each op.

    A row is a method. It takes the seat, the reply that is offered (or None, where it may choose one by itself), and
    the fields of the op. It answers the reply that has to come, or None where none may, and what changes then. The
    offered reply is read only where the node may choose: the handle of a new object, and what a worker takes."""

    def __init__(self, text, settings, chooses=None):
        self.text = text
        self.settings = settings
        self.chooses = chooses
        self.workers = settings["workers"]
        self.seats = self.workers + settings["callers"]
        self.phase = "new"
        self.has_released = False
        self.stopped = set()
        self.starts = 0
        self.ends = 0
        self.lists = {kind: {} for kind in OBJECTS}

    # The steps.

    def may_come(self, entry):
        """Makes the step of an entry where it may come next. Whether it may."""
        if not 0 <= entry.who < self.seats:
            return False
        reply, change = self.row(entry.who, entry.op, entry.reply, entry.fields)
        if reply != entry.reply:
            return False
        if change:
            change()
        return True

    def answer(self, who, op, fields):
        """Makes the step of this op, and gives a reply that may come; None where none may."""
        reply, change = self.row(who, op, None, fields)
        if reply and change:
            change()
        return reply

    def row(self, who, op, offered, fields):
        """The row of an op, behind the general conditions."""
        row = getattr(self, op)
        if op in WORK:
            if who >= self.workers:
                return status("MTAPI_ERR_PARAMETER")
            return row(who, offered, *fields)
        family = "MRAPI" if RESOURCE.match(op) else "MTAPI"
        if op not in ("initialize", "enter", "close", "final"):
            if self.phase in ("new", "closed") or self.phase == "closing" and OPS[op].endswith("+"):
                return status(family + "_ERR_NODE_NOTINIT")
        if family == "MRAPI" and who < self.workers:
            return status("MRAPI_ERR_PARAMETER")
        return row(who, offered, *fields)

    # Objects and their handles.

    def live(self, kind, handle):
        """The live object of this handle, or None."""
        found = self.lists[kind].get(handle)
        return found if found and found.live else None

    def all_live(self, kind):
        return [one for one in self.lists[kind].values() if one.live]

    def of_id(self, kind, name):
        """The handle of the live object with this id, or None."""
        return next((one.handle for one in self.all_live(kind) if one.id == name), None)

    def of_job(self, job):
        return [one for one in self.all_live("action") if one.job == job]

    def may_issue(self, kind, handle):
        """Whether a new object may get this handle."""
        listed = self.lists[kind]
        before = sum(1 for one in listed if one % 2**32 == handle % 2**32)
        right_kind = self.text == 1 or (handle >> 24) % 256 == OBJECTS.index(kind) + 1
        generation = handle >> 32
        return handle not in listed and generation == before + 1 and generation <= self.settings["generations"] and right_kind

    def some_handle(self, kind, most):
        """Some handle that a new object may get."""
        place = (OBJECTS.index(kind) + 1) * 2**24 if self.text == 2 else 0
        slots = [self.chooses.randrange(most + 2) for _ in range(3)] + list(range(2 * most + 2))
        for slot in slots:
            before = sum(1 for one in self.lists[kind] if one % 2**32 == place + slot)
            handle = (before + 1) * 2**32 + place + slot
            if self.may_issue(kind, handle):
                return handle
        return None

    def creates(self, what, most, refusal, offered, **fields):
        """A new object of this kind, where there is room."""
        last = self.settings["generations"]
        used = sum(1 for one in self.lists[what].values() if one.live or one.handle >> 32 == last)
        if used == most:
            return status(refusal)
        if offered is None:
            offered = ("handle", self.some_handle(what, most))
        if offered[0] != "handle" or not self.may_issue(what, offered[1]):
            return says(None)
        new = SimpleNamespace(handle=offered[1], live=True, **fields)

        def change():
            self.lists[what][new.handle] = new
            if what == "task":
                new.start = self.starts
                self.starts += 1

        return says(offered, change)

    def removes(self, found):
        def change():
            found.live = False

        return says(OK, change)

    # Phases.

    def initialize(self, who, offered):
        if self.phase != "new":
            return status("MTAPI_ERR_NODE_INITIALIZED")
        return says(OK, lambda: setattr(self, "phase", "open"))

    def release(self, who, offered):
        return says(OK, lambda: setattr(self, "has_released", True))

    def enter(self, who, offered):
        if self.phase in ("closing", "closed"):
            return status("MTAPI_ERR_NODE_NOTINIT")
        return says(OK if self.has_released else PENDING)

    def close(self, who, offered):
        if self.phase in ("closing", "closed"):
            return status("MTAPI_ERR_NODE_NOTINIT")

        def change():
            self.phase = "closing"
            self.end_waiting(lambda t: t.queue is not None and not self.lists["queue"][t.queue].enabled, ("cancelled",))

        return says(OK, change)

    def final(self, who, offered):
        if self.phase in ("new", "closed"):
            return status("MTAPI_ERR_NODE_NOTINIT")
        if self.phase == "open" or len(self.stopped) < self.workers:
            return status("MTAPI_ERR_NODE_INITIALIZED")
        return says(OK, lambda: setattr(self, "phase", "closed"))

    # Actions.

    def job_get(self, who, offered, job):
        return says(("number", job)) if self.of_job(job) else status("MTAPI_ERR_JOB_INVALID")

    def action_create(self, who, offered, job, kind, cores):
        if not 1 <= job <= 65_535:
            return status("MTAPI_ERR_JOB_INVALID")
        most = self.settings["actions"]
        return self.creates("action", most, "MTAPI_ERR_ACTION_LIMIT", offered, job=job, kind=kind, cores=cores, enabled=True)

    def withdraws(self, handle, end, field):
        """An action is deleted or disabled, and tasks that no worker can take any more fail."""
        found = self.live("action", handle)
        if not found:
            return status("MTAPI_ERR_ACTION_INVALID")

        def change():
            setattr(found, field, False)
            self.end_waiting(lambda t: not self.is_served(t.job, t.cores), ("error", end))

        return says(OK, change)

    def action_delete(self, who, offered, action):
        return self.withdraws(action, "MTAPI_ERR_ACTION_DELETED", "live")

    def action_disable(self, who, offered, action):
        return self.withdraws(action, "MTAPI_ERR_ACTION_DISABLED", "enabled")

    def action_enable(self, who, offered, action):
        found = self.live("action", action)
        if not found:
            return status("MTAPI_ERR_ACTION_INVALID")
        return says(OK, lambda: setattr(found, "enabled", True))

    def eligible(self, job, cores, worker):
        """The actions that this worker may take for a task of this job and these cores."""
        return [one for one in self.of_job(job) if one.enabled and worker < self.workers and one.cores >> worker & cores >> worker & 1]

    def is_served(self, job, cores):
        return any(self.eligible(job, cores, worker) for worker in range(self.workers))

    # Tasks.

    def refusal_of_job(self, job, cores, group):
        """What a start and an enqueue ask of the job, the group and the cores, in order."""
        actions = self.of_job(job)
        if not actions:
            return "MTAPI_ERR_JOB_INVALID"
        if group is not None and not self.live("group", group):
            return "MTAPI_ERR_GROUP_INVALID"
        if not any(one.enabled for one in actions):
            return "MTAPI_ERR_ACTION_DISABLED"
        return None if self.is_served(job, cores) else "MTAPI_ERR_NO_CORE"

    def new_task(self, offered, job, args, priority, cores, detached, group, queue):
        fields = {"job": job, "args": args, "priority": priority, "cores": cores, "group": group, "queue": queue}
        fields.update(detached=bool(detached), state="scheduled", worker=None, kind=None, waiter=None, requested=False, looks=0, seen=False)
        fields.update(end=None, end_number=None, stage=0, tally_end=None, kept=None, mutex=None, shmem=None)
        return self.creates("task", self.settings["tasks"], "MTAPI_ERR_TASK_LIMIT", offered, **fields)

    def task_start(self, who, offered, job, args, priority, cores, detached, group):
        if priority >= self.settings["priorities"] or detached and group is not None:
            return status("MTAPI_ERR_PARAMETER")
        refusal = self.refusal_of_job(job, cores, group)
        if refusal:
            return status(refusal)
        return self.new_task(offered, job, args, priority, cores, detached, group, None)

    def task_enqueue(self, who, offered, queue, args, cores, detached, group):
        if detached and group is not None:
            return status("MTAPI_ERR_PARAMETER")
        found = self.live("queue", queue)
        if not found:
            return status("MTAPI_ERR_QUEUE_INVALID")
        if not found.enabled and not found.retain:
            return status("MTAPI_ERR_QUEUE_DISABLED")
        refusal = self.refusal_of_job(found.job, cores, group)
        if refusal:
            return status(refusal)
        if len(self.unended(queue)) == found.limit:
            return status("MTAPI_ERR_QUEUE_LIMIT")
        return self.new_task(offered, found.job, args, found.priority, cores, detached, group, queue)

    def unended(self, queue):
        return [one for one in self.lists["task"].values() if one.queue == queue and one.state != "ended"]

    def scheduled(self):
        """The tasks that haven't begun, in the order of their starts."""
        return [one for one in self.lists["task"].values() if one.state == "scheduled"]

    def end_task(self, task, end):
        task.state, task.end, task.end_number = "ended", end, self.ends
        self.ends += 1
        if task.detached:
            task.live = False

    def end_waiting(self, test, end):
        for task in sorted(self.scheduled(), key=lambda one: one.start):
            if test(task):
                self.end_task(task, end)

    def task_look(self, who, offered, task, last):
        found = self.live("task", task)
        if not found:
            return status("MTAPI_ERR_TASK_INVALID")
        if found.detached or found.group is not None:
            return status("MTAPI_ERR_PARAMETER")
        if found.waiter not in (None, who):
            return status("MTAPI_ERR_WAIT_PENDING")
        if found.state == "ended":
            return says(("ended", found.end), lambda: setattr(found, "live", False))
        waiter = None if last else who
        return says(("status", "MTAPI_TIMEOUT") if last else PENDING, lambda: setattr(found, "waiter", waiter))

    def task_cancel(self, who, offered, task):
        found = self.live("task", task)
        if not found:
            return status("MTAPI_ERR_TASK_INVALID")

        def change():
            if found.state == "scheduled":
                self.end_task(found, ("cancelled",))
            elif found.state == "running":
                found.requested = True

        return says(OK, change)

    # Groups.

    def group_create(self, who, offered):
        return self.creates("group", self.settings["groups"], "MTAPI_ERR_GROUP_LIMIT", offered)

    def members(self, group):
        return [one for one in self.all_live("task") if one.group == group]

    def group_delete(self, who, offered, group):
        found = self.live("group", group)
        if not found:
            return status("MTAPI_ERR_GROUP_INVALID")

        def change():
            for task in self.members(group):
                task.group, task.detached = None, True
                task.live = task.state != "ended"
            found.live = False

        return says(OK, change)

    def all_look(self, who, offered, group, last):
        if not self.live("group", group):
            return status("MTAPI_ERR_GROUP_INVALID")
        members = self.members(group)
        if any(one.state != "ended" for one in members):
            return says(("status", "MTAPI_TIMEOUT") if last else PENDING)
        ends = [one.end for one in sorted(members, key=lambda one: one.end_number) if one.end[0] != "completed"]
        reply = OK
        if ends:
            reply = ("status", "MTAPI_ERR_TASK_CANCELLED" if ends[0][0] == "cancelled" else ends[0][1])

        def change():
            for task in members:
                task.group, task.live = None, False

        return says(reply, change)

    def any_look(self, who, offered, group, last):
        if not self.live("group", group):
            return status("MTAPI_ERR_GROUP_INVALID")
        members = self.members(group)
        if not members:
            return status("MTAPI_GROUP_COMPLETED")
        ended = [one for one in members if one.state == "ended"]
        if not ended:
            return says(("status", "MTAPI_TIMEOUT") if last else PENDING)
        first = min(ended, key=lambda one: one.end_number)

        def change():
            first.group, first.live = None, False

        return says(("given", first.handle, first.end), change)

    # Queues.

    def queue_create(self, who, offered, name, job, priority, limit, ordered, retain):
        if priority >= self.settings["priorities"] or not 1 <= limit <= 65_536:
            return status("MTAPI_ERR_PARAMETER")
        if not self.of_job(job):
            return status("MTAPI_ERR_JOB_INVALID")
        if self.of_id("queue", name) is not None:
            return status("MTAPI_ERR_QUEUE_EXISTS")
        fields = {"id": name, "job": job, "priority": priority, "limit": limit, "ordered": ordered, "retain": retain, "enabled": True}
        return self.creates("queue", self.settings["queues"], "MTAPI_ERR_QUEUE_LIMIT", offered, **fields)

    def queue_get(self, who, offered, name):
        handle = self.of_id("queue", name)
        return status("MTAPI_ERR_QUEUE_INVALID") if handle is None else says(("handle", handle))

    def on_queue(self, queue, change):
        """A change of a live queue."""
        found = self.live("queue", queue)
        return says(OK, lambda: change(found)) if found else status("MTAPI_ERR_QUEUE_INVALID")

    def queue_enable(self, who, offered, queue):
        return self.on_queue(queue, lambda found: setattr(found, "enabled", True))

    def queue_disable(self, who, offered, queue):
        def change(found):
            found.enabled = False
            if not found.retain:
                self.end_waiting(lambda t: t.queue == queue, ("cancelled",))

        return self.on_queue(queue, change)

    def queue_delete(self, who, offered, queue):
        def change(found):
            found.live = False
            self.end_waiting(lambda t: t.queue == queue, ("error", "MTAPI_ERR_QUEUE_DELETED"))

        return self.on_queue(queue, change)

    # What workers ask for.

    def is_ready(self, task):
        if task.state != "scheduled":
            return False
        if task.queue is None:
            return True
        queue = self.lists["queue"][task.queue]
        earlier = [one for one in self.unended(task.queue) if one.start < task.start]
        return queue.enabled and not (queue.ordered and earlier)

    def runs_on(self, who):
        return next((one for one in self.all_live("task") if one.state == "running" and one.worker == who), None)

    def pick(self, who, offered):
        if self.runs_on(who):
            return status("MTAPI_ERR_PARAMETER")
        if self.phase == "new":
            return says(("idle",))
        if self.phase != "open" and all(one.state == "ended" for one in self.lists["task"].values()):
            return says(("stop",), lambda: self.stopped.add(who))
        ready = [one for one in self.scheduled() if self.is_ready(one) and self.eligible(one.job, one.cores, who)]
        if not ready:
            return says(("idle",))
        least = min(one.priority for one in ready)
        choices = [
            (("picked", task.handle, action.handle, action.kind, task.args), task, action)
            for task in ready
            if task.priority == least
            for action in self.eligible(task.job, task.cores, who)
        ]
        if offered is None:
            offered = self.chooses.choice(choices)[0]
        for reply, task, action in choices:
            if reply == offered:
                return says(reply, lambda: self.begin(task, who, action.kind))
        return says(None)

    def begin(self, task, who, kind):
        task.state, task.worker, task.kind = "running", who, kind

    def running(self, who, handle, kind):
        """The task of this handle where it runs on this worker with this kind, or None."""
        found = self.live("task", handle)
        return found if found and found.state == "running" and found.worker == who and found.kind == kind else None

    def finish(self, who, offered, task, kind, args, end):
        found = self.running(who, task, kind)
        if not found or found.args != args:
            return status("MTAPI_ERR_TASK_INVALID")
        if end != answer_of(kind, args):
            return says(None)
        return says(OK, lambda: self.end_task(found, end))

    def asked(self, who, offered, task):
        found = self.running(who, task, "watch")
        if not found:
            return status("MTAPI_ERR_TASK_INVALID")
        good = len(found.args) == 1 and 0 <= found.args[0] <= 64
        if not good or found.seen or found.looks == found.args[0]:
            return status("MTAPI_ERR_PARAMETER")
        if found.requested:
            return says(("asked", 1), lambda: setattr(found, "seen", True))
        return says(("asked", 0), lambda: setattr(found, "looks", found.looks + 1))

    def watch_end(self, who, offered, task):
        found = self.running(who, task, "watch")
        if not found:
            return status("MTAPI_ERR_TASK_INVALID")
        if len(found.args) != 1:
            end = ("error", "MTAPI_ERR_ARG_SIZE")
        elif not 0 <= found.args[0] <= 64:
            end = ("error", "MTAPI_ERR_ACTION_FAILED")
        elif found.seen:
            end = ("cancelled",)
        elif found.looks < found.args[0]:
            return status("MTAPI_ERR_PARAMETER")
        else:
            end = ("completed", found.args)
        return says(("ended", end), lambda: self.end_task(found, end))

    def tally_lock(self, who, offered, task):
        found = self.running(who, task, "tally")
        if not found:
            return status("MTAPI_ERR_TASK_INVALID")
        if found.stage != 0:
            return status("MTAPI_ERR_PARAMETER")

        def fails(end):
            def change():
                found.stage, found.tally_end = 4, ("error", end)

            return says(("asked", 0), change)

        if len(found.args) != 4:
            return fails("MTAPI_ERR_ARG_SIZE")
        mutex = self.live("mutex", self.of_id("mutex", found.args[0]))
        shmem = self.live("shmem", self.of_id("shmem", found.args[1]))
        if not mutex or not shmem or not 0 <= found.args[2] < len(shmem.cells):
            return fails("MTAPI_ERR_ACTION_FAILED")
        if mutex.owner is not None:
            return says(PENDING)

        def change():
            mutex.owner, mutex.depth = who, 1
            shmem.attached.add(who)
            found.stage, found.mutex, found.shmem = 1, mutex.handle, shmem.handle

        return says(("asked", 1), change)

    def tally_read(self, who, offered, task):
        found = self.running(who, task, "tally")
        if not found:
            return status("MTAPI_ERR_TASK_INVALID")
        if found.stage != 1:
            return status("MTAPI_ERR_PARAMETER")
        value = self.live("shmem", found.shmem).cells[found.args[2]]

        def change():
            found.stage, found.kept = 2, value

        return says(("number", value), change)

    def tally_write(self, who, offered, task, value):
        found = self.running(who, task, "tally")
        if not found:
            return status("MTAPI_ERR_TASK_INVALID")
        if found.stage != 2 or value != found.kept + found.args[3]:
            return status("MTAPI_ERR_PARAMETER")

        def change():
            self.live("shmem", found.shmem).cells[found.args[2]] = value
            found.stage = 3

        return says(OK, change)

    def tally_end(self, who, offered, task):
        found = self.running(who, task, "tally")
        if not found:
            return status("MTAPI_ERR_TASK_INVALID")
        stage = found.stage
        total = None if stage not in (2, 3) else found.kept + found.args[3]
        if stage in (0, 1) or stage == 2 and in_words(total):
            return status("MTAPI_ERR_PARAMETER")
        end = {2: ("error", "MTAPI_ERR_ACTION_FAILED"), 3: ("completed", (total,)), 4: found.tally_end}[stage]

        def change():
            if stage != 4:
                mutex = self.live("mutex", found.mutex)
                mutex.owner, mutex.depth = None, 0
                self.live("shmem", found.shmem).attached.discard(who)
            self.end_task(found, end)

        return says(("ended", end), change)

    # What mutexes, semaphores, reader-writer locks and segments have in common.

    def makes_resource(self, kind, code, offered, name, **fields):
        if self.of_id(kind, name) is not None:
            return status(f"MRAPI_ERR_{code}_EXISTS")
        return self.creates(kind, self.settings["objects"], f"MRAPI_ERR_{code}_LIMIT", offered, id=name, **fields)

    def gets_resource(self, kind, code, name):
        handle = self.of_id(kind, name)
        return status(f"MRAPI_ERR_{code}_ID_INVALID") if handle is None else says(("handle", handle))

    def busy(self, last):
        return says(("status", "MRAPI_TIMEOUT") if last else PENDING)

    # Mutexes.

    def mutex_create(self, who, offered, name, recursive):
        return self.makes_resource("mutex", "MUTEX", offered, name, recursive=recursive, owner=None, depth=0)

    def mutex_get(self, who, offered, name):
        return self.gets_resource("mutex", "MUTEX", name)

    def mutex_delete(self, who, offered, mutex):
        found = self.live("mutex", mutex)
        if not found:
            return status("MRAPI_ERR_MUTEX_INVALID")
        return status("MRAPI_ERR_MUTEX_LOCKED") if found.owner is not None else self.removes(found)

    def mutex_look(self, who, offered, mutex, last):
        found = self.live("mutex", mutex)
        if not found:
            return status("MRAPI_ERR_MUTEX_INVALID")
        if found.owner == who and (not found.recursive or found.depth == 64):
            return status("MRAPI_ERR_MUTEX_LOCKED")
        if found.owner not in (None, who):
            return self.busy(last)

        def change():
            found.owner = who
            found.depth += 1

        return says(("number", found.depth + 1), change)

    def mutex_unlock(self, who, offered, mutex, key):
        found = self.live("mutex", mutex)
        if not found:
            return status("MRAPI_ERR_MUTEX_INVALID")
        if found.owner != who:
            return status("MRAPI_ERR_MUTEX_NOTLOCKED")
        if key == 0 or key > found.depth:
            return status("MRAPI_ERR_MUTEX_KEY")
        if key < found.depth:
            return status("MRAPI_ERR_MUTEX_LOCKORDER")

        def change():
            found.depth -= 1
            if found.depth == 0:
                found.owner = None

        return says(OK, change)

    # Semaphores.

    def sem_create(self, who, offered, name, limit):
        if not 1 <= limit <= 65_535:
            return status("MRAPI_ERR_PARAMETER")
        return self.makes_resource("sem", "SEM", offered, name, limit=limit, holders=[])

    def sem_get(self, who, offered, name):
        return self.gets_resource("sem", "SEM", name)

    def sem_delete(self, who, offered, sem):
        found = self.live("sem", sem)
        if not found:
            return status("MRAPI_ERR_SEM_INVALID")
        return status("MRAPI_ERR_SEM_LOCKED") if found.holders else self.removes(found)

    def sem_look(self, who, offered, sem, last):
        found = self.live("sem", sem)
        if not found:
            return status("MRAPI_ERR_SEM_INVALID")
        if len(found.holders) == found.limit:
            return self.busy(last)
        return says(OK, lambda: found.holders.append(who))

    def sem_unlock(self, who, offered, sem):
        found = self.live("sem", sem)
        if not found:
            return status("MRAPI_ERR_SEM_INVALID")
        if who not in found.holders:
            return status("MRAPI_ERR_SEM_NOTLOCKED")
        return says(OK, lambda: found.holders.remove(who))

    # Reader-writer locks.

    def rwl_create(self, who, offered, name, limit):
        if not 1 <= limit <= 32:
            return status("MRAPI_ERR_PARAMETER")
        return self.makes_resource("rwl", "RWL", offered, name, limit=limit, readers=set(), writer=None)

    def rwl_get(self, who, offered, name):
        return self.gets_resource("rwl", "RWL", name)

    def rwl_delete(self, who, offered, rwl):
        found = self.live("rwl", rwl)
        if not found:
            return status("MRAPI_ERR_RWL_INVALID")
        held = found.readers or found.writer is not None
        return status("MRAPI_ERR_RWL_LOCKED") if held else self.removes(found)

    def rwl_look(self, who, offered, rwl, writer, last):
        found = self.live("rwl", rwl)
        if not found:
            return status("MRAPI_ERR_RWL_INVALID")
        if who in found.readers or found.writer == who:
            return status("MRAPI_ERR_RWL_LOCKED")
        if found.writer is not None or (found.readers if writer else len(found.readers) == found.limit):
            return self.busy(last)
        return says(OK, lambda: setattr(found, "writer", who) if writer else found.readers.add(who))

    def rwl_unlock(self, who, offered, rwl, writer):
        found = self.live("rwl", rwl)
        if not found:
            return status("MRAPI_ERR_RWL_INVALID")
        if not (found.writer == who if writer else who in found.readers):
            return status("MRAPI_ERR_RWL_NOTLOCKED")
        return says(OK, lambda: setattr(found, "writer", None) if writer else found.readers.remove(who))

    # Segments.

    def shmem_create(self, who, offered, name, cells):
        if not 1 <= cells <= 4096:
            return status("MRAPI_ERR_PARAMETER")
        return self.makes_resource("shmem", "SHM", offered, name, cells=[0] * cells, attached=set())

    def shmem_get(self, who, offered, name):
        return self.gets_resource("shmem", "SHM", name)

    def shmem_delete(self, who, offered, shmem):
        found = self.live("shmem", shmem)
        if not found:
            return status("MRAPI_ERR_SHM_INVALID")
        return status("MRAPI_ERR_SHM_ATTACHED") if found.attached else self.removes(found)

    def shmem_attach(self, who, offered, shmem):
        found = self.live("shmem", shmem)
        if not found:
            return status("MRAPI_ERR_SHM_INVALID")
        if who in found.attached:
            return status("MRAPI_ERR_SHM_ATTACHED")
        return says(OK, lambda: found.attached.add(who))

    def shmem_refusal(self, who, found, cell=0):
        if not found:
            return "MRAPI_ERR_SHM_INVALID"
        if who not in found.attached:
            return "MRAPI_ERR_SHM_NOTATTACHED"
        return "MRAPI_ERR_PARAMETER" if cell >= len(found.cells) else None

    def shmem_detach(self, who, offered, shmem):
        found = self.live("shmem", shmem)
        refusal = self.shmem_refusal(who, found)
        return status(refusal) if refusal else says(OK, lambda: found.attached.remove(who))

    def shmem_read(self, who, offered, shmem, cell):
        found = self.live("shmem", shmem)
        refusal = self.shmem_refusal(who, found, cell)
        return status(refusal) if refusal else says(("number", found.cells[cell]))

    def shmem_write(self, who, offered, shmem, cell, value):
        found = self.live("shmem", shmem)
        refusal = self.shmem_refusal(who, found, cell)
        if refusal:
            return status(refusal)

        def change():
            found.cells[cell] = value

        return says(OK, change)


def legal(text, settings, entries):
    """The number of the first entry that may not come, from 1, or None."""
    machine = Machine(text, settings)
    for place, entry in enumerate(entries, 1):
        if not machine.may_come(entry):
            return place
    return None
