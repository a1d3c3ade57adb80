"""Every order of a workload by the machine of `reference_machine.py`, with nothing left out: a part of `orders_random.py`.

Each look of a caller is a step of its own, workers are told apart, and starts and ends keep their numbers. Only two
choices are fixed: a new object takes the next slot of its kind, and a pick that takes nothing leaves the state as it is.
"""

import pickle
import time
from types import SimpleNamespace

from reference import STATEMENTS, fields_of, most_looks, read_workload
from reference_machine import Machine
from reference_text import OBJECTS, answer_of


class Choices:
    """Keeps what a pick may take, and chooses the first."""

    def __init__(self):
        self.tasks = None

    def choice(self, choices):
        self.tasks = [one[0] for one in choices]
        return choices[0]

    def randrange(self, _):
        return 0


class Canonical(Machine):
    """The machine whose new objects take the next slot, in their first generation."""

    def some_handle(self, kind, _most):
        return 2**32 + (OBJECTS.index(kind) + 1) * 2**24 + len(self.lists[kind])


def copied(state):
    return pickle.loads(pickle.dumps(state))


def place_of_lines(text):
    """The names of the parts, and the line of each statement in the order of the parts."""
    names, lines = ["main"], []
    for number, line in enumerate(text.split("\n"), 1):
        words = line.split()
        if not words or words[0].startswith("#") or words[0] == "node":
            continue
        if words[0] == "caller":
            names.append(words[1])
        else:
            lines.append(number)
    return names, lines


class Search:
    """The states of a workload: the machine, and of each part its place, its names, its answers and its looks so far."""

    def __init__(self, text):
        self.settings, self.parts = read_workload(text)
        self.names, self.lines = place_of_lines(text)
        self.workers = self.settings["workers"]
        self.opens_at_once = not any(statement.word == "begin" for statement in self.parts[0])
        count = len(self.parts)
        self.opening = SimpleNamespace(
            machine=Canonical(2, self.settings, Choices()),
            places=[-1] * count,
            bound=[{} for _ in range(count)],
            told=[[] for _ in range(count)],
            looks=[0] * count,
        )

    def key(self, state):
        machine = state.machine
        lists = [
            [sorted((name, sorted(value, key=str) if isinstance(value, set) else value) for name, value in vars(one).items()) for one in objects.values()]
            for objects in machine.lists.values()
        ]
        own = (machine.phase, machine.has_released, sorted(machine.stopped), machine.starts, machine.ends, lists)
        return pickle.dumps((own, state.places, [sorted(names.items()) for names in state.bound], state.told, state.looks))

    def enters(self, state, part):
        after = copied(state)
        who = self.workers + part
        if part == 0:
            if after.machine.answer(who, "initialize", ()) != ("ok",):
                return []
            if self.opens_at_once:
                after.machine.answer(who, "release", ())
        elif after.machine.answer(who, "enter", ()) != ("ok",):
            return []
        after.places[part] = 0
        return [after]

    def ends(self, state, part):
        """What main does once all callers are at their end."""
        if part != 0 or any(place != len(statements) for place, statements in zip(state.places, self.parts)):
            return []
        after = copied(state)
        if after.machine.phase == "open":
            after.machine.answer(self.workers, "close", ())
            return [after]
        if after.machine.phase == "closing" and len(after.machine.stopped) == self.workers:
            after.machine.answer(self.workers, "final", ())
            return [after]
        return []

    def makes(self, state, part):
        """The next statement of a part, or its next look."""
        statement = self.parts[part][state.places[part]]
        after = copied(state)
        timeout, last, bound = statement.options.get("timeout"), 0, None
        if timeout is not None:
            bound = most_looks(timeout)
            last = 1 if bound == state.looks[part] + 1 else 0
        op = STATEMENTS[statement.word].split()[0]
        reply = after.machine.answer(self.workers + part, op, fields_of(statement, after.bound[part], last))
        if reply == ("pending",):
            if bound is None and state.looks[part]:
                return []  # a further look of a wait without a bound changes nothing
            after.looks[part] += 1
            return [after]
        after.looks[part] = 0
        after.told[part].append(reply)
        after.places[part] += 1
        if statement.name is not None and statement.name not in after.bound[part]:
            after.bound[part][statement.name] = reply[1] if reply[0] == "handle" else 0
        return [after]

    def picks(self, state, worker):
        probe = copied(state)
        probe.machine.chooses.tasks = None
        reply = probe.machine.answer(worker, "pick", ())
        if reply == ("stop",):
            return [probe]
        if reply == ("idle",):
            return []
        found = []
        for taken in probe.machine.chooses.tasks:
            after = copied(state)
            if after.machine.may_come(SimpleNamespace(who=worker, op="pick", fields=(), reply=taken)):
                found.append(after)
        return found

    def works(self, state, worker):
        """What a worker may do next."""
        if state.machine.phase in ("new", "closed") or worker in state.machine.stopped:
            return []
        task = state.machine.runs_on(worker)
        if task is None:
            return self.picks(state, worker)
        handle = task.handle
        if task.kind == "watch":
            ops = [("asked", (handle,)), ("watch_end", (handle,))]
        elif task.kind == "tally":
            ops = [("tally_lock", (handle,)), ("tally_read", (handle,)), ("tally_end", (handle,))]
            if task.stage == 2:
                ops.append(("tally_write", (handle, task.kept + task.args[3])))
        else:
            ops = [("finish", (handle, task.kind, task.args, answer_of(task.kind, task.args)))]
        found = []
        for op, fields in ops:
            after = copied(state)
            reply = after.machine.answer(worker, op, fields)
            if reply and reply[0] != "status" and reply != ("pending",):
                found.append(after)
        return found

    def steps(self, state):
        found = []
        for part, statements in enumerate(self.parts):
            if state.places[part] == -1:
                found += self.enters(state, part)
            elif state.places[part] == len(statements):
                found += self.ends(state, part)
            else:
                found += self.makes(state, part)
        for worker in range(self.workers):
            found += self.works(state, worker)
        return found

    def report(self, state):
        """The report of an end state."""
        tasks, calls, count = [], [], 0
        for part, statements in enumerate(self.parts):
            made = {}
            for statement, reply in zip(statements, state.told[part]):
                line = self.lines[count]
                count += 1
                name = f"{self.names[part]}.{statement.name}"
                if statement.word in ("start", "enqueue"):
                    if reply[0] == "status":
                        tasks.append(f"{name} refused {reply[1]}")
                        continue
                    made[reply[1]] = statement.name
                    tasks.append(f"{name} {end_text(state.machine.lists['task'][reply[1]].end)}")
                elif statement.word == "begin":
                    continue
                elif reply[0] == "status":
                    calls.append(f"! {self.names[part]} {line} {reply[1]}")
                elif statement.word in ("lock", "read"):
                    calls.append(f"= {self.names[part]} {line} {reply[1]}")
                elif statement.word == "wait_any":
                    calls.append(f"= {self.names[part]} {line} {made[reply[1]]}")
        return tuple(tasks + calls)


def end_text(end):
    if end[0] == "cancelled":
        return "cancelled"
    if end[0] == "error":
        return f"error {end[-1]}"
    return ("completed " + ",".join(str(one) for one in end[1])).strip()


def all_orders(text, most, seconds):
    """The reports of a workload and whether it may end in a deadlock; None where there are too many states."""
    search = Search(text)
    seen, left, reports, stuck, until = {search.key(search.opening)}, [search.opening], set(), False, time.time() + seconds
    while left:
        if len(seen) > most or time.time() > until:
            return None
        state = left.pop()
        if state.machine.phase == "closed":
            reports.add(search.report(state))
            continue
        after = search.steps(state)
        stuck = stuck or not after
        for one in after:
            key = search.key(one)
            if key not in seen:
                seen.add(key)
                left.append(one)
    return reports, stuck
