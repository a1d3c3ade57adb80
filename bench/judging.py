#!/usr/bin/env python3
"""Compares what `mtapi check` says of many journals with the judge of `reference.py`: `bench/judging.py [few] [SEED]`.

The journals are those of runs of the examples, of some short workloads and of twenty generated ones, in both texts,
each with one thing changed; histories that the reference machine walks by itself, through all ops and most refusals,
with one reply changed; and the table of changed journals of `crates/mtapi_examples`. Prints a line for each kind of
change, with how many journals were judged in which way, and each difference in full, and ends with 1 where there is
one. With `few` it is 200 of the journals, of some of the workloads, in 20 seconds, which is a part of the gate. The command has to
be built: run `./mtapi prove` before.
"""

import os
import random
import re
import subprocess
import sys
from collections import Counter

from common import COMMAND, TOP, need_command
from made_histories import walked, written
from made_workloads import workloads
from reference import verdict
from reference_text import MRAPI, MTAPI, OPS, read_journal

HANG = 60.0  # seconds after which a run or a check is stopped
TRIES = 12  # changes of each kind for each journal
FEW, FEW_LOADS, FEW_WALKS = 200, 6, 40  # journals, workloads and walks with `few`
TABLE = os.path.join(TOP, "crates", "mtapi_examples", "data", "cases")


def answers(words, inputs):
    """What the command writes of each of these inputs, on either output."""
    for text in inputs:
        done = subprocess.run([COMMAND] + words, input=text, capture_output=True, text=True, timeout=HANG)
        yield done.stdout + done.stderr


# --- Changed journals ------------------------------------------------------------------------------------------------

HANDLE = re.compile(r"(?<=[ ])[atgqmsrh][0-9]+\.[0-9]+(?=[ ]|$)|(?<=[ ])[0-9]{10,14}(?=[ ]|$)")


def in_text_one(text):
    """The same journal with the handles of layout one, or None where it has tallies."""
    journal = read_journal(text)
    if any(entry.op.startswith("tally") or "tally" in entry.fields + entry.reply for entry in journal.entries):
        return None

    def lowered(forms, values):
        return tuple(value & ~(255 << 24) if form in "ho" and value is not None else value for form, value in zip(forms, values))

    for entry in journal.entries:
        entry.fields = lowered(OPS[entry.op].rstrip("+"), entry.fields)
        forms = {"handle": "h", "given": "he", "picked": "hhkl"}.get(entry.reply[0])
        if forms:
            entry.reply = entry.reply[:1] + lowered(forms, entry.reply[1:])
    return written(1, journal.settings, journal.entries)


def other_handle(rng, word, text):
    """A handle near to this one, or one of another kind."""
    if text == 2 and not word[0].isdigit():
        generation, slot = word[1:].split(".")
        near = rng.choice([(0, 0), (0, 0), (1, 0), (0, 1), (-1, 0), (0, 65_536), (0, 16_777_200)])
        letter = rng.choice(["atgqmsrh", word[0] * 8])[rng.randrange(8)]
        if int(generation) + near[0] > 0:
            return rng.choice([f"{letter}{int(generation) + near[0]}.{int(slot) + near[1]}"] * 5 + ["0", "7"])
    value = int(word) if word.isdigit() else 0
    return str(max(0, value + rng.choice([1, 2**32, -(2**32), 2**24, -value, 2**31, 2**40])))


def other_reply(rng, lines):
    """A reply that stands elsewhere in the journal, or any other."""
    found = [line.split(" -> ")[1].split(" after ")[0] for line in lines[1:] if " -> " in line]
    return rng.choice(
        [rng.choice(found) if found else "ok", "status " + rng.choice(MTAPI), "status " + rng.choice(MRAPI)]
        + rng.sample(["ok", "pending", "idle", "stop", "number 0", "number 1", "asked 0", "asked 1", "ended cancelled", "handle 0"], 3)
    )


def left_out(rng, lines, place):
    return lines[:place] + lines[place + 1 :]


def doubled(rng, lines, place):
    return lines[: place + 1] + lines[place:]


def exchanged(rng, lines, place):
    place = min(place, len(lines) - 2)
    return lines[:place] + lines[place + 1 : place + 2] + lines[place : place + 1] + lines[place + 2 :]


def moved(rng, lines, place):
    rest = lines[:place] + lines[place + 1 :]
    to = rng.randrange(1, len(lines))
    return rest[:to] + [lines[place]] + rest[to:]


def replaced(lines, place, line):
    return lines[:place] + [line] + lines[place + 1 :]


def with_reply(rng, lines, place):
    front, behind = lines[place].split(" -> ")
    beside = " after " + behind.split(" after ")[1] if " after " in behind else ""
    return replaced(lines, place, f"{front} -> {other_reply(rng, lines)}{beside}")


def with_handle(rng, lines, place):
    places = [number for number in range(1, len(lines)) if HANDLE.search(lines[number])]
    if not places:
        return None
    place = rng.choice(places)
    found = rng.choice(list(HANDLE.finditer(lines[place])))
    word = other_handle(rng, found[0], int(lines[0].split()[1]))
    return replaced(lines, place, lines[place][: found.start()] + word + lines[place][found.end() :])


def with_field(rng, lines, place):
    front, behind = lines[place].split(" -> ")
    words = front.split(" ")
    numbers = [number for number in range(2, len(words)) if re.fullmatch("-?[0-9]+", words[number])]
    if not numbers:
        return None
    number = rng.choice(numbers)
    words[number] = str(max(0, int(words[number]) + rng.choice([1, -1, 1, 2, -int(words[number])])))
    return replaced(lines, place, f"{' '.join(words)} -> {behind}")


def with_seat(rng, lines, place):
    settings = dict(word.split("=") for word in lines[0].split()[2:])
    seats = [f"w{number}" for number in range(int(settings["workers"]))] + [f"c{number}" for number in range(int(settings["callers"]))]
    return replaced(lines, place, rng.choice(seats + ["w16"]) + lines[place][lines[place].index(" ") :])


def with_number_beside(rng, lines, place):
    places = [number for number in range(1, len(lines)) if "look" in lines[number] or "enter" in lines[number]]
    place = rng.choice(places * 3 + [place])
    front, _, beside = lines[place].partition(" after ")
    number = max(0, int(beside or 0) + rng.choice([1, -1, 2, 1000, -int(beside or 0), 2**63]))
    return replaced(lines, place, front + (f" after {number}" if number else rng.choice(["", "", "", " after 0"])))


def with_setting(rng, lines, place):
    words = lines[0].split()
    number = rng.randrange(2, len(words))
    key, value = words[number].split("=")
    words[number] = f"{key}={int(value) + rng.choice([1, -1, 1, 7])}" if rng.random() < 0.7 else f"{key}={rng.randrange(1, 4)}"
    return [" ".join(words)] + lines[1:]


def with_head(rng, lines, place):
    return [lines[0].replace("journal 1", "journal 3").replace("journal 2", "journal 1").replace("journal 3", "journal 2")] + lines[1:]


def with_entry(rng, lines, place):
    """An entry more: one that changes nothing, or one that no statement makes."""
    settings = dict(word.split("=") for word in lines[0].split()[2:])
    worker, caller = rng.randrange(int(settings["workers"])), rng.randrange(int(settings["callers"]))
    looks = [number for number, line in enumerate(lines) if "_look" in line]
    if looks and rng.random() < 0.3:
        # A look that found nothing, between the entry of its seat before it and the one that decides.
        number = rng.choice(looks)
        seat = lines[number].split(" ")[0]
        before = max([1] + [1 + other for other in range(1, number) if lines[other].startswith(seat)])
        place = rng.randrange(before, number + 1)
        return lines[:place] + [lines[number].split(" -> ")[0] + " -> pending"] + lines[place:]
    looks = [lines[number].split(" -> ")[0] for number in looks] or [f"c{caller} job_get 1"]
    entry = rng.choice(
        [f"w{worker} pick -> status MTAPI_ERR_PARAMETER", f"c{caller} enter -> ok", f"c{caller} enter -> pending"]
        + [f"c{caller} {op}" for op in ("job_get 1 -> number 1", "job_get 9 -> status MTAPI_ERR_JOB_INVALID", "release -> ok")]
        + [rng.choice(looks) + reply for reply in (" -> pending", " -> pending", " -> status MTAPI_ERR_TASK_INVALID")]
    )
    return lines[:place] + [entry] + lines[place:]


def with_idle_pick(rng, lines, place):
    """A pick more that found nothing. A run leaves such entries out, but they are a worker's all the same."""
    settings = dict(word.split("=") for word in lines[0].split()[2:])
    return lines[:place] + [f"w{rng.randrange(int(settings['workers']))} pick -> idle"] + lines[place:]


def with_begin(rng, lines):
    """The lines of a workload with `begin` at some place of main's part."""
    kept = [line for line in lines if line != "begin"]
    ends = next((place for place, line in enumerate(kept) if line.startswith("caller")), len(kept) - 1)
    first = next((place + 1 for place, line in enumerate(kept) if line.startswith("node")), 0)
    kept.insert(rng.randrange(first, ends + 1), "begin")
    return kept


def with_statement(rng, workload):
    """The workload with another value in one statement, or with another place of `begin`."""
    lines = workload.split("\n")
    values = {
        "timeout": ["nowait", "0", "1", "2", "3", "4", "50", "inf", "inf"], "key": ["0", "1", "2"], "args": ["1", "1,2", "0"],
        "job": ["1", "2", "7"], "id": ["0", "1", "2"], "limit": ["1", "2", "3"], "cell": ["0", "1"], "value": ["0", "7"],
        "detached": ["no", "yes"], "ordered": ["no", "yes"], "retain": ["no", "yes"], "recursive": ["no", "yes"], "priority": ["0", "1"],
        "mode": ["reader", "writer"], "cores": ["all", "0", "1"], "cells": ["1", "2"], "kind": ["add", "max", "watch"],
    }  # fmt: skip
    found = [(place, match) for place, line in enumerate(lines) for match in re.finditer(r" ([a-z]+)=([^ ]*)", line)]
    found = [(place, match) for place, match in found if match[1] in values and lines[place][0] != "#"]
    if not found or rng.random() < 0.05:
        return "\n".join(with_begin(rng, lines))
    looks = [one for one in found if one[1][1] == "timeout"]
    place, match = rng.choice(looks if looks and rng.random() < 0.5 else found)
    line = lines[place]
    lines[place] = f"{line[: match.start(2)]}{rng.choice(values[match[1]])}{line[match.end(2) :]}"
    return "\n".join(lines)


def with_byte(rng, lines, place):
    """One byte more, less, or another one, behind the word that every head line has."""
    text = "\n".join(lines)
    at = rng.randrange(len("mtapi-journal "), len(text))
    at = rng.choice([at] + [match.start() for match in re.finditer("[-0-9.,> ]", text) if match.start() > len("mtapi-journal ")])
    byte = rng.choice([rng.choice("0123456789"), rng.choice(" -,.>=+"), rng.choice("atgqmsrhwcx"), rng.choice("\t\r\n~"), text[at]])
    front, behind = rng.choice([(text[:at] + byte, text[at:]), (text[:at], text[at + 1 :]), (text[:at] + byte, text[at + 1 :])])
    return (front + behind).split("\n")


CHANGES = {
    "an entry left out": left_out,
    "an entry twice": doubled,
    "two entries exchanged": exchanged,
    "an entry elsewhere": moved,
    "an entry more": with_entry,
    "an idle pick more": with_idle_pick,
    "another reply": with_reply,
    "another handle": with_handle,
    "another field": with_field,
    "another seat": with_seat,
    "another number beside": with_number_beside,
    "another setting": with_setting,
    "the other text": with_head,
    "another byte": with_byte,
}


def changed(rng, workload, text):
    """Journals with one thing changed: the kind of change, the workload, the text."""
    lines = text.split("\n")[:-1]
    yield "nothing", workload, text
    for kind, change in CHANGES.items():
        for _ in range(1 if change is with_head else TRIES):
            made = change(rng, lines, rng.randrange(1, len(lines)))
            if made and made != lines:
                yield kind, workload, "".join(line + "\n" for line in made)
    for _ in range(TRIES):
        other = with_statement(rng, workload)
        if other != workload:
            yield "another workload", other, text


# --- Both judges -----------------------------------------------------------------------------------------------------


def stored(name):
    """The text of a file of the table."""
    with open(os.path.join(TABLE, name)) as file:
        return file.read()


def table():
    """The rows of the stored table: the kind of change, the workload, the text, and what the row wants."""
    ways = {"left out": left_out, "doubled": doubled, "exchanged": exchanged}
    for name in ("locks", "queue", "tally"):
        workload, lines = stored(f"{name}.workload"), stored(f"{name}.journal").splitlines(keepends=True)
        for row in stored(f"{name}.changes").splitlines():
            line, change, wanted = row.split(" | ")
            place = int(line)
            made = ways[change](None, lines, place) if change in ways else replaced(lines, place, change + "\n")
            yield "a row of the table", workload, "".join(made), wanted + "\n"


def family(line):
    """What kind of verdict a line is."""
    return "illegal" if line.startswith("no: illegal") else {"yes": "yes", "no: not a run": "not a run"}.get(line, "refused")


def compared(journals):
    """Asks both judges of each of these journals, and prints what they say. How many verdicts differ."""
    counts, differences = {}, 0
    inputs = (workload + text for _, workload, text in journals)
    for (kind, workload, text), line in zip(journals, answers(["check"], inputs)):
        line, wanted = line.strip(), verdict(workload, text)
        count = counts.setdefault(kind, Counter())
        count[family(line)] += 1
        if line != wanted:
            differences += 1
            count["differences"] += 1
            print(f"DIFFERENCE, {kind}: the command says {line!r}, the reference {wanted!r}, of\n{workload}{text}")
    for kind, count in counts.items():
        figures = ", ".join(f"{what} {count[what]}" for what in ("yes", "illegal", "not a run", "refused", "differences"))
        print(f"{kind}: {count.total() - count['differences']} journals, {figures}")
    return differences


def main():
    need_command()
    rows = list(table())
    others = [row for row in rows if verdict(row[1], row[2]) + "\n" != row[3]]
    print(f"{len(rows)} rows of the stored table, of which the reference says another thing of {len(others)}")
    few = sys.argv[1:2] == ["few"]
    seeds = sys.argv[2:] if few else sys.argv[1:]
    rng = random.Random(int(seeds[0]) if seeds else 1)
    loads = workloads(rng)
    if few:
        loads = rng.sample(loads, FEW_LOADS)
    journals = [row[:3] for row in rows]
    for workload, output in zip(loads, answers(["run", "--journal"], loads)):
        if "mtapi-journal " not in output:
            sys.exit(f"no run: {output}of\n{workload}")
        text = output[output.index("mtapi-journal ") :]
        for kept in (text, in_text_one(text)):
            if kept:
                journals += changed(rng, workload, kept)
    journals += walked(rng, FEW_WALKS) if few else walked(rng)
    if few:
        journals = rng.sample(journals, FEW)
    differences = compared(journals)
    print(f"{len(journals)} journals, {differences} differences")
    sys.exit(1 if differences or others else 0)


if __name__ == "__main__":
    main()
