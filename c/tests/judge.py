"""Judges journals by the second judge of bench/: `judge.py FILE..`. Each has to be a legal history in which the node ended."""

import os
import sys

sys.path.insert(0, os.path.join(os.path.dirname(os.path.abspath(__file__)), "..", "..", "bench"))

from reference_machine import legal  # noqa: E402
from reference_text import read_journal  # noqa: E402


def fault(path):
    """What is wrong with a journal, or None."""
    with open(path) as file:
        text = file.read()
    journal = read_journal(text)
    if isinstance(journal, str):
        return journal
    place = legal(journal.text, journal.settings, journal.entries)
    if place:
        return f"illegal entry {place}: {text.splitlines()[place]}"
    if not any((entry.op, entry.reply) == ("final", ("ok",)) for entry in journal.entries):
        return "the node didn't end"
    return None


def main():
    found = [(path, fault(path)) for path in sys.argv[1:]]
    for path, what in found:
        if what:
            print(f"{os.path.basename(path)}: {what}")
    sys.exit(1 if any(what for _, what in found) else 0)


if __name__ == "__main__":
    main()
