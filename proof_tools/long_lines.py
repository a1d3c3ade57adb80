#!/usr/bin/env python3
"""Breaks the lines of specs and proofs that have more than 160 columns, at the outermost operator that lets them fit, and
joins a field of a record with its value where both fit on one line.

usage: proof_tools/long_lines.py [--count] [CRATE ..]

Without names all crates are read. With --count nothing is written, and the lines that are too long are counted, imports
aside: rt fmt writes an import that doesn't stand on one line with a line for each name. Run `rt fmt` afterwards.
"""
import os
import re
import subprocess
import sys

from files import TOP, read, write

WIDTH = 160
STEP = 4  # columns that what goes on is indented by
LEAST = 40  # columns that a line has at least beyond its indentation
OPENING, CLOSING = "({[⟨", ")}]⟩"
# A break stands before these, those that bind least first.
BEFORE = [["→"], ["×", "⊎", "↔"], ["≡", "≤", "<"], ["∙", "++", "∷"], ["&&", "||", "then", "else"], ["+", "∘"]]
# .. and behind these.
BEHIND = ["=", "in", "of", "↦"]
# No break before and behind these.
FOLLOWS = ["=", ":", ".", "in", "of", "↦", "}", "at", "as", "is"]
FIELD = re.compile(r"^ +[^\s:]+ =$")
HOLDS = ["λ", "let", "pub", "by", "rw", "if", "with", "module", "record", "elim", "subst", "at", "as", "is", ":", "∃", "∀"]


def rank_of(word):
    for rank, words in enumerate(BEFORE):
        if word in words:
            return rank
    return None


def words_of(line):
    """The words of a line that begin outside a text: where each begins, itself, and how many brackets are open before it."""
    found, depth, at, is_text = [], 0, 0, False
    for word in line.split(" "):
        if word and not is_text:
            found.append((at, word, depth))
        if word.replace('\\"', "").count('"') % 2 == 1:
            is_text = not is_text
        if not is_text:
            depth += sum(c in OPENING for c in word) - sum(c in CLOSING for c in word)
        at += len(word) + 1
    return found


def breaks_of(line, indentation):
    """Where the line can go on in the next one: how many brackets are open, how little binds there, and the column. Between the
    arguments of a call it goes on only where nothing else is near."""
    words = words_of(line)
    binds = False  # between a λ and its dot
    for (_, before, _), (at, word, depth) in zip(words, words[1:]):
        binds = (binds or before.lstrip("(") == "λ") and not before.endswith(".")
        if at < indentation + LEAST or at > WIDTH + 1 or binds or word in FOLLOWS:
            continue
        if before in BEHIND:
            yield depth, 0, at
        elif rank_of(word) is not None:
            yield depth, rank_of(word), at
        elif rank_of(before) is None and before not in HOLDS:
            yield (depth + 1, 8, at) if word[0] in "(λ" else (depth + 2, 9, at)


def broken(line):
    """The line, on as many as it takes."""
    lines = []
    indentation = len(line) - len(line.lstrip(" "))
    goes_on = rank_of(line.split()[0]) is not None
    behind = indentation if goes_on else indentation + STEP
    while len(line) > WIDTH:
        found = list(breaks_of(line, len(line) - len(line.lstrip(" "))))
        if not found:
            break
        least = min((depth, rank) for depth, rank, _ in found)
        at = max(at for depth, rank, at in found if (depth, rank) == least)
        lines.append(line[:at].rstrip(" "))
        line = " " * behind + line[at:]
    return lines + [line]


def is_left(line):
    stripped = line.lstrip(" ")
    return stripped.startswith(("--", "{-", "use ", "ghost use ", "pub use ")) or " -- " in line


def is_long(line):
    return len(line) > WIDTH and not is_left(line)


def depth_of(line):
    return len(line) - len(line.lstrip(" ")) if line.strip() else 0


def joined(lines):
    """The lines, with a field's name and its value on one where the value has one line and both fit."""
    found, at = [], 0
    while at < len(lines):
        line, value, behind = (lines[at : at + 3] + ["", ""])[:3]
        one = f"{line} {value.strip()}"
        if FIELD.match(line) and depth_of(value) > depth_of(line) >= depth_of(behind) and not is_long(one) and "--" not in value:
            found.append(one)
            at += 2
        else:
            found.append(line)
            at += 1
    return found


def files_of(crates):
    folders = [f"crates/{crate}" for crate in crates] or ["crates"]
    listed = subprocess.run(["git", "ls-files", *folders], cwd=TOP, check=True, capture_output=True, text=True)
    return [os.path.join(TOP, path) for path in listed.stdout.split() if path.endswith(".antt")]


def main():
    only_count = "--count" in sys.argv[1:]
    count = 0
    for path in files_of([word for word in sys.argv[1:] if not word.startswith("-")]):
        lines = read(path).split("\n")
        long = sum(is_long(line) for line in lines)
        count += long
        laid_out = joined([part for line in lines for part in (broken(line) if is_long(line) else [line])])
        if laid_out != lines and not only_count:
            write(path, "\n".join(laid_out))
    print(f"{count} lines of more than {WIDTH} columns")


if __name__ == "__main__":
    main()
