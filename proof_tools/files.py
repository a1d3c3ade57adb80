"""Proof files as these tools read them: their imports, and their lemmas with the clauses of each."""

import os
import re
from dataclasses import dataclass

TOP = os.path.dirname(os.path.dirname(os.path.abspath(__file__)))
USE = re.compile(r"^((?:unfoldable )?(?:pub )?use )([^\s{]+)\.\{(.*)\}$")
WORD = re.compile(r"[^\s(){}\[\],;.]+")
LEMMA = re.compile(r"^( *)(?:pub )?([^\s(){}:=]+) : (.*)$")
OTHERS = {"abbrev", "record", "data", "ruleset", "use", "field", "|"}


def folder_of(crate):
    return os.path.join(TOP, "crates", crate)


def proof_files(crate):
    """The crate's files of proofs, but for those that name the others or pass names on."""
    top = os.path.join(folder_of(crate), "proofs")
    found = [os.path.join(at, name) for at, _, names in os.walk(top) for name in names if name.endswith(".antt")]
    return sorted(it for it in found if os.path.basename(it) not in ("Lib.antt", "Names.antt", "Proof.antt"))


def read(path):
    with open(path, encoding="utf-8") as it:
        return it.read()


def write(path, text):
    with open(path, "w", encoding="utf-8") as it:
        it.write(text)


def answers_goals(text):
    """Whether the file answers the goals of a function."""
    return re.search(r"Goals as|Given as", text) is not None


def items_of(match):
    return [it.strip() for it in match.group(3).split(",")]


def depth_of(line):
    return len(line) - len(line.lstrip(" "))


@dataclass
class Lemma:
    name: str
    depth: int
    first: int  # the line of its signature
    clauses: list  # the first line of each, and the line behind its last
    type: str

    def start(self):
        return self.clauses[0][0]

    def end(self):
        return self.clauses[-1][1]


def end_of(lines, at, depth):
    """The line behind a clause: deeper lines belong to it, closing brackets, and blank lines with a deeper one behind them."""
    while at < len(lines):
        if lines[at].strip():
            if depth_of(lines[at]) <= depth and lines[at].strip()[0] not in "]})":
                break
            at += 1
        else:
            behind = next((it for it in range(at, len(lines)) if lines[it].strip()), len(lines))
            if behind == len(lines) or depth_of(lines[behind]) <= depth:
                break
            at = behind
    return at


def lemmas_of(lines):
    """The lemmas of a file that have clauses, those of a `module` block too."""
    found, at = [], 0
    while at < len(lines):
        match = LEMMA.match(lines[at].rstrip("\n"))
        depth = depth_of(lines[at])
        if not match or match.group(2) in OTHERS or depth not in (0, 2):
            at += 1
            continue
        name, end = match.group(2), at + 1
        while end < len(lines) and lines[end].strip() and depth_of(lines[end]) > depth:
            end += 1
        said = " ".join(it.strip() for it in lines[at:end]).split(" : ", 1)[1]
        while end < len(lines) and lines[end].startswith(" " * depth + "unfolding "):
            end += 1
        clauses = []
        while end < len(lines) and re.match(rf" {{{depth}}}{re.escape(name)} (?!:)", lines[end]):
            behind = end_of(lines, end + 1, depth)
            clauses.append((end, behind))
            end = behind
        if clauses:
            found.append(Lemma(name, depth, at, clauses, said))
        at = max(end, at + 1)
    return found


def split_at(text, mark):
    """The parts of the text between the marks that stand in no bracket."""
    parts, part, depth, at = [], "", 0, 0
    while at < len(text):
        depth += (text[at] in "({[⟦") - (text[at] in ")}]⟧")
        if depth == 0 and text.startswith(mark, at):
            parts.append(part)
            part, at = "", at + len(mark)
        else:
            part, at = part + text[at], at + 1
    return [it.strip() for it in [*parts, part]]
