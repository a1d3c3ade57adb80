#!/usr/bin/env python3
"""Whether one tactic closes a lemma: `proof_tools/one_tactic.py CRATE [FUNCTION]`.

The crate must be proved (`rt check`) before. For each lemma of its proofs with a body of several lines this tries, one
way after the other,

1. the whole lemma as `NAME ARGUMENTS = grind (arith, nat_tests)`
2. the same with the lemmas that its body cites
3. each clause of several lines so, with its recursive calls and what it cites
4. the same, with what it cites applied to the arguments that it has there

It tries all lemmas at once, has the crate checked, puts back those that the check names, and goes on until it names none.
Definitions are left alone. With a FUNCTION, the path of a small one that has a file `Answers.antt`, the check is of the
lemmas and of this function alone, which takes less time; check the whole crate at the end. See the difference, run
`rt tidy`, which takes imports out that nothing needs, and check again.
"""

import os
import re
import subprocess
import sys

from files import USE, WORD, answers_goals, folder_of, items_of, lemmas_of, proof_files, read, split_at, write

RULES = "arith, nat_tests"
HOMES = {"nat_tests": "Rattle.std.proofs.lemmas.Bool.Decides", "arith": "Rattle.std.proofs.Common"}
TURNS = 8


def telescope(text):
    """The names that brackets with a type bind, or None where the text is a plain type."""
    names, rest = [], text.strip()
    while rest:
        depth = 0
        for end, it in enumerate(rest):
            depth += (it in "({[⟦") - (it in ")}]⟧")
            if depth == 0:
                break
        group = rest[: end + 1]
        if not re.match(r"^[({][^\s():]+( [^\s():]+)* : ", group):
            return None
        names += group[1 : group.index(" : ")].split() if group[0] == "(" else []
        rest = rest[end + 1 :].strip()
    return names


def arguments(lemma):
    """The names of its explicit arguments; premises without a name get one."""
    names, unnamed = [], 0
    for part in split_at(lemma.type, "→")[:-1]:
        bound = telescope(part)
        if bound is None:
            unnamed += 1
            bound = [f"e{unnamed}"]
        names += bound
    return names


def says_something(lemma):
    """Whether its result is a proposition, as far as its text tells."""
    result = split_at(lemma.type, "→")[-1]
    return re.search(r"[≡≤<⊥≢⊎×]", result) is not None or re.match(r"\(?[A-Z]", result) is not None


def citable(text, lemmas):
    """Names of lemmas that the file has or imports."""
    found = {it.name for it in lemmas if says_something(it)}
    for line in text.splitlines():
        if match := USE.match(line):
            found |= {it for it in items_of(match) if re.match(r"^([a-z]\w*[-_]|[A-Z]\w*-[a-z])", it)}
    return found


def cited_in(body, names, own):
    return [it for it in dict.fromkeys(WORD.findall(body)) if it in names and it != own]


def calls_of(name, head, body):
    """The recursive calls of a clause, each as far as its arguments are bound by the clause's head."""
    bound, found = set(WORD.findall(head)), []
    for match in re.finditer(rf"(?<![^\s(\[]){re.escape(name)}(?= )", body):
        call, rest = name, body[match.end() :]
        while argument := re.match(r" (\([^()]*\)|[^\s(){}\[\],;]+)", rest):
            words = re.findall(r"[^\s(){}\[\],;.]+", argument.group(1))
            if any(re.match(r"^[a-z]\w*$", it) and it not in bound for it in words) or words[0] in ("in", "=", "∙", "as"):
                break
            call, rest = f"{call} {argument.group(1)}", rest[argument.end() :]
        if call not in found:
            found.append(call)
    return found[:3]


def tried_as(way, lemma, lines, names):
    """The lemma's clauses in this way, or None where there is nothing to try."""
    body, margin = "".join(lines[lemma.start() : lemma.end()]), " " * lemma.depth
    head = margin + " ".join([lemma.name, *arguments(lemma)])
    if way == 1:
        return [f"{head} = grind ({RULES})\n"]
    if way == 2:
        cited = cited_in(body, names, lemma.name)[:6]
        is_recursive = body.count(lemma.name + " ") > len(lemma.clauses)
        return [f"{head} = grind ({', '.join([RULES, *cited])})\n"] if cited and not is_recursive else None
    clauses = []
    for first, behind in lemma.clauses:
        text = "".join(lines[first:behind])
        if behind - first < 2 or "where" in text or not re.search(r" =\s", text):
            clauses.append(text)
            continue
        head, body = re.split(r" =(?=\s)", text, maxsplit=1)
        body = " ".join(body.split())
        cited = cited_in(body, names, lemma.name)[:5]
        facts = [call for it in cited for call in calls_of(it, head, body)] if way == 4 else cited
        clauses.append(f"{head} = grind ({', '.join([RULES, *calls_of(lemma.name, head, body), *facts])})\n")
    return clauses if sum(it.count("\n") for it in clauses) < lemma.end() - lemma.start() else None


def with_rules(lines):
    """The file's lines with the rules imported, and how many lines that takes."""
    added = []
    for word, home in HOMES.items():
        if not any(word in items_of(it) for line in lines if (it := USE.match(line.rstrip("\n")))):
            at = next((at for at, line in enumerate(lines) if line.startswith(f"use {home}.{{")), None)
            if at is None:
                added.append(f"use {home}.{{{word}}}\n")
            else:
                lines[at] = lines[at].replace(".{", ".{" + word + ", ", 1)
    at = next((at for at, line in enumerate(lines) if line.startswith("use ")), 1)
    lines[at:at] = added
    return len(added)


def written(lines, chosen):
    """The file with these lemmas tried, and the span of lines of each."""
    out, spans, at = [], [], 0
    starts = {lemma.start(): (key, lemma, clauses) for key, (lemma, clauses) in chosen.items()}
    while at < len(lines):
        if at in starts:
            key, lemma, clauses = starts[at]
            first = len(out) - (lemma.start() - lemma.first)
            out += "".join(clauses).splitlines(keepends=True)
            spans.append((first + 1, len(out), key))
            at = lemma.end()
        else:
            out.append(lines[at])
            at += 1
    more = with_rules(out) if chosen else 0
    return out, [(first + more, last + more, key) for first, last, key in spans]


def check(folder, function):
    said = subprocess.run(["rt", "check", *(["--only", function] if function else [])], cwd=folder, capture_output=True, text=True)
    return said.stdout + said.stderr


def errors_in(said):
    """The lines with errors of their own, by file, and those where a tactic chose what a definition means: errors that only
    depend on others aren't counted."""
    found = {}
    for match in re.finditer(r"((?:proofs|specs)/[^\s:]+\.antt):(\d+):\d+: (error|note)(.*)", said):
        if "chosen a term" in match.group(4) or match.group(3) == "error" and "not checked" not in match.group(4):
            found.setdefault(match.group(1), set()).add(int(match.group(2)))
    return found


def try_way(way, folder, paths, function):
    """Tries all lemmas in this way, and returns how many lines that saved."""
    before, chosen = {}, {}
    for path in paths:
        lines = read(path).splitlines(keepends=True)
        lemmas = lemmas_of(lines)
        names = citable("".join(lines), lemmas)
        for lemma in lemmas:
            if lemma.end() - lemma.start() >= 2 and says_something(lemma):
                if clauses := tried_as(way, lemma, lines, names):
                    before[path] = lines
                    chosen.setdefault(path, {})[lemma.name, lemma.first] = lemma, clauses
    for _ in range(TURNS):
        spans, saved = {}, 0
        for path, lines in before.items():
            out, spans[path] = written(list(lines), chosen[path])
            write(path, "".join(out))
            saved += len(lines) - len(out)
        errors, refused = errors_in(check(folder, function)), 0
        for file, numbers in errors.items():
            path = os.path.join(folder, file)
            for key in {key for first, last, key in spans.get(path, []) for it in numbers if first <= it <= last}:
                refused += chosen[path].pop(key, None) is not None
        if not errors:
            print(f"way {way}: {sum(map(len, chosen.values()))} lemmas, {saved} lines less", flush=True)
            return saved
        print(f"way {way}: {refused} put back", flush=True)
        if not refused:
            break
    for path, lines in before.items():
        write(path, "".join(lines))
    print(f"way {way}: all put back", flush=True)
    return 0


def reach(folder, paths, function):
    """Has the function's answers import all files, and returns how to put that right."""
    if not function:
        return lambda: None
    answers = os.path.join(folder, "proofs", *function.split("::"), "Answers.antt")
    old, top = read(answers), os.path.join(folder, "proofs")
    names = [os.path.relpath(it, top)[: -len(".antt")].replace(os.sep, ".") for it in paths]
    library = f"Rattle.{os.path.basename(folder)}.proofs"
    write(answers, "".join(f"use {library}.{name} as all{at}\n" for at, name in enumerate(names)) + old)
    return lambda: write(answers, old)


def main():
    if len(sys.argv) not in (2, 3):
        sys.exit(__doc__)
    folder, function = folder_of(sys.argv[1]), (sys.argv[2:] or [None])[0]
    paths = [it for it in proof_files(sys.argv[1]) if not answers_goals(read(it))]
    put_right = reach(folder, paths, function)
    try:
        print(f"{sum(try_way(way, folder, paths, function) for way in (1, 2, 3, 4))} lines less")
    finally:
        put_right()


if __name__ == "__main__":
    main()
