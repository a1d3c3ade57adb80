#!/usr/bin/env python3
"""Whether each relative link of the pages leads somewhere, of the *.md files at the top, in docs/ and in examples/; and
whether a page names each script of bench/ and of proof_tools/.

A link has to name a file or a folder of the repository, and behind a `#` the heading of a page. Prints a line for each
link that doesn't, and for each script that no page names, and then fails. Links to other places (`https:` and the like)
are not looked at, and neither is what stands in code.
"""

import glob
import os
import re
import sys

TOP = os.path.dirname(os.path.dirname(os.path.abspath(__file__)))
PAGES = ("*.md", "docs/*.md", "examples/*.md")
SCRIPTS = ("bench/*", "proof_tools/*")
LINK = re.compile(r"\[[^\]]*\]\(\s*([^)\s]+)[^)]*\)")
ELSEWHERE = re.compile(r"[a-z][a-z0-9+.-]*:", re.I)


def without_code(text):
    """The text with its code blocks and code spans blanked, line by line."""
    blank = lambda it: re.sub(r"[^\n]", " ", it[0])
    text = re.sub(r"(?ms)^ *```.*?^ *```", blank, text)
    return re.sub(r"`[^`\n]*`", blank, text)


def anchors(path):
    """What a `#` may name on a page: its headings in lower case, without punctuation, with `-` for each space."""
    with open(path, encoding="utf-8") as page:
        text = re.sub(r"(?ms)^ *```.*?^ *```", "", page.read())
    heads = re.findall(r"(?m)^#+ +(.*?) *$", text)
    return {re.sub(r"[^\w\- ]", "", it.lower()).replace(" ", "-") for it in heads}


def fault(page, link):
    """Why a link of this page leads nowhere, or None."""
    place, _, anchor = link.partition("#")
    path = os.path.normpath(os.path.join(os.path.dirname(page), place)) if place else page
    if os.path.relpath(path, TOP).startswith(".."):
        return "outside the repository"
    if not os.path.exists(path):
        return "no such file"
    if anchor and (not path.endswith(".md") or anchor not in anchors(path)):
        return "no such heading"
    return None


def scripts():
    """The files that are run by their names: their first line says by what."""
    for path in sorted(it for pattern in SCRIPTS for it in glob.glob(os.path.join(TOP, pattern))):
        if os.path.isfile(path):
            with open(path, "rb") as file:
                if file.read(2) == b"#!":
                    yield os.path.relpath(path, TOP)


def unnamed(pages):
    """The scripts that no page names."""
    text = ""
    for page in pages:
        with open(page, encoding="utf-8") as file:
            text += file.read()
    return [it for it in scripts() if not re.search(re.escape(it) + r"\b", text)]


def main():
    pages = sorted(it for pattern in PAGES for it in glob.glob(os.path.join(TOP, pattern)))
    count, faults = 0, 0
    for page in pages:
        with open(page, encoding="utf-8") as file:
            text = without_code(file.read())
        for found in LINK.finditer(text):
            link = found[1]
            if ELSEWHERE.match(link):
                continue
            count += 1
            why = fault(page, link)
            if why:
                faults += 1
                line = text.count("\n", 0, found.start(1)) + 1
                print(f"{os.path.relpath(page, TOP)}:{line}: {link}: {why}")
    nameless = unnamed(pages)
    for it in nameless:
        print(f"{it}: no page names it")
    print(f"{count} links of {len(pages)} pages, {faults} lead nowhere; {len(list(scripts()))} scripts, {len(nameless)} aren't named")
    sys.exit(1 if faults or nameless else 0)


if __name__ == "__main__":
    main()
