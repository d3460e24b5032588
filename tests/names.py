#!/usr/bin/env python3
"""Looks up each definition and clause that the documents name.

    tests/names.py           the last line is `N passed, M failed`

- docs/DEFINITIONS.md names definitions as a crate, a module of its specs/ and names: `violation`
  Counts `viol`, `chosen`; Candidates `vec`. The module must have each of them.
- docs/PROMISES.md has a section for each crate, `### violation: what constraints count`. The last
  cell of a row names calls, types and modules of its src/, and clauses after the word "clause".
  Under the head "Clause" all are clauses.
- Both may name examples/ files and pages of docs/: links must lead to a file.
"""
import glob
import os
import re
import sys

TOP = os.path.dirname(os.path.dirname(os.path.abspath(__file__)))
CRATES = sorted(os.listdir(os.path.join(TOP, "crates")))
NAMED = re.compile(r"`([^`]*)`")
passed, failed = 0, 0


def judge(place, what, holds):
    """Counts one look-up, and tells a failure."""
    global passed, failed
    if holds:
        passed += 1
    else:
        failed += 1
        print("FAILED %s: %s" % (place, what))


def lines_of(name):
    """The numbered lines of a document, or none if it is not there."""
    path = os.path.join(TOP, name)
    if not os.path.exists(path):
        return []
    with open(path, encoding="utf-8") as file:
        return list(enumerate(file.read().split("\n"), 1))


def text_of(*pattern):
    """The text of all files of this pattern, or None if there are none."""
    names = glob.glob(os.path.join(TOP, "crates", *pattern), recursive=True)
    if not names:
        return None
    return "\n".join(open(name, encoding="utf-8").read() for name in sorted(names))


def is_defined(text, name):
    """True if a line of the specs begins with the name, after words like `pub record`."""
    return re.search(r"(?m)^\s*(?:[a-z]+ )*%s(?![\w-])" % re.escape(name), text) is not None


def check_definitions(name):
    """Each `crate` Module `name`, `name`; Module `name` .. of a document."""
    for number, line in lines_of(name):
        place = "%s line %d" % (name, number)
        crate, module = None, None
        for part in re.finditer(r"`([^`]*)`|([A-Z]\w*)|(\.\s)", line):
            quoted, word, stop = part.groups()
            if quoted in CRATES and re.match(r" [A-Z]", line[part.end():]):
                crate, module = quoted, None
            elif stop:
                crate, module = None, None
            elif word and crate and text_of(crate, "specs", "**", word + ".antt") is not None:
                module = word
            elif quoted and crate and module:
                text = text_of(crate, "specs", "**", module + ".antt")
                judge(place, "`%s` %s `%s`" % (crate, module, quoted), is_defined(text, quoted))
            elif quoted and crate:
                judge(place, "no module of `%s` stands before `%s`" % (crate, quoted), False)


def is_item(text, files, name):
    """True if the code has this call, type, trait or module."""
    parts = name.split("::")
    if len(parts) == 2:
        return is_item(text, files, parts[0]) and is_item(text, files, parts[1])
    return name in files or re.search(
        r"\b(?:fn|struct|enum|trait|type|mod) %s\b" % re.escape(name), text) is not None


def check_row(place, crates, head, cell):
    """The names in the last cell of a row of promises."""
    text = "\n".join(text_of(crate, "src", "**", "*.rt") or "" for crate in crates)
    files = {os.path.basename(path)[:-3] for crate in crates for path in glob.glob(
        os.path.join(TOP, "crates", crate, "src", "*.rt"))}
    head_of_clauses = head == "Clause"
    calls, _, clauses = cell.partition("clause")
    if head_of_clauses:
        calls, clauses = "", cell
    for name in NAMED.findall(calls):
        judge(place, "no call `%s` in %s" % (name, crates), is_item(text, files, name))
    for name in NAMED.findall(clauses):
        holds = re.search(r"\bensures %s\b" % re.escape(name), text) is not None
        judge(place, "no clause `%s` in %s" % (name, crates), holds)


def check_promises(name):
    """Each row of the tables of promises."""
    crates, head = [], None
    for number, line in lines_of(name):
        place = "%s line %d" % (name, number)
        if line.startswith("#"):
            crates, head = [], None
            if line.startswith("### "):
                crates = [word for word in re.findall(r"\w+", line.partition(":")[0]) if word != "and"]
                for crate in crates:
                    judge(place, "no crate %s" % crate, crate in CRATES)
        elif line.startswith("|") and crates:
            last = line.strip().strip("|").split("|")[-1].strip()
            if head is None:
                head = last
            elif set(last) - set("-: "):
                check_row(place, crates, head, last)
        else:
            head = None


def check_links(name):
    """Each link to a file of the repository."""
    for number, line in lines_of(name):
        for target in re.findall(r"\]\(([^)#:]+)(?:#[^)]*)?\)", line):
            path = os.path.join(TOP, os.path.dirname(name), target)
            judge("%s line %d" % (name, number), "no file %s" % target, os.path.exists(path))


def main():
    """All look-ups."""
    check_definitions("docs/DEFINITIONS.md")
    check_promises("docs/PROMISES.md")
    for path in sorted(glob.glob(os.path.join(TOP, "*.md")) + glob.glob(os.path.join(TOP, "docs", "*.md"))):
        check_links(os.path.relpath(path, TOP))
    print("%d passed, %d failed" % (passed, failed))
    return 1 if failed else 0


if __name__ == "__main__":
    sys.exit(main())
