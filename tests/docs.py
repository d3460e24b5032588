#!/usr/bin/env python3
"""Runs what the documents show, and compares text, line and number.

    tests/docs.py            checks; the last line is `N passed, M failed`
    tests/docs.py --write    writes what the commands print into the documents, where it differs

What is run, in each document of DOCUMENTS, from the top of the repository:

- each command of a block whose first line begins with `$ `. The lines below it, up to the next
  command, are what it prints: standard output, then standard error;
- each row of a table whose first cell is a command and whose second is a number and a line:
  the exit status and what stands on standard error, with nothing on standard output;
- each row of the tables of refused grammars, forms and spelled forms in FORMATS.md;
- each block that begins with `otp 1`: some file of examples/ has these lines, comments aside.

A command is run if its first word is in RUN, and a new command of the program needs no line here.
A block of other commands, as `rt ci`, is passed over. The program is the one that ./otp runs, or
the file in the environment variable OTP_PROGRAM.
"""
import os
import re
import subprocess
import sys
import tempfile

DOCUMENTS = [
    "README.md", "docs/GUIDE.md", "docs/FORMATS.md", "docs/GALLERY.md", "docs/TROUBLE.md",
    "docs/TOOLS.md", "docs/DEFINITIONS.md",
]
RUN = ("./otp", "tools/", "python3 ")
TOP = os.path.dirname(os.path.dirname(os.path.abspath(__file__)))
BASE = "otp 1\ntier A input\ntier a overt\n"
TIERS = ["tier t%d" % number for number in range(13)]

# Cells of the tables of refusals that describe a text instead of showing it.
GRAMMARS = {
    "an empty file in place of `base`": "",
    "in place of `base`: `otp 1`, 5 input tiers, 8 overt tiers": "otp 1\n" + "".join(
        "%s %s\n" % (tier, "input" if number < 5 else "overt") for number, tier in enumerate(TIERS)),
    "25 constraints of different names": BASE + "".join(
        "constraint C%d A -> a\n" % number for number in range(25)),
    "in place of `base`: `otp 1`, `tier a overt`": "otp 1\ntier a overt\n",
    "in place of `base`: `otp 1`, `tier A input`": "otp 1\ntier A input\n",
}
FORMS = {
    "the empty word": "",
    "`[`, then `\\|` 63 times, then `]`": "[ " + "| " * 63 + "]",
    "`=` and 64 times `t`": "=" + 64 * "t",
}

passed, failed = 0, 0


def judge(place, what, found, wanted):
    """Counts one comparison, and tells a difference."""
    global passed, failed
    if found == wanted:
        passed += 1
        return
    failed += 1
    print("FAILED %s: %s\n  wanted: %s\n  found:  %s" % (place, what, wanted, found))


def shell(command):
    """Status, standard output and standard error of a command at the top of the repository."""
    done = subprocess.run(command, shell=True, cwd=TOP, capture_output=True, text=True)
    return done.returncode, done.stdout, done.stderr


def program(*words):
    """Status and standard error of the program with these words."""
    done = subprocess.run([os.path.join(TOP, "otp"), *words], capture_output=True, text=True)
    return done.returncode, done.stderr.strip("\n")


def commands_of(block):
    """The commands of a block, each with the lines below it."""
    commands = []
    for line in block:
        if line.startswith("$ "):
            commands.append((line[2:], []))
        else:
            commands[-1][1].append(line)
    return commands


def run_block(place, block, write):
    """Compares a block of commands; gives its lines, as they are printed where `write` is set."""
    lines = []
    for command, wanted in commands_of(block):
        lines.append("$ " + command)
        if not command.startswith(RUN):
            lines += wanted
            continue
        _, out, err = shell(command)
        found = (out + err).splitlines()
        if not write:
            judge(place, command, found, [line.rstrip("\r") for line in wanted])
        lines += found
    return lines


def grammar_lines(text):
    """The lines of a grammar without comments, indents and empty lines."""
    lines = [" ".join(line.split(";")[0].split()) for line in text]
    return [line for line in lines if line]


def grammar_files():
    """The lines of each grammar in examples/."""
    files = []
    for folder, _, names in os.walk(os.path.join(TOP, "examples")):
        for name in sorted(names):
            if name.endswith(".otp"):
                with open(os.path.join(folder, name), encoding="utf-8") as file:
                    files.append(grammar_lines(file))
    return files


def cells_of(line):
    """The cells of a row of a table; `\\|` is a bar within a cell."""
    cells = line.strip().strip("|").replace("\\|", "\0").split("|")
    return [cell.replace("\0", "\\|").strip() for cell in cells]


def code_of(cell):
    """The text of a cell that is one piece of code, or None."""
    match = re.fullmatch(r"`([^`]*)`", cell)
    return match.group(1).replace("\\|", "|") if match else None


def refused_grammar(cell):
    """The grammar text of a row of refused grammars."""
    return GRAMMARS[cell] if cell in GRAMMARS else BASE + code_of(cell) + "\n"


def run_row(place, head, cells):
    """Compares a row of a table, if it shows a command or a refused text."""
    code = code_of(cells[0])
    status = re.fullmatch(r"(\d+), `([^`]*)`", cells[1]) if len(cells) > 1 else None
    if code is not None and status and code.startswith(RUN):
        found = shell(code)
        judge(place, code, (found[0], found[2].strip("\n"), found[1]),
              (int(status.group(1)), status.group(2), ""))
    elif head and head[-1] == "Line on standard error" and head[0] == "Cause":
        line = code_of(cells[-1])
        if head[2].startswith("Lines below"):
            with tempfile.NamedTemporaryFile("w", suffix=".otp") as file:
                file.write(refused_grammar(cells[2]))
                file.flush()
                judge(place, cells[2], program("canon", file.name), (3, line))
        else:
            word = FORMS[cells[2]] if cells[2] in FORMS else code_of(cells[2])
            grammar = "letters" if "letters" in head[2] else "base"
            grammar = os.path.join(TOP, "examples", grammar + ".otp")
            judge(place, cells[2], program("show", grammar, word), (4, line))


def read_document(name, grammars, write):
    """Goes through one document; gives its lines."""
    with open(os.path.join(TOP, name), encoding="utf-8") as file:
        lines = file.read().split("\n")
    result, block, head = [], None, None
    for number, line in enumerate(lines, 1):
        place = "%s line %d" % (name, number)
        if block is None and line.startswith("```"):
            block = []
        elif block is not None and line.startswith("```"):
            if block and block[0].startswith("$ "):
                block = run_block(place, block, write)
            elif block and block[0] == "otp 1" and not write:
                judge(place, "a grammar of examples/", grammar_lines(block) in grammars, True)
            result += block
            block = None
        elif block is not None:
            block.append(line)
            continue
        elif not line.startswith("|"):
            head = None
        elif head is None:
            head = cells_of(line)
        elif not line.strip("|-: "):
            pass
        elif not write:
            run_row(place, head, cells_of(line))
        result.append(line)
    return result


def main():
    """Checks or writes each document that is there."""
    write = sys.argv[1:] == ["--write"]
    grammars = grammar_files()
    for name in DOCUMENTS:
        path = os.path.join(TOP, name)
        if not os.path.exists(path):
            continue
        text = "\n".join(read_document(name, grammars, write))
        if write:
            with open(path, "w", encoding="utf-8") as file:
                file.write(text)
    if not write:
        print("%d passed, %d failed" % (passed, failed))
    return 1 if failed else 0


if __name__ == "__main__":
    sys.exit(main())
