#!/usr/bin/env python3
"""Writes the man page of otp from the tables of docs/FORMATS.md.

    tools/otp_man.py > tools/otp.1
    man tools/otp.1

Python's standard library alone.
"""
import os
import re

TOP = os.path.dirname(os.path.dirname(os.path.abspath(__file__)))


def table_below(text, heading, number=0):
    """The rows of a table below a heading, without its head."""
    section = text.split("\n## %s\n" % heading)[1].split("\n## ")[0]
    tables = re.findall(r"(?m)(?:^\|.*\n)+", section)
    rows = [row.strip().strip("|").replace("\\|", "\0").split("|") for row in tables[number].splitlines()[2:]]
    return [[cell.strip().replace("\0", "|") for cell in row] for row in rows]


def roff(text):
    """Text for a man page: code in bold, and no sign that roff takes for itself."""
    text = text.replace("\\", "\\e").replace("-", "\\-")
    text = re.sub(r"`([^`]*)`", r"\\fB\1\\fR", text)
    return re.sub(r"(?m)^([.'])", r"\\&\1", text)


def commands(text):
    """The words of each command, and what it writes."""
    return [(words.strip("`"), what) for words, what in table_below(text, "Words of the command line")]


def page(text):
    """The man page."""
    lines = ['.TH OTP 1 "" "Kullaphen" "User commands"', ".SH NAME",
             "otp \\- all optimal candidates of a form, in Primitive Optimality Theory", ".SH SYNOPSIS"]
    for words, _ in commands(text):
        lines += [".B " + roff(words), ".br"]
    lines += [".SH DESCRIPTION", "A grammar of tiers and ranked constraints is read from a file, and a form or a",
              "timeline from the command line. Words are positional; there are no options.", ".SH COMMANDS"]
    for words, what in commands(text):
        lines += [".TP", ".B " + roff(words), "Writes " + roff(what) + "."]
    lines += [".SH WORDS"]
    for word, what in table_below(text, "Words of the command line", 1):
        lines += [".TP", ".I " + roff(word.strip("`")), roff(what).rstrip(".") + "."]
    lines += [".PP", "Put forms and timelines in double quotes. Shells take [, ], |, * and spaces for themselves, and",
              "zsh also a word that begins with =.", ".SH EXIT STATUS",
              "If the status is not 0, one line on standard error says why."]
    for number, line, what in table_below(text, "Statuses"):
        lines += [".TP", ".B " + number, roff("%s: %s" % (line, what) if line != "none" else what) + "."]
    lines += [".TP", ".B 15", "Nothing is written: the system did not hand over the words.",
              ".TP", ".B 125", "The launcher could not build the program.", ".SH ENVIRONMENT", ".TP", ".B OTP_PROGRAM",
              "A built program. The launcher runs it, and builds nothing.", ".SH EXAMPLES", ".nf",
              'otp show examples/gallery/cv.otp "=tat"', 'otp score examples/ranked.otp "[[ ]]"', ".fi",
              ".SH SEE ALSO", "docs/GUIDE.md, docs/FORMATS.md and docs/TROUBLE.md in the repository."]
    return "\n".join(lines) + "\n"


if __name__ == "__main__":
    with open(os.path.join(TOP, "docs", "FORMATS.md"), encoding="utf-8") as file:
        print(page(file.read()), end="")
