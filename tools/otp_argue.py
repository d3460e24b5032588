#!/usr/bin/env python3
"""What tableaux say of the ranking: comparative tableaux, ranking arguments, and strata.

    a tableau | tools/otp_argue.py
    tools/otp_argue.py TABLEAU ..            files with what `otp tableau` wrote for one grammar

Beside each row that loses stand the constraints that decide it (Prince 2002): `W` if the constraint
counts more on it than on the winner, the first optimal candidate, and `L` if it counts less. A ranking
lets the winner beat the row if and only if each L is below some W. So `A or B >> C D` says that A is
above C and D, or B is. An argument that follows from the others is left out.

The strata are those of recursive constraint demotion (Tesar & Smolensky): each constraint as high as
all arguments allow. Any ranking that keeps their order is one under which all winners win against
the rows that are listed; rows that are not listed may demand more.

Python's standard library alone. No promise of Kullaphen rests on this file.
"""
import sys

import otp_read as read


def cut(text):
    """The tableaux of a text, each from its line of names on."""
    found = []
    for line in text.splitlines():
        words = read.cut_row(line)[1]
        if line[:2] not in ("  ", "> "):
            raise read.Unreadable("this is no line of a tableau: %s" % line)
        if line[:2] == "  " and not any(word.rstrip("!").isdigit() for word in words):
            found.append([])
        elif not found:
            raise read.Unreadable("a tableau begins with the form and the names of the constraints")
        found[-1].append(line)
    return [read.tableau("\n".join(lines)) for lines in found]


def compared(names, winner, row):
    """The constraints that prefer the winner to a row, and those that prefer the row."""
    sides = list(zip(names, winner.counts, row.counts))
    return (frozenset(name for name, least, count in sides if count > least),
            frozenset(name for name, least, count in sides if count < least))


def strata(names, arguments):
    """The constraints by recursive demotion, highest first; None if no ranking agrees with all."""
    result, left, rest = [], list(names), list(arguments)
    while left:
        top = [name for name in left if not any(name in lower for _, lower in rest)]
        if not top:
            return None
        result.append(top)
        left = [name for name in left if name not in top]
        rest = [(upper, lower) for upper, lower in rest if not upper & set(top)]
    return result


def needed(names, arguments):
    """The arguments that do not follow from the others: no ranking agrees with these, and has an L of
    the argument above all its Ws."""
    kept = list(dict.fromkeys(argument for argument in arguments if argument[1]))
    for argument in list(kept):
        others = [other for other in kept if other != argument]
        if strata(names, others + [(argument[1], argument[0])]) is None:
            kept = others
    return kept


def say_row(names, sides, text):
    """A line of a comparative tableau."""
    cells = ["W" if name in sides[0] else "L" if name in sides[1] else "" for name in names]
    print("  %s  %s" % (" ".join("%-*s" % (len(name), cell) for name, cell in zip(names, cells)), text))


def say_tableau(form, names, rows):
    """A comparative tableau, of the constraints that tell rows from the winner; its arguments."""
    winner, losers = rows[0], [row for row in rows if not row.optimal]
    arguments = [compared(names, winner, row) for row in losers]
    print("%s: %s wins" % (read.text_of(form), read.text_of(winner.timeline)))
    shown = [name for name in names if any(name in upper | lower for upper, lower in arguments)]
    if shown:
        print("  " + " ".join(shown))
    for row, sides in zip(losers, arguments):
        say_row(shown, sides, read.text_of(row.timeline))
    return arguments


def main(words):
    """Reads tableaux from the files that are named, or from standard input."""
    texts = []
    for word in words:
        with open(word, encoding="utf-8") as file:
            texts.append(file.read())
    tableaux = [found for text in texts or [sys.stdin.read()] for found in cut(text)]
    if not tableaux:
        return "otp_argue: nothing to read; what otp wrote to standard error says why"
    names, arguments = tableaux[0][1], []
    for form, others, rows in tableaux:
        if sorted(others) != sorted(names):
            raise read.Unreadable("these tableaux are not of one grammar: their constraints differ")
        arguments += say_tableau(form, others, rows)
    found = strata(names, arguments)
    if found is None:
        return "otp_argue: no ranking lets all of these win"
    kept = needed(names, arguments)
    print("arguments:" if kept else "arguments: none")
    for upper, lower in kept:
        print("  %s >> %s" % (" or ".join(name for name in names if name in upper),
                              " ".join(name for name in names if name in lower)))
    print("strata: %s" % " >> ".join(" ".join(stratum) for stratum in found))
    return None


if __name__ == "__main__":
    try:
        sys.exit(main(sys.argv[1:]))
    except (OSError, read.Unreadable) as error:
        sys.exit("otp_argue: %s" % error)
    except BrokenPipeError:
        sys.stderr.close()
