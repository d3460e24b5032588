#!/usr/bin/env python3
"""Shows what otp writes: names beside counts, tiers as pictures, how many optima and which surfaces.

    ./otp generate G FORM | tools/otp_view.py G      counts, example, optima and their surfaces
    ./otp show G FORM | tools/otp_view.py G          counts and example
    tools/otp_view.py G TIMELINE                     the picture of a timeline
    a tableau | tools/otp_view.py G                  the tableau, with a picture of each row

Words after these: `svg` writes the picture of the example or the timeline as SVG instead; `brief`
leaves out the picture and what is not violated; `all N` lists up to N surfaces instead of 8, and as
many optima.

Python's standard library alone. No promise of Kullaphen rests on this file.
"""
import sys

import otp_read as read

STEP, ROW, LEFT = 40, 28, 70  # of an SVG picture: a column, a tier, and the names


def draw(names, columns):
    """A timeline as text: brackets for each tier over a time axis, which numbers the columns."""
    wide = max(len(name) for name in names + ["time"])
    lines = ["%-*s  %s" % (wide, "time", "".join("%-4d" % place for place in range(len(columns))))]
    for tier, name in enumerate(names):
        row = ""
        for column in columns:
            symbol = column[tier]
            row += {"-": " ", "+": "_"}.get(symbol, symbol) + ("___" if symbol in "[+|" else "   ")
        lines.append("%-*s  %s" % (wide, name, row))
    return "\n".join("  " + line.rstrip() for line in lines)


def draw_svg(names, columns):
    """A timeline as SVG: each constituent is a bar over a time axis."""
    width, height = LEFT + STEP * max(len(columns), 1) + 10, ROW * (len(names) + 1) + 10
    parts = ['<svg xmlns="http://www.w3.org/2000/svg" width="%d" height="%d" font-family="sans-serif"'
             ' font-size="13">' % (width, height)]
    for place in range(len(columns)):
        x = LEFT + STEP * place
        parts.append('<line x1="%d" y1="20" x2="%d" y2="%d" stroke="#ccc"/>' % (x, x, height - 8))
        parts.append('<text x="%d" y="14" text-anchor="middle" fill="#888">%d</text>' % (x, place))
    for tier, name in enumerate(names):
        y, begun = ROW * (tier + 1), 0
        parts.append('<text x="6" y="%d">%s</text>' % (y + 15, name))
        for place, column in enumerate(columns):
            if column[tier] in "]|":
                parts.append('<rect x="%d" y="%d" width="%d" height="18" rx="4" fill="#9bd" stroke="#357"/>'
                             % (LEFT + STEP * begun + 2, y, STEP * (place - begun) - 4))
            if column[tier] in "[|":
                begun = place
    return "\n".join(parts + ["</svg>"])


def say_counts(names, counts, brief):
    """The counts with their names, those that are not 0 first."""
    broken = ["%s %d" % (name, count) for name, count in zip(names, counts) if count]
    kept = [name for name, count in zip(names, counts) if not count]
    print("violated: %s" % (", ".join(broken) or "none"))
    if kept and not brief:
        print("not violated: %s" % " ".join(kept))


def amount(number, one, many):
    """A number with its noun; None is infinitely many."""
    return "infinitely many %s" % many if number is None else "%d %s" % (number, one if number == 1 else many)


def say_surface(grammar, surface):
    """A surface as columns, and spelled if the grammar has sounds."""
    text = read.text_of(surface)
    return "%s   %s" % (text, read.spelled(grammar, surface)) if grammar.sounds else text


def say_optima(grammar, found, most, listed):
    """How many optima an answer has, and their surfaces; the optima themselves if they are listed."""
    surfaces = read.surfaces(grammar, found)
    optima, heard = read.how_many(found), read.how_many(surfaces)
    print("%s with %s:" % (amount(optima, "optimal candidate", "optimal candidates"),
                           amount(heard, "surface", "surfaces")))
    shown = read.timelines(surfaces, most)
    for surface in shown:
        print("  " + say_surface(grammar, surface))
    if heard is None or heard > len(shown):
        print("  ..")
    if listed:
        print("optimal candidates:")
        for columns in read.timelines(found, most):
            print("  " + read.text_of(columns))


def say_tableau(grammar, text):
    """A tableau: its text, and a picture of each row, once if a row is there twice."""
    _, _, rows = read.tableau(text)
    print(text.rstrip("\n"))
    drawn = []
    for row in rows:
        read.check_width(grammar, row.timeline, "a row")
        if row.timeline in drawn:
            continue
        drawn.append(row.timeline)
        print("\n%s%s" % ("optimal: " if row.optimal else "loses at %s: " % row.worse, read.text_of(row.timeline)))
        print(draw(grammar.tiers, row.timeline))


def main(words):
    """Reads the grammar and a timeline or standard input."""
    most, listed = 8, "all" in words
    if listed:
        place = words.index("all")
        most = int(words[place + 1])
        del words[place:place + 2]
    svg, brief = "svg" in words, "brief" in words
    words = [word for word in words if word not in ("svg", "brief")]
    grammar = read.grammar_file(words[0])
    text = "example " + words[1] if len(words) > 1 else sys.stdin.read()
    if not text:
        return "otp_view: nothing to show; what otp wrote to standard error says why"
    if text[:2] in ("  ", "> "):
        return say_tableau(grammar, text)
    found = read.answer(text)
    if found.counts is None and found.example is None:
        return "otp_view: this is not what otp writes for a form or a timeline"
    if found.counts is not None and len(found.counts) != len(grammar.constraints):
        return "otp_view: there are %d counts, and the grammar has %d constraints: was it made for another one?" % (
            len(found.counts), len(grammar.constraints))
    read.check_width(grammar, found.example or [], "the timeline" if len(words) > 1 else "the example")
    if svg:
        return print(draw_svg(grammar.tiers, found.example))
    if found.counts is not None:
        say_counts([constraint.name for constraint in grammar.constraints], found.counts, brief)
    if found.arcs:
        say_optima(grammar, found, most, listed)
    if found.example is not None and not brief:
        print("example: %s" % read.text_of(found.example))
        print(draw(grammar.tiers, found.example))
    return None


if __name__ == "__main__":
    if len(sys.argv) < 2:
        sys.exit(__doc__)
    try:
        sys.exit(main(sys.argv[1:]))
    except read.Unreadable as error:
        sys.exit("otp_view: %s" % error)
    except BrokenPipeError:
        sys.stderr.close()
