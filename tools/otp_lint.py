#!/usr/bin/env python3
"""Looks in a grammar for what otp accepts and you may not have meant, and for bytes that it refuses.

    tools/otp_lint.py G [LETTERS]

It says where a bad byte stands and which one it is; which constraints can never count, always count
alike, or count the same on all candidates of a form; which tiers no constraint names; and how many
kinds and moves to expect for a form of so many letters (8). A note is on what often means something
else than was thought. The status is 0 if there is nothing to mend but notes, and 1 otherwise. That
a constraint never counts, or counts as another one does, is found by going through all that
timelines can do on its tiers, and is said only of at most 5 tiers.

Python's standard library alone. No promise of Kullaphen rests on this file.
"""
import itertools
import re
import sys
import unicodedata

import otp_read as read

BUDGET = 20000
BOMS = [(b"\xef\xbb\xbf", "a byte order mark: save the file as UTF-8 without it"),
        (b"\xff\xfe", "UTF-16: save the file as UTF-8"), (b"\xfe\xff", "UTF-16: save the file as UTF-8")]
NAMES = "names have letters, digits and _"
LOOKS_LIKE = {"\u2192": "type ->", "\u2013": "type -", "\u2014": "type -", "\u00a0": "type a space", ">": "an arrow is ->",
              "-": "an arrow is ->, and " + NAMES, "*": NAMES, ":": NAMES, "/": "a comment begins with ;"}


def bad_bytes(data):
    """The first bad byte of each line: its line, its number in the line, and what it is."""
    for mark, what in BOMS:
        if data.startswith(mark):
            return ["line 1 byte 1: " + what]
    found = []
    for number, line in enumerate(data.split(b"\n"), 1):
        code = line[:-1] if line.endswith(b"\r") else line
        match = re.search(rb"[^A-Za-z0-9_\[\]=# \t>-]|-(?!>)|(?<!-)>", code.split(b";")[0])
        if match:
            sign = code[match.start():].decode("utf-8", "replace")[0]
            hint = LOOKS_LIKE.get(sign, "")
            found.append("line %d byte %d: %s U+%04X %s begins no token%s" % (
                number, match.start() + 1, sign if sign.isprintable() else "(invisible)", ord(sign),
                unicodedata.name(sign, "control"), "; " + hint if hint else ""))
    return found


def tiers_of(constraint):
    """The tiers that a constraint names, in order."""
    return sorted({event.tier for event in constraint.left + constraint.right})


def is_there(event, symbols):
    """True if an event is present at a column, given as symbols by tier."""
    return symbols[event.tier] in {"[": "[|", "]": "]|", "": "+"}[event.part]


def step(constraint, before, phase, symbols):
    """What one column adds to a constraint's count, and the phase after it. `before` has the tiers
    that are open before the column. These are the rules of "Moves of kinds" in docs/DEFINITIONS.md."""
    left, right = constraint.left, constraint.right
    after = {tier for tier, symbol in symbols.items() if symbol in "[+|"}
    if constraint.family == "#":
        both = left + right
        if any(event.part for event in both):
            return int(all(is_there(event, symbols) for event in both)), None
        edge = any(symbols[event.tier] in read.EDGES for event in both)
        return int(edge and all(event.tier in before for event in both)), None
    if any(event.part for event in left):
        return int(all(is_there(event, symbols) for event in left)
                   and not any(is_there(event, symbols) for event in right)), None
    edge = any(symbols[event.tier] in read.EDGES for event in left)
    cost = int(phase == "unmet" and edge)
    inside = any(not event.part and event.tier in after for event in right)
    at_edge = any(event.part and is_there(event, symbols) for event in right)
    if not all(event.tier in after for event in left):
        return cost, "closed"
    if edge:
        return cost, "met" if inside else "unmet"
    return cost, "met" if phase == "met" or at_edge or inside else "unmet"


def differences(first, second=None):
    """All that the counts of two constraints, or one and nothing, can differ by when nothing is
    open; stops as soon as one way leads to two differences. [0] means that they count alike."""
    tiers = sorted(set(tiers_of(first)) | set(tiers_of(second) if second else ()))
    start = (frozenset(), "closed", "closed")
    found, todo = {start: 0}, [start]
    while todo:
        state = todo.pop()
        before, one, two = state
        for signs in itertools.product(*["+]|" if tier in before else "-[" for tier in tiers]):
            symbols = dict(zip(tiers, signs))
            cost, next_one = step(first, before, one, symbols)
            other, next_two = step(second, before, two, symbols) if second else (0, None)
            target = (frozenset(tier for tier in tiers if symbols[tier] in "[+|"), next_one, next_two)
            total = found[state] + cost - other
            if target not in found:
                found[target] = total
                todo.append(target)
            if found[target] != total or not target[0] and total != 0:
                return True
    return False


def dead_constraints(grammar):
    """What is said of constraints that never count, count alike, or decide nothing."""
    small = [one for one in grammar.constraints if len(tiers_of(one)) <= 5]
    dead = [one for one in small if not differences(one)]
    for one in dead:
        yield "line %d: %s never counts: no timeline violates it" % (one.line, one.name)
    for one in grammar.constraints:
        if one not in dead and all(grammar.roles[tier] == "input" for tier in tiers_of(one)):
            yield "line %d: %s names input tiers alone: it counts the same on all candidates" % (one.line, one.name)
    for first, second in itertools.combinations([one for one in small if one not in dead], 2):
        if tiers_of(first) == tiers_of(second) and not differences(first, second):
            yield "line %d: %s counts the same as %s on line %d" % (second.line, second.name, first.name, first.line)


def edge_kept(constraint, part):
    """The pair of tiers of a constraint `[X -> [x`, or of `]X -> ]x`, and None of any other."""
    events = constraint.left + constraint.right
    if constraint.family != "->" or len(events) != 2 or any(event.part != part for event in events):
        return None
    return constraint.left[0].tier, constraint.right[0].tier


def traps(grammar):
    """What is said of constraints and tiers that often mean something else."""
    named = [set(tiers_of(one)) for one in grammar.constraints]
    for one in grammar.constraints:
        if one.family == "#" and len(tiers_of(one)) == 1 and not any(event.part for event in one.left + one.right):
            yield "note: line %d: %s counts each %s, and not pairs of them" % (one.line, one.name, one.left[0].tier)
    for end, start in itertools.permutations(grammar.constraints, 2):
        if end.line < start.line and edge_kept(end, "]") and edge_kept(end, "]") == edge_kept(start, "["):
            yield "note: line %d: %s is above %s on line %d: a %s that is lost counts there already" % (
                end.line, end.name, start.name, start.line, end.left[0].tier)
    for tier in grammar.tiers:
        if grammar.constraints and not any(tier in names for names in named):
            yield "note: no constraint names the tier %s" % tier
    overt = [tier for tier in grammar.tiers if grammar.roles[tier] == "overt"]
    for pair in itertools.combinations(overt, 2):
        if grammar.constraints and not any(set(pair) <= names for names in named):
            yield "note: no constraint names both %s and %s: they may overlap as they like" % pair


def size(grammar, letters):
    """How many kinds a stage may have, and how many moves stage 0 has, for a form of letters."""
    free = sum(role != "input" for role in grammar.roles.values())
    stretches = sum(one.family == "->" and not any(event.part for event in one.left) for one in grammar.constraints)
    places = letters + 2
    kinds = places * 2 ** free * 2 ** stretches
    moves = (places - 1) * 5 ** free + places * (5 ** free - 2 ** free)
    return ("a form of %d %s: %d moves of single columns before any constraint (fivefold for each of %d free"
            " tiers), and at most %d kinds in a stage%s" % (
                letters, "letter" if letters == 1 else "letters", moves, free, kinds,
                "" if kinds <= BUDGET else "; that is above the budget of %d, though far fewer are usual" % BUDGET))


def main(words):
    """Reads the grammar, and says what there is to say."""
    data = read.file_text(words[0])
    found = bad_bytes(data)
    notes = []
    if not found:
        grammar = read.grammar_file(words[0])
        found = list(dead_constraints(grammar))
        notes = list(traps(grammar)) + [size(grammar, int(words[1]) if len(words) > 1 else 8)]
    for line in (found or ["nothing to mend"]) + notes:
        print(line)
    return 1 if found else 0


if __name__ == "__main__":
    if len(sys.argv) < 2:
        sys.exit(__doc__)
    try:
        sys.exit(main(sys.argv[1:]))
    except read.Unreadable as error:
        sys.exit("otp_lint: %s" % error)
    except BrokenPipeError:
        sys.stderr.close()
