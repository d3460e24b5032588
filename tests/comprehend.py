#!/usr/bin/env python3
"""Compares `otp comprehend` with a plain program, on worked lexicons and on small grammars at random.

    tests/comprehend.py          the last line is `N passed, M failed`
    tests/comprehend.py COUNT    so many grammars at random, in place of 100

The plain program knows two things. By the definitions of docs/DEFINITIONS.md it lists every
candidate of a form up to a length, with the violations of each, event by event. And it walks
through the automaton that `otp generate` writes, with the surface in the other hand: so it also
knows when no optimal candidate of any length has the surface. Where both know a candidate, it has
to be the same one.

The program is the one that ./otp runs, or the file in the environment variable OTP_PROGRAM.
"""
import itertools
import os
import random
import subprocess
import sys
import tempfile

TOP = os.path.dirname(os.path.dirname(os.path.abspath(__file__)))
PROGRAM = os.environ.get("OTP_PROGRAM", os.path.join(TOP, "otp"))
SYMBOLS = "-+[]|"
EDGES = "[]|"
NEXT = {False: "-[", True: "+]|"}

passed, failed = 0, 0


def judge(what, found, wanted):
    """Counts one comparison, and tells a difference."""
    global passed, failed
    if found == wanted:
        passed += 1
        return
    failed += 1
    print("FAILED %s\n  wanted: %r\n  found:  %r" % (what, wanted, found))


def otp(*words):
    """Status, standard output and standard error of the program."""
    done = subprocess.run([PROGRAM, *words], capture_output=True, text=True)
    return done.returncode, done.stdout, done.stderr


# ---- the definitions: timelines are tuples of columns ----

def text_of(timeline):
    """The text of a timeline."""
    return " ".join(timeline) or "empty"


def has_edge(column):
    """Whether a constituent starts or ends in a column."""
    return any(symbol in EDGES for symbol in column)


def order(timeline):
    """The key by which timelines are ordered."""
    return len(timeline), [[SYMBOLS.index(symbol) for symbol in column] for column in timeline]


def projected(timeline, tiers):
    """The projection to some tiers, squeezed."""
    parts = ("".join(column[tier] for tier in tiers) for column in timeline)
    return tuple(part for part in parts if has_edge(part))


def constituents(word):
    """The constituents on a tier: each start with the next end after it."""
    return [(start, next(end for end in range(start + 1, len(word)) if word[end] in "]|"))
            for start in range(len(word)) if word[start] in "[|"]


class Grammar:
    """Tiers, each with a role, and constraints: a family and the events of two sides."""

    def __init__(self, tiers, constraints):
        self.tiers, self.constraints = tiers, constraints
        self.names = [name for name, _ in tiers]

    def tiers_that_are(self, role):
        """The places of the tiers of a role."""
        return [place for place, (_, found) in enumerate(self.tiers) if found == role]

    def text(self):
        """The text of the grammar."""
        lines = ["otp 1"] + ["tier %s %s" % tier for tier in self.tiers]
        for number, (left, family, right) in enumerate(self.constraints):
            join = " and " if family == "#" else " or "
            lines.append("constraint C%d %s %s %s"
                         % (number, " and ".join(left), family, join.join(right)))
        return "\n".join(lines) + "\n"

    def events(self, timeline, kind):
        """The events of a type, in doubled time."""
        tier = self.names.index(kind.lstrip("[]"))
        pairs = constituents([column[tier] for column in timeline])
        if kind[0] == "[":
            return [(2 * start, 2 * start) for start, _ in pairs]
        if kind[0] == "]":
            return [(2 * end, 2 * end) for _, end in pairs]
        return [(2 * start + 1, 2 * end - 1) for start, end in pairs]

    def violations(self, timeline, constraint):
        """How often a timeline violates a constraint."""
        left, family, right = constraint
        sides = left + right if family == "#" else left
        chosen = itertools.product(*(self.events(timeline, kind) for kind in sides))
        meets = [meet for meet in map(meet_of, chosen) if meet]
        if family == "#":
            return len(meets)
        answers = [event for kind in right for event in self.events(timeline, kind)]
        return sum(not any(meet_of([meet, event]) for event in answers) for meet in meets)

    def vector(self, timeline):
        """The violations of each constraint."""
        return [self.violations(timeline, constraint) for constraint in self.constraints]

    def candidates(self, form, longest):
        """The candidates of a form with at most so many columns."""
        inputs = self.tiers_that_are("input")
        shut = ("-" * len(self.tiers), 0)
        prefixes, found = [((), shut)], []
        for _ in range(longest + 1):
            found += [timeline for timeline, (last, place) in prefixes
                      if place == len(form) and not any(symbol in "+[|" for symbol in last)]
            prefixes = [(timeline + (column,), (column, place + step))
                        for timeline, (last, place) in prefixes
                        for column, step in columns_after(last, place, form, inputs)]
        return found


def meet_of(intervals):
    """What some intervals share, if anything."""
    low, high = max(low for low, _ in intervals), min(high for _, high in intervals)
    return (low, high) if low <= high else None


def columns_after(last, place, form, inputs):
    """The columns that may follow a column, each with how far it goes on in the form."""
    choices = itertools.product(*(NEXT[symbol in "+[|"] for symbol in last))
    for column in map("".join, choices):
        part = "".join(column[tier] for tier in inputs)
        if not has_edge(part):
            if has_edge(column):
                yield column, 0
        elif place < len(form) and part == form[place]:
            yield column, 1


# ---- the automaton of an answer ----

def columns_of(text):
    """The columns of a class."""
    sets, rest = [], text
    while rest:
        if rest[0] == "{":
            one, rest = rest[1:].split("}", 1)
        else:
            one, rest = rest[0], rest[1:]
        sets.append(one)
    return map("".join, itertools.product(*sets))


def automaton_of(answer):
    """For each state its columns with their targets, and the final states."""
    moves, final, here = {}, set(), None
    for words in (line.split(" ") for line in answer.splitlines()):
        if words[0] == "state":
            here = int(words[1])
            moves[here] = []
            if words[2:] == ["final"]:
                final.add(here)
        elif words[0] == "arc":
            moves[here] += [(column, int(words[1])) for column in columns_of(words[2])]
    return moves, final


def first_accepted(answer, overt, surface):
    """The first timeline with a surface that the automaton of an answer accepts, or None."""
    moves, final = automaton_of(answer)
    known, level = {(0, 0): ()}, [(0, 0)]
    while level:
        for state, place in level:
            if state in final and place == len(surface):
                return known[state, place]
        cells = [cell for cell in level]
        level = []
        for state, place in cells:
            for column, target in sorted(moves[state], key=lambda move: order((move[0],))):
                heard = projected((column,), overt)
                if heard and heard != surface[place:place + 1]:
                    continue
                cell = target, place + len(heard)
                if cell not in known:
                    known[cell] = known[state, place] + (column,)
                    level.append(cell)
    return None


# ---- what is wanted of a lexicon ----

def lexicon_text(entries):
    """The text of a lexicon of names and forms."""
    return "".join('[[entry]]\nname = "%s"\nform = "%s"\n' % (name, text_of(form))
                   for name, form in entries)


def hits_text(hits):
    """The text of hits, each a name and an example."""
    return "hits %d\n" % len(hits) + "".join(
        "entry %s\nexample %s\n" % (name, text_of(example)) for name, example in hits)


def answers_of(grammar_file, entries):
    """For each entry the text of its answer."""
    answers = []
    for _, form in entries:
        status, text, error = otp("generate", grammar_file, text_of(form))
        judge("generate %s" % text_of(form), (status, error), (0, ""))
        answers.append(text)
    return answers


def first_listed(grammar, form, counts, surface, longest):
    """The first of the listed candidates with these violations and the surface, or None."""
    overt = grammar.tiers_that_are("overt")
    heard = [timeline for timeline in grammar.candidates(form, longest)
             if projected(timeline, overt) == surface and grammar.vector(timeline) == counts]
    return min(heard, key=order, default=None)


def check_listed(what, grammar, form, answer, surface, first, longest):
    """Compares the first timeline of the automaton with those that are listed."""
    counts = [int(word) for word in answer.splitlines()[2].split(" ")[1:]]
    listed = first_listed(grammar, form, counts, surface, longest)
    if first is None or len(first) <= longest:
        judge("listed: " + what, listed, first)
        return
    judge("listed: " + what, listed, None)
    judge("optimal: " + what, grammar.vector(first), counts)


def first_over(answers, budget):
    """The first entry with a stage above a budget, and its first such stage, or None."""
    for entry, answer in enumerate(answers):
        for words in (line.split(" ") for line in answer.splitlines()):
            if words[0] == "stage" and int(words[2]) > budget:
                return entry, int(words[1])
    return None


# ---- tests ----

DEP = Grammar([("A", "input"), ("a", "overt")], [(["a"], "->", ["A"])])
THREE = [("none", ()), ("one", ("[", "]")), ("two", ("[", "|", "]"))]


def test_worked(folder):
    """Lexicons whose hits are known by hand."""
    grammar_file, lexicon_file = (os.path.join(folder, name) for name in ("g.otp", "l.toml"))
    with open(grammar_file, "w", encoding="utf-8") as file:
        file.write(DEP.text())
    three = lexicon_text(THREE)
    none = "hits 3\nentry none\nexample empty\nentry one\nexample [- ]-\nentry two\nexample [- |- ]-\n"
    cases = [
        (three, ("[ ]",), (0, "hits 2\nentry one\nexample [[ ]]\nentry two\nexample [- |[ ]]\n", "")),
        (three, ("empty",), (0, none, "")),
        (three, ("empty", "1"), (7, "", "budget entry 0 stage 0\n")),
        (three, ("empty", "2"), (7, "", "budget entry 1 stage 0\n")),
        ("", ("[ ]",), (0, "hits 0\n", "")),
        (lexicon_text([(str(number), ()) for number in range(1000)]), ("empty",),
         (0, hits_text([(str(number), ()) for number in range(1000)]), "")),
    ]
    for text, words, wanted in cases:
        with open(lexicon_file, "w", encoding="utf-8") as file:
            file.write(text)
        found = otp("comprehend", grammar_file, lexicon_file, *words)
        judge("comprehend %s" % " ".join(words), found, wanted)


def random_word(dice, width, longest):
    """A timeline over so many tiers that is well formed and reduced."""
    timeline, last = (), "-" * width
    for _ in range(dice.randrange(longest)):
        column = "".join(dice.choice(NEXT[symbol in "+[|"]) for symbol in last)
        if has_edge(column):
            timeline, last = timeline + (column,), column
    end = "".join("]" if symbol in "+[|" else "-" for symbol in last)
    return timeline + (end,) if has_edge(end) else timeline


def random_grammar(dice):
    """An input tier, an overt tier and at most one more, under at most four constraints."""
    tiers = [("A", "input"), ("a", "overt")]
    tiers += dice.choice([[], [("B", "input")], [("b", "overt")], [("h", "hidden")], [("h", "hidden")]])
    dice.shuffle(tiers)

    def side():
        return [dice.choice(["", "", "[", "]"]) + dice.choice(tiers)[0]
                for _ in range(dice.choice([1, 1, 1, 2]))]

    return Grammar(tiers, [(side(), dice.choice(["->", "->", "#"]), side())
                           for _ in range(dice.randrange(5))])


def test_grammar(folder, dice, number):
    """One small grammar with a lexicon, some surfaces and some budgets."""
    grammar = random_grammar(dice)
    width = len(grammar.tiers_that_are("input"))
    overt = grammar.tiers_that_are("overt")
    entries = [("e%d" % entry, random_word(dice, width, 3)) for entry in range(3)]
    grammar_file, lexicon_file = (os.path.join(folder, name) for name in ("g.otp", "l.toml"))
    for path, text in ((grammar_file, grammar.text()), (lexicon_file, lexicon_text(entries))):
        with open(path, "w", encoding="utf-8") as file:
            file.write(text)
    answers = answers_of(grammar_file, entries)
    longest = 5 if len(grammar.tiers) == 2 else 4
    for surface in {(), ("[" * len(overt), "]" * len(overt)), random_word(dice, len(overt), 4)}:
        what = "grammar %d, surface %s\n%s" % (number, text_of(surface), grammar.text())
        hits = []
        for (name, form), answer in zip(entries, answers):
            first = first_accepted(answer, overt, surface)
            check_listed("%s of %s" % (what, name), grammar, form, answer, surface, first, longest)
            if first is not None:
                hits.append((name, first))
        for budget in (65536, dice.randrange(1, 12)):
            over = first_over(answers, budget)
            wanted = (7, "", "budget entry %d stage %d\n" % over) if over else (0, hits_text(hits), "")
            found = otp("comprehend", grammar_file, lexicon_file, text_of(surface), str(budget))
            judge("budget %d, %s" % (budget, what), found, wanted)


def main():
    """Runs all tests."""
    count = int(sys.argv[1]) if sys.argv[1:] else 100
    with tempfile.TemporaryDirectory() as folder:
        test_worked(folder)
        dice = random.Random(16)
        for number in range(count):
            test_grammar(folder, dice, number)
    print("%d passed, %d failed" % (passed, failed))
    return 1 if failed else 0


if __name__ == "__main__":
    sys.exit(main())
