"""Readers of what otp reads and writes: grammars, counts, answers and tableaux.

    import otp_read
    grammar = otp_read.grammar(open("examples/ranked.otp").read())
    answer = otp_read.answer(text of `otp generate`)
    otp_read.how_many(answer), otp_read.timelines(answer, 10)

Python's standard library alone. No promise of Kullaphen rests on this file: what is proved is said
of the program, and this module reads its texts.

A timeline is a list of columns, each a string with a symbol for each tier.
"""
import itertools
import re
from collections import namedtuple

Event = namedtuple("Event", "part tier")  # part is "[", "]" or ""
Constraint = namedtuple("Constraint", "name left family right line")
Grammar = namedtuple("Grammar", "tiers roles letters constraints sounds")
Answer = namedtuple("Answer", "form counts example stages final arcs")
Row = namedtuple("Row", "optimal timeline counts worse")
EDGES = set("[]|")


class Unreadable(Exception):
    """Something that these readers do not understand, in words for whoever typed it."""


def file_text(name):
    """The bytes of a file."""
    try:
        with open(name, "rb") as file:
            return file.read()
    except OSError as error:
        raise Unreadable("%s: %s" % (name, error.strerror)) from None


def events(text):
    """The events of one side, in order."""
    return [Event(*pair) for pair in re.findall(r"([\[\]]?)\s*(\w+)", text) if pair[1] not in ("and", "or")]


def grammar_file(name):
    """The grammar of a file. One that the program refuses may be unreadable here too."""
    try:
        found = grammar(file_text(name).decode("utf-8", "replace"))
    except (ValueError, IndexError):
        found = None
    if found is None or not found.tiers:
        raise Unreadable("%s is not a grammar: `otp canon %s` says where" % (name, name))
    return found


def check_width(grammar_read, columns, what):
    """Says so if columns are not over all tiers of the grammar."""
    for place, column in enumerate(columns):
        if not set(column) <= set("-+[]|"):
            raise Unreadable("%s: %s is not a column; the symbols are - + [ ] |" % (what, column))
        if len(column) != len(grammar_read.tiers):
            raise Unreadable("%s: column %d is %s, and there is to be a symbol for each of the tiers %s" % (
                what, place, column, " ".join(grammar_read.tiers)))


def grammar(text):
    """A grammar from its text, which the program has accepted (`otp canon` says so).

    A comment `; sound t = c` gives the overt tiers a letter by which surfaces are spelled.
    """
    result = Grammar([], {}, {}, [], {})
    for number, line in enumerate(text.splitlines(), 1):
        code, _, comment = line.partition(";")
        words = re.findall(r"->|\w+|[\[\]=#]", code)
        sound = re.match(r"\s*sound (\w) =((?: +\w+)+)\s*(?:;|$)", comment)
        if sound:
            result.sounds[frozenset(sound.group(2).split())] = sound.group(1)
        if words[:1] == ["tier"]:
            result.tiers.append(words[1])
            result.roles[words[1]] = words[2]
        elif words[:1] == ["letter"]:
            result.letters[words[1]] = words[3:]
        elif words[:1] == ["constraint"]:
            family = "->" if "->" in code else "#"
            left, right = code.split(words[1], 1)[1].split(family)
            result.constraints.append(Constraint(words[1], events(left), family, events(right), number))
    return result


def timeline(text):
    """The columns of a timeline's text."""
    return [] if text == "empty" else text.split(" ")


def text_of(columns):
    """The text of a timeline."""
    return " ".join(columns) or "empty"


def counts(line):
    """The numbers of a line `counts N N ..`."""
    return [int(word) for word in line.split()[1:]]


def columns_of(text):
    """Every column of a class: `{-+}[` gives `-[` and `+[`."""
    sets = [braced or single for braced, single in re.findall(r"\{([^}]*)\}|(.)", text)]
    return ["".join(symbols) for symbols in itertools.product(*sets)]


def answer(text):
    """The answer that `otp generate` wrote; of `otp show` and `otp score` what is there."""
    result = {"form": None, "counts": None, "example": None}
    stages, final, arcs, state = [], {}, {}, None
    for line in text.splitlines():
        word, _, rest = line.partition(" ")
        if word in ("form", "example"):
            result[word] = timeline(rest)
        elif word == "counts":
            result[word] = counts(line)
        elif word == "stage":
            stages.append([])
        elif word == "node" and stages:
            kind, potential = rest.split(" ")
            stages[-1].append((kind, int(potential)))
        elif word == "state":
            state = int(rest.split(" ")[0])
            final[state], arcs[state] = rest.endswith(" final"), []
        elif word == "arc":
            target, label = rest.split(" ")
            arcs[state].append((label, int(target)))
    return Answer(result["form"], result["counts"], result["example"], stages, final, arcs)


def cut_row(line):
    """The timeline of a line of a tableau, and the words after it."""
    words = line[2:].split()
    size = 0
    while size < len(words) and (set(words[size]) <= set("-+[]|") or size == 0 and words[0] == "empty"):
        size += 1
    return timeline(" ".join(words[:size])), words[size:]


def tableau(text):
    """The form, the names of the constraints and the rows of a tableau."""
    first, *others = text.splitlines()
    form, names = cut_row(first)
    rows = []
    for line in others:
        columns, words = cut_row(line)
        worse = [name for name, word in zip(names, words) if word.endswith("!")]
        rows.append(Row(line.startswith("> "), columns, [int(word.rstrip("!")) for word in words],
                        worse[0] if worse else None))
    return form, names, rows


def moves(found, keep=None):
    """The arcs of an answer by single columns. With `keep`, a list of places in a column, the columns
    are cut to these tiers, and one without an edge becomes None."""
    table = {}
    for state, arcs in found.arcs.items():
        table[state] = []
        for label, target in arcs:
            for column in columns_of(label):
                if keep is not None:
                    column = "".join(column[place] for place in keep)
                    column = column if EDGES & set(column) else None
                table[state].append((column, target))
    return table


def surfaces(grammar_read, found):
    """The automaton of the surfaces, as an answer: overt tiers alone, each surface once."""
    keep = [place for place, tier in enumerate(grammar_read.tiers) if grammar_read.roles[tier] == "overt"]
    table = moves(found, keep)

    def closed(states):
        states, todo = set(states), list(states)
        while todo:
            for column, target in table[todo.pop()]:
                if column is None and target not in states:
                    states.add(target)
                    todo.append(target)
        return frozenset(states)

    start = closed([0])
    names, order, final, arcs = {start: 0}, [start], {}, {}
    for number, states in enumerate(order):  # it grows meanwhile
        targets = {}
        for state in states:
            for column, target in table[state]:
                if column is not None:
                    targets.setdefault(column, set()).add(target)
        final[number] = any(found.final[state] for state in states)
        arcs[number] = []
        for column in sorted(targets, key=shortlex_of_column):
            target = closed(targets[column])
            if target not in names:
                names[target] = len(order)
                order.append(target)
            arcs[number].append((column, names[target]))
    return Answer(found.form, found.counts, None, [], final, arcs)


def shortlex_of_column(column):
    """Columns are ordered by their symbols in the order - + [ ] |."""
    return ["-+[]|".index(symbol) for symbol in column]


def how_many(found):
    """How many timelines an automaton accepts, or None if they are infinitely many. Each state must
    lead to a final one, as in every answer that the program writes."""
    sizes, open_states = {}, set()
    todo = [(0, False)]
    while todo:
        state, is_done = todo.pop()
        if is_done:
            open_states.discard(state)
            sizes[state] = found.final[state] + sum(
                len(columns_of(label)) * sizes[target] for label, target in found.arcs[state])
        elif state in open_states:
            return None
        elif state not in sizes:
            open_states.add(state)
            todo.append((state, True))
            for _, target in found.arcs[state]:
                if target in open_states:
                    return None
                todo.append((target, False))
    return sizes[0]


def timelines(found, most, longest=500):
    """The first timelines that an automaton accepts, at most so many: shorter ones first."""
    table = {state: sorted(arcs, key=lambda arc: shortlex_of_column(arc[0]))
             for state, arcs in moves(found).items()}
    ends = [{state for state in table if found.final[state]}]  # that are so many columns from an end

    def walk(state, rest):
        if rest == 0:
            yield []
            return
        for column, target in table[state]:
            if target in ends[rest - 1]:
                for word in walk(target, rest - 1):
                    yield [column] + word

    def all_words():
        for length in range(longest):
            yield from walk(0, length) if 0 in ends[length] else ()
            ends.append({state for state in table if any(target in ends[-1] for _, target in table[state])})
            if not ends[-1]:
                return

    return list(itertools.islice(all_words(), most))


def project(grammar_read, columns, role="overt"):
    """A timeline cut to the tiers of a role, without the columns that have no edge there: the
    surface of a candidate, or its form for the role "input"."""
    keep = [place for place, tier in enumerate(grammar_read.tiers) if grammar_read.roles[tier] == role]
    cut = ["".join(column[place] for place in keep) for column in columns]
    return [column for column in cut if EDGES & set(column)]


def spelled(grammar_read, surface):
    """A surface by the letters of the grammar's comments `; sound t = c`: for each step between two
    columns the letter of the tiers that are open there, `_` where none is."""
    names = [tier for tier in grammar_read.tiers if grammar_read.roles[tier] == "overt"]
    letters = ""
    for column in surface[:-1]:
        open_tiers = frozenset(tier for tier, symbol in zip(names, column) if symbol in "[+|")
        letters += grammar_read.sounds.get(open_tiers, "?") if open_tiers else "_"
    return letters or "(nothing)"
