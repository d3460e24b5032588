#!/usr/bin/env python3
"""Which rankings of some constraints have which outcomes: a factorial typology.

    tools/otp_typology.py G FORM .. rank NAME NAME ..

Ranks the constraints that are named (2 to 6) in every order, in the places that they have in the
grammar, and gives each form to `otp generate` under each ranking. Rankings under which all forms
have the same optimal surfaces are one outcome. For each outcome it prints the surfaces, how many
rankings have it, and what these have in common: A >> B if A is above B in all of them (what
follows from the others is left out). Of infinitely many surfaces the first three are shown, but
all of them are compared.

Nothing is left out of a comparison: each ranking chooses among all candidates of any length.

Python's standard library alone. No promise of Kullaphen rests on this file.
"""
import itertools
import os
import subprocess
import sys
import tempfile

import otp_read as read

OTP = os.path.join(os.path.dirname(os.path.dirname(os.path.abspath(__file__))), "otp")
MOST = 6


def rankings(grammar, names):
    """Every order of the constraints that are named, each as a list of names from the highest."""
    known = [constraint.name for constraint in grammar.constraints]
    for name in names:
        if name not in known:
            raise read.Unreadable("the grammar has no constraint %s; it has %s" % (name, " ".join(known)))
    if not 2 <= len(set(names)) <= MOST or len(set(names)) != len(names):
        raise read.Unreadable("2 to %d constraints are ranked, each named once" % MOST)
    return itertools.permutations(sorted(names, key=known.index))


def ranked(grammar, lines, ranking):
    """The lines of a grammar with some of its constraints in another order."""
    place = {constraint.name: constraint.line - 1 for constraint in grammar.constraints}
    result = list(lines)
    for to, name in zip(sorted(place[name] for name in ranking), ranking):
        result[to] = lines[place[name]]
    return result


def generated(path, form):
    """What the program answers, or the end of this one with what it says."""
    done = subprocess.run([OTP, "generate", path, form], capture_output=True, text=True)
    if done.returncode:
        raise read.Unreadable("generate %s: %s" % (form, done.stderr.strip() or "status %d" % done.returncode))
    return read.answer(done.stdout)


def minimal(found):
    """The least automaton with the same timelines, its states numbered from the start: two have the
    same timelines exactly if these are equal. Each state must lead to a final one."""
    block = {state: int(found.final[state]) for state in found.arcs}
    while True:
        told = {state: (block[state], tuple(sorted((column, block[target]) for column, target in arcs)))
                for state, arcs in found.arcs.items()}
        numbers = {one: number for number, one in enumerate(sorted(set(told.values())))}
        finer = {state: numbers[told[state]] for state in told}
        if len(numbers) == len(set(block.values())):
            break
        block = finer
    order, result = {block[0]: 0}, []
    todo = [0]
    for state in todo:  # it grows meanwhile
        arcs = []
        for column, target in sorted(found.arcs[state]):
            if block[target] not in order:
                order[block[target]] = len(order)
                todo.append(target)
            arcs.append((column, order[block[target]]))
        result.append((found.final[state], tuple(arcs)))
    return tuple(result)


def shown(grammar, surfaces):
    """The surfaces of an answer in a line."""
    many = read.how_many(surfaces)
    first = read.timelines(surfaces, 3 if many is None else many)
    words = [read.spelled(grammar, one) if grammar.sounds else read.text_of(one) for one in first]
    return ", ".join(sorted(set(words), key=words.index) + [".."] * (many is None))


def above(orders):
    """The pairs in which one constraint is above another in all orders, without what follows."""
    names = orders[0]
    pairs = {(one, two) for one, two in itertools.permutations(names, 2)
             if all(order.index(one) < order.index(two) for order in orders)}
    return {(one, two) for one, two in pairs
            if not any((one, mid) in pairs and (mid, two) in pairs for mid in names)}


def in_common(orders):
    """What orders have in common, as text: the constraints above each one."""
    pairs = above(orders)
    parts = []
    for low in orders[0]:
        higher = [name for name in orders[0] if (name, low) in pairs]
        if higher:
            parts.append("%s >> %s" % (" ".join(higher), low))
    return ", ".join(parts) or "no order in common"


def main(words):
    """Reads the grammar and prints the outcomes, those of most rankings first."""
    if "rank" not in words[1:]:
        raise read.Unreadable("say which constraints are ranked: G FORM .. rank NAME NAME ..")
    cut = words.index("rank", 1)
    path, forms, names = words[0], words[1:cut], words[cut + 1:]
    if not forms:
        raise read.Unreadable("say of which forms: G FORM .. rank NAME NAME ..")
    grammar = read.grammar_file(path)
    lines = read.file_text(path).decode().split("\n")
    outcomes = {}
    with tempfile.TemporaryDirectory() as folder:
        file_name = os.path.join(folder, "ranking.otp")
        for ranking in rankings(grammar, names):
            with open(file_name, "w", encoding="utf-8") as file:
                file.write("\n".join(ranked(grammar, lines, ranking)))
            heard = [read.surfaces(grammar, generated(file_name, form)) for form in forms]
            key = tuple(minimal(one) for one in heard)
            outcomes.setdefault(key, (heard, []))[1].append(ranking)
    total = sum(len(orders) for _, orders in outcomes.values())
    print("%d rankings, %d %s" % (total, len(outcomes), "outcome" if len(outcomes) == 1 else "outcomes"))
    for heard, orders in sorted(outcomes.values(), key=lambda one: -len(one[1])):
        print("%s" % "; ".join(shown(grammar, one) for one in heard))
        print("  %d %s: %s" % (len(orders), "ranking" if len(orders) == 1 else "rankings", in_common(orders)))


if __name__ == "__main__":
    if len(sys.argv) < 2:
        sys.exit(__doc__)
    try:
        main(sys.argv[1:])
    except read.Unreadable as error:
        sys.exit("otp_typology: %s" % error)
    except BrokenPipeError:
        sys.stderr.close()
