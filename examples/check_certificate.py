#!/usr/bin/env python3
"""Checks a certificate of either version for a problem in free MPS, by docs/CERTIFICATE.md and with fractions of any size.

usage: check_certificate.py MODEL CERTIFICATE
"""
import re
import sys
from fractions import Fraction
from math import inf

from free_mps import read_mps

NUMBER, WHOLE, COUNT = "-?[0-9]+(/[1-9][0-9]*)?", "-?[0-9]+", "[0-9]+"
SHOWN = {"optimal": ["value", "point"], "infeasible": [], "unbounded": ["point", "ray"]}


def need(holds):
    if not holds:
        raise ValueError("no certificate")


def number(text, kind=NUMBER):
    """A number in its one spelling."""
    need(re.fullmatch(kind, text) and str(Fraction(text)) == text)
    need(all(int(part) < (2**32 if kind == COUNT else 2**127) for part in text.strip("-").split("/")))
    return Fraction(text) if kind == NUMBER else int(text)


def items(fields, kinds=""):
    """WEIGHTS of these kinds, as (kind, place from 0 on, weight); or a FORM, which has no kinds, as coefficients by column."""
    found = [(field[: len(kinds) > 0], *field[len(kinds) > 0 :].split(":")) for field in fields]
    found = [(kind, number(index, COUNT) - 1, number(weight)) for kind, index, weight in found]
    keys = [(kinds.index(kind), place, kinds and weight < 0) for kind, place, weight in found]
    need(all(place >= 0 and weight for _, place, weight in found) and all(key < after for key, after in zip(keys, keys[1:])))
    return found if kinds else {column: a for _, column, a in found}


def read(text):
    """Version, sizes, numbers by word, derived rows (form, bound, split, W and weights of its sides), nodes (word, split, weights)."""
    lines, derived, nodes, places = iter(text.split("\n")), [], [], 1

    def fields(*words):
        found = next(lines, "").split(" ")
        need(found[0] in words)
        return found

    (_, version), (_, rows, columns), (_, verdict) = fields("cert"), fields("size"), fields("verdict")
    need(version in ("1", "2") and verdict in SHOWN)
    shown = {word: [number(field) for field in fields(word)[1:]] for word in SHOWN[verdict]}
    need(all(len(numbers) == (1 if word == "value" else number(columns, COUNT)) for word, numbers in shown.items()))
    if verdict != "unbounded":
        _, count = fields("derived")
        for _ in range(number(count, COUNT)):
            (_, least, *form), (word, *rest) = fields("derive"), fields("plain", "split")
            most, *combination = rest if word == "split" else ["0"]  # by `plain`: one side of a split of nothing, with W 0
            cases = [fields("low"), fields("high")] if word == "split" else [(word, "0", *rest)]
            cases = [(number(own), items(weights, "rcd")) for _, own, *weights in cases]
            derived.append((items(form), number(least), (items(combination), number(most, WHOLE)), cases))
        need(fields("tree") == ["tree"])
        while places:
            word, *rest = fields("branch" if version == "1" else "split", "empty", "bound")
            if word in ("empty", "bound"):
                nodes.append((word, None, items(rest, "rcd" if version == "1" else "rcds")))
            else:
                need(word == "split" or len(rest) == 2)
                most, *form = rest if word == "split" else (rest[1], f"{rest[0]}:1")
                nodes.append((word, (items(form), number(most, WHOLE)), []))
            places += 1 if nodes[-1][1] else -1
    need(list(lines) == ["end", ""])
    return version, (number(rows, COUNT), number(columns, COUNT)), shown, derived, nodes


def value_of(form, point):
    return sum((a * point[column] for column, a in form.items()), Fraction(0))


def sides(form, most):
    """The low side and the high side of a split, each as a form with its bounds."""
    return ({column: -a for column, a in form.items()}, -most, inf), (form, most + 1, inf)


def narrowed(columns, form, most):
    """The columns' bounds on the low side and on the high side of a branch."""
    ((place, (_, low, up)),) = [(j, columns[j]) for j in form]
    return {**columns, place: (form, low, min(up, most))}, {**columns, place: (form, max(low, most + 1), up)}


def sums(known, weights):
    """F and R of weights. R is -inf where an index is out of range or a bound is not there."""
    made, total = {}, Fraction(0)
    for kind, place, weight in weights:
        form, low, up = known[kind][place] if place < len(known[kind]) else ({}, -inf, inf)
        end = low if weight > 0 else up
        total = -inf if inf in (abs(total), abs(end)) else total + weight * end
        for column, a in form.items():
            made[column] = made.get(column, 0) + weight * a
    return {column: a for column, a in made.items() if a}, total


def parts(problem, certificate):
    """Each part in turn, and whether it holds; to be asked for the next one where it does."""
    (columns, rows, objective, constant, sign), (version, sizes, shown, derived, nodes) = problem, certificate
    yield "size", sizes == (len(rows), len(columns))
    bounded = [({j: 1}, *column[:2]) for j, column in enumerate(columns)] + rows
    bounded = [(form, -inf if low is None else low, inf if up is None else up) for form, low, up in bounded]
    integer = {j for j, column in enumerate(columns) if column[2]}

    def is_met(point, is_ray=False):
        ends = [(value_of(form, point), *(0 if is_ray and abs(end) < inf else end for end in ends)) for form, *ends in bounded]
        return all(low <= value <= up for value, low, up in ends) and all(point[j].denominator == 1 for j in integer)

    def is_whole(form, _):
        return integer.issuperset(form) and all(a.denominator == 1 for a in form.values())

    yield "point", "point" not in shown or is_met(shown["point"])
    yield "value", "value" not in shown or shown["value"] == [value_of(objective, shown["point"]) + constant]
    yield "ray", "ray" not in shown or (is_met(shown["ray"], is_ray=True) and sign * value_of(objective, shown["ray"]) < 0)
    known, before = {"c": dict(enumerate(bounded[: len(columns)])), "r": bounded[len(columns) :], "s": []}, []
    for k, (form, least, split, cases) in enumerate(derived):
        known["d"] = before if version == "2" else []
        made = [sums({**known, "s": [side]}, [("s", 0, own)] * (own != 0) + weights) for side, (own, weights) in zip(sides(*split), cases)]
        is_shown = all(made == form and total >= least for made, total in made)
        yield f"derived {k + 1}", max(form, default=-1) < len(columns) and is_whole(*split) and is_shown
        before.append((form, least, inf))
    known["d"], waiting, wanted = before, [(0, [], known["c"])], {j: sign * a for j, a in objective.items()}
    for k, (word, split, weights) in enumerate(nodes):
        kept, taken, known["c"] = waiting.pop()
        known["s"][kept:] = taken
        if split:
            yield f"node {k + 1}", is_whole(*split)
            bounds = narrowed(known["c"], *split) if version == "1" else 2 * [known["c"]]
            waiting += [(len(known["s"]), [side], own) for side, own in zip(sides(*split), bounds)][::-1]
        else:
            made, total = sums(known, weights)
            is_best = "value" in shown and made == wanted and total >= sign * (shown["value"][0] - constant)
            yield f"node {k + 1}", is_best if word == "bound" else made == {} and total > 0


def check(problem, certificate):
    """The first part that does not hold, or nothing."""
    return next((part for part, holds in parts(problem, certificate) if not holds), None)


if __name__ == "__main__":
    with open(sys.argv[1], encoding="utf-8") as model, open(sys.argv[2], encoding="latin-1", newline="") as certificate:
        try:
            refused = check(read_mps(model.read()), read(certificate.read()))
            print(f"refused: {refused}" if refused else "ACCEPTED")
        except ValueError:
            print("no certificate")
