"""What a formula comes to by the values of its cells, read anew from its definition and slowly: a
formula is split at its last operator (docs/FORMAT.md, `check`).

A number is a pair of integers, a mantissa and a power of ten. What isn't a number or a boolean
is `UNSUPPORTED`; a number or a boolean that is past the limits is `OVERFLOW` with its kind.
"""

from fractions import Fraction
from operator import eq, ge, gt, le, lt, ne

MANTISSAS = range(-(2**127), 2**127)
POWERS = range(-(2**31), 2**31)
UNSUPPORTED = "unsupported"
OVERFLOW = "overflow"
COMPARES = {"=": eq, "<>": ne, "<": lt, ">": gt, "<=": le, ">=": ge}


def number(mantissa, power):
    """The number, without zeros at its end, or `OVERFLOW` past the limits of its power."""
    if mantissa == 0:
        return 0, 0
    while mantissa % 10 == 0:
        mantissa, power = mantissa // 10, power + 1
    return (mantissa, power) if power in POWERS else OVERFLOW


def negative(one):
    changed = number(-one[0], one[1])
    return changed if changed is OVERFLOW or changed[0] in MANTISSAS else OVERFLOW


def scaled(one, power):
    """The mantissa at a smaller power, which no limit holds past 39 places."""
    places = one[1] - power
    mantissa = one[0] * 10 ** min(places, 39)
    return mantissa if mantissa in MANTISSAS else None


def total(one, other, sign):
    """The sum of two numbers other than zero, or their difference by a sign of -1."""
    power = min(one[1], other[1])
    first, second = scaled(one, power), scaled(other, power)
    if first is None or second is None or first + sign * second not in MANTISSAS:
        return OVERFLOW
    return number(first + sign * second, power)


def plus(one, other):
    if one[0] == 0 or other[0] == 0:
        return other if one[0] == 0 else one
    return total(one, other, 1)


def minus(one, other):
    if other[0] == 0:
        return one
    return negative(other) if one[0] == 0 else total(one, other, -1)


def times(one, other):
    mantissa = one[0] * other[0]
    return number(mantissa, one[1] + other[1]) if mantissa in MANTISSAS else OVERFLOW


def compared(one, other, by):
    """By their values; powers that differ by more than all digits decide alone."""
    power = min(one[1], other[1])
    first, second = (
        Fraction(each[0]) * 10 ** min(each[1] - power, 100) for each in (one, other)
    )
    return by(first, second)


def joined(one, other, by):
    """Two numbers joined by an operator, where each may be past the limits."""
    if one[0] != "n" or other[0] != "n":
        return UNSUPPORTED
    if one[1] is OVERFLOW or other[1] is OVERFLOW:
        return "n", OVERFLOW
    return "n", by(one[1], other[1])


def split_at(tokens, place, by, values):
    one = valued(tokens[:place], values)
    other = valued(tokens[place + 1 :], values)
    if one is UNSUPPORTED or other is UNSUPPORTED:
        return UNSUPPORTED
    return by(one, other)


def comparison(by):
    def of(one, other):
        if one[0] != "n" or other[0] != "n":
            return UNSUPPORTED
        if one[1] is OVERFLOW or other[1] is OVERFLOW:
            return "b", OVERFLOW
        return "b", compared(one[1], other[1], by)

    return of


def outside(tokens):
    """The places of the tokens that stand in no parentheses, or None where these don't match."""
    depth, places = 0, []
    for place, token in enumerate(tokens):
        depth -= token == ")"
        if depth < 0:
            return None
        if depth == 0 and token not in ("(", ")"):
            places.append(place)
        depth += token == "("
    return places if depth == 0 else None


def is_binary(tokens, place):
    before = tokens[place - 1] if place else "("
    return before == ")" or before[0].isalnum() and before != "SUM"


def summed(tokens, values):
    """A sum of references between commas, and nothing else."""
    named = tokens[2:-1]
    if len(named) % 2 == 0 or any(token != "," for token in named[1::2]):
        return UNSUPPORTED
    sum_of = (0, 0)
    for token in named[::2]:
        if token not in values:
            return UNSUPPORTED
        if values[token] is UNSUPPORTED or sum_of is OVERFLOW:
            continue
        sum_of = plus(sum_of, values[token])
    return "n", sum_of


def single(tokens, values):
    """What has no operator outside its parentheses."""
    if tokens[:1] == ["-"]:
        one = valued(tokens[1:], values)
        if one is UNSUPPORTED or one[0] != "n":
            return UNSUPPORTED
        return one if one[1] is OVERFLOW else ("n", negative(one[1]))
    if tokens[:2] == ["SUM", "("] and tokens[-1] == ")":
        return summed(tokens, values)
    if tokens[:1] == ["("] and tokens[-1] == ")":
        return valued(tokens[1:-1], values)
    if len(tokens) != 1:
        return UNSUPPORTED
    if tokens[0].isdigit():
        return "n", number(int(tokens[0]), 0)
    value = values.get(tokens[0], UNSUPPORTED)
    return value if value is UNSUPPORTED else ("n", value)


def valued(tokens, values):
    """What these tokens come to, where references have these values."""
    places = outside(tokens)
    if places is None:
        return UNSUPPORTED
    compares = [place for place in places if tokens[place] in COMPARES]
    if len(compares) > 1:
        return UNSUPPORTED
    if compares:
        return split_at(tokens, compares[0], comparison(COMPARES[tokens[compares[0]]]), values)
    sums = [
        place
        for place in places
        if tokens[place] == "+" or tokens[place] == "-" and is_binary(tokens, place)
    ]
    if sums:
        by = plus if tokens[sums[-1]] == "+" else minus
        return split_at(tokens, sums[-1], lambda a, b: joined(a, b, by), values)
    products = [place for place in places if tokens[place] == "*"]
    if products:
        return split_at(tokens, products[-1], lambda a, b: joined(a, b, times), values)
    return single(tokens, values)
