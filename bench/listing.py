"""A plain listing of minimal sets, for the benchmarks only: python3 bench/listing.py EXPR

Sets of terms are frozen sets in a list. Each union is compared with every set kept so far.
"""

import sys

from check import parse

TERMS = 128
SETS = 64


class Refused(Exception):
    pass


def insert(kept, new):
    if any(old <= new for old in kept):
        return kept
    return [old for old in kept if not new <= old] + [new]


def minimal_sets(tree):
    kind, rest = tree
    if kind == "one":
        return [frozenset([rest])]
    kept = [frozenset()] if kind == "all" else []
    for part in rest:
        sets = minimal_sets(part)
        unions = sets if kind == "any" else sorted((one | other for one in kept for other in sets), key=len)
        kept = kept if kind == "any" else []
        for union in unions:
            kept = insert(kept, union)
        if len(kept) > SETS:
            raise Refused("TooMany")
    return kept


def terms(tree):
    kind, rest = tree
    return {rest} if kind == "one" else set().union(*map(terms, rest))


def printed(term):
    key, exception = term
    return key if exception is None else f"{key} WITH {exception}"


def rank(term):
    key, exception = term
    return key.removesuffix("+"), key.endswith("+"), exception is not None, exception or ""


def listing(expression):
    tree = parse(expression)
    if len(terms(tree)) > TERMS:
        raise Refused("TooManyTerms")
    sets = [sorted(some, key=rank) for some in minimal_sets(tree)]
    return sorted(sets, key=lambda some: (len(some), [rank(term) for term in some]))


def main():
    try:
        for some in listing(sys.argv[1]):
            print(", ".join(map(printed, some)))
    except Refused as fault:
        print(f"fault: {fault}")
        sys.exit(1)


main()
