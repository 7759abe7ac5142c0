"""An independent reading of licence expressions (SPDX 2.3, Annex D), for the benchmarks only.

Written by recursive descent over regular expressions, with sets and tuples: python3 bench/check.py EXPR TERM..
"""

import re
import sys

TOKEN = re.compile(r"[()]|[^ \t()]+")
WORD = re.compile(r"(?:DocumentRef-[A-Za-z0-9.-]+:)?LicenseRef-[A-Za-z0-9.-]+|[A-Za-z0-9.-]+\+?")
sys.setrecursionlimit(10_000)


def key(word):
    return word if word.startswith(("LicenseRef-", "DocumentRef-")) else word.lower()


def operand(tokens, place):
    token = tokens[place]
    if token == "(":
        tree, place = either(tokens, place + 1)
        if tokens[place] != ")":
            raise ValueError("unclosed")
        return tree, place + 1
    if not WORD.fullmatch(token) or token in ("AND", "OR", "WITH"):
        raise ValueError(token)
    if place + 1 < len(tokens) and tokens[place + 1] == "WITH":
        return ("one", (key(token), tokens[place + 2].lower())), place + 3
    return ("one", (key(token), None)), place + 1


def joined(kind, word, part):
    def read(tokens, place):
        tree, place = part(tokens, place)
        parts = [tree]
        while place < len(tokens) and tokens[place] == word:
            tree, place = part(tokens, place + 1)
            parts.append(tree)
        return (parts[0] if len(parts) == 1 else (kind, parts)), place

    return read


both = joined("all", "AND", operand)
either = joined("any", "OR", both)


def parse(text):
    tokens = TOKEN.findall(text)
    tree, place = either(tokens, 0)
    if place != len(tokens):
        raise ValueError(tokens[place])
    return tree


def holds(tree, chosen):
    kind, rest = tree
    if kind == "one":
        return rest in chosen
    parts = (holds(part, chosen) for part in rest)
    return all(parts) if kind == "all" else any(parts)


def verdict(expression, words):
    tree = parse(expression)
    chosen = [parse(word)[1] for word in words]
    if not holds(tree, set(chosen)):
        return "not enough"
    for word, term in zip(words, chosen):
        if holds(tree, set(chosen) - {term}):
            return "superfluous: " + word
    return "minimal"


if __name__ == "__main__":
    answer = verdict(sys.argv[1], sys.argv[2:])
    print(answer)
    sys.exit(answer != "minimal")
