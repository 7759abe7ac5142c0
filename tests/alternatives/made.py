"""Makes a dialogue of small expressions, each with its alternatives and its cheapest choice:

    python3 tests/alternatives/made.py >tests/dialogues/lists-what-a-search-over-all-sets-finds.dialogue

The expressions are random, from a fixed seed. What is expected for each is found by going over all sets of its terms, using nothing of the
desk: a set is minimal if it satisfies the expression and no proper subset of it does; the cheapest set is the one with the least cost among
all that satisfy it, minimal or not, and whose terms all have a cost, and of these the first in the order of sets. A term without a plus
costs one less than its id has letters, and one with a plus has no cost, since it has no rule.
"""

import itertools
import json
import random

TERMS = ["a", "a+", "bb", "ccc", "dd", "e"]
CASES = 120


def tree(choice, leaves):
    """A term, or an operator with two parts or more."""
    if leaves == 1:
        return choice.choice(TERMS)
    parts = choice.randint(2, min(leaves, 3))
    cuts = sorted(choice.sample(range(1, leaves), parts - 1))
    sizes = [end - start for start, end in zip([0, *cuts], [*cuts, leaves])]
    return choice.choice(["AND", "OR"]), [tree(choice, size) for size in sizes]


def text(node, outer=None):
    if isinstance(node, str):
        return node
    operator, parts = node
    inside = f" {operator} ".join(text(part, operator) for part in parts)
    return inside if outer is None else f"({inside})"


def terms(node):
    return {node} if isinstance(node, str) else set().union(*map(terms, node[1]))


def holds(node, chosen):
    if isinstance(node, str):
        return node in chosen
    operator, parts = node
    return (all if operator == "AND" else any)(holds(part, chosen) for part in parts)


def in_order(chosen):
    return sorted(chosen, key=lambda term: (term.removesuffix("+"), term.endswith("+")))


def rank(chosen):
    return len(chosen), [(term.removesuffix("+"), term.endswith("+")) for term in in_order(chosen)]


def subsets(chosen):
    return [set(some) for size in range(len(chosen) + 1) for some in itertools.combinations(chosen, size)]


def minimal_sets(node):
    enough = [some for some in subsets(terms(node)) if holds(node, some)]
    return sorted((some for some in enough if not any(less < some for less in enough)), key=rank)


def cost(chosen):
    return sum(len(term) - 1 for term in chosen)


def cheapest(node):
    paid = [some for some in subsets(terms(node)) if holds(node, some) and not any(term.endswith("+") for term in some)]
    return min(paid, key=lambda some: (cost(some), rank(some)), default=None)


def catalogue():
    """A catalogue with rules that owe as many duties as a term costs."""
    codes = ["one", "two"]
    text = 'forms = ["binary"]\n'
    for code in codes:
        text += f'[[duty]]\ncode = "{code}"\ntitle = "{code}"\n'
    for term in TERMS:
        if not term.endswith("+"):
            text += f'[[rule]]\nterm = "{term}"\nform = "binary"\nduties = {json.dumps(codes[: cost([term])])}\n'
    return text


DOCUMENT = (
    "SPDXVersion: SPDX-2.3\nSPDXID: SPDXRef-DOCUMENT\nDocumentName: d\nDocumentNamespace: https://example.org/d\n"
    "PackageName: p\nSPDXID: SPDXRef-p\n"
)
OF_PACKAGE = {"document": 1, "package": "SPDXRef-p"}


def exchange(request, reply):
    print("> " + json.dumps(request, separators=(",", ":")))
    print("< " + json.dumps(reply, separators=(",", ":")))


def main():
    choice = random.Random(16)
    nodes = [tree(choice, choice.randint(1, 8)) for _ in range(CASES)]
    print("# Lists what a search over all sets finds.")
    print("# Made by tests/alternatives/made.py.")
    exchange({"do": "catalogue", "text": catalogue()}, {"revision": 1})
    exchange({"do": "import", "text": DOCUMENT}, {"document": 1, "new": True})
    for node in nodes:
        found = cheapest(node)
        exchange({"do": "conclude", **OF_PACKAGE, "expression": text(node)}, {"done": True})
        exchange({"ask": "alternatives", **OF_PACKAGE}, {"rows": [in_order(some) for some in minimal_sets(node)]})
        rows = [] if found is None else [[cost(found), in_order(found)]]
        exchange({"ask": "cheapest", **OF_PACKAGE, "form": "binary"}, {"rows": rows})


if __name__ == "__main__":
    main()
