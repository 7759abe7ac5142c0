"""Licence expressions from a grammar and by mutation: conclusions of a package, its alternatives, choices for it, and `desk check`."""

import json
import random

import expression_faults
import made
import mutations
import offices
import running
import second_desk
import second_judge
import second_lists

NAME, SIZE = "expressions", 500
# After this many inputs the command line is tried too, with a process for each.
ASKED = 100
IDS = ["MIT", "mit", "Zlib", "Apache-2.0", "GPL-2.0", "a", "b", "c", "x-1", "NONE", "NOASSERTION", "And", "oR", "and", "or", "with", "LicenseRef", "0"]
REFERENCES = ["LicenseRef-own", "LicenseRef-1", "DocumentRef-d:LicenseRef-1", "DocumentRef-LicenseRef-a:LicenseRef-b"]
EXCEPTIONS = ["Classpath-exception-2.0", "x", "And"]
PIECES = [*IDS, *REFERENCES, *EXCEPTIONS, "AND", "OR", "WITH", "(", ")", "(", ")", "+", "a+", "é", "a:b", "LicenseRef-", "LicenseRef-a+", "DocumentRef-a", "_"]
BLANKS = [" ", " ", " ", "", "  ", "\t", "\n"]
PACKAGE = {"document": 1, "package": "SPDXRef-p"}
CODES = ["one", "two", "three"]
CATALOGUE = 'forms = ["binary", "source"]\n' + "".join(f'[[duty]]\ncode = "{code}"\ntitle = "t"\n' for code in CODES) + "".join(
    f'[[rule]]\nterm = "{term}"\nform = "{form}"\nduties = {json.dumps(CODES[:owed])}\n'
    for term, form, owed in [
        ("MIT", "binary", 1), ("MIT", "source", 0), ("Zlib", "binary", 2), ("a", "binary", 3), ("b", "binary", 0), ("c", "binary", 1),
        ("a+", "binary", 1), ("GPL-2.0 WITH x", "binary", 2), ("MIT WITH x", "binary", 3), ("Apache-2.0", "source", 2),
    ]
)


def term(turn):
    text = turn.choice(IDS if turn.random() < 0.8 else REFERENCES)
    if turn.random() < 0.1:
        text += "+"
    return f"{text} WITH {turn.choice(EXCEPTIONS)}" if turn.random() < 0.1 else text


def grown(turn, leaves):
    """An expression of this many terms."""
    if leaves == 1:
        return term(turn) if turn.random() < 0.9 else f"({term(turn)})"
    first = turn.randint(1, leaves - 1)
    operator = turn.choice([" AND ", " OR ", " OR ", " or "] if turn.random() < 0.05 else [" AND ", " OR "])
    text = grown(turn, first) + operator + grown(turn, leaves - first)
    return f"({text})" if turn.random() < 0.4 else text


def of_pieces(turn):
    return "".join(turn.choice(PIECES) + turn.choice(BLANKS) for _ in range(turn.randint(1, 9)))


def of_limits(turn):
    """Texts at the limits of bytes, terms, parentheses and lists."""
    deep = turn.choice([1, 63, 64, 65, 66, 200])
    return turn.choice([
        lambda: "(" * deep + "MIT" + ")" * turn.choice([deep, deep - 1, deep + 1]),
        lambda: " OR ".join(["a"] * turn.choice([1_023, 1_024, 1_025, 1_026])),
        lambda: "a" * turn.choice([16_383, 16_384, 16_385, 20_000]),
        lambda: "(" * turn.choice([1, 3, 5_000]),
        lambda: " AND ".join(f"(a{n} OR b{n})" for n in range(turn.choice([5, 6, 7, 8]))),
        lambda: " OR ".join(f"t{n}" for n in range(turn.choice([63, 64, 65, 127, 128, 129]))),
        lambda: " AND ".join(f"t{n}" for n in range(turn.choice([63, 64, 65, 127, 128, 129]))),
        lambda: " AND ".join(f"t{n}" for n in range(64)) + " AND (y OR z)",
    ])()


def text_of(turn):
    kind = turn.random()
    if kind < 0.25:
        return made.text(made.tree(turn, turn.randint(1, 7)))
    if kind < 0.55:
        return grown(turn, turn.randint(1, 8))
    if kind < 0.75:
        return of_pieces(turn)
    if kind < 0.995:
        return mutations.changed_text(turn, grown(turn, turn.randint(1, 6)))
    return of_limits(turn)


def inputs(seed, start):
    """This many expressions, each with terms that may be chosen for it."""
    for number in range(start, start + SIZE):
        turn = random.Random(f"{seed} {NAME} {number}")
        yield text_of(turn), [term(turn) for _ in range(turn.randint(0, 3))]


def chosen(text, terms):
    """A minimal set of the expression, if there is one, half of the time, otherwise these terms."""
    tree = second_judge.tree_of(text.encode(), second_judge.CAPITALS)
    if tree is None or len(terms) % 2 or len(second_lists.terms_of(tree)) > 12:
        return terms
    sets = second_lists.minimal_sets(tree)
    return [word.decode() for word in sets[len(text) % len(sets)]] if sets else terms


def first_requests():
    document = offices.PLAIN_DOCUMENT.replace("SPDXRef-m", "SPDXRef-p")
    yield {"do": "catalogue", "text": CATALOGUE}
    yield {"do": "import", "text": document}
    yield {"do": "open", "release": "r", "form": "binary"}
    yield {"do": "attach", "release": "r", "document": 1}
    yield {"do": "adopt", "document": 1, "reference": "LicenseRef-1", "licence": "MIT"}


def requests(text, terms):
    yield {"do": "conclude", **PACKAGE, "expression": text}
    if len(terms) != 1:
        yield {"ask": "alternatives", **PACKAGE}
        yield {"ask": "cheapest", **PACKAGE, "form": "source" if len(text) % 3 else "binary"}
        yield {"do": "choose", "release": "r", **PACKAGE, "terms": chosen(text, terms)}
        yield {"do": "unchoose", "release": "r", **PACKAGE}


def checked(text, terms, profile):
    """What `desk check` prints."""
    fault = expression_faults.fault_of(text.encode(), profile)
    if fault:
        return expression_faults.as_told(fault), 1
    printed = [second_judge.term_of(word.encode()) for word in terms]
    if None in printed:
        return f"bad term: {terms[printed.index(None)]}\n".encode(), 1
    tree = second_judge.Tokens(text.encode(), profile).joined(b"OR")
    if not second_judge.is_true(tree, set(printed)):
        return b"not enough\n", 1
    for word, of_word in zip(terms, printed):
        if second_judge.is_true(tree, set(printed) - {of_word}):
            return f"superfluous: {word}\n".encode(), 1
    return b"minimal\n", 0


def listed(text, profile):
    """What `desk alternatives` prints."""
    fault = expression_faults.fault_of(text.encode(), profile)
    if fault:
        return expression_faults.as_told(fault), 1
    tree = second_judge.Tokens(text.encode(), profile).joined(b"OR")
    if len(second_lists.terms_of(tree)) > second_lists.TERMS:
        return b"fault: TooManyTerms\n", 1
    sets = second_lists.minimal_sets(tree)
    return (b"fault: TooMany\n", 1) if sets is None else (b"".join(b", ".join(some) + b"\n" for some in sets), 0)


def on_the_command_line(program, text, terms):
    if "\0" in text or text.startswith("-"):
        return
    terms = terms or ["MIT"]
    for profile in (1, 2):
        for words, (wanted, status) in (
            (["check", "--profile", str(profile), text, *terms], checked(text, terms, profile)),
            (["alternatives", "--profile", str(profile), text], listed(text, profile)),
        ):
            done = program.run(*words)
            if (done.status, done.out, done.err) != (status, wanted, b""):
                yield f"{words!r:.500}: {done!r}, and not {wanted!r:.300}"


def differences(program, batch):
    desk, lines, wanted, places = second_desk.SecondDesk(), [], [], []
    asked = [(0, request) for request in first_requests()]
    asked += [(place, request) for place, (text, terms) in enumerate(batch) for request in requests(text, terms)]
    for place, request in asked:
        lines.append(json.dumps(request, separators=(",", ":"), ensure_ascii=False).encode() + b"\n")
        wanted.append(desk.answer(request))
        places.append(place)
    done = program.run("script", text=b"".join(lines))
    if running.unlike(done, {0, 1}):
        yield 0, running.unlike(done, {0, 1})
    for at, words in running.compared(lines, running.lines(done.out), wanted):
        yield places[at], f"{lines[at]!r:.600} is replied {words}"
    for place in range(0, len(batch), ASKED):
        for words in on_the_command_line(program, *batch[place]):
            yield place, words


def shown(one):
    return f"{one[0]!r} with the terms {one[1]}"
