"""Where and why a text isn't a licence expression: a second reader of the faults of docs/REFUSALS.md, from the left.

It goes over the words of a text, keeping what is expected next and the parentheses that are open. `tests/second_judge.py` has the trees."""

import re

import second_judge

EMPTY, BAD_TOKEN, UNEXPECTED, UNCLOSED, TOO_DEEP, TOO_LONG, TOO_MANY_TERMS = range(1, 8)
NAMES = ["", "Empty", "BadToken", "Unexpected", "Unclosed", "TooDeep", "TooLong", "TooManyTerms"]
OPERAND, OPERATOR, EXCEPTION = range(3)
WORD = re.compile(rb"[()]|[^ \t()]+")


def is_word(token):
    try:
        second_judge.word_printed(token)
        return True
    except second_judge.NotRead:
        return False


def is_exception(token):
    return re.fullmatch(second_judge.IDSTRING, token) and not token.startswith(second_judge.RESERVED)


class Scan:
    """What is to the left of a place."""

    def __init__(self, operators):
        self.operators = operators
        self.wanted, self.open, self.terms, self.is_plain = OPERAND, [], 0, False

    def parenthesis(self, token, at):
        if token == b"(" and self.wanted == OPERAND:
            self.open.append(at)
            return TOO_DEEP if len(self.open) > second_judge.OPEN_PARENTHESES else None
        if token == b")" and self.wanted == OPERATOR and self.open:
            self.open.pop()
            self.is_plain = False
            return None
        return UNEXPECTED

    def operator(self, token):
        if self.wanted != OPERATOR or token.upper() == b"WITH" and not self.is_plain:
            return UNEXPECTED
        self.wanted = EXCEPTION if token.upper() == b"WITH" else OPERAND
        return None

    def word(self, token):
        if self.wanted == EXCEPTION and is_exception(token):
            self.wanted, self.is_plain = OPERATOR, False
            return None
        if self.wanted != OPERAND:
            return UNEXPECTED
        self.terms += 1
        self.wanted, self.is_plain = OPERATOR, True
        return TOO_MANY_TERMS if self.terms > second_judge.EXPRESSION_TERMS else None

    def over(self, token, at):
        """The fault of a token, if it is one."""
        if token in (b"(", b")"):
            return self.parenthesis(token, at)
        if token in self.operators:
            return self.operator(token)
        return self.word(token) if is_word(token) else BAD_TOKEN


def fault_of(text, profile=second_judge.CAPITALS):
    """The number of the first fault and its place, or None for an expression. NONE is a word like any other here."""
    if len(text) > second_judge.EXPRESSION_BYTES:
        return TOO_LONG, 0
    scan, is_empty = Scan(second_judge.OPERATORS[profile]), True
    for match in WORD.finditer(text):
        is_empty = False
        fault = scan.over(match.group(), match.start())
        if fault:
            return fault, match.start()
    if is_empty:
        return EMPTY, 0
    if scan.wanted != OPERATOR:
        return UNEXPECTED, len(text)
    return (UNCLOSED, scan.open[-1]) if scan.open else None


def fault_of_conclusion(text):
    """The same for an office's conclusion, for which NONE or NOASSERTION alone isn't an expression."""
    if len(text) <= second_judge.EXPRESSION_BYTES and text.strip(b" \t") in (b"NONE", b"NOASSERTION"):
        return UNEXPECTED, len(text) - len(text.lstrip(b" \t"))
    return fault_of(text)


def as_told(fault):
    """The line of `desk check`."""
    return f"fault: {NAMES[fault[0]]} at {fault[1]}\n".encode()
