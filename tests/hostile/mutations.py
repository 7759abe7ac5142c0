"""Random changes of bytes, applied to texts that were well formed."""

# Bytes and words that readers of these formats stop at.
TOKENS = [
    b"\0", b"\t", b"\n", b"\r\n", b"\r", b" ", b"\x7f", b"\x1b", b"\xff", b"\xc3", b"\xc3\xa9", b"\xe2\x80\xa8", b"\xef\xbb\xbf", b"\xed\xa0\x80",
    b"\xf0\x9f\x98\x80", b"\xf4\x90\x80\x80", b'"', b"'", b"\\", b"\\u0000", b"\\ud800", b"\\n", b"#", b":", b"=", b",", b"{", b"}", b"[", b"]",
    b"(", b")", b"+", b"-", b".", b"/", b"*", b"<text>", b"</text>", b"AND", b" OR ", b"WITH", b"0", b"1", b"2", b"9223372036854775807",
    b"9223372036854775808", b"-1", b"1e9", b"true", b"null", b'"""', b"'''", b"[[", b"]]", b"%00", b"..",
]


def place_in(turn, data):
    return turn.randrange(len(data) + 1)


def stretch_in(turn, data, longest=40):
    start = place_in(turn, data)
    return start, min(len(data), start + turn.randint(1, longest))


def flipped(turn, data):
    if not data:
        return data
    at = turn.randrange(len(data))
    return data[:at] + bytes([data[at] ^ 1 << turn.randrange(8)]) + data[at + 1 :]


def set_byte(turn, data):
    at = place_in(turn, data)
    return data[:at] + bytes([turn.randrange(256)]) + data[at + 1 :]


def with_token(turn, data):
    at = place_in(turn, data)
    return data[:at] + turn.choice(TOKENS) + data[at + turn.choice([0, 0, 1]) :]


def cut_out(turn, data):
    start, end = stretch_in(turn, data)
    return data[:start] + data[end:]


def doubled(turn, data):
    start, end = stretch_in(turn, data)
    return data[:end] + data[start:end] * turn.choice([1, 1, 1, 2, 30]) + data[end:]


def moved(turn, data):
    start, end = stretch_in(turn, data)
    rest = data[:start] + data[end:]
    at = place_in(turn, rest)
    return rest[:at] + data[start:end] + rest[at:]


def cut_short(turn, data):
    return data[: place_in(turn, data)]


def without_a_line(turn, data):
    parts = data.split(b"\n")
    del parts[turn.randrange(len(parts))]
    return b"\n".join(parts)


def with_a_line_again(turn, data):
    parts = data.split(b"\n")
    parts.insert(turn.randrange(len(parts) + 1), turn.choice(parts))
    return b"\n".join(parts)


def lines_swapped(turn, data):
    parts = data.split(b"\n")
    one, other = turn.randrange(len(parts)), turn.randrange(len(parts))
    parts[one], parts[other] = parts[other], parts[one]
    return b"\n".join(parts)


CHANGES = [flipped, set_byte, with_token, with_token, cut_out, doubled, moved, cut_short, without_a_line, with_a_line_again, lines_swapped]


def changed(turn, data):
    """The bytes with one change, or a few of them."""
    for _ in range(turn.choice([1, 1, 1, 2, 2, 4])):
        data = turn.choice(CHANGES)(turn, data)
    return data


def changed_text(turn, text):
    """The text with a few changes, and what isn't UTF-8 any more put right by U+FFFD."""
    return changed(turn, text.encode()).decode(errors="replace")
