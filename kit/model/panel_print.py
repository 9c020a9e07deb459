"""02, Job 10: a collection laid out on paper, in lines of 80 characters."""

KEY_WIDTH = 20
TEXT_WIDTH = 58


def is_control(character):
    return ord(character) < 32 or ord(character) == 127


def printed_value(value):
    """The value in characters; a control character is a full stop."""
    kind, content = value
    if kind == 1:
        return "NFTS"[content]
    if kind != 3:
        return str(content)
    return "".join("." if is_control(character) else character for character in content.decode("utf-8"))


def entry_lines(key, value):
    text = printed_value(value)
    pieces = [text[at : at + TEXT_WIDTH] for at in range(0, len(text), TEXT_WIDTH)] or [""]
    lead = str(key).rjust(KEY_WIDTH) + "  "
    for piece in pieces:
        yield lead + piece.ljust(TEXT_WIDTH) + "\n"
        lead = " " * len(lead)


def print_collection(projection, collection, room):
    """(number, None) of a refusal, or (0, the bytes)."""
    lines = [line for key, value in projection.entries(collection) for line in entry_lines(key, value)]
    out = "".join(lines).encode("utf-8")
    return (0, out) if len(out) <= room else (14, None)
