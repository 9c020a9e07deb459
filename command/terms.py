"""Term lists brought in, and the line of one that is refused: the first of the list's beginnings that gets the refusal ends with it."""

from sheet.programs import ProgramFault

from .asking import LINE_BYTES, SET_BYTES, Refused, hex_field, line

# what stands behind the 129th line is never looked at
LINES = 129


def beginnings(data):
    """The list up to the end of each of its lines."""
    ends = [at + 1 for at, byte in enumerate(data) if byte == 10]
    if data and (not ends or ends[-1] != len(data)):
        ends.append(len(data))
    return [data[:end] for end in ends[:LINES]]


def import_line(numbers, data):
    return line("import", SET_BYTES, *numbers, hex_field(data))


def number_of(answer):
    return int(answer[1])


def imported(panel, numbers, data):
    """The set of the list; Refused with the line's place."""
    parts = beginnings(data)
    fitting = [part for part in parts if len(import_line(numbers, part)) <= LINE_BYTES]
    answer = panel.fields([import_line(numbers, fitting[-1] if fitting else b"")])[0]
    if number_of(answer) and (fitting or not parts):
        raise Refused(number_of(answer), refused_line(panel, numbers, fitting, number_of(answer)))
    if len(fitting) < len(parts):
        raise ProgramFault("line %d is far longer than any text may be: a script's line cannot carry it" % (len(fitting) + 1))
    return bytes.fromhex(answer[2].decode("ascii"))


def refused_line(panel, numbers, parts, number):
    """The line with which the list is first refused so. Where no line at all gets the same, or the line alone does not, that is no fault of this line alone."""
    if not parts:
        return "a list without lines"
    none, *answers = map(number_of, panel.fields([import_line(numbers, part) for part in [b"", *parts]]))
    place = answers.index(number)
    before = len(parts[place - 1]) if place else 0
    alone = number_of(panel.fields([import_line(numbers, parts[place][before:])])[0])
    return "%s %d" % ("line" if alone == number != none else "the list up to line", place + 1)
