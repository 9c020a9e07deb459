"""A line put to the proved replay, and its answer. What is right is that program's word; nothing here knows a rule."""

from sheet.programs import ProgramFault, run

# a set may have 32,768 bytes, and one more is refused before any of it is read: what stands behind that byte changes no answer
SET_BYTES = 32768
ROOM_BYTES = 131072
LINE_BYTES = 131072


class Refused(Exception):
    """The number of a refusal, and where it was met, in words."""

    def __init__(self, number, where=""):
        super().__init__(number)
        self.number = number
        self.where = where


def hex_field(data):
    return data.hex().encode("ascii") or b"-"


def set_field(data):
    return hex_field(data[: SET_BYTES + 1])


def line(*fields):
    return b" ".join(field if isinstance(field, bytes) else str(field).encode("ascii") for field in fields) + b"\n"


class Panel:
    """The proved replay, told the edition of every set."""

    def __init__(self, program, edition):
        self.program = program
        self.edition = edition

    def answers(self, lines):
        """What is printed for these lines, as bytes."""
        return run(self.program, line("edition", self.edition) + b"".join(lines))

    def fields(self, lines):
        """The fields of each line that is printed."""
        printed = self.answers(lines)
        if printed.startswith(b"?"):
            raise ProgramFault("the replay program does not know this command, or not these arguments")
        return [row.split(b"\t") for row in printed.split(b"\n")[:-1]]
