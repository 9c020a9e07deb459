"""Answers of a replay, taken apart: which lines answer which command."""

# the letters of the lines that follow an answer's first line
FURTHER = {"P": "BAC", "K": "F", "Y": "M", "D": "Q"}


def text_of(data):
    return data.decode("utf-8", "surrogateescape")


def split_answers(output):
    """A list of answers, each a list of lines. What follows a print's first line is as long as it says."""
    answers, at = [], 0
    while at < len(output):
        line, at = _line(output, at)
        answer = [line]
        fields = line.split("\t")
        if fields[0] == "O" and len(fields) == 3 and fields[2].isdigit():
            size = int(fields[2])
            answer += text_of(output[at : at + size]).split("\n")[:-1]
            at += size
        elif fields[0] == "U" and fields[1:3] == ["0", "0"]:
            at = _further(output, at, "R", answer, 1)
        elif fields[0] in FURTHER:
            at = _further(output, at, FURTHER[fields[0]], answer)
        answers.append(answer)
    return answers


def _line(output, at):
    end = output.find(b"\n", at)
    end = len(output) if end < 0 else end
    return text_of(output[at:end]), end + 1


def _further(output, at, letters, answer, most=None):
    """Takes the lines that begin with one of these letters."""
    while at < len(output) and (most is None or len(answer) <= most):
        line, after = _line(output, at)
        if line.partition("\t")[0] not in list(letters):
            break
        answer.append(line)
        at = after
    return at
