"""The lines of VERDICTS, as words."""
from . import command


OUTCOMES = ("up", "down", "hairpin", "held", "drop")
DATAGRAMS = ("expired", "unfinished")


class VerdictsError(command.Unusable):
    """A file that is no VERDICTS, or not those that are wanted, and why."""


def lines(path):
    """The words of each line."""
    with open(path, encoding="ascii", errors="replace") as file:
        for number, text in enumerate(file, 1):
            words = text.split()
            if not is_line(words):
                raise VerdictsError(f"{path}:{number}: this is no line of VERDICTS")
            yield words


# no number of a run has more digits
MOST_DIGITS = 10


def is_number(word):
    return word.isdigit() and len(word) <= MOST_DIGITS


def is_line(words):
    if len(words) == 2:
        return words[0] in DATAGRAMS and is_number(words[1])
    return len(words) > 3 and is_number(words[0]) and is_number(words[1]) and words[2] in OUTCOMES and is_number(words[-1])


def of_records(path):
    """The words of each line that is a record's."""
    return (words for words in lines(path) if words[0] not in DATAGRAMS)


def outcome(words):
    """What became of a record: the rule of a drop, and else the outcome."""
    return words[3] if words[2] == "drop" else words[2]
