"""What is wrong with an input, as one sentence for a person, and whole numbers read from words."""

import re

WHOLE = re.compile(r"-?[0-9]{1,4000}")
LONGEST = 40


class Fault(Exception):
    """An input that is not what it must be. Its text names the place and what is expected there."""


def shown(word):
    """A word in quotes as a fault tells it: one line, plain characters, not too long."""
    plain = word.encode("unicode_escape").decode("ascii")
    return f"'{plain[:LONGEST]}…'" if len(plain) > LONGEST else f"'{plain}'"


def listed(names, last="and"):
    """Names as a list in a sentence: a, b and c."""
    return names[0] if len(names) == 1 else f"{', '.join(names[:-1])} {last} {names[-1]}"


def whole(word, name, low, high):
    """The number that a word is: decimal digits, with '-' before them or not, from low to high."""
    if WHOLE.fullmatch(word):
        number = int(word)
        if low <= number <= high:
            return number
    raise Fault(f"{name} is a whole number from {low:,} to {high:,}; {shown(word)} given")
