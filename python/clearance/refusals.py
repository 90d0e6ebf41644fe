"""The refusals of the library as exceptions, each with its number, its word and its cause: RULES, "Refusals"."""

WORDS = {
    1: "form",
    2: "edges",
    3: "range",
    4: "cell",
    5: "long",
    6: "store",
    7: "space",
    8: "stranger",
    9: "sheaf",
}

CAUSES = {
    1: "the bytes are no job sheet",
    2: "there are no edges, or more than 64",
    3: "a number is out of its range",
    4: "the smallest cell is larger than the plate, or the plate is more than 256 of them wide",
    5: "an edge is too long for the grain, even after ten halvings",
    6: "the trees need more numbers of store than were lent",
    7: "what is to be written needs more room than was lent",
    8: "the store does not begin with the trees of this job",
    9: "there are no points, or more than 256 in one call",
}


class Refused(Exception):
    """A call that the library refused; `number`, `word` and `cause` say why."""

    def __init__(self, number):
        super().__init__(f"refused {number} ({WORDS[number]}): {CAUSES[number]}")
        self.number = number
        self.word = WORDS[number]
        self.cause = CAUSES[number]

    def __reduce__(self):
        return Refused, (self.number,)


def check(number):
    """What the number that a call returned says: nothing for 0, else its refusal."""
    if number:
        raise Refused(number)
