"""A refusal (paper 01, 'Refusal numbers and their order')."""


class Refused(Exception):
    """Raised in place of an answer: only a number, 1 to 15, and a place.

    14 counts among 1 to 8 and comes directly after 6 (request M-106).
    """

    def __init__(self, number, place=0):
        super().__init__(f"refused {number} at {place}")
        self.number = number
        self.place = place
