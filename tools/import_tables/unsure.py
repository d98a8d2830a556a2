"""A cell that can not be told for sure."""


class Unsure(Exception):
    """What a cell is, and what was expected in its place."""

    def __init__(self, what, expected):
        super().__init__(f"{what}; expected {expected}")
