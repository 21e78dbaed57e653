"""What ends a run: a sentence for the driller."""


class Stop(Exception):
    """Something is wrong with what was given; the text is a sentence that says what, and what to do."""


class Refused(Exception):
    """The proved program, or a proved call, turned a survey away by this number (docs/REFERENCE.md, section 8)."""

    def __init__(self, number):
        super().__init__(f'refused {number}')
        self.number = number
