"""What turns a call away."""

DIMENSION, DATA, PARAMETER, INPUT, MATRIX, ADDED = (
    "DimensionMismatch",
    "InsufficientData",
    "InvalidParameter",
    "InvalidInput",
    "MatrixError",
    "Added",
)

# The kind of each number in the original, "Added" where it has none, and what to do about it. A section is one of docs/REFERENCE.md.
TOLD = {
    1: (DIMENSION, "Give every value its coordinates; look for a well whose place or value is missing."),
    2: (DIMENSION, "Give every node all its coordinates."),
    3: (INPUT, "Name at least one basis; Constant is the plain choice."),
    4: (ADDED, "Use the codes of section 1."),
    5: (PARAMETER, "Give r as 0 or a small number above it, such as 1e-10."),
    6: (DIMENSION, "Give each code 4 one number a well, column after column, and none where no code is 4."),
    7: (DATA, "Measure more wells or take fewer columns: Constant and External need a well each, Linear 3, Quadratic 6."),
    8: (DIMENSION, "Give every node one number for each code 4, node after node."),
    9: (ADDED, "Spread the nodes over several calls, which changes no node's answer; of wells and columns choose fewer."),
    10: (ADDED, "Give t as 0 or a number above it."),
    11: (ADDED, "Find the empty or overflown entry and correct it, or leave its well or node out."),
    12: (ADDED, "Give the Exponential model a range above zero, or choose another model."),
    13: (ADDED, "Give points of one to three axes; with one axis take Ordinary."),
    14: (DATA, "Give at least two."),
    15: (ADDED, "Ask for 1 to 64 bins."),
    16: (ADDED, "Write the file anew, and see that it is carried over whole and byte for byte."),
    17: (ADDED, "Lend a longer one; 23,328 numbers serve every fit."),
    18: (ADDED, "Lend areas of the lengths in sections 1, 10, 11 and 12."),
    19: (MATRIX, "Look for two wells at one place (leave one out, or raise r) and for columns that say the same at every well (leave one out)."),
    22: (ADDED, "Give the same-spot distance in metres, 2^-52 or more; to write a survey file leave it at 2^-52."),
    100: (ADDED, "Name a model by 1 to 4, and a kriging type by 1 or 2."),
}


class Refused(Exception):
    """A refusal: its number (docs/REFERENCE.md, section 8), the original's kind, and what to do, in a sentence."""

    def __init__(self, number):
        super().__init__(number)  # alone, since a copy and a pickle are made of what stands here
        self.number = number
        self.kind, self.message = TOLD[number]

    def __str__(self):
        return f"refused by {self.number} ({self.kind}): {self.message}"


def unless_0(number):
    if number:
        raise Refused(number)
