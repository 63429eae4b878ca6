"""The cases of `program`. Each is named for the mistake that it would find."""

ALL = []


def case(act):
    """Makes this one of the cases: it is handed the path of the program, and ends its process where something is not as wanted."""
    ALL.append(act)
    return act
