"""The words that `run` and `plant` call the program with."""


def arguments_of(program, options):
    size, limit, unit, kind = options
    return [program, "run", "--size", "%d" % size, "--limit", "%d" % limit, "--unit", "%d" % unit, "--type", "%d" % kind]


def rounded(options):
    """The options as a report tells them."""
    size, limit, unit, kind = options
    return size // 1024 * 1024, limit, (unit + 7) // 8 * 8, kind
