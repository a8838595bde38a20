"""The arguments, and which of them are refused, by docs/guide/options.md."""

from .scripts import number_of

JOBS = ("count", "index", "topk", "latest")
TREES = ("folding", "random", "rotating", "coalescing")

# The options that take a value. Its names, or its least number, its greatest, and its default.
NAMES = {"job": JOBS, "tree": TREES}
LIMITS = {
    "k": (1, 1000, 10),
    "buckets": (1, 4096, 24),
    "parts": (1, 16, 1),
    "workers": (1, 16, 1),
    "shards": (1, 8, 1),
    "keep": (0, 1000, 1),
    "gen": (0, 4294967295, None),
}
# Values are checked in this order.
ORDER = ("job", "k", "tree", "buckets", "parts", "workers", "shards", "keep", "gen")


class Usage(Exception):
    """Arguments are refused, with this word."""

    def __init__(self, word):
        super().__init__(word)
        self.word = word


def options_of(arguments):
    """Each option with its value. Refuses arguments that are not well formed."""
    if any(argument in (b"", b"-", b"--") or argument.endswith(b"=") for argument in arguments):
        raise Usage("words")
    options, left = {}, list(arguments)
    while left:
        argument = left.pop(0)
        name, has_value, value = argument.partition(b"=")
        name = name.decode()
        if argument == b"--work":
            value = True
        elif not name.startswith("--") or name[2:] not in ORDER:
            raise Usage("words")
        elif not has_value:
            if not left or left[0].startswith(b"-"):
                raise Usage("words")
            value = left.pop(0)
        if name[2:] in options:
            raise Usage("words")
        options[name[2:]] = value
    return options


def value_of(name, given):
    """The value of an option, given as these bytes or not at all."""
    if name in NAMES:
        value = (given or b"").decode()
        if value not in NAMES[name]:
            raise Usage(name)
        return value
    least, most, default = LIMITS[name]
    if given is None:
        return default
    value = number_of(given)
    if value is None or not least <= value <= most:
        raise Usage(name)
    return value


def plan_of(arguments):
    """Each option with what it says."""
    try:
        for argument in arguments:
            argument.decode()
    except UnicodeDecodeError:
        raise Usage("words") from None
    options = options_of(arguments)
    plan = {name: value_of(name, options.get(name)) for name in ORDER}
    if (plan["job"], plan["tree"]) == ("latest", "rotating"):
        raise Usage("tree")
    return plan
