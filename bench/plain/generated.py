"""The scripts that are made from a number, by docs/formats/generator.md."""


class Draws:
    """Numbers that follow from a seed."""

    def __init__(self, seed):
        self.state = seed + 1

    def draw(self, below):
        """The next number below a limit."""
        self.state = (self.state * 6364136223846793005 + 1442695040888963407) % 2**64
        return self.state // 2**33 % below


def eight_words(draws):
    """Eight words out of 5,000, with a space between."""
    return " ".join(f"w{draws.draw(5000)}" for _ in range(8))


class Records:
    """The records of a whole script, numbered from 0."""

    def __init__(self, job, draws):
        self.job, self.draws, self.count = job, draws, 0

    def next(self):
        """The next record."""
        draw, number = self.draws.draw, self.count
        self.count += 1
        if self.job == "count":
            return eight_words(self.draws)
        if self.job == "index":
            return f"{number}\t{eight_words(self.draws)}"
        if self.job == "latest":
            return f"k{draw(2000)}\tv{draw(1000000)}"
        return f"g{draw(50)}\t{draw(100000)}\ti{draw(2000)}"

    def take(self, count):
        """So many records."""
        return [self.next() for _ in range(count)]


def generated(job, tree, seed):
    """The script of a job and a tree."""
    draws = Draws(seed)
    records, lines = Records(job, draws), []
    if tree == "random":
        lines += ["load 40000"] + records.take(40000) + ["run"]
        for _ in range(39):
            lines += [f"edit {draws.draw(39981)} 20 20"] + records.take(20) + ["run"]
    else:
        for number in range(1, 41):
            lines += ["drop 1"] if tree == "folding" and number > 24 else []
            lines += ["bucket 2000"] + records.take(2000) + ["run"]
    return "".join(f"{line}\n" for line in lines).encode()
