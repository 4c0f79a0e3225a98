"""A disk as the product's contracts have it: what a read gives, and what a crash may leave.

Between two syncs each range that a write was asked for, done or failed, and the part past the old end may hold any bytes after a
crash, and the file may end anywhere in that part; the other bytes stay. After a write that failed a read may give any bytes in its
range too. After a sync that succeeds a crash leaves what a read gives, and nothing else.

A byte that may be any is ANY until somebody reads it. `every_case` runs a function again and again, until each choice that it
asked for was answered in each way, so that nothing is left out and nothing that nobody reads is gone through.
"""

ANY = None
BYTES = range(256)


class Choices:
    """Answers to choices: those of a list, and then always the first. It notes how many ways each had."""

    def __init__(self, answers):
        self.answers, self.asked = answers, []

    def choose(self, ways):
        ways = list(ways)
        place = len(self.asked)
        taken = self.answers[place] if place < len(self.answers) else 0
        self.asked.append((taken, len(ways)))
        return ways[taken]


def every_case(run):
    """Runs `run` with each list of answers, and says how many there were."""
    answers, count = [], 0
    while True:
        choices = Choices(answers)
        run(choices)
        count += 1
        asked = choices.asked
        while asked and asked[-1][0] + 1 == asked[-1][1]:
            asked.pop()
        if not asked:
            return count
        answers = [taken for taken, _ in asked[:-1]] + [asked[-1][0] + 1]


class Image:
    """A file some of whose bytes may be any. What is read is chosen, and stays."""

    def __init__(self, cells, choices, values=BYTES):
        self.cells, self.choices, self.values = cells, choices, values

    def __len__(self):
        return len(self.cells)

    def byte(self, place):
        if self.cells[place] is ANY:
            self.cells[place] = self.choices.choose(self.values)
        return self.cells[place]

    def __getitem__(self, place):
        if isinstance(place, slice):
            return bytes(self.byte(each) for each in range(*place.indices(len(self.cells))))
        return self.byte(place)


class Fault(Exception):
    """A call of the disk failed."""


class Stopped(Exception):
    """The machine or the program stopped at this call."""


class Disk:
    """A disk each of whose calls may be the last, and of whose calls so many may fail."""

    def __init__(self, cells, choices, faults=0, may_stop=False):
        self.seen, self.kept, self.torn = list(cells), list(cells), []
        self.choices, self.faults, self.may_stop = choices, faults, may_stop
        self.stopping = False

    def begin(self):
        """Whether this call fails. Whether it is the last is chosen too."""
        failed = self.faults > 0 and self.choices.choose([False, True])
        self.faults -= failed
        self.stopping = self.may_stop and self.choices.choose([False, True])
        return failed

    def end(self, failed):
        if self.stopping:
            raise Stopped
        if failed:
            raise Fault

    def write(self, at, piece):
        failed = self.begin()
        self.torn.append((at, len(piece)))
        whole = max(len(self.seen), at + len(piece))
        length = self.choices.choose(range(len(self.seen), whole + 1)) if failed else whole
        cells = (self.seen + [ANY] * whole)[:length]
        for place, byte in enumerate(piece, at):
            if place < length:
                cells[place] = ANY if failed else byte
        self.seen = cells
        self.end(failed)

    def sync(self):
        failed = self.begin()
        if not failed:
            self.kept, self.torn = list(self.seen), []
        self.end(failed)

    def crash(self, few_lengths=False):
        """A content that a crash may leave: of any length that it may have, or of the two shortest and the longest."""
        shortest = len(self.kept)
        whole = max([shortest, *(at + size for at, size in self.torn)])
        lengths = sorted({shortest, min(shortest + 1, whole), whole}) if few_lengths else range(shortest, whole + 1)
        length = self.choices.choose(lengths)
        cells = (self.kept + [ANY] * whole)[:length]
        for at, size in self.torn:
            for place in range(at, min(at + size, length)):
                cells[place] = ANY
        return cells
