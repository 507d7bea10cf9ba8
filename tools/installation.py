"""A plain model of an installation: places for workers, and calls.

It was written from the rules in prose, those that docs/MACHINE.md,
docs/REFUSALS.md and docs/FORMATS.md have, by somebody who had not seen the
definitions in crates/*/specs. Steps of programs are those of machine.py.

Calls and answers are lines of text, as in tools/cases/histories.txt. A row is
a list of cells (upper, upper_good, lower, lower_good).
"""

from machine import Machine, show_report, show_registers

LENGTH_MOST = 32768
WORDS = 2 ** 30
HALVES = 2 ** 15
P_END = 131072
CELL_END = 131072
BUDGET_MOST = 1000000
RECORD = 29                                     # bytes of a register record
# The fields that registers are kept in: offset, bytes, and what they stay below.
FIELDS = ((3, 4, WORDS), (7, 4, WORDS),
          (11, 2, HALVES), (13, 2, HALVES), (15, 2, HALVES), (17, 2, HALVES),
          (19, 2, HALVES), (21, 2, HALVES), (23, 2, HALVES),
          (25, 4, P_END))


class Refusal(Exception):
    """The number of a refusal, and what it names besides."""

    def __init__(self, number, *named):
        Exception.__init__(self)
        self.number = number
        self.named = named


class Worker:
    def __init__(self, lower, length, entry):
        self.lower = lower
        self.length = length
        self.registers = [0, 0] + [0] * 7 + [entry]     # A Q B1..B7 P
        self.report = None                              # not None: held


def from_big_endian(some):
    total = 0
    for one in some:
        total = total * 256 + one
    return total


def to_big_endian(number, width):
    out = []
    for _ in range(width):
        out.insert(0, number % 256)
        number = number // 256
    return out


def bytes_of(text):
    if text == "-":
        return []
    assert len(text) % 2 == 0
    return [int(text[i:i + 2], 16) for i in range(0, len(text), 2)]


def text_of(some):
    if len(some) == 0:
        return "-"
    return "".join("%02x" % one for one in some)


def fixed_address(cause, cell):
    if cause < 1 or cause > 5 or cell >= CELL_END:
        raise Refusal(14)
    if cause == 1:
        return 0
    if cause == 2:
        return 1
    if cause == 3:
        return [0o3, 0o4, 0o23, 0o27][cell // 32768]
    if cause == 4:
        return 0o7
    return 0o30


class Installation:
    def __init__(self, row):
        self.row = [tuple(cell) for cell in row]
        self.places = [None] * 8

    # ------------------------------------------------------------ the checks

    def worker(self, place):
        if place > 7:
            raise Refusal(1)
        if self.places[place] is None:
            raise Refusal(3)
        return self.places[place]

    # ------------------------------------------------------------- the calls

    def admit(self, place, lower, length, entry):
        if place > 7:
            raise Refusal(1)
        if self.places[place] is not None:
            raise Refusal(2)
        if length == 0 or length > LENGTH_MOST:
            raise Refusal(4)
        if lower + length > len(self.row):              # whole numbers: no wrap
            raise Refusal(5)
        mine = set(range(lower, lower + length))
        for other in self.places:
            if other is not None:
                if mine & set(range(other.lower, other.lower + other.length)):
                    raise Refusal(6)
        if entry >= length:
            raise Refusal(7)
        self.places[place] = Worker(lower, length, entry)
        return "ok"

    def load(self, place, address, word):
        worker = self.worker(place)
        if address >= worker.length:
            raise Refusal(8)
        if word >= WORDS:
            raise Refusal(9)
        self.row[worker.lower + address] = (word // HALVES, 1, word % HALVES, 1)
        return "ok"

    def look(self, place, address):
        worker = self.worker(place)
        if address >= worker.length:
            raise Refusal(8)
        up, up_good, low, low_good = self.row[worker.lower + address]
        if not up_good:
            raise Refusal(19, "upper")
        if not low_good:
            raise Refusal(19, "lower")
        return "word %d" % (up * HALVES + low)

    def run(self, place, budget):
        worker = self.worker(place)
        if budget > BUDGET_MOST:
            raise Refusal(10)
        if worker.report is not None:
            raise Refusal(11)
        first, last = worker.lower, worker.lower + worker.length
        r = worker.registers
        machine = Machine(worker.length, self.row[first:last], r[0], r[1], r[2:9], r[9])
        steps, ending, registers, words = machine.run(budget)
        assert len(words) == worker.length
        self.row[first:last] = words
        worker.registers = registers
        if ending == "spent":
            return "ran %d spent" % steps
        worker.report = show_report(ending)
        return "ran %d %s" % (steps, worker.report)

    def answer(self, place, a, q, p):
        worker = self.worker(place)
        if a >= WORDS or q >= WORDS or p >= P_END:
            raise Refusal(9)
        if worker.report is None:
            raise Refusal(12)
        worker.registers[0] = a
        worker.registers[1] = q
        worker.registers[9] = p
        worker.report = None
        return "ok"

    def save(self, place, buffer):
        worker = self.worker(place)
        if len(buffer) < RECORD:
            raise Refusal(13)
        record = to_big_endian(27, 2) + [1]
        for value, (_, width, _) in zip(worker.registers, FIELDS):
            record = record + to_big_endian(value, width)
        assert len(record) == RECORD
        return "ok " + text_of(record + buffer[RECORD:])

    def restore(self, place, some):
        worker = self.worker(place)
        if len(some) < RECORD:
            raise Refusal(15)
        if from_big_endian(some[0:2]) != 27:
            raise Refusal(16)
        if some[2] != 1:
            raise Refusal(17)
        values = []
        for offset, width, limit in FIELDS:
            value = from_big_endian(some[offset:offset + width])
            if value >= limit:
                raise Refusal(18, offset)
            values.append(value)
        worker.registers = values
        worker.report = None
        return "ok"

    def tell(self, place):
        worker = self.worker(place)
        if worker.report is None:
            return "ready " + show_registers(worker.registers)
        return "held " + worker.report + " " + show_registers(worker.registers)

    def retire(self, place):
        self.worker(place)
        self.places[place] = None
        return "ok"

    def span(self, place):
        worker = self.worker(place)
        return "span %d %d" % (worker.lower, worker.length)

    # ----------------------------------------------------------- plain lines

    def call(self, line):
        """The answer to a call; both are text."""
        name, *rest = line.split()
        try:
            if name == "save":
                place, buffer = int(rest[0]), bytes_of(rest[1])
                try:
                    return self.save(place, buffer)
                except Refusal as no:
                    no.named = no.named + (text_of(buffer),)
                    raise
            if name == "restore":
                return self.restore(int(rest[0]), bytes_of(rest[1]))
            numbers = [int(one) for one in rest]
            assert all(0 <= one < 2 ** 32 for one in numbers)
            if name == "fixed":
                return "at %d" % fixed_address(*numbers)
            assert name in ("admit", "load", "look", "run", "answer", "tell",
                            "retire", "span")
            return getattr(self, name)(*numbers)
        except Refusal as no:
            return " ".join(["refused", str(no.number)] + [str(x) for x in no.named])
