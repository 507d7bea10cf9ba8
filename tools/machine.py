"""A plain simulator of the machine of one worker.

It was written from the rules in prose, those that docs/MACHINE.md has, by
somebody who had not seen the definitions in crates/*/specs, so that the two
can be held against each other: tools/compute_cases.py does that.

Everything is done on strings of bits, the highest bit first (bit 29 of a word
is character 0), and with plain loops.

A cell is a tuple (upper, upper_good, lower, lower_good).

A report is one of
    ("illegal", address)
    ("protection", kind, address)
    ("parity", kind, address, "upper" or "lower")
    ("executive", address)
    ("testset", address)
with kind one of "fetch", "read", "write".
"""

ADDRESSES = 32768


# ---------------------------------------------------------------- bit strings

def bits(number, width):
    text = ""
    for position in range(width - 1, -1, -1):
        if (number >> position) % 2 == 1:
            text = text + "1"
        else:
            text = text + "0"
    return text


def number(text):
    total = 0
    for character in text:
        total = total * 2
        if character == "1":
            total = total + 1
    return total


def complement(text):
    out = ""
    for character in text:
        out = out + ("0" if character == "1" else "1")
    return out


def both(left, right):
    """The logical product."""
    out = ""
    for i in range(len(left)):
        out = out + ("1" if left[i] == "1" and right[i] == "1" else "0")
    return out


def either(left, right):
    """The inclusive or."""
    out = ""
    for i in range(len(left)):
        out = out + ("1" if left[i] == "1" or right[i] == "1" else "0")
    return out


def differ(left, right):
    """The exclusive or."""
    out = ""
    for i in range(len(left)):
        out = out + ("1" if left[i] != right[i] else "0")
    return out


def difference(u, v):
    """u - v as numbers, and 2^30 - 1 more if that is negative."""
    d = number(u) - number(v)
    if d < 0:
        d = d + 2 ** 30 - 1
    return bits(d, 30)


def total(u, v):
    """The sum: the difference of u and the complement of v."""
    return difference(u, complement(v))


def right_sign(text, count):
    for _ in range(count):
        text = text[0] + text[:-1]
    return text


def right_zero(text, count):
    for _ in range(count):
        text = "0" + text[:-1]
    return text


def turn_left(text, count):
    for _ in range(count):
        text = text[1:] + text[0]
    return text


def zero_fill(half):
    return "0" * 15 + half


def sign_fill(half):
    return half[0] * 15 + half


def lower(word):
    return word[15:30]


def upper(word):
    return word[0:15]


ONE = bits(1, 30)
ZERO = bits(0, 30)


# ------------------------------------------------------------- the legal codes

SHIFTS = (0o01, 0o02, 0o03, 0o05, 0o06, 0o07)
REPLACES = (0o24, 0o25, 0o36, 0o37, 0o44, 0o45, 0o46, 0o54, 0o55, 0o56, 0o57)
NO_K7 = (0o47, 0o50, 0o52, 0o53)
FUNCTIONS = SHIFTS + (
    0o10, 0o11, 0o12, 0o14, 0o15, 0o16,
    0o20, 0o21, 0o24, 0o25, 0o36, 0o37,
    0o40, 0o41, 0o42, 0o43, 0o44, 0o45, 0o46, 0o47,
    0o50, 0o51, 0o52, 0o53, 0o54, 0o55, 0o56, 0o57,
    0o60, 0o64, 0o71, 0o72, 0o77)
GS = (0o21, 0o23, 0o25, 0o27, 0o30, 0o31,
      0o51, 0o52, 0o53, 0o54, 0o55, 0o56, 0o57)


def is_legal(f, j, k):
    if f not in FUNCTIONS:
        return False
    if f == 0o77:
        return j * 8 + k in GS
    if f in REPLACES and k in (0, 4, 7):
        return False
    if f in NO_K7 and k == 7:
        return False
    return True


class Interrupt(Exception):
    def __init__(self, report):
        Exception.__init__(self)
        self.report = report


class After:
    """What an instruction leaves, gathered first: only one that is done puts it in place."""

    def __init__(self, machine):
        self.a = bits(machine.A, 30)
        self.q = bits(machine.Q, 30)
        self.b = list(machine.B)
        self.p = machine.P + 1
        self.stores = []            # ("whole", "upper" or "lower"; address; bits)


class Machine:
    def __init__(self, n, words, A, Q, B, P):
        """B is the list of the seven numbers B1 to B7."""
        assert 1 <= n <= ADDRESSES and len(words) == n
        assert 0 <= A < 2 ** 30 and 0 <= Q < 2 ** 30 and 0 <= P < 2 ** 17
        assert len(B) == 7
        for one in B:
            assert 0 <= one < 2 ** 15
        self.n = n
        self.words = [tuple(cell) for cell in words]
        self.A = A
        self.Q = Q
        self.B = [0] + list(B)      # B0 is 0 and stays 0
        self.P = P

    def registers(self):
        return [self.A, self.Q] + self.B[1:] + [self.P]

    # --------------------------------------------------------------- references

    def read(self, address, kind="read"):
        """The word of a whole cell: both its halves must be good; the upper one is tried first."""
        if address >= self.n:
            raise Interrupt(("protection", kind, address))
        up, up_good, low, low_good = self.words[address]
        if not up_good:
            raise Interrupt(("parity", kind, address, "upper"))
        if not low_good:
            raise Interrupt(("parity", kind, address, "lower"))
        return bits(up, 15) + bits(low, 15)

    def try_whole(self, address):
        """The write of a whole word meets protection alone."""
        if address >= self.n:
            raise Interrupt(("protection", "write", address))

    def try_half(self, half, address):
        """The write of a half meets protection, and then the parity of the other half."""
        if address >= self.n:
            raise Interrupt(("protection", "write", address))
        up, up_good, low, low_good = self.words[address]
        if half == "lower" and not up_good:
            raise Interrupt(("parity", "write", address, "upper"))
        if half == "upper" and not low_good:
            raise Interrupt(("parity", "write", address, "lower"))

    def put(self, where, address, text):
        up, up_good, low, low_good = self.words[address]
        if where == "whole":
            self.words[address] = (number(text[0:15]), 1, number(text[15:30]), 1)
        elif where == "upper":
            self.words[address] = (number(text), 1, low, low_good)
        else:
            self.words[address] = (up, up_good, number(text), 1)

    # ---------------------------------------------------------------- the parts

    def operand(self, k, address):
        """Y, by k."""
        if k == 0:
            return zero_fill(bits(address, 15))
        if k == 1:
            return zero_fill(lower(self.read(address)))
        if k == 2:
            return zero_fill(upper(self.read(address)))
        if k == 3:
            return self.read(address)
        if k == 4:
            return sign_fill(bits(address, 15))
        if k == 5:
            return sign_fill(lower(self.read(address)))
        if k == 6:
            return sign_fill(upper(self.read(address)))
        return bits(self.A, 30)

    def condition(self, j, a, q):
        """What j asks of A and Q."""
        if j == 0:
            return False
        if j == 1:
            return True
        if j == 2:
            return q[0] == "0"
        if j == 3:
            return q[0] == "1"
        if j == 4:
            return a == ZERO
        if j == 5:
            return a != ZERO
        if j == 6:
            return a[0] == "0"
        return a[0] == "1"

    def shift_count(self, text):
        """The lowest six bits; counts of 60 to 63 are illegal."""
        count = number(text[-6:])
        if count >= 60:
            raise Interrupt(("illegal", self.P))
        return count

    def store_class(self, after, k, address, word):
        """What a store instruction puts: with k of 1, 2 or 3 of the word, with 5, 6 or 7 of its complement."""
        if k in (5, 6, 7):
            word = complement(word)
        if k in (1, 5):
            self.try_half("lower", address)
            after.stores.append(("lower", address, lower(word)))
        elif k in (2, 6):
            self.try_half("upper", address)
            after.stores.append(("upper", address, lower(word)))
        else:
            self.try_whole(address)
            after.stores.append(("whole", address, word))

    def replace(self, after, k, address):
        """What a replace instruction puts: the new A, where Y was read."""
        if k in (1, 5):
            self.try_half("lower", address)
            after.stores.append(("lower", address, lower(after.a)))
        elif k in (2, 6):
            self.try_half("upper", address)
            after.stores.append(("upper", address, lower(after.a)))
        else:
            self.try_whole(address)
            after.stores.append(("whole", address, after.a))

    # ------------------------------------------------------------------ the step

    def step(self):
        """Changes the machine by one step; gives the report, or None where it did not interrupt."""
        at = self.P
        try:
            word = self.read(at, "fetch")
        except Interrupt as interrupt:
            return interrupt.report             # P stays, by protection as by parity
        f = number(word[0:6])
        j = number(word[6:9])
        k = number(word[9:12])
        b = number(word[12:15])
        y = number(word[15:30])
        if not is_legal(f, j, k):
            self.P = at + 1
            return ("illegal", at)
        address = (y + self.B[b]) % ADDRESSES   # ȳ; the carry is dropped
        after = After(self)
        try:
            if f == 0o77:
                self.long_code(after, j * 8 + k, address)
            else:
                self.short_code(after, f, j, k, address)
        except Interrupt as interrupt:
            if interrupt.report[0] != "parity":
                self.P = at + 1
            return interrupt.report
        self.A = number(after.a)
        self.Q = number(after.q)
        self.B = after.b
        self.B[0] = 0
        self.P = after.p
        for where, place, text in after.stores:
            self.put(where, place, text)
        return None

    def short_code(self, after, f, j, k, address):
        at = self.P
        a = bits(self.A, 30)
        q = bits(self.Q, 30)

        # ---- jumps and the two B instructions: no skip by j
        if f == 0o60:
            target = lower(self.operand(k, address))
            if self.condition(j, a, q):
                after.p = number(target)
            return
        if f == 0o64:
            target = number(lower(self.operand(k, address)))
            if self.condition(j, a, q):
                self.try_half("lower", target)
                after.stores.append(
                    ("lower", target, bits((at + 1) % ADDRESSES, 15)))
                after.p = (target + 1) % ADDRESSES
            return
        if f == 0o71:
            y = number(lower(self.operand(k, address)))
            if self.B[j] == y:
                after.b[j] = 0
                after.p = at + 2
            elif j != 0:
                after.b[j] = (self.B[j] + 1) % ADDRESSES
            return
        if f == 0o72:
            target = number(lower(self.operand(k, address)))
            if self.B[j] != 0:                  # never with j = 0
                after.b[j] = self.B[j] - 1
                after.p = target
            return

        # ---- B transfers: j names Bj, no skip
        if f == 0o12:
            if j != 0:
                after.b[j] = number(lower(self.operand(k, address)))
            return
        if f == 0o16:
            half = bits(self.B[j], 15)
            if k == 0:
                after.q = zero_fill(half)
            elif k == 4:
                after.a = zero_fill(half)
            elif k == 3:
                self.store_class(after, 3, address, zero_fill(half))
            elif k == 7:
                self.try_whole(address)
                after.stores.append(
                    ("whole", address, sign_fill(complement(half))))
            else:
                self.store_class(after, k, address, zero_fill(half))
            return

        # ---- all the rest skip by j
        tested = None                           # what stands for A in the skip

        if f in SHIFTS:
            count = self.shift_count(self.operand(k, address))
            if f == 0o01:
                after.q = right_sign(q, count)
            elif f == 0o02:
                after.a = right_sign(a, count)
            elif f == 0o03:
                long = right_sign(a + q, count)
                after.a = long[0:30]
                after.q = long[30:60]
            elif f == 0o05:
                after.q = turn_left(q, count)
            elif f == 0o06:
                after.a = turn_left(a, count)
            else:
                long = turn_left(a + q, count)
                after.a = long[0:30]
                after.q = long[30:60]
        elif f == 0o10:
            after.q = self.operand(k, address)
        elif f == 0o11:
            after.a = self.operand(k, address)
        elif f == 0o14:
            if k == 0:
                after.q = complement(q)
            elif k == 4:
                after.a = q
            else:
                self.store_class(after, k, address, q)
        elif f == 0o15:
            if k == 0:
                after.q = a
            elif k == 4:
                after.a = complement(a)
            else:
                self.store_class(after, k, address, a)
        elif f == 0o47:
            product = both(a, q)
            if k == 0:
                after.q = product
            elif k == 4:
                after.a = product
            else:
                self.store_class(after, k, address, product)
        else:
            y = self.operand(k, address)
            if f in (0o20, 0o24):
                after.a = total(a, y)
            elif f in (0o21, 0o25):
                after.a = difference(a, y)
            elif f == 0o36:
                after.a = total(y, ONE)
            elif f == 0o37:
                after.a = difference(y, ONE)
            elif f in (0o40, 0o44):
                after.a = both(y, q)
            elif f in (0o41, 0o45):
                after.a = total(a, both(y, q))
            elif f in (0o42, 0o46):
                after.a = difference(a, both(y, q))
            elif f == 0o43:
                tested = difference(a, both(y, q))
            elif f in (0o50, 0o54):
                after.a = either(a, y)
            elif f in (0o51, 0o55):
                after.a = differ(a, y)
            elif f in (0o52, 0o56):
                after.a = both(a, complement(y))
            else:                               # 53, 57
                after.a = either(both(a, complement(q)), both(y, q))
            if f in REPLACES:
                self.replace(after, k, address)

        if tested is None:
            tested = after.a
        if f in (0o40, 0o44) and j in (2, 3):
            ones = 0
            for character in after.a:
                if character == "1":
                    ones = ones + 1
            skip = (ones % 2 == 0) if j == 2 else (ones % 2 == 1)
        else:
            skip = self.condition(j, tested, after.q)
        if skip:
            after.p = at + 2

    def long_code(self, after, g, address):
        at = self.P
        a = bits(self.A, 30)
        q = bits(self.Q, 30)
        following = (address + 1) % ADDRESSES
        skip = False

        if g in (0o51, 0o55, 0o56):
            count = self.shift_count(bits(address, 15))
            if g == 0o51:
                after.q = right_zero(q, count)
            elif g == 0o55:
                after.a = right_zero(a, count)
            else:
                long = right_zero(a + q, count)
                after.a = long[0:30]
                after.q = long[30:60]
        elif g == 0o30:
            same = True
            for character in a:
                if character != a[0]:
                    same = False
            if same:
                after.q = bits(28, 30)
            else:
                count = 0
                text = a
                while text[0] == text[1]:
                    text = turn_left(text, 1)
                    count = count + 1
                after.a = text
                after.q = bits(count, 30)
        elif g == 0o21:
            first = self.read(address)
            second = self.read(following)
            after.a = first
            after.q = second
        elif g == 0o25:
            self.try_whole(address)
            self.try_whole(following)
            after.stores.append(("whole", address, a))
            after.stores.append(("whole", following, q))
        elif g == 0o23:
            first = self.read(address)
            second = self.read(following)
            skip = (a + q == first + second)
        elif g == 0o27:
            first = self.read(address)
            second = self.read(following)
            mine = complement(a[0]) + a[1:] + q
            theirs = complement(first[0]) + first[1:] + second
            skip = number(mine) < number(theirs)
        elif g == 0o31:
            made = ""
            place = address
            for _ in range(5):
                made = made + self.read(place)[-6:]
                place = (place + 1) % ADDRESSES
            after.a = made
        elif g == 0o53:
            word = self.read(address)
            skip = (both(a, q) == both(word, q))
        elif g == 0o57:
            word = self.read(address)
            skip = number(both(a, q)) < number(both(word, q))
        elif g == 0o52:
            word = self.read(address)
            if lower(word)[0] == "1":           # bit 14
                raise Interrupt(("testset", address))
            after.stores.append(("lower", address, "1" * 15))
        else:                                   # 54
            raise Interrupt(("executive", address))

        if skip:
            after.p = at + 2

    # ------------------------------------------------------------------- the run

    def run(self, budget):
        """Gives steps, ending, registers and words; the ending is "spent" or a report."""
        steps = 0
        ending = "spent"
        while steps < budget:
            report = self.step()
            steps = steps + 1
            if report is not None:
                ending = report
                break
        return steps, ending, self.registers(), list(self.words)


# ------------------------------------------------------------------- plain text

def show_report(report):
    return " ".join(str(part) for part in report)


def show_registers(registers):
    return " ".join(str(one) for one in registers)


def show_words(words):
    return " ".join("%d,%d,%d,%d" % (u, 1 if U else 0, l, 1 if L else 0)
                    for u, U, l, L in words)


def parse_words(text):
    out = []
    for part in text.split():
        u, U, l, L = part.split(",")
        out.append((int(u), int(U), int(l), int(L)))
    return out


def parse_registers(text):
    return [int(part) for part in text.split()]
