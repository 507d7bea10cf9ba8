#!/usr/bin/env python3
"""Questions about the arithmetic of words, and their answers.

vectors.py [questions]   prints the questions, one a line
vectors.py answers       prints the questions, each with its answer

A word is a string of 30 times '0' or '1', the highest bit first, and two
words are one string of 60. Everything is worked out on single bits, slowly.
"""

import sys

BITS = {"0": "000", "1": "001", "2": "010", "3": "011",
        "4": "100", "5": "101", "6": "110", "7": "111"}
DIGITS = {bits: digit for digit, bits in BITS.items()}

# A bit of u, one of v, borrow or carry in -> the bit that results, borrow or carry out.
BIT_DIFFERENCE = {"000": "00", "001": "11", "010": "11", "011": "01",
                  "100": "10", "101": "00", "110": "00", "111": "11"}
BIT_SUM = {"000": "00", "001": "10", "010": "10", "011": "01",
           "100": "10", "101": "01", "110": "01", "111": "11"}


def bits_of(octal):
    return "".join(BITS[digit] for digit in octal)


def octal_of(bits):
    return "".join(DIGITS[bits[place:place + 3]] for place in range(0, len(bits), 3))


def place_by_place(table):
    """The operation that looks up the bits in each place of its words in a table."""
    return lambda *words: "".join(table["".join(bits)] for bits in zip(*words))


complemented = place_by_place({"0": "1", "1": "0"})
product = place_by_place({"00": "0", "01": "0", "10": "0", "11": "1"})
selectively_set = place_by_place({"00": "0", "01": "1", "10": "1", "11": "1"})
selectively_complemented = place_by_place({"00": "0", "01": "1", "10": "1", "11": "0"})
selectively_cleared = place_by_place({"00": "0", "01": "0", "10": "1", "11": "0"})
# The word's bit, the mask's, the other word's.
selectively_substituted = place_by_place({"000": "0", "001": "0", "010": "0", "011": "1",
                                          "100": "1", "101": "1", "110": "0", "111": "1"})


def ripple(table, u, v):
    """Goes from the lowest bit to the highest; gives the bits, and the borrow or carry left."""
    result, over = "", "0"
    for a, b in zip(reversed(u), reversed(v)):
        bit, over = table[a + b + over]
        result = bit + result
    return result, over


def difference(u, v):
    result, borrow = ripple(BIT_DIFFERENCE, u, v)
    carry = "0"
    if less(u, v):
        result, carry = ripple(BIT_SUM, result, "1" * len(result))
    assert borrow == carry  # the carry out of the top gives back what was borrowed there
    return result


def sum_of(u, v):
    return difference(u, complemented(v))


def extended(half):
    word = half
    while len(word) < 30:
        word = half[0] + word
    return word


def shifted_right(bits, count, filled_with="0"):
    for _ in range(min(count, len(bits))):  # after that none of them is left
        bits = filled_with + bits[:-1]
    return bits


def shifted_right_with_sign(bits, count):
    return shifted_right(bits, count, bits[0])


def turned_left(bits, count):
    for _ in range(count % len(bits)):
        bits = bits[1:] + bits[0]
    return bits


def scaled(word):
    if "0" not in word or "1" not in word:
        return word, 28
    count = 0
    while word[0] == word[1]:
        word = turned_left(word, 1)
        count += 1
    return word, count


def odd_ones(word):
    odd = False
    for bit in word:
        if bit == "1":
            odd = not odd
    return odd


def equal(u, v):
    return all(a == b for a, b in zip(u, v))


def less(u, v):
    """Without signs: the highest place where the two differ decides."""
    for a, b in zip(u, v):
        if a != b:
            return a == "0"
    return False


def less_with_signs(u, v):
    negative_u, negative_v = u[0] == "1", v[0] == "1"
    if "0" not in u:  # minus zero is less than +0 and all above it
        return not negative_v
    if "0" not in v:
        return negative_u
    if negative_u and negative_v:  # the greater magnitude is the lesser number
        return less(complemented(v), complemented(u))
    if negative_u or negative_v:
        return negative_u
    return less(u, v)


def equal_under(mask, x, y):
    return equal(product(mask, x), product(mask, y))


def less_under(mask, x, y):
    return less(product(mask, x), product(mask, y))


def packed(*words):
    return "".join(word[-6:] for word in words)


def written(result):
    if isinstance(result, bool):
        return "yes" if result else "no"
    if isinstance(result, tuple):
        return f"{octal_of(result[0])} {result[1]}"
    return " ".join(octal_of(result[place:place + 30]) for place in range(0, len(result), 30))


def answer(kinds, operation, case):
    texts, arguments = case.split(" "), []
    for kind in kinds.split(" "):
        text = texts.pop(0)
        if kind == "double":
            text += texts.pop(0)
        arguments.append(int(text) if kind == "count" else bits_of(text))
    return written(operation(*arguments))


# The cases. A case is the text of an operation's arguments.
ZEROS = ["0000000000", "7777777777"]
DOZEN = ZEROS + ["0000000001", "7777777776", "3777777777", "4000000000", "4000000001",
                 "2000000000", "5252525252", "1234567012", "0000077777", "7777700000"]
EDGES = DOZEN + ["6000000000", "2525252525", "0000040000", "0000037777"]
HALVES = "00000 77777 00001 77776 37777 40000 40001 37776 20000 25252 52525 12345 65432".split()
COUNTS = [0, 1, 2, 14, 15, 28, 29, 30, 31, 32, 44, 45, 58, 59, 60, 61, 63, 64, 89, 90, 4294967295]
FEWER_COUNTS = [0, 1, 15, 29, 30, 31, 59, 60, 2147483648]
WORDS, DOUBLES = ("6507142635", "1234567012"), ("6507142635 1234567012", "1234567012 6507142635")
PLUS_0, MINUS_0 = "0000000000 0000000000", "7777777777 7777777777"
PLUS_1, MINUS_1 = "0000000000 0000000001", "7777777777 7777777776"
GREATEST, LEAST = "3777777777 7777777777", "4000000000 0000000000"


def register(seed):
    """Words out of a shift register: each new bit tells whether two older ones differ."""
    bits = list(bits_of(seed))
    while True:
        for _ in range(30):
            bits.append("0" if bits[-89] == bits[-38] else "1")
        yield octal_of("".join(bits[-30:]))


CHANCE = register("311037552421026430215142306305")


def chance(cases, words):
    return [" ".join(next(CHANCE) for _ in range(words)) for _ in range(cases)]


def all_pairs(words):
    return [f"{u} {v}" for u in words for v in words]


def both_ways(cases):
    """Each case as it is, and with its last two exchanged."""
    return [" ".join(case) for x in cases for case in (x, (*x[:-2], x[-1], x[-2]))]


def counted(first, second):
    return [f"{first} {n}" for n in COUNTS] + [f"{second} {n}" for n in FEWER_COUNTS]


def to_scale(factor, sign):
    top = sign * (factor + 1) + complemented(sign)
    return octal_of(top + bits_of(next(CHANCE))[len(top):])


MIDDLE = ["0000100000 0000000001", "0000000001 0000100000", "0000077777 0000100000",
          "0000040000 0000040000", "0000037777 0000000001", "7777677777 7777777776"]
LOGIC = all_pairs(ZEROS) + [
    "3146314631 2525252525", "2525252525 3146314631", "1234567012 0000077777",
    "0000077777 1234567012", "1234567012 7777777777", "7777777777 1234567012",
    "1234567012 0000000000", "0000000000 1234567012", "4000000000 4000000001",
    "4000000001 2000000000"] + chance(6, 2)
ONE_BIT = [
    (DOUBLES[0], "2507142635 1234567012"), (DOUBLES[0], "6507142634 1234567012"),
    (DOUBLES[0], "6507142635 5234567012"), (DOUBLES[0], "6507142635 1234567013"),
    (DOUBLES[1], "5234567012 6507142635"), (DOUBLES[1], "1234567013 6507142635"),
    (DOUBLES[1], "1234567012 2507142635"), (DOUBLES[1], "1234567012 6507142634")]
SAME = [f"{number} {number}" for number in (PLUS_0, MINUS_0, *DOUBLES)]
SIGNS = [
    (PLUS_0, MINUS_0), (MINUS_0, MINUS_1), (PLUS_0, MINUS_1), (PLUS_1, PLUS_0), (PLUS_1, MINUS_0),
    (PLUS_1, MINUS_1), (GREATEST, LEAST), (MINUS_0, LEAST), (GREATEST, MINUS_0),
    (MINUS_1, "7777777777 7777777775"),
    ("0000000000 4000000000", "0000000000 3777777777"),  # the second word has no sign
    ("7777777777 4000000000", "7777777777 3777777777"),
    ("0000000001 0000000000", "0000000000 7777777777"),  # the first word decides
    ("7777777776 0000000000", "7777777777 7777777777")]
UNDER = both_ways([
    ("7777777777", "0000000000", "7777777777"), ("7777777777", "3777777777", "4000000000"),
    ("4000000000", "1234567012", "5234567012"), ("4000000001", "4000000000", "4000000001"),
    ("0000177777", "0000100000", "0000077777"), ("0000040000", "7777737777", "0000040000"),
    # Outside the mask it is the other way.
    ("0000000001", "7777777776", "0000000001"), ("3777777777", "0000000001", "4000000000"),
    ("0000077777", "1234567012", "2234567011"), ("7777700000", "1234467013", "1234567012"),
]) + [  # The same under the mask.
    "0000000000 0000000000 7777777777", "0000000000 3777777777 4000000000",
    "3777777777 0000000000 4000000000", "7777777776 1234567012 1234567013",
    "7777700000 1234567012 1234500000", "0000077777 1234567012 7654367012",
    "7777777777 4000000001 4000000001"] + chance(3, 3)

# Name, kinds of the arguments, operation, cases.
OPERATIONS = [
    ("difference", "word word", difference,
     ["0000000003 0000000005"] + all_pairs(DOZEN) + MIDDLE + chance(4, 2)),
    ("sum", "word word", sum_of,
     ["0000000005 7777777772", "1234567012 6543210765"] + all_pairs(DOZEN) + MIDDLE + chance(4, 2)),
    ("complement", "word", complemented, EDGES + chance(6, 1)),
    ("complement-half", "half", complemented, HALVES + [word[:5] for word in chance(7, 1)]),
    ("extended", "half", extended, HALVES + [word[:5] for word in chance(7, 1)]),
    ("shifted-right", "word count", shifted_right, counted(*WORDS)),
    ("shifted-right-with-sign", "word count", shifted_right_with_sign,
     counted(*WORDS) + ["4000000000 29", "4000000000 28", "7777777777 17"]),
    ("turned-left", "word count", turned_left, counted(*WORDS) + ["4000000000 1", "0000000001 29"]),
    ("double-shifted-right", "double count", shifted_right, counted(*DOUBLES)),
    ("double-shifted-right-with-sign", "double count", shifted_right_with_sign, counted(*DOUBLES)),
    ("double-turned-left", "double count", turned_left, counted(*DOUBLES)),
    ("scaled", "word", scaled,
     ZEROS + ["0000077777", "7777700000"]
     + [to_scale(factor, sign) for factor in range(29) for sign in "01"]),
    ("product", "word word", product, LOGIC),
    ("selective-set", "word word", selectively_set, LOGIC),
    ("selective-complement", "word word", selectively_complemented, LOGIC),
    ("selective-clear", "word word", selectively_cleared, LOGIC),
    ("selective-substitute", "word word word", selectively_substituted,
     [f"{pair} {word}" for pair in all_pairs(ZEROS) for word in ZEROS]
     + ["1234567012 0000077777 7654321076", "1234567012 7777700000 7654321076",
        "1234567012 4000000001 7654321077", "1703607417 1463146314 2525252525"] + chance(8, 3)),
    ("odd-ones", "word", odd_ones, EDGES + ["0000100000", "4000100000"] + chance(4, 1)),
    ("double-equal", "double double", equal,
     both_ways([DOUBLES, (PLUS_0, MINUS_0), (MINUS_0, MINUS_1)] + ONE_BIT) + SAME),
    ("double-less", "double double", less_with_signs,
     both_ways(SIGNS + ONE_BIT) + SAME + chance(4, 4)),
    ("equal-under", "word word word", equal_under, UNDER),
    ("less-under", "word word word", less_under, UNDER),
    ("packed", "word word word word word", packed,
     ["0000000001 0000000002 0000000003 0000000004 0000000005",
      "7777777700 7777777700 7777777700 7777777700 7777777700",
      "1234567012 2345670123 3456701234 4567012345 5670123456",
      "0000000000 7777777777 0000000000 7777777777 0000000000"] + chance(16, 5)),
]


def main(arguments):
    if arguments not in ([], ["questions"], ["answers"]):
        print("usage: vectors.py [questions | answers]", file=sys.stderr)
        return 2
    for name, kinds, operation, cases in OPERATIONS:
        for case in cases:
            answered = " -> " + answer(kinds, operation, case) if arguments == ["answers"] else ""
            print(f"{name} {case}{answered}")
    return 0


if __name__ == "__main__":
    sys.exit(main(sys.argv[1:]))
