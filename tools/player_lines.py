#!/usr/bin/env python3
"""Prints the cases for the program in crates/player: steps, runs and histories.

player_lines.py questions   without their results
player_lines.py answers     whole
"""

import os
import sys

CASES = os.path.join(os.path.dirname(os.path.abspath(__file__)), "cases")

# The kinds of stores, and over which of them a line of each file is played.
STORES = ["word stores", "interleaved pairs of parity stores", "such pairs with a parity store behind them"]

PLAYED_OVER = {"steps": (0, 1), "runs": (0, 1), "histories": (0, 2)}

# Of each kind, how many fields a case has without its results.
FIELDS = {"steps": 4, "runs": 5}


def text_of(kind):
    with open(os.path.join(CASES, f"{kind}.txt"), encoding="utf-8") as file:
        return file.read()


def lines_of(kind):
    return [line for line in text_of(kind).splitlines() if line and not line.startswith("#")]


def case_lines(kind, whole):
    return [line if whole else " | ".join(line.split(" | ")[: FIELDS[kind]]) for line in lines_of(kind)]


def history_line(history, whole):
    """A history as one line: its label, its row and its calls, and if it is to be whole its answers and the row after them."""
    label, row, *exchanges, after = history.splitlines()
    calls, answers = zip(*(exchange.split(" -> ") for exchange in exchanges))
    fields = [label.removeprefix("# "), row.removeprefix("row "), "; ".join(calls)]
    if whole:
        fields += ["; ".join(answers), after.removeprefix("row ")]
    return " | ".join(fields)


def history_lines(whole):
    # what stands before the first empty line is comments
    return [history_line(history, whole) for history in text_of("histories").strip().split("\n\n")[1:]]


def play_lines(numbers):
    """How many plays there are over stores of each kind, by the numbers of lines of each file."""
    for index, store in enumerate(STORES):
        plays = sum(number for kind, number in numbers.items() if index in PLAYED_OVER[kind])
        yield f"plays over {store}: {plays}"


def main(arguments):
    if arguments not in (["questions"], ["answers"]):
        print("usage: player_lines.py questions | answers", file=sys.stderr)
        return 2
    whole = arguments == ["answers"]
    lines = {kind: case_lines(kind, whole) for kind in FIELDS}
    lines["histories"] = history_lines(whole)
    for kind in lines:
        for line in lines[kind]:
            print(line)
    if whole:
        for line in play_lines({kind: len(lines[kind]) for kind in lines}):
            print(line)
    return 0


if __name__ == "__main__":
    sys.exit(main(sys.argv[1:]))
