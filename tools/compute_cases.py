#!/usr/bin/env python3
"""Has the checker compute the cases in tools/cases from the definitions in crates/*/specs.

compute_cases.py [steps | runs | histories [FIRST [LAST]]]   all cases, those of one kind, or some of them by number
compute_cases.py .. --check-simulators                       plays them by machine.py and installation.py instead

A case becomes the statement that the definitions give what the case says, and its proof is `refl`, so the checker has to compute it.
The statements go, some at a time, into a file of proofs/ in the crate figures of a copy of the tree, and `rt check` checks that crate.
The copy lies outside the repository and is removed at the end: within it, rt would take the copy's crates for the repository's own.
"""

import argparse
import os
import re
import shutil
import subprocess
import sys
import tempfile
from collections import namedtuple

from installation import Installation
from machine import Machine, parse_registers, parse_words, show_registers, show_report, show_words

TOP = os.path.dirname(os.path.dirname(os.path.abspath(__file__)))

# How many cases of a kind are computed at once: with many more, the checker runs out of stack.
AT_ONCE = {"steps": 25, "runs": 5, "histories": 6}

HEAD = """\
use Rattle.std.proofs.Common.{ℕ, ◌≡◌, Bool, true, false, List, [], ◌∷◌, refl, Ok, Err}
use Rattle.words.specs.Bits.{of_bits}
use Rattle.words.specs.Characters.{packed}
use Rattle.words.specs.Extension.{extended}
use Rattle.words.specs.Logic.{product, selective_set, selective_complement, selective_clear, selective_substitute, ones_among, has_odd_ones, equal_under, less_under}
use Rattle.words.specs.Order.{less}
use Rattle.words.specs.Scale.{scale_factor, turns_within}
use Rattle.words.specs.Shifts.{shifted_right, shifted_right_with_sign, turned_left}
use Rattle.words.specs.Sums.{difference, sum}
use Rattle.store.specs.Cells.{Cell}
use Rattle.store.specs.declared.fault.Fault.TheVariants as fault
use Rattle.store.specs.declared.half.Half.TheVariants as half
use Rattle.records.specs.Record.{record_of, record_read, registers_in, too_wide}
use Rattle.records.specs.Registers.{Registers}
use Rattle.processor.specs.declared.outcome.Ending.TheVariants as ending
use Rattle.processor.specs.declared.report.Reference.{Reference}
use Rattle.processor.specs.declared.report.ReferenceKind.{ReferenceKind}
use Rattle.processor.specs.declared.report.ReferenceKind.TheVariants as kind
use Rattle.processor.specs.declared.report.Report.TheVariants as report
use Rattle.processor.specs.Computations.{computed}
use Rattle.processor.specs.Machine.{Machine}
use Rattle.processor.specs.Repertoire.{operation_of}
use Rattle.processor.specs.Reports.{relative}
use Rattle.processor.specs.Run.{run}
use Rattle.processor.specs.Skips.{skip_met, product_skip_met}
use Rattle.processor.specs.Step.{completed, interrupted, step, tried, instruction_effect}
use Rattle.engine.specs.declared.answer.Answer.TheVariants as answer
use Rattle.engine.specs.declared.answer.State.TheVariants as state
use Rattle.engine.specs.declared.call.Call.{Call}
use Rattle.engine.specs.declared.call.Call.TheVariants as call
use Rattle.engine.specs.declared.call.Request.TheVariants as request
use Rattle.engine.specs.declared.refusal.Refusal.TheVariants as refusal
use Rattle.engine.specs.Exchanges.{answers_in, exchanges, after}
use Rattle.engine.specs.FixedAddress.{fixed_address}
use Rattle.engine.specs.Installation.{made}
use Rattle.engine.specs.Performing.{performed}
use Rattle.engine.specs.Serving.{served}
use Rattle.figures.specs.Programs.{admit, reference}

abbrev cell : ℕ → Bool → ℕ → Bool → Cell
cell u u_good l l_good = record { upper = record { value = u; good = u_good }; lower = record { value = l; good = l_good } }

abbrev registers_of : ℕ → ℕ → List ℕ → ℕ → Registers
registers_of a q b p = record { a = a; q = q; b = b; p = p }

abbrev machine : ℕ → Registers → List Cell → Machine
machine n registers words = record { length = n; registers = registers; words = words }
"""

UNFOLDED = """\
exchanges after performed served fixed_address record_of record_read registers_in too_wide
run step tried instruction_effect operation_of skip_met product_skip_met computed sum difference extended of_bits packed
product selective_set selective_complement selective_clear selective_substitute has_odd_ones equal_under less_under less
scale_factor turns_within shifted_right shifted_right_with_sign turned_left ones_among""".split()

# By their numbers, from 1 on; those of 18 and 19 name something besides.
REFUSALS = """\
NoSuchPlace PlaceOccupied PlaceFree BadLength PastStore CellShared EntryPastLength AddressPastLength NumberTooWide BudgetTooLarge
WorkerHeld WorkerNotHeld ShortBuffer NoFixedAddress ShortRecord RecordLength RecordVersion FieldTooWide Spoiled""".split()

ANSWERS = {"admit": "Admitted", "load": "Loaded", "look": "Looked", "run": "Ran", "answer": "Answered", "save": "Saved",
           "restore": "Restored", "tell": "Told", "retire": "Retired", "span": "Spanned", "fixed": "FixedAddress"}

# The fields of a line, or the lines of a history, and the label apart.
Case = namedtuple("Case", "name label parts")


# Reading the cases.

def without_name(line):
    """A line of a history without its first word."""
    return line.split(" ", 1)[1]


def cases_of(kind):
    with open(f"{TOP}/tools/cases/{kind}.txt", encoding="utf-8") as file:
        text = file.read()
    if kind == "histories":
        split = [block.splitlines() for block in text.strip().split("\n\n")[1:]]
        split = [[without_name(lines[0]), *lines[1:]] for lines in split]
    else:
        split = [line.split(" | ") for line in text.splitlines() if not line.startswith("#")]
    one = {"steps": "step", "runs": "run", "histories": "history"}[kind]
    return [Case(f"{one}_{number}", label, parts) for number, (label, *parts) in enumerate(split, 1)]


def exchanges_of(lines):
    """The calls and the answers of a history, each as its words."""
    both = [line.split(" -> ") for line in lines[1:-1]]
    return [call.split() for call, _ in both], [answer.split() for _, answer in both]


# Writing them as terms.

def list_term(terms):
    return "(" + " ∷ ".join([*terms, "[]"]) + ")"


def cells_term(text):
    truth = {1: "true", 0: "false"}
    return list_term(f"cell {u} {truth[u_good]} {l} {truth[l_good]}" for u, u_good, l, l_good in parse_words(text))


def registers_term(numbers):
    return f"(registers_of {numbers[0]} {numbers[1]} {list_term(numbers[2:9])} {numbers[9]})"


def machine_term(length, registers, words):
    return f"(machine {length} {registers_term(registers.split())} {cells_term(words)})"


def bytes_term(text):
    return list_term(str(byte) for byte in bytes.fromhex(text.replace("-", "")))


def report_term(words):
    name, *rest = words
    if name in ("protection", "parity"):
        referred = f"(reference kind.{rest[0].capitalize()} {rest[1]})"
        fault = f" (fault.Spoiled half.{rest[2].capitalize()})" if name == "parity" else ""
        return f"(report.{name.capitalize()} {referred}{fault})"
    variant = {"illegal": "IllegalInstruction", "executive": "ExecutiveReturn", "testset": "TestAndSet"}[name]
    return f"(report.{variant} (relative {rest[0]}))"


def ran_term(steps, *words):
    ending = "ending.Spent" if words == ("spent",) else f"ending.Interrupted {report_term(words)}"
    return f"(record {{ steps = {steps}; ending = {ending} }})"


def refusal_term(number, named):
    variant = REFUSALS[int(number) - 1]
    if variant == "FieldTooWide":
        return f"(refusal.FieldTooWide {named[0]})"
    if variant == "Spoiled":
        return f"(refusal.Spoiled half.{named[0].capitalize()})"
    return f"refusal.{variant}"


def call_term(name, *rest):
    if name == "admit":
        return f"(admit {' '.join(rest)})"
    if name == "retire" or name == "span":
        return f"(call.{name.capitalize()} {rest[0]})"
    if name == "fixed":
        return f"(call.FixedAddress {rest[0]} (record {{ 0 = {rest[1]} }}))"
    place, *given = rest
    if name == "load" or name == "look":
        given[0] = f"(relative {given[0]})"
    if name == "save" or name == "restore":
        given[0] = bytes_term(given[0])
    return f"(call.Ask {place} ({' '.join(['request.' + name.capitalize(), *given])}))"


def answer_term(call, words):
    """An answer is a result, and of a save the buffer after it as well."""
    name, *rest = words
    buffer = " " + bytes_term(rest[-1]) if call[0] == "save" else ""
    if name == "refused":
        return f"(answer.{ANSWERS[call[0]]} (Err {refusal_term(rest[0], rest[1:])}){buffer})"
    if name == "ok":
        value = "tt"
    elif name == "word":
        value = rest[0]
    elif name == "at":
        value = f"(record {{ 0 = {rest[0]} }})"
    elif name == "span":
        value = f"(record {{ lower = record {{ 0 = {rest[0]} }}; length = {rest[1]} }})"
    elif name == "ran":
        value = ran_term(*rest)
    else:
        state = "state.Ready" if name == "ready" else f"state.Held {report_term(rest[:-10])}"
        value = f"(record {{ state = {state}; registers = {registers_term(rest[-10:])} }})"
    return f"(answer.{ANSWERS[call[0]]} (Ok {value}){buffer})"


def statement(name, text):
    return f"\n{name} : {text}\nunfolding {' '.join(UNFOLDED)}\n{name} = refl\n"


def statements_of(case):
    if case.name.startswith("step"):
        length, registers, words, outcome, *after = case.parts
        ended = "completed" if outcome == "none" else f"interrupted {report_term(outcome.split())}"
        return statement(case.name, f"step {machine_term(length, registers, words)} ≡ {ended} {machine_term(length, *after)}")
    if case.name.startswith("run"):
        budget, length, registers, words, told, *after = case.parts
        outcome = f"record {{ told = {ran_term(*told.split())}; machine = {machine_term(length, *after)} }}"
        return statement(case.name, f"run {budget} {machine_term(length, registers, words)} ≡ {outcome}")
    calls, answers = exchanges_of(case.parts)
    first, last = (cells_term(without_name(case.parts[at])) for at in (0, -1))
    row, asked = f"{case.name}_row", f"{case.name}_calls"
    told = list_term(answer_term(*pair) for pair in zip(calls, answers))
    return (f"\nabbrev {row} : List Cell\n{row} = {first}\n"
            f"\nabbrev {asked} : List (Call (List ℕ))\n{asked} = {list_term(call_term(*call) for call in calls)}\n"
            + statement(f"{case.name}_answers", f"answers_in (exchanges (made {row}) {asked}) ≡ {told}")
            + statement(f"{case.name}_row_after", f"(after (made {row}) {asked}).row ≡ {last}"))


# Having them computed.

def copy_tree(to):
    """Copies the files that git knows or would add, as they stand."""
    listed = subprocess.run(["git", "ls-files", "-z", "--cached", "--others", "--exclude-standard"],
                            cwd=TOP, stdout=subprocess.PIPE, check=True, text=True).stdout
    for name in listed.split("\0"):
        if os.path.isfile(f"{TOP}/{name}"):
            os.makedirs(os.path.dirname(f"{to}/{name}"), exist_ok=True)
            shutil.copyfile(f"{TOP}/{name}", f"{to}/{name}")


def check(figures, statements):
    """Whether the checker takes the statements, and what rt writes."""
    with open(f"{figures}/proofs/Cases.antt", "w", encoding="utf-8") as file:
        file.write(HEAD + statements)
    ran = subprocess.run(["rt", "check"], cwd=figures, stdout=subprocess.PIPE, stderr=subprocess.STDOUT, text=True)
    return ran.returncode == 0, ran.stdout


def not_computed(figures, cases):
    """Those of the cases that are not computed, and why. All others have passed in one check."""
    failed = {}
    while cases:
        passed, output = check(figures, "".join(statements_of(case) for case in cases))
        if passed:
            break
        errors = re.findall(r"Cases\.antt:.*error: `((?:step|run|history)_\d+).*", output)
        named = [case for case in cases if case.name in errors]
        for case in named or cases:
            at = output.find(f"error: `{case.name}") if named else 0
            failed[case.name] = output[at:at + 300].strip()
        cases = [case for case in cases if case.name not in failed]
    return failed


def compute(kinds):
    """Prints what comes of each chunk of cases; gives whether all were computed."""
    computed, differ = 0, 0
    with tempfile.TemporaryDirectory(prefix="cases-") as copy:
        copy_tree(copy)
        figures = f"{copy}/crates/figures"
        with open(f"{figures}/proofs/Lib.antt", "a", encoding="utf-8") as file:
            file.write("mod Cases\n")
        print("Checking figures and the crates below it, and that a wrong statement is refused.", flush=True)
        passed, output = check(figures, "")
        if not passed:
            sys.exit(f"{output}\ncompute_cases.py: rt check does not pass as things are, so no case was computed")
        if check(figures, statement("wrong", "difference 3 5 ≡ 2"))[0]:
            sys.exit("compute_cases.py: rt check passes a wrong statement, so no case was computed")
        for kind, cases in kinds.items():
            for start in range(0, len(cases), AT_ONCE[kind]):
                chunk = cases[start:start + AT_ONCE[kind]]
                failed = not_computed(figures, chunk)
                print(f"{chunk[0].name} to {chunk[-1].name}: {len(chunk) - len(failed)} of {len(chunk)} computed", flush=True)
                for case in chunk:
                    if case.name in failed:
                        print(f"  {case.name} ({case.label}) differs or cannot be computed:\n{failed[case.name]}", flush=True)
                        differ += 1
                computed += len(chunk) - len(failed)
    print(f"{computed} computed, {differ} differ or cannot be computed")
    return differ == 0


# Playing them by the simulators.

def played(case):
    """What the simulators give, in the form in which the case says it."""
    if case.name.startswith("history"):
        world = Installation(parse_words(without_name(case.parts[0])))
        calls = [line.split(" -> ")[0] for line in case.parts[1:-1]]
        return [f"{call} -> {world.call(call)}" for call in calls] + ["row " + show_words(world.row)]
    length, registers, words = case.parts[-6:-3]
    a, q, *b, p = parse_registers(registers)
    machine = Machine(int(length), parse_words(words), a, q, b, p)
    if case.name.startswith("step"):
        report = machine.step()
        outcome = "none" if report is None else show_report(report)
    else:
        steps, ending, _, _ = machine.run(int(case.parts[0]))
        outcome = f"{steps} {ending if ending == 'spent' else show_report(ending)}"
    return [outcome, show_registers(machine.registers()), show_words(machine.words)]


def play(kinds):
    """Prints where the simulators give something else; gives whether they give the same everywhere."""
    agree = True
    for kind, cases in kinds.items():
        differ = [case for case in cases if played(case) != case.parts[1 if kind == "histories" else -3:]]
        for case in differ:
            print(f"{case.name} ({case.label}) differs: the simulator gives", *played(case), sep="\n  ")
        print(f"{kind}: {len(cases) - len(differ)} agree, {len(differ)} differ")
        agree = agree and not differ
    return agree


def main():
    parser = argparse.ArgumentParser(description="Has the checker compute the cases in tools/cases from the definitions.")
    parser.add_argument("kind", nargs="?", choices=list(AT_ONCE), help="one kind of cases alone")
    parser.add_argument("first", nargs="?", type=int, default=1, help="and of these from this number on")
    parser.add_argument("last", nargs="?", type=int, help="up to this one")
    parser.add_argument("--check-simulators", action="store_true", help="plays them by machine.py and installation.py instead")
    given = parser.parse_args()
    kinds = {kind: cases_of(kind)[max(given.first - 1, 0):given.last] for kind in ([given.kind] if given.kind else AT_ONCE)}
    return 0 if (play if given.check_simulators else compute)(kinds) else 1


if __name__ == "__main__":
    sys.exit(main())
