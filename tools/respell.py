#!/usr/bin/env python3
"""Brings this repository's own definitions and lemmas to today's spelling: words in snake case, facts in camel case.

usage: python3 tools/respell.py [FOLDER]     once, after the kit's port.py, at the top of the repository or of FOLDER

It renames tokens in the .antt files of specs/ and proofs/ and in the clauses of the .rt files: strings and comments keep what they say, and so do the names
that Rattle makes for goals and steps, unless one is spelled like a definition (the step `in-base` of read_number, which is `in_base` now). A name with a dash is
never Rust, so no function of src/ is touched.
"""

import os
import re
import sys

FACTS = {"Other-stays": "OtherStays", "Reads-again": "ReadsAgain", "Transcript-stays": "TranscriptStays"}

# Definitions, lemmas and variables of the repository that have a dash: each dash becomes an underscore.
WORDS = """
address-in after-s after-t all-digits-from answer-text answered-on answers-s answers-t
before-s before-t begun-word both-reach by-letter
can-damage cell-count cell-of cells-f cells-s count-said count-statement cut-changed cut-within
damage-statement damaged-row damaged-shown decimal-first decimal-short digit-read
fault-text fetch-said fetch-statement first-size
good-cell good-half good-with grows-after
half-bits half-number half-number-good half-put half-suc half-text half-written halves-put
if-good in-base in-turn in-turn-at in-turn-set index-within is-clear
kind-of layout-by left-all left-more left-on left-shown length-in-turn length-mapped length-pair length-paired length-row length-texts
line-bytes-of line-ends line-goes-on line-left line-played line-stops line-text lines-begin lines-played lower-half
mapped-set memory-of memory-statement most-cells
new-memory nth-word number-replaced numeral-read
octal-digit octal-half octal-word one-line-more ones-marked
pair-bounded pair-count pair-layout pair-ranged paired-set parity-ranged place-suc played-all played-bad played-on problem-text
put-half-answer put-half-statement put-said put-statement put-whole-answer
raw-statement reads-again reads-back reason-text replaced-at replies-all replies-more reply-text rest-suc
row-half row-past row-replaced row-set row-whole rule-of
said-by script-played second-size set-in setup-memory side-takes single-layout
spaced-again spaced-all spaced-more spaced-none statement-of
text-past texts-first texts-none texts-push texts-short told-by transcript-stays two-before two-on
upper-half used-at used-set
valueAfter-ge verb-of whole-put whole-written with-good with-half with-verb word-bits word-ranged words-after
""".split()

NEW = {w: w.replace("-", "_") for w in WORDS} | {"valueAfter-ge": "value_after_ge"} | FACTS
TOKEN = re.compile(r'"(?:\\.|[^"\\])*"|--[^\n]*|//[^\n]*|[A-Za-z][\w\']*(?:-[\w\']+)*')


def respelled(text, comment):
    def one(m):
        t = m.group(0)
        if t[0] == '"' or t.startswith(comment):
            return t
        return NEW.get(t, t)
    return TOKEN.sub(one, text)


def main():
    top = sys.argv[1] if len(sys.argv) > 1 else "."
    changed = 0
    for folder, dirs, files in os.walk(os.path.join(top, "crates")):
        dirs[:] = sorted(d for d in dirs if d not in ("out", ".git"))
        for name in sorted(files):
            comment = {".antt": "--", ".rt": "//"}.get(os.path.splitext(name)[1])
            if comment is None:
                continue
            path = os.path.join(folder, name)
            with open(path, encoding="utf-8") as f:
                old = f.read()
            new = respelled(old, comment)
            if new != old:
                changed += 1
                with open(path, "w", encoding="utf-8") as f:
                    f.write(new)
    print(f"respell: {changed} files changed")


main()
