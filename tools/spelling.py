#!/usr/bin/env python3
"""Turns the definitions and lemmas of this repository to Rattle's spelling: words in snake case.

Run it once at the top, after the kit's port.py. A dash stays where it joins two names, as in sets-append.
It touches .rt and .antt files below crates/, and nothing but whole names.
"""
import os
import re

PLAIN = """
after-tables after-x after-y all-entries all-floor all-proper apart-after apart-before apart-is
ascend-typed ascends-apart ascends-then bearing-marks bearing-steps before-apart before-ascends
before-once below-or-from below-or-true bytes-typed cell-of cells-by-index code-found code-had
comes-before comes-to-rest count-is counted-above counted-floor cut-number cut-refusal draw-number
draw-refusal drawn-then entries-all entries-are entries-more fault-at file-answer file-bounded
file-fault file-graded file-length file-of file-passes file-records file-tables file-written
first-cells first-has floor-all floor-grid floor-more floor-tables found-above goes-up grade-fault
grade-number grade-passes graded-R graded-by-index grid-elsewhere grid-in grid-out-column
grid-out-row grid-outside grid-set grid-within has-cases has-cell has-later has-map-back has-state
has-states headed-passes header-fault in-file in-numbers in-record in-states inside-above inside-in
inside-out inside-within is-before is-file is-headed is-level is-proper is-sound is-under kind-back
kind-byte kind-here kind-is kind-of kind-of-byte kind-same kind-test kind-typed laws-R laws-T
length-same level-at level-found level-here level-is level-looked level-of-code level-past
level-read levels-recorded levels-within looked-above looked-bounded looked-graded looked-up
mark-cell mark-number mark-out mark-read mark-refusal mark-room marked-then marks-of marks-outside
marks-same marks-within memory-same memory-tables no-fault not-before nothing-has of-record of-state
of-states one-turn partition-point passed-view proper-passes put-above put-floor put-room raw-proper
raws-sound read-before record-answer record-bytes record-fault record-level record-position
records-above records-are records-fault records-few records-floor records-grow records-of
records-recorded same-column same-file-records same-is same-records save-number save-refusal
second-cause second-limit second-test set-levels sheet-bounded sheet-tables size-refusal
sound-passes spans-from spans-ordered state-all state-up states-all states-by-index states-of
states-same states-up step-cell step-out step-read steps-outside steps-within table-records
tables-are tables-of tables-recorded thousandth-spans thousandths-level thousandths-of
thousandths-opposite thousandths-tables thousandths-to-words through-bounded turns-enough typed-raws
under-is under-itself under-then up-later up-records view-bounded view-reads view-tables with-mark
with-marks with-step with-steps without-fault word-level word-name word-opposite word-spans
words-tables words-to-thousandths yes-no-level yes-no-name yes-no-opposite yes-no-tables
""".split()

OTHERS = {
    "Grade-as-Scale": "K.Grade.Scale",
    "bytes-append": "bytes_of-append",
    "has-map": "ContainsAt-map",
    "length-bytes": "length-bytes_of",
    "length-file": "length-file_of",
    "map-counting-append": "map-range_with_len-append",
    "map-counting-same": "map-range_with_len_same",
    "records-append": "records_of-append",
    "up-append": "Up-append",
}

NAMES = {name: name.replace("-", "_") for name in PLAIN} | OTHERS
WHOLE = re.compile(r"(?<![\w'-])(" + "|".join(sorted(map(re.escape, NAMES), key=len, reverse=True)) + r")(?![\w'-])")


def main():
    for folder, dirs, files in os.walk("crates"):
        dirs[:] = [d for d in dirs if d != "out"]
        for name in files:
            if not name.endswith((".rt", ".antt")):
                continue
            path = os.path.join(folder, name)
            with open(path, encoding="utf-8") as f:
                old = f.read()
            new = WHOLE.sub(lambda m: NAMES[m.group(1)], old)
            if new != old:
                with open(path, "w", encoding="utf-8") as f:
                    f.write(new)


main()
