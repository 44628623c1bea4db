"""What each crate costs by docs/gate_cost.txt, a table that .ci/cost writes: what .ci/gate_tables and .ci/progress.py share."""

import re

import crates

PATH = f"{crates.TOP}/docs/gate_cost.txt"
KINDS = ("proof", "tests", "edits")
# Seconds of a crate that was not measured.
USUAL = 50
# The check that a crate's edits begin with takes this part of its proof, and each edit so many seconds: fitted over 50 crates.
FIRST_CHECK, ONE_EDIT = 0.8, 23


def rows_of(text):
    """Returns the rows of a table: a crate with its seconds and megabytes of each kind."""
    rows = {}
    for line in text.splitlines():
        cells = [it.strip() for it in line.strip().strip("|").split("|")]
        if len(cells) == 8 and re.fullmatch(r"sto\w*", cells[0]):
            rows[cells[0]] = {kind: [float(cells[1 + 2 * at]), int(cells[2 + 2 * at])] for at, kind in enumerate(KINDS)}
    return rows


def heads_of(text):
    """Returns what the lines before the table say: when, where and of what it was measured."""
    return dict(re.findall(r"(?m)^# (\w+): (.*)$", text))


def edits_of(crate):
    """Returns how many edits of a crate the gate tries."""
    return len(crates.names_in(f"{crates.TOP}/crates/{crate}/must-fail", ".edit"))


def seconds_of(rows, crate):
    """Returns the likely seconds of a crate's proof, and of all that the gate does with it once it is proved."""
    row, edits = rows.get(crate, {"proof": [USUAL], "tests": [0]}), edits_of(crate)
    proof = row["proof"][0]
    return proof, row["tests"][0] + (FIRST_CHECK * proof + ONE_EDIT * edits if edits else 0)
