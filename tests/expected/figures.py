#!/usr/bin/env python3
"""Writes what each program figures_NAME must print, from the rules paper and the second reading of the data sheets, to figures_NAME/stdout of a folder.

    python3 tests/expected/figures.py crates

Nothing here or in the modules beside it is taken from a run of a program: the second reading was made from the sheets by a reader who
had not seen the first, and the rest follows the sentences of the rules paper.
"""
import contextlib
import pathlib
import sys

sys.dont_write_bytecode = True

from curves import curves
from images import identity_bits, identity_in_banks, identity_takes, image_calls, initialization, no_identity, on_the_bus, rows, stored
from readings import inputs, right_aligned, sensors, temperatures, voltages
from records import records
from scripts import scripts
from states import states
from watch import watches

PROGRAMS = {
    "figures_chips": (rows, image_calls, stored, on_the_bus, initialization, identity_bits, identity_in_banks, identity_takes, no_identity),
    "figures_readings": (temperatures, sensors, voltages, right_aligned, inputs),
    "figures_watch": (watches,),
    "figures_states": (states,),
    "figures_plans": (curves,),
    "figures_records": (records,),
    "figures_scripts": (scripts,),
}

if __name__ == "__main__":
    for name, parts in PROGRAMS.items():
        folder = pathlib.Path(sys.argv[1], name)
        folder.mkdir(parents=True, exist_ok=True)
        with open(folder / "stdout", "w", newline="\n") as lines, contextlib.redirect_stdout(lines):
            for part in parts:
                part()
