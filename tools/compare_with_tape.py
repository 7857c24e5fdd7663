#!/usr/bin/env python3
"""Makes the sample cards with the program `cards`, and reads each by tape_reader.py too.

    tools/compare_with_tape.py

A card that our program opens has to be read by Tape's rules with as many records; the status is 1 where one
is not. What Tape makes of a card that ours refuses is shown beside it: Tape checks less.
"""
import pathlib
import subprocess
import sys
import tempfile

import tape_reader

CARDS = pathlib.Path(__file__).resolve().parent.parent / "crates" / "cards"


def by_tape(path):
    try:
        return len(list(tape_reader.QueueFile(path.read_bytes()).records()))
    except tape_reader.Refused as why:
        return f"refused, {why}"


def main():
    with tempfile.TemporaryDirectory() as folder:
        run = subprocess.run(["rt", "run", "--", "write", folder], cwd=CARDS, capture_output=True, text=True)
        lines = [line.split(": ", 1) for line in run.stdout.splitlines() if ".card: " in line]
        if run.returncode != 0 or not lines:
            sys.exit("the program `cards` did not run: " + run.stderr[-500:])
        wrong = 0
        for name, ours in lines:
            tape = by_tape(pathlib.Path(folder) / name)
            same = not ours.startswith("ok ") or ours == f"ok {tape}"
            wrong += not same
            print(f"{name}: {ours}; by Tape: {tape}" + ("" if same else "  DIFFERS"))
        print(f"{len(lines)} cards, {wrong} read otherwise by Tape")
        sys.exit(wrong > 0)


if __name__ == "__main__":
    main()
