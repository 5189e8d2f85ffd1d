#!/usr/bin/env python3
"""Counts the images that a take of 32 targets works out, by the calls that the built test makes.

    (cd crates/wallet && rt test wallet) && tools/images.py crates/wallet/out/wallet_tests

A compression has no state, so it cannot count its own calls. The tests at scale have one whose values carry how many images they took;
this runs those tests under callgrind, of valgrind, and adds up the calls of its functions that the take makes."""
import re
import subprocess
import sys
import tempfile
from pathlib import Path

TESTS = ["spread_targets", "adjacent_targets", "pairs_of_targets"]
NAME = re.compile(r"^(c?fn)=\((\d+)\)(?: (.*))?$")
CALLS = re.compile(r"^calls=(\d+)")


def run(program, test):
    """What callgrind writes of a test, with each function named by its two callers too."""
    with tempfile.TemporaryDirectory() as folder:
        out = Path(folder) / "out"
        command = ["valgrind", "--tool=callgrind", "--separate-callers=2", f"--callgrind-out-file={out}", program, f"tests::scale::{test}"]
        subprocess.run(command, check=True, capture_output=True)
        return out.read_text()


def count(text):
    """The calls of leaf and of pair whose callers are within the take."""
    names, caller, called = {}, "", ""
    calls = {"leaf": 0, "pair": 0}
    for line in text.splitlines():
        if match := NAME.match(line):
            kind, key, name = match.groups()
            if name:
                names[key] = name
            if kind == "fn":
                caller = names[key]
            else:
                called = names[key]
        elif (match := CALLS.match(line)) and "scale::take" in caller + called:
            for image in calls:
                if f"CountedCompression::{image}" in called.split("'")[0]:
                    calls[image] += int(match.group(1))
    return calls


def main():
    for test in TESTS:
        calls = count(run(sys.argv[1], test))
        print(f"{test}: {calls['leaf']} leaves, {calls['pair']} pairs, {sum(calls.values())} in all")


if __name__ == "__main__":
    main()
