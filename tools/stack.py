#!/usr/bin/env python3
"""Prints the deepest stack under a function of a built program, frame by frame.

    (cd crates/proof && rt test proof) && tools/stack.py crates/proof/out/proof_tests proof::judge::judge

Reads the disassembly alone: what each function takes from the stack, and which functions it calls directly. A function with no symbol of
its own is part of its caller. A call through a pointer is not seen, and a recursive function is counted once."""
import re
import subprocess
import sys

FUNCTION = re.compile(r"^[0-9a-f]+ <(.*)>:$")
TAKEN = re.compile(r"\bsub\s+\$0x([0-9a-f]+),%rsp")
PUSHED = re.compile(r"\bpush\s")
CALLED = re.compile(r"\b(?:call|jmp)\s+[0-9a-f]+ <([^>+]+)>")


def read(program):
    """The bytes that each function takes, its return address among them, and what it calls."""
    text = subprocess.run(["objdump", "-d", "-C", "--no-show-raw-insn", program], capture_output=True, text=True, check=True).stdout
    taken, called, name = {}, {}, None
    for line in text.splitlines():
        if start := FUNCTION.match(line):
            name = start.group(1)
            taken[name], called[name] = 8, set()
        elif name and (match := TAKEN.search(line)):
            taken[name] += int(match.group(1), 16)
        elif name and PUSHED.search(line):
            taken[name] += 8
        elif name and (match := CALLED.search(line)):
            called[name].add(match.group(1))
    return taken, called


def deepest(name, taken, called, above=()):
    """The path of functions from this one down that takes most."""
    below = [deepest(other, taken, called, above + (name,)) for other in called.get(name, ()) if other in taken and other not in above + (name,)]
    best = max(below, key=lambda path: sum(taken[other] for other in path), default=[])
    return [name] + best


def main():
    program, wanted = sys.argv[1:]
    taken, called = read(program)
    starts = [name for name in taken if name.split("<")[0].rstrip(":") == wanted]
    if not starts:
        sys.exit(f"{program} has no function {wanted}")
    for start in starts:
        path = deepest(start, taken, called)
        for name in path:
            print(f"{taken[name]:8} {name}")
        print(f"{sum(taken[name] for name in path):8} in all")


if __name__ == "__main__":
    main()
