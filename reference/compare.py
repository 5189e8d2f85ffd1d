"""Gives a program random script lines, and compares its answers with the reference's.

    python3 compare.py LINES SEED PROGRAM..      so many lines of each source; the program and its words

Prints, for each source, how many lines were the same, or the first that was not.
"""

import itertools
import random
import subprocess
import sys

from random_calls import SOURCES


def asked(line):
    return ' '.join(line.split(' ')[:3])


def compared(lines, program):
    given = '\n'.join(map(asked, lines)) + '\n'
    got = subprocess.run(program, input=given, capture_output=True, text=True, check=True).stdout.splitlines()
    for number, (want, have) in enumerate(itertools.zip_longest(lines, got, fillvalue=''), 1):
        if want != have:
            raise SystemExit('line %d\n  asked     %s\n  reference %s\n  program   %s' % (number, asked(want)[:200], want[-300:], have[-300:]))
    return len(lines)


def main():
    number, seed, program = int(sys.argv[1]), sys.argv[2], sys.argv[3:]
    for source, make in SOURCES.items():
        lines = list(itertools.islice(make(random.Random(source + seed)), number))
        by_kind = ', '.join('%d under %s' % (sum(line.startswith(k) for line in lines), k) for k in '012')
        print('%-10s %7d lines the same (compression: %s)' % (source, compared(lines, program), by_kind), flush=True)


if __name__ == '__main__':
    main()
