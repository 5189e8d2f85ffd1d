"""Prints script lines with the reference's answers.

    python3 vectors.py SOURCE LINES [SEED]      a source is messages, blocks, places, keepers or runs
"""

import itertools
import random
import sys

from random_calls import SOURCES


def main():
    source, lines = sys.argv[1], int(sys.argv[2])
    seed = sys.argv[3] if len(sys.argv) > 3 else '1'
    for line in itertools.islice(SOURCES[source](random.Random(source + seed)), lines):
        print(line)


if __name__ == '__main__':
    main()
