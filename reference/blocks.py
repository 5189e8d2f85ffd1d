"""Blocks as bytes: reading, the reader's entries, composing."""

from collections import namedtuple

MOST_SPENT, MOST_HASHES, MOST_NEW = 32, 992, 32

Block = namedtuple('Block', 'targets coins hashes new')


def counts(data):
    """The numbers of spent coins, hashes and new coins."""
    return [int.from_bytes(data[i : i + 2], 'little') for i in (0, 2, 4)]


def unreadable(data):
    """The number for which a block cannot be read, or 0."""
    if len(data) < 6:
        return 1
    d, h, a = counts(data)
    if d > MOST_SPENT or h > MOST_HASHES or a > MOST_NEW:
        return 2
    return 0 if len(data) == 6 + 40 * d + 32 * h + 32 * a else 3


def entries(data):
    """The entries of a readable block, each (kind, offset, bytes), by the first letter of target, spent, hash or new."""
    d, h, a = counts(data)
    out, offset = [], 6
    for kind, number, size in (('T', d, 8), ('S', d, 32), ('H', h, 32), ('N', a, 32)):
        for _ in range(number):
            out.append((kind, offset, data[offset : offset + size]))
            offset += size
    return out


def read(data):
    """(0, block), or the number for which it cannot be read and None."""
    number = unreadable(data)
    if number:
        return number, None
    parts = {kind: tuple(x for k, _, x in entries(data) if k == kind) for kind in 'TSHN'}
    targets = tuple(int.from_bytes(x, 'little') for x in parts['T'])
    return 0, Block(targets, parts['S'], parts['H'], parts['N'])


def block_bytes(targets, coins, hashes, new):
    """The bytes of a block, whatever is given."""
    head = b''.join(len(x).to_bytes(2, 'little') for x in (coins, hashes, new))
    return head + b''.join(t.to_bytes(8, 'little') for t in targets) + b''.join([*coins, *hashes, *new])


def put(out, result):
    """The result over the front of an output, or 19."""
    if len(out) < len(result):
        return 19, out
    return 0, result + out[len(result) :]


def compose(targets, coins, hashes, new, out):
    if len(targets) > MOST_SPENT or len(coins) > MOST_SPENT or len(hashes) > MOST_HASHES or len(new) > MOST_NEW:
        return 2, out
    if len(targets) != len(coins):
        return 3, out
    return put(out, block_bytes(targets, coins, hashes, new))


def ascending(numbers):
    return all(x < y for x, y in zip(numbers, numbers[1:]))
