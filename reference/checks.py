"""The checks that several calls have, in the order of their numbers, and the challenge."""

from blocks import ascending, read
from forest import claims, covered, fits, inside, needed, one_above_another, root_position


def against_count(n, block, card=False):
    """The first of 4, 6, 7 and 8 that holds, with 5 where a card is asked for; else 0."""
    if not ascending(block.targets):
        return 4
    if card and (len(block.targets) != 1 or block.new):
        return 5
    if not all(inside(n, t) for t in block.targets):
        return 6
    if one_above_another(n, block.targets):
        return 7
    return 0 if len(block.hashes) == len(needed(n, block.targets)) else 8


def against_roots(n, roots, data, card=False):
    """The first of 1 to 9 that holds, and the block if none does."""
    number, block = read(data)
    number = number or against_count(n, block, card)
    if not number and any(roots[root_position(n, t)] is None for t in block.targets):
        number = 9
    return number, None if number else block


def judged(n, roots, data, card, passes, most_slots):
    """The first of 1 to 11 that holds, and the block if none does; `passes` tells whether a proof passes 10."""
    number, block = against_roots(n, roots, data, card)
    if not number and not passes(block):
        number = 10
    if not number and n + len(block.new) > most_slots:
        number = 11
    return number, block


def challenge(forest, data):
    """(number, None) of a block that the forest's roots refuse; (0, None) if it stands; or (0, (position, own, claimed)).

    A forest is whatever has n, roots, compression and own inputs: slots, or a bridge.
    """
    n, roots = forest.n, forest.roots()
    number, block = against_roots(n, roots, data)
    if not number and not fits(forest.compression, n, roots, *block[:3]):
        number = 10
    if number:
        return number, None
    inputs, _ = claims(forest.compression, n, *block[:3])
    for p in sorted(covered(n, block.targets), reverse=True):
        own = forest.own_input(p)
        if own != inputs[p]:
            return 0, (p, own, inputs[p])
    return 0, None
