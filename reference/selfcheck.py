"""Checks the reference against itself: worked cases, brute force on small forests, and wallet against register.

    python3 selfcheck.py [SEED]
"""

import itertools
import random
import sys

from blocks import Block, block_bytes, read
from bridge import Bare, Bridge, Full
from compressions import Blake2s, Compression, Tally, leaf, pair
from forest import Forest, fits, inside, locate, needed, position, root_positions, rows, tree_over
from random_calls import damaged, forged, some_targets
from wallet import Record, Register, State, Wallet, state_after


class Narrow(Compression):
    """A Tally of two bits: nearly every image has many inputs."""

    def work_out(self, given):
        first = given[1][0] + 1 if given[0] == 'leaf' else 3 * given[1][0] + 5 * given[2][0]
        return bytes([first % 4]) + bytes(31)


def k(number):
    """Coin or value k: 32 bytes of k."""
    return bytes([number]) * 32


def all_three(coins):
    """Wallet, register and bridge under Tally after one block that adds these coins."""
    sides = Wallet(Tally(), 4), Register(Tally(), 4), Bridge(Full(Tally(), 100))
    for side in sides:
        assert side.take(block_bytes([], [], [], [k(c) for c in coins]))[0] == 0
    return sides


def taken_by(sides, *block):
    assert [side.take(block_bytes(*block))[0] for side in sides] == [0] * len(sides)


def roots_are(sides, *roots):
    assert all(side.root_list == list(roots) for side in sides)


def worked_cases():
    roots_are(all_three([1, 2, 3]), k(21), k(4))
    sides = wallet, register, bridge = all_three([1, 2, 3, 4])
    roots_are(sides, k(248))
    wallet.watch(bridge.card(0, bytes(110))[1])
    taken_by(sides, [1], [k(2)], [k(2), k(37)], [])
    roots_are(sides, k(191))
    assert wallet.state.shelf == (Record(k(1), 4, (k(37),)),)
    sides = wallet, register, bridge = all_three([1, 2, 3, 4])
    for slot in (2, 3):
        wallet.watch(bridge.card(slot, bytes(110))[1])
    taken_by(sides, [0, 1], [k(1), k(2)], [k(37)], [])
    roots_are(sides, k(37))
    assert wallet.positions == [4, 5]
    sides = wallet, register, bridge = all_three([7])
    taken_by(sides, [0], [k(7)], [], [])
    roots_are(sides, None)
    taken_by(sides, [], [], [], [k(5)])
    roots_are(sides, k(6))
    assert bridge.position_of(1) == 2
    wallet, register, bridge = all_three([1, 2])
    block = block_bytes([0], [k(6)], [k(0)], [])
    assert wallet.check(block)[0] == 0 and register.check(block)[0] == 10
    assert bridge.challenge(block) == (0, (2, pair(k(2), k(3)), pair(k(7), k(0))))
    assert bridge.challenge(block_bytes([2], [k(20)], [], [])) == (0, (2, pair(k(2), k(3)), leaf(k(20))))
    for coins, block, number in (
        ([], ([0], [k(1)], [], []), 6),
        ([1, 2, 3], ([3], [k(1)], [], []), 6),
        ([1, 2, 3], ([5], [k(1)], [], []), 6),
        ([1, 2, 3, 4], ([0, 4], [k(1)] * 2, [], []), 7),
        ([1, 2, 3, 4], ([1], [k(2)], [k(2)], []), 8),
        ([1, 2, 3, 4], ([1], [k(2)], [k(2), k(37), k(0)], []), 8),
    ):
        assert [side.take(block_bytes(*block))[0] for side in all_three(coins)] == [number] * 3


def positions():
    """Every run of small forests, by its span."""
    for n in range(70):
        found = {}
        for row in range(rows(n) + 1):
            for place in range(2 ** rows(n)):
                within = (place + 1) << row <= n
                assert (tree_over(n, row, place) is not None) == within
                if within:
                    assert position(n, row, place) not in found
                    found[position(n, row, place)] = row, place
        assert all(locate(n, p) == found.get(p) for p in range(2 ** (rows(n) + 1) + 5))
    for n in (2**31, 2**31 + 1, 2**32 - 1):
        assert len(root_positions(n)) == n.bit_count() and all(inside(n, p) for p in root_positions(n))


def state_of(forest, watched):
    records = (Record(forest.slots[s], forest.position_of[s], forest.path(s)) for s in watched)
    return State(forest.n, forest.roots(), tuple(records))


def every_small_block():
    """Every forest of at most 6 slots, every set of live ones spent, 0 to 3 coins added, all others on the shelf."""
    for n, compression in itertools.product(range(7), (Tally(), Blake2s())):
        for live in itertools.product((False, True), repeat=n):
            forest = Forest(compression, [k(10 + i) if is_live else None for i, is_live in enumerate(live)])
            before = state_of(forest, forest.live())
            for some in itertools.product((False, True), repeat=len(forest.live())):
                spent = list(itertools.compress(forest.live(), some))
                targets = sorted(forest.position_of[s] for s in spent)
                coins = [forest.slots[forest.has_position[t]] for t in targets]
                assert fits(compression, n, forest.roots(), targets, coins, forest.fresh(targets))
                for added in range(4):
                    block = Block(targets, coins, forest.fresh(targets), [k(100 + i) for i in range(added)])
                    after = forest.after_block(targets, block.new)
                    stay = [s for s in forest.live() if s not in spent]
                    assert state_after(compression, before, block) == state_of(after, stay)


def two_keepers(rng):
    """Both keepers answer alike, after every call, for every run."""
    for compression, capacity in itertools.product((Tally(), Blake2s()), (0, 1, 2, 3, 8, 33)):
        pair_of = Bare(compression, capacity), Full(compression, capacity)
        for _ in range(300):
            name = rng.choice(('append',) * 4 + ('blank', 'blank', 'refill', 'cut'))
            slot, coin = rng.randrange(capacity + 2), k(rng.randrange(5))
            given = {'append': (coin,), 'blank': (slot,), 'refill': (slot, coin), 'cut': ()}[name]
            assert len({getattr(keeper, name)(*given) for keeper in pair_of}) == 1
            for row in range(8):
                for place in range((capacity >> row) + 2):
                    assert len({keeper.value(row, place) for keeper in pair_of}) == 1


def block_for(rng, forest):
    """A block with a fresh proof, or one of which the coins and hashes are anything."""
    spent = rng.sample(forest.live(), min(len(forest.live()), rng.randrange(4)))
    targets = sorted(forest.position_of[s] for s in spent)
    coins, hashes = [forest.slots[forest.has_position[t]] for t in targets], forest.fresh(targets)
    if rng.random() < 0.2 and forest.live():
        targets = some_targets(rng, forest.n, forest.roots(), 3)
        hashes = [k(rng.randrange(256)) for _ in needed(forest.n, targets)]
        coins = [k(rng.randrange(256)) for _ in targets]
        if not isinstance(forest.compression, Blake2s):
            coins = forged(forest.compression, forest.n, forest.roots(), targets, coins, hashes)
    data = block_bytes(targets, coins, hashes, [k(rng.randrange(256)) for _ in range(rng.randrange(4))])
    return damaged(rng, data) if rng.random() < 0.1 else data


def card_for(rng, forest):
    if not forest.live():
        return bytes(6)
    slot = rng.choice(forest.live())
    return block_bytes([forest.position_of[slot]], [forest.slots[slot]], forest.path(slot), [])


def parts(compression, rng, steps):
    """A wallet and a register are fed alike, until an answer differs: then there is evidence. True if it did."""
    wallet, register = Wallet(compression, 4), Register(compression, 4)
    for _ in range(steps):
        forest = register.forest
        name = rng.choice(('take', 'take', 'take', 'check', 'watch', 'watch', 'let_go', 'show', 'take_back'))
        p = rng.choice(wallet.positions + [rng.randrange(2 * forest.n + 2)])
        given = {
            'take': (block_for(rng, forest),),
            'check': (block_for(rng, forest),),
            'watch': (card_for(rng, forest),),
            'let_go': (p,),
            'show': (p, bytes(rng.choice((0, 50, 400)))),
            'take_back': (),
        }[name]
        answer, expected = getattr(wallet, name)(*given), getattr(register, name)(*given)
        if answer != expected:
            assert expected[0] == 10
            number, found = register_challenge(forest, register, *given)
            assert number == 0 and found is not None and found[1] != found[2]
            assert compression.image(found[1]) == compression.image(found[2])
            return True
        assert wallet.count == register.count and wallet.root_list == register.root_list
        assert wallet.state.shelf == register.shelf()
    return False


def register_challenge(forest, register, data):
    """The register was not changed by the call, since it refused it."""
    assert register.forest is forest
    return register.challenge(data)


def wallet_against_register(rng):
    found = {kind.__name__: sum(parts(kind(), rng, 60) for _ in range(100)) for kind in (Blake2s, Tally, Narrow)}
    assert found['Blake2s'] == 0 and found['Tally'] > 0 and found['Narrow'] > 0
    return found


def main():
    rng = random.Random(sys.argv[1] if len(sys.argv) > 1 else '1')
    assert read(bytes(6)) == (0, Block((), (), (), ()))
    worked_cases()
    positions()
    every_small_block()
    two_keepers(rng)
    print('runs of 100 that parted, each with evidence:', wallet_against_register(rng))


if __name__ == '__main__':
    main()
