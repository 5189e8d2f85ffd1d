"""The wallet, and the register that it is measured by.

A call gives (number, output): 0, or the number of its refusal; the output is b'' for a call that writes nothing.
"""

from collections import namedtuple

from blocks import block_bytes, put
from checks import challenge, judged
from compressions import leaf
from forest import (
    MOST_SLOTS,
    Forest,
    above,
    after_values,
    covered,
    fits,
    join,
    locate,
    position,
    root_positions,
    tree_over,
    trees,
)

ON_SHELF = 8
MOST_MARKS = 64

Record = namedtuple('Record', 'coin position path')
State = namedtuple('State', 'count roots shelf')  # roots by position


class History:
    """The newest marks, so many at most."""

    def __init__(self, places):
        self.places = min(places, MOST_MARKS)
        self.marks = []

    def push(self, mark):
        self.marks = (self.marks + [mark])[-self.places :] if self.places else []

    def pop(self):
        return self.marks.pop() if self.marks else None


class Hand:
    """A coin while its tree is joined with others: its tree's run, and the bits and hashes that are left, from below."""

    def __init__(self, coin, tree, bits, hashes):
        self.coin, self.tree, self.bits, self.hashes = coin, tree, bits, hashes

    def joined(self, number, left, carried):
        """The trees number - 1 and number of one row become one."""
        row, mine = self.tree
        other = left if mine == number else carried
        if other is not None:
            self.bits.append(mine & 1)
            self.hashes.append(other)
        self.tree = row + 1, mine >> 1

    def record(self, n):
        row, place = self.tree
        for bit in reversed(self.bits):
            place = 2 * place + bit
        return Record(self.coin, position(n, row - len(self.bits), place), tuple(self.hashes))


def in_hand(n, record, over, after):
    """A coin that stays: a hash at a covered position becomes the after-value; an absent one goes, with its bit."""
    row, place = locate(n, record.position)
    bits, hashes = [], []
    for i, old in enumerate(record.path):
        p = position(n, row + i, place >> i ^ 1)
        value = after[p] if p in over else old
        if value is not None:
            bits.append(place >> i & 1)
            hashes.append(value)
    return Hand(record.coin, tree_over(n, row, place), bits, hashes)


def spent_state(compression, state, block):
    """The roots by row, and the coins that stay, once the targets are spent."""
    n = state.count
    over, targets = covered(n, block.targets), set(block.targets)
    after = after_values(compression, n, block.targets, block.hashes)
    stay = [r for r in state.shelf if r.position not in over and not targets.intersection(above(n, r.position))]
    tops = {}
    for k, top in trees(n):
        p = position(n, k, top)
        tops[k] = after[p] if p in over else state.roots[p]
    return tops, [in_hand(n, r, over, after) for r in stay]


def state_after(compression, state, block):
    """The state after a block that fits, by roots and paths alone."""
    n = state.count
    tops, hands = spent_state(compression, state, block)
    for coin in block.new:
        carried, k = compression.image(leaf(coin)), 0
        while n >> k & 1:
            left, number = tops.pop(k), n >> k
            for hand in hands:
                if hand.tree in ((k, number), (k, number - 1)):
                    hand.joined(number, left, carried)
            carried, k = join(compression, left, carried), k + 1
        tops[k] = carried
        n += 1
    return State(n, {position(n, k, top): tops[k] for k, top in trees(n)}, tuple(hand.record(n) for hand in hands))


class Wallet:
    def __init__(self, compression, places, most_slots=MOST_SLOTS):
        self.compression = compression
        self.most_slots = most_slots
        self.state = State(0, {}, ())
        self.history = History(places)

    count = property(lambda self: self.state.count)
    positions = property(lambda self: [r.position for r in self.state.shelf])
    root_list = property(lambda self: [self.state.roots[p] for p in root_positions(self.count)])

    def fitting(self, block):
        return fits(self.compression, self.count, self.state.roots, *block[:3])

    def judge(self, data, card=False):
        return judged(self.count, self.state.roots, data, card, self.fitting, self.most_slots)

    def take(self, data):
        number, block = self.judge(data)
        if not number:
            self.history.push(self.state)
            self.state = state_after(self.compression, self.state, block)
        return number, b''

    def check(self, data):
        return self.judge(data)[0], b''

    def watch(self, data):
        number, block = self.judge(data, card=True)
        if not number and block.targets[0] in self.positions:
            number = 12
        if not number and len(self.state.shelf) >= ON_SHELF:
            number = 13
        if not number:
            record = Record(block.coins[0], block.targets[0], block.hashes)
            self.state = self.state._replace(shelf=self.state.shelf + (record,))
        return number, b''

    def let_go(self, p):
        if p not in self.positions:
            return 15, b''
        i = self.positions.index(p)
        self.state = self.state._replace(shelf=self.state.shelf[:i] + self.state.shelf[i + 1 :])
        return 0, b''

    def show(self, p, out):
        if p not in self.positions:
            return 15, out
        record = self.state.shelf[self.positions.index(p)]
        return put(out, block_bytes([p], [record.coin], record.path, []))

    def take_back(self):
        mark = self.history.pop()
        if mark is None:
            return 14, b''
        self.state = mark
        return 0, b''


class Register:
    """Slots and the watched ones in the order taken, with the earlier pairs of these two."""

    def __init__(self, compression, places, most_slots=MOST_SLOTS):
        self.most_slots = most_slots
        self.forest = Forest(compression, ())
        self.watched = ()
        self.history = History(places)

    count = property(lambda self: self.forest.n)
    root_list = property(lambda self: list(self.forest.roots().values()))

    def shelf(self):
        """What the wallet's shelf should hold."""
        f = self.forest
        return tuple(Record(f.slots[s], f.position_of[s], f.path(s)) for s in self.watched)

    def genuine(self, block):
        f = self.forest
        slots = [f.has_position.get(t) for t in block.targets]
        live = all(s is not None and f.slots[s] == c for s, c in zip(slots, block.coins))
        return live and list(block.hashes) == f.fresh(block.targets)

    def judge(self, data, card=False):
        return judged(self.count, self.forest.roots(), data, card, self.genuine, self.most_slots)

    def take(self, data):
        number, block = self.judge(data)
        if not number:
            self.history.push((self.forest, self.watched))
            spent = {self.forest.has_position[t] for t in block.targets}
            self.watched = tuple(s for s in self.watched if s not in spent)
            self.forest = self.forest.after_block(block.targets, block.new)
        return number, b''

    def check(self, data):
        return self.judge(data)[0], b''

    def watch(self, data):
        number, block = self.judge(data, card=True)
        slot = None if number else self.forest.has_position[block.targets[0]]
        if not number and slot in self.watched:
            number = 12
        if not number and len(self.watched) >= ON_SHELF:
            number = 13
        if not number:
            self.watched += (slot,)
        return number, b''

    def let_go(self, p):
        slot = self.forest.has_position.get(p)
        if slot not in self.watched:
            return 15, b''
        self.watched = tuple(s for s in self.watched if s != slot)
        return 0, b''

    def show(self, p, out):
        f, slot = self.forest, self.forest.has_position.get(p)
        if slot not in self.watched:
            return 15, out
        return put(out, block_bytes([p], [f.slots[slot]], f.path(slot), []))

    def take_back(self):
        mark = self.history.pop()
        if mark is None:
            return 14, b''
        self.forest, self.watched = mark
        return 0, b''

    def challenge(self, data):
        return challenge(self.forest, data)
