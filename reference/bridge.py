"""Keepers, and the bridge, which sees its slots through a keeper's answers alone."""

from blocks import MOST_NEW, MOST_SPENT, ascending, block_bytes, put, read
from checks import against_count, challenge
from compressions import leaf, pair
from forest import (
    MOST_SLOTS,
    Forest,
    inside,
    join,
    locate,
    needed,
    one_above_another,
    position,
    rows,
    tree_over,
    trees,
)
from wallet import MOST_MARKS, History


class Keeper:
    """Slots and a capacity. A call gives (number, what was asked for)."""

    def __init__(self, compression, capacity):
        self.compression = compression
        self.capacity = capacity
        self.slots = []

    count = property(lambda self: len(self.slots))

    def coin(self, slot):
        return (0, self.slots[slot]) if slot < self.count else (16, None)

    def within(self, row, place):
        return row <= 32 and place + 1 << row <= self.count

    def value(self, row, place):
        return (0, self.tell(row, place)) if self.within(row, place) else (16, None)

    def append(self, coin):
        if self.count == self.capacity:
            return 18, None
        self.slots.append(coin)
        self.changed(self.count - 1)
        return 0, None

    def replace(self, slot, live, coin):
        """A slot that is live, or is not, gets another content."""
        if slot >= self.count or (self.slots[slot] is not None) != live:
            return 16, None
        self.slots[slot] = coin
        self.changed(slot)
        return 0, None

    def blank(self, slot):
        return self.replace(slot, True, None)

    def refill(self, slot, coin):
        return self.replace(slot, False, coin)

    def cut(self):
        if not self.slots:
            return 16, None
        self.slots.pop()
        self.dropped()
        return 0, None


class Bare(Keeper):
    """Works values out when asked; what it worked out is forgotten at the next change."""

    def __init__(self, compression, capacity):
        super().__init__(compression, capacity)
        self.forest = None

    def changed(self, slot):
        self.forest = None

    def dropped(self):
        self.forest = None

    def tell(self, row, place):
        if self.forest is None:
            self.forest = Forest(self.compression, self.slots)
        return self.forest.value_over(row, place)


class Full(Keeper):
    """Keeps the value over every run within the count, by the run's position with the R of the count."""

    def __init__(self, compression, capacity):
        super().__init__(compression, capacity)
        self.rows = 0
        self.table = {}

    def at(self, row, place, rows=None):
        r = self.rows if rows is None else rows
        return 2 ** (r + 1) - 2 ** (r + 1 - row) + place

    def lay_anew(self):
        old, new = self.rows, rows(self.count)
        if old != new:
            runs = [(r, o) for r in range(min(old, new) + 1) for o in range(self.count >> r)]
            self.table = {
                self.at(r, o, new): self.table[self.at(r, o, old)] for r, o in runs if self.at(r, o, old) in self.table
            }
            self.rows = new

    def changed(self, slot):
        self.lay_anew()
        coin = self.slots[slot]
        row, place = 0, slot
        self.table[self.at(0, slot)] = None if coin is None else self.compression.image(leaf(coin))
        while self.within(row + 1, place // 2):
            row, place = row + 1, place // 2
            halves = (self.table[self.at(row - 1, 2 * place + side)] for side in (0, 1))
            self.table[self.at(row, place)] = join(self.compression, *halves)

    def dropped(self):
        row, place = 0, self.count
        self.table.pop(self.at(row, place), None)
        while place % 2 == 1:
            row, place = row + 1, place // 2
            self.table.pop(self.at(row, place), None)
        self.lay_anew()

    def tell(self, row, place):
        return self.table[self.at(row, place)]


KINDS = (Bare, Full)


class Bridge:
    def __init__(self, keeper, most_slots=MOST_SLOTS):
        self.keeper = keeper
        self.compression = keeper.compression
        self.most_slots = most_slots
        self.history = History(MOST_MARKS)  # (count, the blanked slots with their coins)

    count = n = property(lambda self: self.keeper.count)
    root_list = property(lambda self: list(self.roots().values()))

    def value(self, row, place):
        number, value = self.keeper.value(row, place)
        assert number == 0
        return value

    def roots(self):
        return {position(self.count, *tree): self.value(*tree) for tree in trees(self.count)}

    def position_of(self, slot):
        k, place = tree_over(self.count, 0, slot)
        kept = [slot >> j & 1 for j in range(k) if self.value(j, slot >> j ^ 1) is not None]
        for bit in reversed(kept):
            place = 2 * place + bit
        return position(self.count, k - len(kept), place)

    def parting(self, row, place):
        """Down from a run with coins to where it first has some in both halves, or to its one slot."""
        while row:
            left, right = (self.value(row - 1, 2 * place + side) for side in (0, 1))
            if left is not None and right is not None:
                break
            row, place = row - 1, 2 * place + (left is None)
        return row, place

    def run_at(self, p):
        """The run of all coins at p or beneath, as small as can be; None if there is none."""
        row, place = locate(self.count, p)
        k, top = tree_over(self.count, row, place)
        if self.value(k, top) is None:
            return None
        run = self.parting(k, top)
        for i in reversed(range(k - row)):
            if run[0] == 0:
                return None
            run = self.parting(run[0] - 1, 2 * run[1] + (place >> i & 1))
        return run

    def slot_at(self, p):
        run = self.run_at(p)
        return run[1] if run is not None and run[0] == 0 else None

    def own_input(self, p):
        run = self.run_at(p)
        if run is None:
            return None
        row, place = run
        if row == 0:
            return leaf(self.keeper.coin(place)[1])
        return pair(self.value(row - 1, 2 * place), self.value(row - 1, 2 * place + 1))

    def fresh(self, targets):
        runs = [self.run_at(p) for p in needed(self.count, targets)]
        return [None if run is None else self.value(*run) for run in runs]

    def judge(self, data):
        """The number for which a block is not taken, the block, and the slots of its targets."""
        number, block = read(data)
        number = number or against_count(self.count, block)
        if not number and self.count + len(block.new) > self.most_slots:
            number = 11
        if number:
            return number, None, None
        slots = [self.slot_at(t) for t in block.targets]
        if any(s is None or self.keeper.coin(s)[1] != c for s, c in zip(slots, block.coins)):
            number = 16
        elif list(block.hashes) != self.fresh(block.targets):
            number = 17
        elif self.count + len(block.new) > self.keeper.capacity:
            number = 18
        return number, block, slots

    def take(self, data):
        number, block, slots = self.judge(data)
        if number:
            return number, b''
        self.history.push((self.count, tuple(zip(slots, block.coins))))
        done = [self.keeper.blank(s) for s in slots] + [self.keeper.append(c) for c in block.new]
        assert all(n == 0 for n, _ in done)
        return 0, b''

    def take_back(self):
        mark = self.history.pop()
        if mark is None:
            return 14, b''
        n, spent = mark
        done = [self.keeper.cut() for _ in range(self.count - n)] + [self.keeper.refill(s, c) for s, c in spent]
        assert all(n == 0 for n, _ in done)
        return 0, b''

    def find(self, coin):
        """Some live slot with the coin: here the highest, so that nobody comes to lean on the lowest."""
        slots = [s for s in range(self.count) if self.keeper.coin(s)[1] == coin]
        return 0, slots[-1] if slots else None

    def card(self, slot, out):
        number, coin = self.keeper.coin(slot)
        if number or coin is None:
            return 16, out
        p = self.position_of(slot)
        return put(out, block_bytes([p], [coin], self.fresh([p]), []))

    def look_up(self, coin, out):
        slot = self.find(coin)[1]
        return (16, out) if slot is None else self.card(slot, out)

    def write(self, positions, new, out):
        n = self.count
        if len(positions) > MOST_SPENT or len(new) > MOST_NEW:
            return 2, out
        if not ascending(positions):
            return 4, out
        if not all(inside(n, p) for p in positions):
            return 6, out
        if one_above_another(n, positions):
            return 7, out
        if n + len(new) > self.most_slots:
            return 11, out
        slots = [self.slot_at(p) for p in positions]
        if None in slots:
            return 16, out
        coins = [self.keeper.coin(s)[1] for s in slots]
        return put(out, block_bytes(positions, coins, self.fresh(positions), new))

    def challenge(self, data):
        return challenge(self, data)
