"""Trees, positions and proofs by the count alone; and a forest of slots under a compression.

A run is (row, place): the 2 ** row slots from place * 2 ** row on. An absent value is None.
"""

from functools import lru_cache

from compressions import leaf, pair

MOST_SLOTS = 4294967295


def rows(n):
    """R, the least number with n <= 2 ** R."""
    return (n - 1).bit_length() if n > 1 else 0


@lru_cache(maxsize=4096)
def trees(n):
    """The run of each tree, the largest first."""
    return tuple((k, (n >> k) - 1) for k in reversed(range(n.bit_length())) if n >> k & 1)


@lru_cache(maxsize=1 << 18)
def tree_over(n, row, place):
    """The tree that the run lies inside, or None."""
    for k, top in trees(n):
        if row <= k and place >> (k - row) == top:
            return k, top
    return None


def position(n, row, place):
    return 2 ** (rows(n) + 1) - 2 ** (rows(n) + 1 - row) + place


@lru_cache(maxsize=1 << 18)
def locate(n, p):
    """The run of a position, or None if it is not in the forest."""
    for row in range(rows(n) + 1):
        place = p - position(n, row, 0)
        if place < 0:
            return None
        if tree_over(n, row, place) is not None:
            return row, place
    return None


def inside(n, p):
    return locate(n, p) is not None


def parent(n, p):
    row, place = locate(n, p)
    return position(n, row + 1, place // 2)


def children(n, p):
    row, place = locate(n, p)
    return position(n, row - 1, 2 * place), position(n, row - 1, 2 * place + 1)


def sibling(n, p):
    row, place = locate(n, p)
    return position(n, row, place ^ 1)


@lru_cache(maxsize=1 << 18)
def root_position(n, p):
    """The position of the root over p."""
    return position(n, *tree_over(n, *locate(n, p)))


def root_positions(n):
    return [position(n, *tree) for tree in trees(n)]


def above(n, p):
    """The positions above p up to the root, the lowest first."""
    out = []
    while p != root_position(n, p):
        p = parent(n, p)
        out.append(p)
    return out


# Proofs ---------------------------------------------------------------------------------


def covered(n, targets):
    return {q for t in targets for q in [t] + above(n, t)}


def needed(n, targets):
    over = covered(n, targets)
    return sorted({sibling(n, p) for p in over if p != root_position(n, p)} - over)


def one_above_another(n, targets):
    return any(q in targets for t in targets for q in above(n, t))


def claims(compression, n, targets, coins, hashes):
    """What a proof claims: the input at each covered position, and the value there and at each needed one."""
    named = dict(zip(targets, coins))
    values = dict(zip(needed(n, targets), hashes))
    inputs = {}
    for p in sorted(covered(n, targets)):  # children have lower positions than their parents
        inputs[p] = leaf(named[p]) if p in named else pair(*(values[c] for c in children(n, p)))
        values[p] = compression.image(inputs[p])
    return inputs, values


def fits(compression, n, roots, targets, coins, hashes):
    """Whether the claimed value at each covered root is the stored one; roots are by position."""
    _, values = claims(compression, n, targets, coins, hashes)
    return all(values[p] == roots[p] for p in covered(n, targets) if p in roots)


def join(compression, left, right):
    if left is None or right is None:
        return right if left is None else left
    return compression.image(pair(left, right))


def after_values(compression, n, targets, hashes):
    """The values once the targets are spent, at covered and needed positions."""
    after = dict(zip(needed(n, targets), hashes))
    for p in sorted(covered(n, targets)):
        after[p] = None if p in targets else join(compression, *(after[c] for c in children(n, p)))
    return after


# Slots ------------------------------------------------------------------------------------


class Forest:
    """A list of slots, each a coin or None, that does not change."""

    def __init__(self, compression, slots):
        self.compression = compression
        self.slots = tuple(slots)
        self.n = len(self.slots)
        self.over_runs = {}
        self.at_positions = {}
        self.has_position = {}  # the slot that has a position
        self.position_of = {}  # the position that a live slot has
        self.has_beneath = set()  # the positions with a coin beneath them
        for slot, coin in enumerate(self.slots):
            if coin is not None:
                self.place_slot(slot)

    def value_over(self, row, place):
        run = row, place
        if run not in self.over_runs:
            if row == 0:
                coin = self.slots[place]
                self.over_runs[run] = None if coin is None else self.compression.image(leaf(coin))
            else:
                self.over_runs[run] = join(
                    self.compression, self.value_over(row - 1, 2 * place), self.value_over(row - 1, 2 * place + 1)
                )
        return self.over_runs[run]

    def place_slot(self, slot):
        """The slot number's bits are read from below; one whose sibling run is wholly blank is struck out."""
        k, top = tree_over(self.n, 0, slot)
        kept = [slot >> j & 1 for j in range(k) if self.value_over(j, slot >> j ^ 1) is not None]
        place = top
        for bit in reversed(kept):
            place = 2 * place + bit
        p = position(self.n, k - len(kept), place)
        self.position_of[slot] = p
        self.has_position[p] = slot
        self.has_beneath.update(above(self.n, p))

    def roots(self):
        return {position(self.n, *tree): self.value_over(*tree) for tree in trees(self.n)}

    def own_input(self, p):
        if p in self.has_position:
            return leaf(self.slots[self.has_position[p]])
        if p in self.has_beneath:
            return pair(*(self.value_at(c) for c in children(self.n, p)))
        return None

    def value_at(self, p):
        if p not in self.at_positions:
            own = self.own_input(p)
            self.at_positions[p] = None if own is None else self.compression.image(own)
        return self.at_positions[p]

    def fresh(self, targets):
        return [self.value_at(p) for p in needed(self.n, targets)]

    def path(self, slot):
        return tuple(self.fresh([self.position_of[slot]]))

    def live(self):
        return sorted(self.position_of)

    def after_block(self, targets, new):
        spent = {self.has_position[t] for t in targets}
        kept = [None if slot in spent else coin for slot, coin in enumerate(self.slots)]
        return Forest(self.compression, kept + list(new))
