"""Random calls, each answered by the reference: whole script lines, without end.

A source is a generator of lines. Coins are all different, so that find has one answer.
"""

from blocks import block_bytes, counts
from compressions import BY_NUMBER
from forest import MOST_SLOTS, Forest, above, children, claims, needed, position, root_position, root_positions, rows, tree_over
from script import FILL, Session

NO_COIN = bytes(32)
INVERSE_OF_3, INVERSE_OF_5 = 171, 205  # modulo 256


def written(argument):
    if isinstance(argument, int):
        return '#%d' % argument
    return bytes(argument).hex() or '.'


def positions_bytes(ps):
    return b''.join(p.to_bytes(8, 'little') for p in ps)


class Maker:
    """Makes lines, each answered as it is made."""

    def __init__(self, rng, compression):
        self.rng = rng
        self.number = compression
        self.session = Session()
        self.coins_made = 0
        self.lines = []

    def call(self, name, *arguments, number=None):
        """Answers a call, and gives the number of its refusal and its output."""
        fields = [str(self.number if number is None else number), name, ','.join(map(written, arguments)) or '-']
        answer = self.session.answer(' '.join(fields))
        self.lines.append(' '.join(fields + answer))
        return int(answer[0]), answer[-1]

    def coin(self):
        self.coins_made += 1
        tail = self.coins_made.to_bytes(4, 'little')
        return tail * 8 if self.rng.random() < 0.5 else self.rng.randbytes(28) + tail

    def taken(self):
        lines, self.lines = self.lines, []
        return lines


def damaged(rng, data):
    """A block that is not quite the given one."""
    data = bytearray(data)
    kind = rng.randrange(6)
    if kind == 0 and data:
        data[rng.randrange(len(data))] ^= 1 << rng.randrange(8)
    elif kind == 1:
        del data[rng.randrange(len(data) + 1) :]
    elif kind == 2:
        data += rng.randbytes(rng.choice((1, 2, 8, 32)))
    elif kind == 3 and len(data) >= 6:
        data[rng.randrange(6)] = rng.choice((0, 1, 2, 32, 33, 255))
    elif kind == 4 and len(data) >= 22:
        data[6:14], data[14:22] = data[14:22], data[6:14]
    elif kind == 5 and len(data) >= 14:
        data[6:14] = rng.choice((rng.randrange(64), rng.getrandbits(64), 2**64 - 1)).to_bytes(8, 'little')
    return bytes(data)


def some_targets(rng, n, roots, most):
    """Positions of the forest, ascending, none above another and none under a blank root."""
    chosen = []
    for _ in range(rng.randrange(1, most + 1)):
        slot = rng.randrange(n)
        k, _ = tree_over(n, 0, slot)
        row = rng.choice((0, 0, rng.randrange(k + 1)))
        p = position(n, row, slot >> row)
        apart = all(q != p and q not in above(n, p) and p not in above(n, q) for q in chosen)
        if apart and roots[root_position(n, p)] is not None:
            chosen.append(p)
    return sorted(chosen)


def forged(compression, n, roots, targets, coins, hashes):
    """The coins with one changed in each covered tree, so that the block fits. Only Tally can be solved so."""
    coins = list(coins)
    _, values = claims(compression, n, targets, coins, hashes)
    for root in {root_position(n, t) for t in targets}:
        last = max(t for t in targets if root_position(n, t) == root)
        way, p, want = set(above(n, last)) | {last}, root, roots[root]
        while p != last:
            left, right = children(n, p)
            if left in way:
                p, want = left, bytes((w - 5 * v) * INVERSE_OF_3 % 256 for w, v in zip(want, values[right]))
            else:
                p, want = right, bytes((w - 3 * v) * INVERSE_OF_5 % 256 for w, v in zip(want, values[left]))
        coins[targets.index(last)] = bytes((w - 1) % 256 for w in want)
    return coins


# Sources -------------------------------------------------------------------------------------


def messages(rng):
    """Digests, of every length up to one past the limit and beyond."""
    make = Maker(rng, 0)
    while True:
        for length in range(131):
            make.call('blake2s', rng.randbytes(length))
            yield from make.taken()
        make.call('blake2s', rng.randbytes(rng.randrange(131, 400)))


def blocks_as_bytes(rng):
    """Blocks read, listed and composed."""
    make = Maker(rng, 0)
    while True:
        d, h, a = rng.choice(((0, 0, 0), (32, 992, 32))) if rng.random() < 0.02 else (rng.randrange(4) for _ in range(3))
        coins = [[rng.randbytes(32) for _ in range(m)] for m in (d + (rng.random() < 0.2), h, a)]
        targets = [rng.getrandbits(rng.choice((3, 33, 64))) for _ in range(d)]
        data = block_bytes(targets, coins[0][:d], *coins[1:])
        for bytes_ in (data, damaged(rng, data)):
            make.call('read', bytes_)
            make.call('entries', bytes_)
        length = max(0, len(data) + rng.choice((0, 0, 5, -1)))
        make.call('compose', positions_bytes(targets), *(b''.join(x) for x in coins), length)
        yield from make.taken()


def places(rng):
    """Positions and needed positions, of small and of large counts."""
    make = Maker(rng, 0)
    while True:
        n = rng.choice((rng.randrange(20), rng.randrange(1, 2**16), rng.randrange(1, MOST_SLOTS), MOST_SLOTS - rng.randrange(3)))
        for _ in range(3):
            make.call('place', n, rng.choice((rng.randrange(2 * n + 3), rng.getrandbits(34), rng.getrandbits(64))))
        roots = {p: NO_COIN for p in root_positions(n)}
        targets = some_targets(rng, n, roots, rng.choice((1, 3, 8, 32))) if n else []
        if rng.random() < 0.15:
            targets.insert(rng.randrange(len(targets) + 1), rng.randrange(2 * n + 2))
        make.call('needed', n, positions_bytes(targets))
        yield from make.taken()


def keepers(rng):
    """A keeper of some kind and capacity through a hundred calls."""
    while True:
        make = Maker(rng, rng.choice((1, 2)))
        capacity = rng.choice((0, 1, 3, 8, 19, 70))
        make.call('keeper.new', capacity, rng.randrange(2))
        for _ in range(100):
            name = rng.choice(('append',) * 3 + ('blank', 'refill', 'cut', 'coin', 'value', 'value'))
            slot, row = rng.randrange(capacity + 2), rng.randrange(rows(capacity) + 2)
            given = {
                'append': (make.coin(),),
                'blank': (slot,),
                'refill': (slot, make.coin()),
                'cut': (),
                'coin': (slot,),
                'value': (row, rng.randrange((capacity >> row) + 1)),
            }[name]
            make.call('keeper.' + name, *given)
        yield from make.taken()


class Sides:
    """A wallet and a bridge that are given the same blocks, and what may be asked of them at some moment."""

    def __init__(self, rng):
        self.rng = rng
        self.make = Maker(rng, rng.choice((1, 2)))
        self.capacity = rng.choice((20, 60, 200, 1000))
        self.make.call('new', rng.choice((0, 1, 4, 64, 65)))
        self.make.call('bridge.new', self.capacity, rng.randrange(2))
        self.old = [bytes(6)]
        self.to_grow = rng.choice((0, 10, 30, 120))

    wallet = property(lambda self: self.make.session.wallet)
    bridge = property(lambda self: self.make.session.bridge)

    def forest(self):
        return Forest(BY_NUMBER[self.make.number](), self.bridge.keeper.slots)

    def both(self, name, *arguments):
        self.make.call(name, *arguments)
        self.make.call('bridge.' + name, *arguments)

    def block(self):
        """A block that the bridge writes is checked, taken, challenged, and now and then damaged first."""
        rng, f = self.rng, self.forest()
        growing = f.n < self.to_grow
        spent = rng.sample(f.live(), min(len(f.live()), rng.choice((0, 0, 1, 2, 5))))
        targets = sorted(f.position_of[s] for s in spent)
        new = [self.make.coin() for _ in range(rng.choice((0, 1, 2, 3, 7)) if growing else rng.choice((0, 0, 1, 2)))]
        length = 6 + 40 * len(targets) + 32 * len(needed(f.n, targets)) + 32 * len(new)
        room = max(0, length + rng.choice((0, 0, 0, 5, -1)))
        number, out = self.make.call('bridge.write', positions_bytes(targets), b''.join(new), room)
        if number:
            return
        data = bytes.fromhex(out)[:length]
        if rng.random() < 0.15:
            bad = damaged(rng, data)
            self.make.call('check', bad)
            self.make.call('bridge.challenge', bad)
        self.make.call('bridge.challenge', data)
        if self.make.call('bridge.take', data)[0] == 0:
            self.make.call('check', data)
            self.make.call('take', data)
            self.old.append(data)

    def card(self):
        f = self.forest()
        slot = self.rng.choice(f.live() or [0])
        length = 46 + 32 * (len(f.path(slot)) if f.live() else 0)
        room = length + self.rng.choice((0, 0, 0, 3, -1))
        number, out = self.make.call('bridge.card', slot, room)
        if number == 0:
            data = bytes.fromhex(out)[:length]
            self.make.call('watch', data)
            if self.rng.random() < 0.2:
                self.make.call('watch', damaged(self.rng, data))

    def ask(self):
        rng, n = self.rng, self.bridge.count
        p = rng.choice(self.wallet.positions * 3 + [rng.randrange(2 * n + 3), rng.getrandbits(64)])
        self.make.call('show', p, rng.choice((0, 46, 300, 400)))
        if rng.random() < 0.3:
            self.make.call('let_go', p)
        held = [c for c in self.bridge.keeper.slots if c is not None]
        coin = rng.choice(held) if held and rng.random() < 0.8 else rng.randbytes(32)
        self.make.call('bridge.find', coin)
        self.make.call('bridge.look_up', coin, rng.choice((10, 400)))
        self.make.call('bridge.card', rng.randrange(n + 2), 400)
        wild = [rng.randrange(2 * n + 2) for _ in range(rng.randrange(4))]
        self.make.call('bridge.write', positions_bytes(wild), b'', 2000)

    def back(self):
        if self.wallet.history.marks and self.bridge.history.marks:
            self.both('take_back')
        else:
            self.make.call('take_back')

    def stale(self):
        for name in ('check', 'bridge.challenge'):
            self.make.call(name, self.rng.choice(self.old))

    def false_block(self):
        """A block of which the proof is not fresh; under Tally it fits."""
        rng, f = self.rng, self.forest()
        roots = f.roots()
        if all(v is None for v in roots.values()):
            return
        genuine = rng.random() < 0.3
        if genuine:
            spent = rng.sample(f.live(), min(len(f.live()), rng.randrange(1, 4)))
            targets = sorted(f.position_of[s] for s in spent)
        else:
            targets = some_targets(rng, f.n, roots, rng.choice((1, 2, 4)))
        coins, hashes = ([rng.randbytes(32) for _ in x] for x in (targets, needed(f.n, targets)))
        if genuine:
            coins = [f.slots[f.has_position[t]] for t in targets]
        elif self.make.number == 2:
            coins = forged(BY_NUMBER[2](), f.n, roots, targets, coins, hashes)
        data = block_bytes(targets, coins, hashes, [self.make.coin() for _ in range(rng.randrange(2))])
        self.make.call('check', data)
        self.make.call('bridge.challenge', data)
        self.make.call('bridge.take', data)

    def part(self):
        """Forged blocks are taken and watched: from here on the wallet is on its own."""
        rng, compression = self.rng, BY_NUMBER[2]()
        for name in ('watch', 'watch', 'take', 'take_back', 'take', 'show'):
            n, roots = self.wallet.count, self.wallet.state.roots
            if name == 'take_back' and rng.random() < 0.7 or all(v is None for v in roots.values()):
                continue
            if name == 'take_back':
                self.make.call(name)
            elif name == 'show':
                for p in self.wallet.positions:
                    self.make.call(name, p, 400)
            else:
                targets = some_targets(rng, n, roots, 1 if name == 'watch' else 4)
                hashes = [rng.randbytes(32) for _ in needed(n, targets)]
                coins = forged(compression, n, roots, targets, [rng.randbytes(32) for _ in targets], hashes)
                new = [] if name == 'watch' else [self.make.coin() for _ in range(rng.randrange(4))]
                self.make.call(name, block_bytes(targets, coins, hashes, new))


def runs(rng, steps=120):
    """Wallet and bridge over many blocks; under Tally they part in the end."""
    while True:
        sides = Sides(rng)
        for _ in range(steps):
            growing = sides.bridge.count < sides.to_grow
            moves = (sides.block,) * (8 if growing else 4) + (sides.card,) * 3 + (sides.ask, sides.back, sides.stale, sides.false_block)
            rng.choice(moves)()
            yield from sides.make.taken()
        if sides.make.number == 2:
            for _ in range(20):
                sides.part()
            yield from sides.make.taken()


SOURCES = {
    'messages': messages,
    'blocks': blocks_as_bytes,
    'places': places,
    'keepers': keepers,
    'runs': runs,
}
