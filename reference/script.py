"""Answers script lines, as docs/SCRIPT.md describes them.

    python3 script.py < calls        lines of three fields in, whole lines out
"""

import sys

import blocks
import compressions
from blocks import ascending
from bridge import KINDS, Bridge
from forest import inside, locate, needed, one_above_another, root_position
from wallet import Wallet

FILL = b'\xee'


def parsed(argument):
    if argument.startswith('#'):
        return int(argument[1:])
    return b'' if argument == '.' else bytes.fromhex(argument)


def parts(data, size):
    return [data[i : i + size] for i in range(0, len(data), size)]


def numbers(data):
    return [int.from_bytes(part, 'little') for part in parts(data, 8)]


def hexed(data):
    return data.hex() or '.'


def shown_input(given):
    return ('L' if given[0] == 'leaf' else 'P') + b''.join(given[1:]).hex()


def shown(value):
    return 'absent' if value is None else value.hex()


class Session:
    """The wallet, the bridge and the keeper that the lines so far have made."""

    def __init__(self):
        self.wallet = self.bridge = self.keeper = None

    def answer(self, line):
        """The five fields of the answer."""
        number, name, arguments = line.split(' ')[:3]
        self.kind = compressions.BY_NUMBER.get(int(number))
        given = [] if arguments == '-' else [parsed(a) for a in arguments.split(',')]
        call = getattr(self, 'call_' + name.replace('.', '_'))
        refusal, output, holder = call(*given)
        return [str(refusal), *self.state_of(holder), output]

    def state_of(self, holder):
        if holder is None:
            return ['-', '-', '-']
        roots = positions = '-'
        if hasattr(holder, 'root_list'):
            roots = ','.join('blank' if v is None else v.hex() for v in holder.root_list) or '-'
        if hasattr(holder, 'positions'):
            positions = ','.join(map(str, holder.positions)) or '-'
        return [str(holder.count), roots, positions]

    # Bytes and positions -----------------------------------------------------------------

    def call_blake2s(self, message):
        number, digest = compressions.digest(message)
        return number, '-' if number else digest.hex(), None

    def call_read(self, data):
        number = blocks.unreadable(data)
        return number, '-' if number else ','.join(map(str, blocks.counts(data))), None

    def call_entries(self, data):
        number = blocks.unreadable(data)
        listed = [] if number else ['%s@%d:%s' % (kind, at, part.hex()) for kind, at, part in blocks.entries(data)]
        return number, ';'.join(listed) or '-', None

    def call_compose(self, targets, spent, hashes, new, length):
        lists = numbers(targets), parts(spent, 32), parts(hashes, 32), parts(new, 32)
        number, out = blocks.compose(*lists, FILL * length)
        return number, hexed(out), None

    def call_place(self, n, p):
        run = locate(n, p)
        return (6, '-', None) if run is None else (0, '%d,%d,%d' % (*run, root_position(n, p)), None)

    def call_needed(self, n, targets):
        ts = numbers(targets)
        if not ascending(ts):
            return 4, '-', None
        if not all(inside(n, t) for t in ts):
            return 6, '-', None
        if one_above_another(n, ts):
            return 7, '-', None
        return 0, ','.join(map(str, needed(n, ts))) or 'none', None

    # The wallet ----------------------------------------------------------------------------

    def call_new(self, places):
        self.wallet = Wallet(self.kind(), places)
        return 0, '-', self.wallet

    def call_take(self, block):
        return self.wallet.take(block)[0], '-', self.wallet

    def call_check(self, block):
        return self.wallet.check(block)[0], '-', self.wallet

    def call_watch(self, block):
        return self.wallet.watch(block)[0], '-', self.wallet

    def call_let_go(self, p):
        return self.wallet.let_go(p)[0], '-', self.wallet

    def call_show(self, p, length):
        number, out = self.wallet.show(p, FILL * length)
        return number, hexed(out), self.wallet

    def call_take_back(self):
        return self.wallet.take_back()[0], '-', self.wallet

    # The bridge ------------------------------------------------------------------------------

    def call_bridge_new(self, capacity, kind):
        self.bridge = Bridge(KINDS[kind](self.kind(), capacity))
        return 0, '-', self.bridge

    def call_bridge_take(self, block):
        return self.bridge.take(block)[0], '-', self.bridge

    def call_bridge_take_back(self):
        return self.bridge.take_back()[0], '-', self.bridge

    def call_bridge_find(self, coin):
        slot = self.bridge.find(coin)[1]
        return 0, 'none' if slot is None else str(slot), self.bridge

    def call_bridge_card(self, slot, length):
        number, out = self.bridge.card(slot, FILL * length)
        return number, hexed(out), self.bridge

    def call_bridge_look_up(self, coin, length):
        number, out = self.bridge.look_up(coin, FILL * length)
        return number, hexed(out), self.bridge

    def call_bridge_write(self, positions, new, length):
        number, out = self.bridge.write(numbers(positions), parts(new, 32), FILL * length)
        return number, hexed(out), self.bridge

    def call_bridge_challenge(self, block):
        number, found = self.bridge.challenge(block)
        if number:
            return number, '-', self.bridge
        if found is None:
            return 0, 'stands', self.bridge
        position, own, claimed = found
        return 0, '%d:%s:%s' % (position, shown_input(own), shown_input(claimed)), self.bridge

    # A keeper ----------------------------------------------------------------------------------

    def call_keeper_new(self, capacity, kind):
        self.keeper = KINDS[kind](self.kind(), capacity)
        return 0, '-', self.keeper

    def call_keeper_append(self, coin):
        return self.keeper.append(coin)[0], '-', self.keeper

    def call_keeper_blank(self, slot):
        return self.keeper.blank(slot)[0], '-', self.keeper

    def call_keeper_refill(self, slot, coin):
        return self.keeper.refill(slot, coin)[0], '-', self.keeper

    def call_keeper_cut(self):
        return self.keeper.cut()[0], '-', self.keeper

    def call_keeper_coin(self, slot):
        number, coin = self.keeper.coin(slot)
        return number, '-' if number else shown(coin), self.keeper

    def call_keeper_value(self, row, place):
        number, value = self.keeper.value(row, place)
        return number, '-' if number else shown(value), self.keeper


def main():
    session = Session()
    for line in sys.stdin:
        line = line.rstrip('\n')
        if line and not line.startswith(';'):
            line = ' '.join(line.split(' ')[:3] + session.answer(line))
        print(line)


if __name__ == '__main__':
    main()
