#!/usr/bin/env python3
"""Makes the sheets that the program sheet_vectors is run on, with the answer that document 01 gives for each.

    python3 compare/sheets.py

writes crates/sheet_vectors/stdin (for each sheet its length, four bytes, the lowest first; its answer, one byte; its
bytes) and crates/sheet_vectors/stdout. The answers are worked out here from the document's text, not from the code.
The same sheets come at each run."""
import os
import struct

# ---- the document's tables. A kind: how many options, how many numbers, what its chain holds.
ANY = None
KINDS = {}


def kinds(first, names, options, numbers, holds, count):
    for at, name in enumerate(names.split()):
        KINDS[first + at] = (name, options, numbers, holds, count)


kinds(1, 'Sine', 1, 0, 'value', 1)
kinds(2, 'Square', 1, 0, 'value', 2)
kinds(3, 'Sawtooth Triangle', 1, 0, 'value', 1)
kinds(5, 'Fm', 1, 1, 'value', 2)
kinds(6, 'Super', 2, 2, 'value', 1)
kinds(7, 'Impact', 1, 2, 'none', 0)
kinds(8, 'Env', 1, 5, 'none', 0)
kinds(9, 'Noise', 3, 0, 'none', 0)
kinds(10, 'Dust', 1, 2, 'none', 0)
kinds(11, 'Mix Mul Chain', 1, 0, 'node', ANY)
kinds(21, 'Gain', 1, 0, 'value', 1)
kinds(22, 'Lowpass Highpass Bandpass Notch', 1, 1, 'value', 1)
kinds(26, 'Peak', 1, 2, 'value', 1)
kinds(27, 'Lowshelf Highshelf', 1, 1, 'value', 1)
kinds(29, 'Delay Reverb', 1, 2, 'none', 0)
kinds(31, 'Modal', 1, 1, 'mode', ANY)
kinds(32, 'Drive', 6, 0, 'value', 1)
kinds(33, 'Tremolo', 1, 2, 'none', 0)
kinds(34, 'Chorus', 1, 3, 'none', 0)
kinds(35, 'Compress', 1, 5, 'none', 0)
kinds(41, 'Const', 1, 1, 'none', 0)
kinds(42, 'Slide', 2, 3, 'none', 0)
kinds(43, 'Lfo', 4, 3, 'none', 0)
kinds(44, 'Arp', 1, 1, 'step', ANY)
kinds(45, 'EnvMod', 1, 7, 'none', 0)
kinds(46, 'Rand', 1, 5, 'none', 0)
kinds(51, 'Mode', 1, 3, 'none', 0)
kinds(52, 'Step', 1, 1, 'none', 0)
NAMED = {row[0]: kind for kind, row in KINDS.items()}


def role(kind):
    if kind in KINDS:
        return 'node' if kind <= 35 else 'value' if kind <= 46 else 'mode' if kind == 51 else 'step'
    return 'unknown'


# ---- the checks, as the document words them
def check_record(r):
    if r[0] not in KINDS:
        return False
    _, options, numbers, _, _ = KINDS[r[0]]
    return r[1] < options and not any(r[6:8]) and not any(r[8 + 4 * numbers:40])


def check_chain(chain, holds, count):
    if holds == 'none':
        return not chain
    return all(role(kind) == holds for kind in chain) and (count is ANY or len(chain) == count)


def answer(sheet):
    if len(sheet) < 24:
        return 1
    count, zero, rate = struct.unpack_from('<HHI', sheet)
    if len(sheet) != 24 + 40 * count or not 1 <= count <= 256:
        return 1
    if not 8000 <= rate <= 192000 or zero != 0:
        return 2
    records = [sheet[24 + 40 * i:64 + 40 * i] for i in range(count)]
    if not all(check_record(r) for r in records):
        return 3
    links = [struct.unpack_from('<HH', r, 2) for r in records]
    for i, pair in enumerate(links):
        if any(link != 0 and not i < link < count for link in pair):
            return 4
    if links[0][1] != 0:
        return 4
    targets = [link for pair in links for link in pair if link != 0]
    if sorted(targets) != list(range(1, count)):
        return 5
    chains = {}
    for i in range(count):
        chain, at = [], links[i][0]
        while at != 0:
            chain.append(at)
            at = links[at][1]
        chains[i] = chain
        _, _, _, holds, size = KINDS[records[i][0]]
        if not check_chain([records[j][0] for j in chain], holds, size):
            return 6
    if role(records[0][0]) != 'node':
        return 6
    # a record's depth is one more than that of the node in whose chain it stands
    depth = {0: 1}
    for i in range(count):
        for j in chains[i]:
            depth[j] = depth[i] + 1
    if any(depth[i] > 16 for i in range(count) if role(records[i][0]) == 'node'):
        return 7
    return 0


# ---- a generator with a fixed start (SplitMix64)
class Random:
    def __init__(self, state):
        self.state = state

    def word(self):
        self.state = (self.state + 0x9E3779B97F4A7C15) % 2**64
        z = self.state
        z = (z ^ z >> 30) * 0xBF58476D1CE4E5B9 % 2**64
        z = (z ^ z >> 27) * 0x94D049BB133111EB % 2**64
        return z ^ z >> 31

    def below(self, n):
        return self.word() % n

    def pick(self, choices):
        return choices[self.below(len(choices))]


RANDOM = Random(2026)


# ---- sheets. A tree is (kind, children), or a kind alone with the least chain that it takes.
def least(kind):
    _, _, _, holds, count = KINDS[kind]
    return (kind, [least(41) for _ in range(count or 0)] if holds == 'value' else [])


def tree(t):
    return least(t) if isinstance(t, int) else (t[0], [tree(child) for child in t[1]])


class Record:
    def __init__(self, kind):
        self.kind, self.option, self.first, self.next, self.spare, self.words = kind, 0, 0, 0, 0, [0] * 8
        for k in range(KINDS[kind][2] if kind in KINDS else 0):
            self.words[k] = RANDOM.pick([0, 0x3F800000, 0x7FC00001, 0xFF800000, RANDOM.below(2**32)])
        if kind in KINDS:
            self.option = RANDOM.below(KINDS[kind][1])

    def bytes(self):
        return struct.pack('<BBHHH8I', self.kind, self.option, self.first, self.next, self.spare, *self.words)


def records(t):
    """The records of a tree in walking order."""
    out = []

    def lay(t):
        i = len(out)
        out.append(Record(t[0]))
        last = None
        for child in t[1]:
            j = lay(child)
            if last is None:
                out[i].first = j
            else:
                out[last].next = j
            last = j
        return i

    lay(tree(t))
    return out


def renumbered(rs):
    """The same tree under other numbers: any in which links climb."""
    above = {}
    for i, r in enumerate(rs):
        for link in (r.first, r.next):
            if link:
                above[link] = i
    place, order, ready = {}, [], [0]
    while ready:
        i = ready.pop(RANDOM.below(len(ready)))
        place[i] = len(order)
        order.append(i)
        ready += [j for j in above if above[j] == i]
    for r in rs:
        r.first, r.next = r.first and place[r.first], r.next and place[r.next]
    return [rs[i] for i in order]


def sheet(rs, count=None, rate=48000, zero=0, length=0, path=0):
    return struct.pack('<HHIQQ', len(rs) if count is None else count, zero, rate, length, path) + b''.join(r.bytes() for r in rs)


SHEETS = []


def add(data, expected=None):
    found = answer(data)
    assert expected is None or found == expected, (expected, found, data[:104].hex())
    SHEETS.append((bytes(data), found))


MIX, MUL, CHAIN, SINE, SQUARE, NOISE, GAIN, LOWPASS, MODAL = 11, 12, 13, 1, 2, 9, 21, 22, 31
CONST, ARP, MODE, STEP = 41, 44, 51, 52
SMALL = (MIX, [SINE, (CHAIN, [SQUARE, LOWPASS])])


def changed(t, change, expected=None, **header):
    rs = records(t)
    change(rs)
    add(sheet(rs, **header), expected)


def lengths():
    good = sheet(records(SMALL))
    for n in range(0, 26):
        add(good[:n], 1)
    for n in (len(good) - 40, len(good) - 1, len(good) + 1):
        add((good + bytes(40))[:n], 1)
    add(good + bytes(40), 1)
    add(struct.pack('<HHIQQ', 0, 0, 48000, 0, 0), 1)
    add(struct.pack('<HHIQQ', 1, 0, 48000, 0, 0), 1)
    add(struct.pack('<HHIQQ', 0, 0, 48000, 0, 0) + bytes(40), 1)
    for count in (2, 255, 256, 257, 512, 65535):
        add(sheet(records(NOISE), count=count), 1)
    flat = records((MIX, [NOISE] * 256))
    add(sheet(flat), 1)
    add(sheet(flat[:256], count=257), 1)


def headers():
    for rate, expected in ((8000, 0), (192000, 0), (44100, 0), (7999, 2), (192001, 2), (0, 2), (2**32 - 1, 2), (48000 + 2**24, 2), (8000 + 2**16, 0)):
        add(sheet(records(SMALL), rate=rate), expected)
        add(sheet(records(NOISE), rate=rate, length=2**64 - 1, path=2**63 + 5), expected)
    for zero in (1, 128, 256, 2**15, 2**16 - 1):
        add(sheet(records(SMALL), zero=zero), 2)


def single_records():
    # each kind number, as record 0 and in a chain; options; every byte that a kind does not use, and some that it does
    for kind in range(256):
        rs = [Record(kind)] if KINDS.get(kind, ('', 0, 0, 'node', 0))[3] != 'value' else records(kind)
        add(sheet(rs), 3 if kind not in KINDS else 0 if role(kind) == 'node' else 6)
    for kind, (_, options, numbers, _, _) in KINDS.items():
        place = 1 if role(kind) == 'node' else 2
        t = {'node': (MIX, [kind]), 'value': (CHAIN, [(GAIN, [kind])]), 'mode': (CHAIN, [(MODAL, [kind])]), 'step': (GAIN, [(ARP, [kind])])}[role(kind)]
        for option in range(options):
            changed(t, lambda rs: setattr(rs[place], 'option', option), 0)
        for option in {options, options + 1, 128, 255}:
            changed(t, lambda rs: setattr(rs[place], 'option', option), 3)
        for byte in [6, 7] + list(range(8 + 4 * numbers, 40)):
            if byte < 8 or (byte - kind) % 3 == 0 or byte == 39:
                data = bytearray(sheet(records(t)))
                data[24 + 40 * place + byte] = 1 << (byte + kind) % 8
                add(data, 3)
        if numbers:
            data = bytearray(sheet(records(t)))
            data[24 + 40 * place + 8 + 4 * numbers - 1] = 255
            add(data, 0)


def links():
    n = len(records(SMALL))
    for i in range(n):
        for link in sorted({i, max(i - 1, 0), 1, n - 1, n, n + 1, 256, 2**15, 2**16 - 1}):
            for field in ('first', 'next'):
                changed(SMALL, lambda rs: setattr(rs[i], field, link), 4 if link and not i < link < n or (i == 0 and field == 'next' and link) else None)
    changed((MIX, [NOISE]), lambda rs: setattr(rs[0], 'next', 1), 4)
    add(sheet([Record(MIX), Record(NOISE)]), 5)
    lone = [Record(MIX), Record(NOISE)]
    lone[0].next = 1
    add(sheet(lone), 4)


def hits():
    t = (MIX, [(MIX, [NOISE]), (MIX, [NOISE]), NOISE])
    n = len(records(t))
    for i in range(n):
        for j in range(i + 1, n):
            changed(t, lambda rs: setattr(rs[i], 'first', j))
            if i:
                changed(t, lambda rs: setattr(rs[i], 'next', j))
    for i in range(n):
        changed(t, lambda rs: setattr(rs[i], 'first', 0))
        changed(t, lambda rs: setattr(rs[i], 'next', 0))
    two = [Record(MIX), Record(NOISE), Record(NOISE)]
    two[0].first, two[1].first, two[1].next = 1, 2, 2
    add(sheet(two), 5)
    three = [Record(MIX), Record(MIX), Record(MIX), Record(NOISE)]
    three[0].first, three[1].next, three[1].first, three[2].first = 1, 2, 3, 3
    add(sheet(three), 5)


def shapes():
    members = {'value': [41, 42, 43, (ARP, [STEP, STEP]), 45, 46], 'node': [SINE, NOISE, GAIN, (MIX, [])], 'mode': [MODE], 'step': [STEP]}
    for kind, (_, _, _, holds, count) in KINDS.items():
        outer = {'node': lambda t: (CHAIN, [t]), 'value': lambda t: (GAIN, [t]), 'mode': lambda t: (MODAL, [t]), 'step': lambda t: (GAIN, [(ARP, [t])])}[role(kind)]
        for what, some in members.items():
            for size in range(0, 4):
                chain = [RANDOM.pick(some) for _ in range(size)]
                right = size == 0 and count in (0, ANY) or what == holds and (count is ANY or size == count)
                add(sheet(records(outer((kind, chain)))), 0 if right else 6)
        if holds == 'value' and count == 2:
            add(sheet(records((kind, [41, NOISE]))), 6)
            add(sheet(records((kind, [NOISE, 41]))), 6)
    for kind in KINDS:
        if role(kind) != 'node':
            add(sheet(records(kind)), 6)


def depths():
    def nested(depth, leaf, kind=lambda d: MIX):
        t = leaf
        for d in range(depth - 1):
            t = (kind(d), [t])
        return t

    for leaf in (NOISE, SINE, (MIX, []), (MODAL, [MODE, MODE])):
        for kind in (lambda d: MIX, lambda d: 11 + d % 3, lambda d: CHAIN):
            for depth, expected in ((1, 0), (2, 0), (15, 0), (16, 0), (17, 7), (18, 7), (40, 7)):
                add(sheet(records(nested(depth, leaf, kind))), expected)
    # values, modes and steps below a node at depth 16; a deep branch after shallow ones, and before
    add(sheet(records(nested(16, (GAIN, [(ARP, [STEP, STEP])])))), 0)
    for depth, expected in ((15, 0), (16, 7)):
        add(sheet(records((MIX, [NOISE, SINE, nested(depth, NOISE)]))), expected)
        add(sheet(records((MIX, [nested(depth, NOISE), SINE, NOISE]))), expected)
        add(sheet(records((CHAIN, [NOISE, GAIN, nested(depth, NOISE), GAIN, SINE]))), expected)
    add(sheet(records((MIX, [nested(17, NOISE), SINE]))), 7)


def pairs():
    # a fault for each check, each at records of its own, so that any two stand side by side
    def rate(rs, header):
        header['rate'] = 7999

    def kind(rs, header):
        rs[1].kind = 14

    def byte(rs, header):
        rs[2].spare = 256

    def option(rs, header):
        rs[3].option = 77

    def link(rs, header):
        rs[4].first = 999

    def back(rs, header):
        rs[0].next = 2

    def alone(rs, header):
        rs.append(Record(NOISE))

    def chain(rs, header):
        rs[5].kind, rs[5].option = MODE, 0

    def root(rs, header):
        rs[0].kind, rs[0].option, rs[0].words = CONST, 0, [0] * 8

    def deep(rs, header):
        rs[-1].next = len(rs)
        for _ in range(16):
            rs.append(Record(MIX))
            rs[-1].first = len(rs)
        rs.append(Record(NOISE))

    def short(rs, header):
        header['count'] = len(rs) + 1

    faults = [(short, 1), (rate, 2), (kind, 3), (byte, 3), (option, 3), (link, 4), (back, 4), (alone, 5), (chain, 6), (root, 6), (deep, 7)]
    for a, low in faults:
        for b, other in faults:
            if a is b:
                continue
            rs, header = records((MIX, [NOISE] * 8)), {}
            for fault in sorted((a, b), key=lambda f: (f is short, f is alone)):
                fault(rs, header)
            add(sheet(rs, **header), min(low, other))


def boundaries():
    # the worked sheet of document 01
    worked = [Record(CHAIN), Record(MUL), Record(GAIN), Record(CONST)]
    worked[0].first, worked[1].next, worked[2].first = 1, 2, 3
    worked[3].words = [0x3F000000] + [0] * 7
    add(sheet(worked, rate=8000), 0)
    # one record, 255 in a chain, 256 in all, and the deepest and the widest that fit
    add(sheet(records(NOISE)), 0)
    add(sheet(records((MIX, [NOISE] * 254))), 0)
    add(sheet(records((MIX, [NOISE] * 255))), 0)
    add(sheet(records((MUL, [SINE] * 127))), 0)
    add(sheet(records((GAIN, [(ARP, [STEP] * 254)]))), 0)
    add(sheet(records((MODAL, [MODE] * 255))), 0)
    add(sheet(records((SQUARE, [41, (ARP, [STEP] * 253)]))), 0)
    full = records((MIX, [NOISE] * 255))
    full[255].next = 256
    add(sheet(full), 4)
    full = records((MIX, [NOISE] * 255))
    full[254].next = 0
    add(sheet(full), 5)
    full = records((MIX, [NOISE] * 255))
    full[255].words[7] = 2**31
    add(sheet(full), 3)
    full = records((MIX, [NOISE] * 254 + [(MIX, [])]))
    full[255].kind = MODE
    add(sheet(full), 6)


def grown(size):
    """A random tree of at most so many records."""
    left = [size - 1]

    def value():
        kind = 41 + RANDOM.below(6)
        left[0] -= 1
        steps = RANDOM.below(max(1, min(4, left[0]))) if kind == ARP else 0
        left[0] -= steps
        return (kind, [STEP] * steps)

    def grow(depth):
        kind = RANDOM.pick([MIX, MUL, CHAIN, MIX, CHAIN] + [k for k in KINDS if role(k) == 'node'])
        holds, count = KINDS[kind][3], KINDS[kind][4]
        if holds == 'value':
            if left[0] < 5 * count:
                return (NOISE, [])
            return (kind, [value() for _ in range(count)])
        children = []
        if holds == 'mode':
            children = [MODE] * RANDOM.below(max(1, min(5, left[0])))
            left[0] -= len(children)
        while holds == 'node' and depth < 16 and left[0] > 0 and RANDOM.below(8) > 0:
            left[0] -= 1
            children.append(grow(depth + 1))
        return (kind, children)

    children = []
    while left[0] > 0:
        left[0] -= 1
        children.append(grow(2))
    return (RANDOM.pick([MIX, MUL, CHAIN]), children)


def random_sheets():
    for n in range(180):
        rs = records(grown(2 + RANDOM.below(14)))
        if n % 2:
            rs = renumbered(rs)
        add(sheet(rs), 0)
        data = bytearray(sheet(rs))
        for _ in range(1 + RANDOM.below(2)):
            data[RANDOM.below(len(data))] = RANDOM.pick([0, 1, 2, 3, len(rs), RANDOM.below(256)])
        add(data)
        at = 24 + 40 * RANDOM.below(len(rs)) + RANDOM.pick([0, 1, 2, 4])
        data = bytearray(sheet(rs))
        data[at] = RANDOM.pick([0, 1, RANDOM.below(len(rs) + 1), RANDOM.below(53)])
        add(data)
    for _ in range(6):
        rs = renumbered(records(grown(256)))
        add(sheet(rs), 0)
        data = bytearray(sheet(rs))
        data[24 + 40 * RANDOM.below(len(rs)) + 2 * RANDOM.below(3)] = RANDOM.below(256)
        add(data)


def main():
    for part in (lengths, headers, single_records, links, hits, shapes, depths, pairs, boundaries, random_sheets):
        part()
    folder = os.path.join(os.path.dirname(os.path.dirname(os.path.abspath(__file__))), 'crates', 'sheet_vectors')
    with open(os.path.join(folder, 'stdin'), 'wb') as out:
        for data, expected in SHEETS:
            out.write(struct.pack('<IB', len(data), expected) + data)
    counts = [sum(expected == n for _, expected in SHEETS) for n in range(8)]
    with open(os.path.join(folder, 'stdout'), 'w') as out:
        out.write('sheets %d\naccepted %d\n' % (len(SHEETS), counts[0]))
        out.write(''.join('refused %d: %d\n' % (n, counts[n]) for n in range(1, 8)))
        out.write('differences 0\n')
    print(len(SHEETS), 'sheets,', os.path.getsize(os.path.join(folder, 'stdin')), 'bytes, answers', counts)


if __name__ == '__main__':
    main()
