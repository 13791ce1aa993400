#!/usr/bin/env python3
"""An independent model of table files and their admission: it writes the expected files of the tests.

model.py DIR writes the examples, some cases, the text of every case and the files of two programs
below DIR; tests/run compares them with the ones that are kept. It shares no code with the crates.
"""
import os
import struct
import sys

FIVE = ((3, 8, 400), [
    (0, 1, 2, 1, 1, 100),
    (1, 1, 2, 0, 1, 100),
    (1, 1, 1, 2, 1, 100),
    (2, 1, 2, 2, 1, 100),
    (1, 2, 2, 1, 1, 100),
])


def ring(rate, depth=10):
    """Three flows on a torus of side 3, each of which passes the turns of the two others."""
    return ((3, depth, 100), [
        (0, 0, 1, 2, 1, rate),
        (0, 1, 1, 0, 1, rate),
        (0, 2, 1, 1, 1, rate),
    ])


EXAMPLES = {
    'five-flows': FIVE,
    'ring-24': ring(24),
    'ring-24-depth-9': ring(24, 9),
    'ring-25': ring(25),
    'ring-33': ring(33),
    'ring-34': ring(34),
    'one-hop': ((2, 8, 4), [(0, 0, 1, 0, 1, 1)]),
    'full-rate': ((2, 8, 4), [(0, 0, 0, 1, 1, 4)]),
    'no-flows': ((2, 1, 2), []),
}

LARGEST = ((255, 255, 65535), [(255, 255, 255, 255, 65535, 65535)] * 64)


def record(kind, body):
    return struct.pack('<HH', len(body), kind) + body


def encode(table):
    (side, depth, frame), flows = table
    parts = [record(1, struct.pack('<BBH', side, depth, frame))]
    parts += [record(2, struct.pack('<BBBBHH', *flow)) for flow in flows]
    parts.append(record(3, struct.pack('<H', len(flows))))
    return b''.join(parts)


class Refused(Exception):
    pass


def decode(data):
    """The table of the bytes, by walking over records with their lengths."""
    lengths = {1: 4, 2: 8, 3: 2}
    at, head, flows = 0, None, []
    while True:
        if len(data) < at + 4:
            raise Refused(f'1 byte {at}')
        length, kind = struct.unpack_from('<HH', data, at)
        if kind not in ((1,) if head is None else (2, 3)):
            raise Refused(f'2 byte {at}')
        if length != lengths[kind]:
            raise Refused(f'3 byte {at}')
        body = data[at + 4:at + 4 + length]
        if len(body) < length:
            raise Refused(f'1 byte {at}')
        if kind == 1:
            head = struct.unpack('<BBH', body)
        elif kind == 2:
            if len(flows) == 64:
                raise Refused(f'4 byte {at}')
            flows.append(struct.unpack('<BBBBHH', body))
        elif struct.unpack('<H', body)[0] != len(flows):
            raise Refused(f'5 byte {at}')
        at += 4 + length
        if kind == 3:
            if len(data) > at:
                raise Refused(f'6 byte {at}')
            return head, flows


def show(data):
    try:
        (side, depth, frame), flows = decode(data)
    except Refused as fault:
        return f'refused {fault}\n'
    lines = [f'torus {side} depth {depth} frame {frame}']
    for i, (xs, ys, xd, yd, burst, rate) in enumerate(flows, 1):
        lines.append(f'flow {i} from {xs} {ys} to {xd} {yd} burst {burst} rate {rate}')
    lines.append(f'flows {len(flows)}')
    return ''.join(line + '\n' for line in lines)


class Flow:
    """A flow of an m × m torus: its own numbers, and the routers of its path, each a pair (column, row)."""

    def __init__(self, m, q, numbers):
        xs, ys, xd, yd, burst, self.p = numbers
        east, south = (xd - xs) % m, (yd - ys) % m
        self.s = burst * q - self.p
        self.hops = east + south + 1
        self.source = (xs, ys)
        self.turn = (xd, ys) if xs != xd else None
        self.through = [((xs + k) % m, ys) for k in range(1, east)]
        self.north = [(xd, (ys + k) % m) for k in range(1, south + 1)]
        self.x = self.s


class Turn:
    """A router where flows turn, with the flows that turn there and those that reach it from the north."""

    def __init__(self, router, flows, q):
        self.router, self.q = router, q
        self.west = [f for f in flows if f.turn == router]
        self.north = [f for f in flows if router in f.north]
        self.pw, self.sw = sum(f.p for f in self.west), sum(f.s for f in self.west)
        self.pn = sum(f.p for f in self.north)
        self.left = q - self.pn  # what the flows from the north leave of the frame

    def saturated(self):
        return self.pw + self.pn >= self.q

    def sn(self):
        return sum(f.x for f in self.north)

    def least(self, flow, sn):
        """The least burst of a flow that turns here, if the flows from the north have bursts of the sum sn."""
        return flow.s + up(flow.p * (sn + self.sw - flow.s), self.left)

    def backlog(self):
        return (self.sw + self.pw * self.sn() // self.left) // self.q

    def delay(self, flow):
        others_p, others_s = self.pw - flow.p, self.sw - flow.s
        return up(flow.s, self.left - others_p) + up(self.sn() + others_s, self.left)


def up(a, b):
    """a / b, rounded up."""
    return -(-a // b)


def check_ranges(table):
    (m, depth, q), flows = table
    if not 2 <= m <= 8:
        raise Refused('10')
    if not 2 <= q <= 1024:
        raise Refused('11')
    if not 1 <= depth <= 128:
        raise Refused('12')
    for i, (xs, ys, xd, yd, burst, rate) in enumerate(flows, 1):
        if max(xs, ys, xd, yd) >= m:
            raise Refused(f'13 flow {i}')
        if (xs, ys) == (xd, yd):
            raise Refused(f'14 flow {i}')
        if not 1 <= burst <= 64:
            raise Refused(f'15 flow {i}')
        if not 1 <= rate <= q:
            raise Refused(f'16 flow {i}')


def rivals(flow, flows):
    """Those that keep a flow's packet in its mouth: a rate and a burst of each."""
    client = [(f.p, f.s) for f in flows if f is not flow and f.source == flow.source]
    if flow.turn:
        return client + [(f.p, f.s) for f in flows if flow.source in f.through]
    return client + [(f.p, f.x) for f in flows if flow.source in f.north or flow.source == f.turn]


def raise_bursts(turns):
    """The least bursts, by raising each as long as its turn asks for more; False where one passes the ceiling."""
    again = True
    while again:
        again = False
        for turn in turns:
            # No flow reaches its own turn from the north, so the sum serves all that turn there.
            sn = turn.sn()
            for flow in turn.west:
                x = turn.least(flow, sn)
                if x > 131072:
                    return False
                if x > flow.x:
                    flow.x, again = x, True
    return True


def plan(table):
    """The flows with their least bursts, and the turns row by row."""
    check_ranges(table)
    (m, depth, q), numbers = table
    flows = [Flow(m, q, n) for n in numbers]
    turns = [Turn((x, y), flows, q) for y in range(m) for x in range(m)]
    turns = [turn for turn in turns if turn.west]
    for turn in turns:
        if turn.saturated():
            raise Refused('17 router {} {}'.format(*turn.router))
    for i, flow in enumerate(flows, 1):
        if sum(p for p, _ in rivals(flow, flows)) + flow.p > q:
            raise Refused(f'18 flow {i}')
    if not raise_bursts(turns):
        raise Refused('19')
    for turn in turns:
        if turn.backlog() + 1 > depth:
            raise Refused('20 router {} {}'.format(*turn.router))
    return flows, turns


def admit(data):
    try:
        table = decode(data)
        flows, turns = plan(table)
    except Refused as fault:
        return f'refused {fault}\n'
    m, depth, q = table[0]
    lines = [f'torus {m} depth {depth} frame {q}']
    for i, flow in enumerate(flows, 1):
        others = rivals(flow, flows)
        wait = sum(burst for _, burst in others) // (q - sum(p for p, _ in others))
        delay = sum(turn.delay(flow) for turn in turns if turn.router == flow.turn)
        latency = wait + delay + flow.hops
        lines.append(f'flow {i} burst {flow.x} wait {wait} turn {delay} hops {flow.hops} latency {latency}')
    for turn in turns:
        backlog = turn.backlog()
        lines.append('router {} {} backlog {} depth {}'.format(*turn.router, backlog, backlog + 1))
    lines.append(f'admitted {len(flows)}')
    return ''.join(line + '\n' for line in lines)


def changed(data, at, value):
    return data[:at] + bytes([value]) + data[at + 1:]


def damaged(data):
    """What the program `damaged` prints of a good file: every cut, 65 flows, every byte changed, one byte more."""
    out = [f'cut {n} ' + show(data[:n]) for n in range(len(data))]
    out.append('65 flows ' + show(data[:8] + 65 * data[8:20] + record(3, struct.pack('<H', 65))))
    for at in range(len(data)):
        for value in (0, 1, 2, 3, 255):
            text = show(changed(data, at, value))
            if text.startswith('refused'):
                out.append(f'byte {at} made {value} ' + text)
    out.append('one more ' + show(data + b'\0'))
    return ''.join(out)


def cases():
    """Files whose answers the fixed cases do not cover."""
    largest = encode(LARGEST)
    five = encode(FIVE)
    return {
        'largest-numbers-64-flows': largest,
        'no-bytes': b'',
        'head-body-cut': five[:7],
        'flow-body-cut': five[:31],
        'head-twice': five[:8] + five,
        'head-of-length-5': changed(five, 0, 5),
        'flow-65-of-length-9': largest[:776] + record(2, b'123456789'),
        'flow-65-body-cut': largest[:776] + record(2, b'12345678')[:-1],
        'end-of-length-1': five[:68] + record(3, b'1'),
        'end-twice': five + five[68:],
    }


def at_ceiling(rate):
    """A flow whose burst comes to the ceiling; the rate of the third flow moves it by a unit or less."""
    return ((3, 128, 1024), [
        (0, 1, 1, 1, 64, 4),
        (0, 0, 1, 1, 1, 565),
        (2, 0, 1, 0, 29, rate),
        (1, 0, 1, 1, 64, 454),
    ])


def full_torus(rate):
    """64 flows, one with its turn at each router; each passes the turns of the seven others of its column."""
    return ((8, 128, 1024), [((x + 1) % 8, y, x, (y + 7) % 8, 4, rate) for y in range(8) for x in range(8)])


def small(*flows, side=4, depth=8, frame=10):
    return ((side, depth, frame), list(flows))


def admit_cases():
    """Tables at the edges of the rules, and tables with two faults, of which the first in order counts."""
    good = (0, 0, 1, 0, 1, 1)
    outside, still = (4, 0, 1, 0, 1, 1), (2, 2, 2, 2, 1, 1)
    one_client = [(0, 0, 0, 1, 64, 16)] * 62 + [(0, 0, 0, 1, 64, 31), (0, 0, 0, 1, 1, 1)]
    tables = {
        'side-0-refused-10': small(good, side=0),
        'side-9-refused-10': small(good, side=9),
        'side-9-frame-1-depth-0-refused-10': small(good, side=9, frame=1, depth=0),
        'frame-1-refused-11': small(good, frame=1),
        'frame-1025-refused-11': small(good, frame=1025),
        'frame-1-depth-0-refused-11': small(good, frame=1, depth=0),
        'depth-129-and-flow-outside-refused-12': small(outside, depth=129),
        'source-column-outside-refused-13': small(good, outside),
        'flow-with-every-fault-refused-13': small(good, (4, 4, 4, 4, 0, 0)),
        'flow-still-without-burst-and-rate-refused-14': small(good, (2, 2, 2, 2, 0, 0)),
        'flow-without-burst-and-rate-refused-15': small(good, (0, 0, 1, 0, 0, 0)),
        'burst-65-refused-15': small((0, 0, 0, 1, 65, 1)),
        'burst-64': small((0, 0, 0, 1, 64, 1)),
        'rate-11-of-10-refused-16': small((0, 0, 0, 1, 1, 11)),
        'flow-1-rate-0-before-flow-2-outside': small((0, 0, 1, 0, 1, 0), outside),
        'flow-2-burst-0-before-flow-3-still': small(good, (0, 0, 1, 0, 0, 1), still),
        'flow-64-still-refused-14': ((4, 8, 1024), [good] * 63 + [still]),
        'turn-one-unit-below-the-frame': small((0, 1, 1, 1, 1, 6), (1, 0, 1, 1, 1, 3)),
        'turn-filled-by-a-flow-that-ends-there-refused-17': small((0, 1, 1, 1, 1, 6), (1, 0, 1, 1, 1, 4)),
        'turn-filled-by-turning-flows-refused-17': small((0, 1, 2, 1, 1, 5), (1, 1, 2, 2, 1, 5)),
        'column-filled-where-none-turns': small((1, 0, 1, 2, 1, 5), (1, 1, 1, 2, 1, 5)),
        'two-turns-saturated-router-2-0-first': small((3, 1, 0, 1, 1, 10), (1, 0, 2, 0, 1, 10)),
        'turn-saturated-and-rivals-above-the-frame': small((0, 0, 0, 1, 1, 10), (0, 0, 1, 0, 1, 10)),
        'through-flow-fills-the-frame': small((0, 0, 3, 0, 1, 6), (1, 0, 2, 0, 1, 4)),
        'through-flow-one-unit-too-much-refused-18': small((0, 0, 3, 0, 1, 6), (1, 0, 2, 0, 1, 5)),
        'flow-that-ends-at-the-source-fills-the-frame': small((1, 0, 1, 1, 1, 6), (1, 1, 1, 2, 1, 4)),
        'flow-that-ends-at-the-source-too-much-refused-18': small((1, 0, 1, 1, 1, 6), (1, 1, 1, 2, 1, 5)),
        'one-client-two-outlets-too-much-refused-18': small((0, 0, 1, 0, 1, 6), (0, 0, 0, 1, 1, 5)),
        'rivals-above-the-frame-in-an-unbounded-ring': (ring(25)[0], ring(25)[1] + [(2, 0, 2, 1, 1, 60)] * 2),
        'ring-rate-25-depth-1-unbounded': ring(25, 1),
        'five-flows-depth-just-enough': ((3, 3, 400), FIVE[1]),
        'five-flows-depth-one-too-few-refused-20': ((3, 2, 400), FIVE[1]),
        'two-turns-too-deep-router-2-0-first': small((3, 1, 0, 1, 9, 1), (1, 0, 2, 0, 9, 1)),
        'burst-at-the-ceiling': at_ceiling(4),
        'burst-at-the-ceiling-too-deep-refused-20': at_ceiling(2),
        'burst-one-above-the-ceiling-refused-19': at_ceiling(1),
        '64-flows-64-turns-depth-128-just-enough': full_torus(72),
        '64-flows-64-turns-unbounded': full_torus(73),
        '64-flows-64-turns-saturated': full_torus(128),
        '64-flows-of-one-client-wait-4127745': ((2, 1, 1024), one_client),
        'turn-delay-130049': ((3, 128, 1024), [
            (0, 1, 1, 1, 1, 1),
            (1, 0, 1, 1, 64, 256),
            (1, 0, 1, 1, 64, 256),
            (1, 0, 1, 1, 64, 255),
            (1, 0, 1, 1, 62, 255),
        ]),
    }
    files = {name: encode(table) for name, table in tables.items()}
    files['side-9-and-byte-behind-the-end-refused-6'] = encode(small(good, side=9)) + b'\0'
    files['2000-bytes-behind-the-end'] = encode(FIVE) + bytes(2000)
    return files


def kept(folder):
    """The kept files of a folder of cases, by name."""
    path = os.path.join(os.path.dirname(os.path.abspath(__file__)), 'cases', folder)
    for name in os.listdir(path):
        if name.endswith('.table'):
            with open(os.path.join(path, name), 'rb') as f:
                yield name[:-6], f.read()


def main():
    top = sys.argv[1]
    files = {}
    for folder, text, own in (('show', show, cases()), ('admit', admit, admit_cases())):
        for name, data in own.items():
            files[f'tests/cases/{folder}/{name}.table'] = data
        for name, data in kept(folder):
            files[f'tests/cases/{folder}/{name}.txt'] = text(data).encode()
    for name, table in EXAMPLES.items():
        data = encode(table)
        files[f'examples/{name}.table'] = data
        files[f'examples/{name}.txt'] = show(data).encode()
        files[f'examples/{name}.admit.txt'] = admit(data).encode()
    five = encode(FIVE)
    files['crates/show/stdin'] = five
    files['crates/show/stdout'] = show(five).encode()
    files['crates/admit/stdin'] = five
    files['crates/admit/stdout'] = admit(five).encode()
    files['crates/damaged/stdin'] = five
    files['crates/damaged/stdout'] = damaged(five).encode()
    for name, data in files.items():
        path = os.path.join(top, name)
        os.makedirs(os.path.dirname(path), exist_ok=True)
        with open(path, 'wb') as f:
            f.write(data)


main()
