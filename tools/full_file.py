#!/usr/bin/env python3
"""Writes the longest file that the program accepts, 65,536 bytes: crates/account/stdin. Twelve lines, all pollutants and methods. The same bytes come out each time.

usage: tools/full_file.py

The stored answer comes from the independent reference under rust/, not from the proved code:
`cargo run --release -p reference --example answer < ../crates/account/stdin > ../crates/account/stdout`, from rust/.
"""
import os

from records import END, batch, days, head, spans, survey

HERE = os.path.join(os.path.dirname(os.path.dirname(os.path.abspath(__file__))), 'crates', 'account', 'stdin')
state = 2_208


def some(n):
    """A number below n."""
    global state
    state = (state * 6_364_136_223_846_793_005 + 1_442_695_040_888_963_407) % 2**64
    return (state >> 33) % n


def reading(hour):
    """Exact in binary32, many of them halves of a hundredth; now and then nothing, minus nothing and the limits."""
    rare = some(97)
    return {0: (0.0, 0.5), 1: (-0.0, 1.0), 2: (10_000.0, 3.0), 3: (0.125, 5_000_000.0)}.get(rare, (some(40_000) / 64 + 1 / 8, 600_000 + some(1_200_000) / 2))


def line(stack, pollutant, required, boiler, period, stopped=(), missing=(), enforcement=0, plant=0, batches=0):
    """One line. Of its surveys one falls in every running hour of a step; stopped and missing are stretches of hours."""
    still, dark = spans(*stopped), spans(*missing)
    running = [t for t in range(24 * period) if t not in still]
    out = head(stack, pollutant, required, *boiler, period) + days(period, reading, still, dark)
    for kind, count in ((3, enforcement), (4, plant)):
        for t in running[some(5):][::7 + some(5)][:count]:
            out += survey(kind, t, *reading(t))
    for _ in range(batches):
        out += batch(1 + some(2_000_000), some(2_001), some(10_001))
    return out + END


PULVERISED, SLAG, BED, GRATE = (1, 4, 600, 2), (2, 5, 75, 4), (3, 3, 300, 1), (4, 1, 19, 3)  # furnace, coal, MW, mark
FILE = b''.join((
    # automatic: gaps of 1, 24 and 25 hours, one that an outage lies in, one of 60 that looks back over 720 hours, one at the very end
    line(3, 1, 1, PULVERISED, 92, [(1000, 77)], [(50, 1), (200, 24), (611, 25), (990, 14), (1700, 60), (2207, 1)], 9, 11, 2),
    # a quarter of the running hours, and one more
    line(3, 2, 0, PULVERISED, 1, [], [(3, 6)]),
    line(3, 3, 1, PULVERISED, 2, [(0, 1)], [(20, 12)], 0, 2, 5),
    # manual, by both kinds of survey and by one
    line(40, 1, 0, BED, 31, [(100, 30)], [(300, 300)], 12, 9),
    line(40, 2, 0, BED, 30, [], [(0, 719)], 0, 7, 1),
    # no running hour
    line(40, 3, 1, BED, 7, [(0, 168)], [], 0, 0, 1),
    # fuel: balance, oxides and dust, of three furnaces
    line(512, 1, 1, BED, 45, [(7, 3)], [(40, 700)], 2, 0, 11),
    line(512, 2, 0, GRATE, 14, [], [(1, 200)], 0, 0, 4),
    line(512, 3, 1, GRATE, 28, [(600, 72)], [(0, 400)], 0, 1, 6),
    line(65_535, 1, 0, SLAG, 25, [], [(0, 600)], 0, 0, 3),
    # automatic, dark in its first 40 hours but for a survey of both offices in the third; the last line, whose cells are left behind
    line(65_535, 2, 1, SLAG, 20, [(100, 24)], [(0, 40), (130, 2), (133, 25), (400, 24)], 1, 1, 1),
    line(65_535, 3, 0, SLAG, 17, [(30, 9)], [(25, 4), (39, 3), (200, 30)], 1, 0, 2),
))
assert len(FILE) == 65_536, len(FILE)
open(HERE, 'wb').write(FILE)
print('crates/account/stdin: %d bytes' % len(FILE))
