#!/usr/bin/env python3
"""Writes the realistic samples: samples/quarter.rec (a stack's quarter, 92 days, three pollutants), samples/over.rec (a fourth line makes it too long
for the program, not for the library) and samples/plant.rec (a plant's quarter: an outfall, two pollutants, and a stack). No chance is involved: the same
bytes come out each time.

usage: tools/sample.py

The answers beside them (NAME.out what the program prints, NAME.library what the library answers to a file that is too long for the program) come from the
independent reference under rust/, not from the proved code: `cargo run --release -p reference --example answer < NAME.rec`, with the word `library` for the second.
"""
import math, os

import records
from records import END, batch, outfall, spans, survey

HERE = os.path.join(os.path.dirname(os.path.dirname(os.path.abspath(__file__))), 'samples')
DAYS = 92


def head(stack, pollutant, required, furnace=1, coal=4, mw=330, mark=3):
    return records.head(stack, pollutant, required, furnace, coal, mw, mark, DAYS)


def load(hour):
    """Share of full load: lower at night and on the seventh day."""
    day, h = divmod(hour, 24)
    return 0.62 + 0.3 * math.sin(math.pi * max(0, min(16, h - 6)) / 16) - (0.08 if day % 7 == 6 else 0)


def readings(level, hour):
    """Concentration in mg/m3 and dry flow in m3/h."""
    x = load(hour)
    return level * (0.85 + 0.3 * x) + 1.7 * math.sin(hour / 5), 1_050_000 * x + 9_000 * math.cos(hour / 11)


def days(level, stopped, missing):
    return records.days(DAYS, lambda t: readings(level, t), stopped, missing)


OUTAGE = spans((1000, 77))


def sulphur_dioxide(stack):
    # short gaps, one over the outage, one of 31 hours; an inspector's survey replaces an hour, and the plant's is the data of one that was missing
    gaps = spans((50, 1), (200, 4), (611, 24), (990, 14), (1500, 31), (2207, 1))
    return head(stack, 1, 1) + days(31.0, OUTAGE, gaps) + survey(3, 430, 33.25, 871_000.0) + survey(4, 430, 32.0, 870_000.0) + survey(4, 612, 30.5, 905_000.5) + END


def nitrogen_oxides(stack):
    # the analyser was dark for 700 hours; automatic is not required, and the plant measured by hand
    return head(stack, 2, 0) + days(44.0, OUTAGE, spans((100, 700))) + b''.join(survey(4, h, 41.0 + h / 512, 840_000.0 + h) for h in (96, 480, 1200, 1980)) + END


def dust(stack):
    # as dark, but automatic is required: fuel speaks
    return head(stack, 3, 1) + days(6.5, OUTAGE, spans((100, 700))) + batch(98_400_000, 71, 1_830) + batch(101_250_000, 64, 2_045) + batch(87_900_500, 90, 1_996) + END


def steady_oxides(stack):
    # one short gap: the line stays automatic
    return head(stack, 2, 1) + days(44.0, OUTAGE, spans((700, 6))) + END


def discharge(level, day):
    """Concentration in mg/L and water in m3 per day: less water on the seventh day."""
    return level * (1 + 0.15 * math.sin(day / 6)), 4_150 + 360 * math.sin(day / 9) - (240.5 if day % 7 == 6 else 0)


# the days that lie in the stack's outage whole
STILL = spans((42, 2))


def outfall_days(level, missing):
    return records.outfall_days(DAYS, lambda d: discharge(level, d), STILL, missing)


def oxygen_demand(number):
    # one day was missed, and the plant measured on it by hand: no running day lacks data
    return outfall(number, 4, DAYS) + outfall_days(31.0, {17}) + survey(12, 17, 33.625, 4_409.5) + END


def ammonia(number):
    # days were missed, two of them surveyed: the rest lack data, so the surveys speak, the inspector's before the plant's on the day that has both
    plant = ((9, 1.21875, 4_462.0), (23, 1.15625, 4_330.0), (61, 1.0625, 4_315.5), (80, 1.34375, 4_307.0))
    return (outfall(number, 5, DAYS) + outfall_days(1.2, spans((20, 5), (61, 1))) + survey(11, 23, 1.375, 4_352.0)
            + b''.join(survey(12, *s) for s in plant) + END)


quarter = sulphur_dioxide(7) + nitrogen_oxides(7) + dust(7)
over = quarter + head(8, 1, 1, furnace=3, coal=3) + days(58.0, OUTAGE, spans((1200, 560))) + batch(60_000_000, 112, 2_300) + batch(61_500_000, 98, 2_250) + END
plant = oxygen_demand(2) + ammonia(2) + steady_oxides(5)
for name, data in (('quarter', quarter), ('over', over), ('plant', plant)):
    open(os.path.join(HERE, name + '.rec'), 'wb').write(data)
    print('samples/%s.rec: %d bytes' % (name, len(data)))
