"""The records of document 01 as bytes, for the scripts that write record files."""
import struct


def record(kind, body):
    return struct.pack('<HH', len(body) + 2, kind) + body


def head(stack, pollutant, required, furnace, coal, mw, mark, days):
    return record(1, struct.pack('<HBBBBHBB', stack, pollutant, required, furnace, coal, mw, mark, days))


def days(count, reading, stopped, missing):
    """The days of a period; reading(hour) is the pair of an hour that is neither stopped nor missing."""
    out = b''
    for d in range(count):
        run = measured = 0
        pairs = b''
        for h in range(24):
            t = 24 * d + h
            pair = bytes(8)
            if t not in stopped:
                run |= 1 << h
                if t not in missing:
                    measured |= 1 << h
                    pair = struct.pack('<ff', *reading(t))
            pairs += pair
        out += record(2, struct.pack('<BII', d, run, measured) + pairs)
    return out


def survey(kind, at, c, l):
    """Kinds 3 and 4 by the hour, 11 and 12 by the day of an outfall."""
    return record(kind, struct.pack('<Hff', at, c, l))


def batch(kg, sulphur, ash):
    return record(5, struct.pack('<QHH', kg, sulphur, ash))


END = record(6, b'')


def outfall(number, pollutant, days):
    return record(9, struct.pack('<HBB', number, pollutant, days))


def outfall_days(count, reading, stopped, missing):
    """The days of an outfall; reading(day) is the pair of a day that is neither stopped nor missing."""
    out = b''
    for d in range(count):
        state = 0 if d in stopped else 1 if d in missing else 2
        out += record(10, struct.pack('<BB', d, state) + (struct.pack('<ff', *reading(d)) if state == 2 else bytes(8)))
    return out


def spans(*pairs):
    """The hours or days of stretches, each given by its first one and how many there are."""
    return {t for a, n in pairs for t in range(a, a + n)}
