"""Maker of shift logs for trying readers: good ones, damaged ones, and tables of all sorts.

    logs.py SEED COUNT > log

writes a good log of first byte 2, of one opening and so many events. Everything here is settled by its arguments: the same seed gives the same bytes.
"""

import random
import sys

from shift_log import BEGIN, BY_CELL, BY_FLOW, CELL, END, FORMS, MOST, NUMBERS, PACKET, TABLE_END, Log, bytes_of, low_first

HUGE = [65535, 65536, 65537, 2**24, 2**31, 2**32 - 64, 2**32 - 25, 2**32 - 4, 2**32 - 3, 2**32 - 1]
FIELDS = [1, 5, 9, 13, 17, 21]
# What the last two bytes of an event may tell, most of it at an edge.
LENGTHS = [0, 1, 2, 255, 256, 257, 1500, 1501, 4095, 4096, 4097, 4352, 8192, 32768, 65535]
# First byte, openings and events of logs that are as long as can be, or a little longer.
FULL = [
    (1, 0, 1, 16377), (2, 1, 0, 16377), (1, 0, 0, 16377), (2, 0, 0, 16378), (1, 0, 1, 16378), (2, 1, 1, 16377), (1, 2, 3, 16374), (2, 16, 16, 16353),
    (1, 16, 16, 16354),
]


# A number up to a largest one, often at an edge.
def up_to(rng, largest):
    return rng.choice([1, largest, rng.randint(1, largest), rng.randint(1, largest)])


# So many openings of one lane, by rising flow.
def openings(rng, count, body):
    return [(flow, up_to(rng, NUMBERS[body])) for flow in sorted(rng.sample(range(16), count))]


# An event that is well formed in a log with this first byte.
def event(rng, first):
    kind, flow = rng.randrange(6), rng.choice([0, 15, rng.randrange(16)])
    if kind == PACKET:
        return kind, flow, up_to(rng, 1500)
    if kind == CELL:
        return kind, flow, 0 if first == BY_FLOW else up_to(rng, 4096)
    return kind, 0, 0


# A good log with this first byte, and so many openings and events.
def log_with(rng, first, urgent, fair, events):
    return Log(first, openings(rng, urgent, 0), openings(rng, fair, 1), [event(rng, first) for _ in range(events)])


# A good log, mostly short, with either first byte or with this one.
def log(rng, first=None):
    urgent, fair = (rng.choice([0, 0, 1, 2, 3, 5, 16]) for _ in range(2))
    return log_with(rng, first or rng.choice(FORMS), urgent, fair, rng.choice([0, 1, 2, 3, 5, 8, 20]))


# The bytes of a table and of a body after it, as they are told: offsets and lengths are stated and need not be right.
def tabled(fields, rest, first):
    return low_first(first, 1) + b"".join(low_first(number, 4) for number in fields) + rest


# The bytes with one of them changed to each other value, one after the other for every place.
def each_byte_changed(data):
    for at in range(len(data)):
        for value in range(256):
            if value != data[at]:
                yield data[:at] + bytes([value]) + data[at + 1 :]


# A log with a cell, a packet and a turn as its last events, whose last two bytes, one event after the other, are set to many numbers.
def each_length_set(rng, first):
    made = log_with(rng, first, 1, 1, 1)
    made.events += [(CELL, 3, 0 if first == BY_FLOW else 7), (PACKET, 4, 9), (0, 0, 0)]
    data = bytes_of(made)
    for back in (12, 8, 4):
        at = len(data) - back + 2
        yield from (data[:at] + low_first(length, 2) + data[at + 2 :] for length in LENGTHS)


# The bytes up to each place before their end, and with something after them.
def cut_and_joined(rng, data):
    yield from (data[:at] for at in range(len(data)))
    for more in (1, 2, 3, 4, 5, 25, len(data)):
        yield data + rng.randbytes(more)
        yield data + bytes(more)
    yield data + data


# The bytes with a few of them changed, put in or taken out, and mostly more than one fault.
def damaged(rng, data):
    out = bytearray(data)
    for _ in range(rng.randint(1, 4)):
        at = rng.randrange(len(out) + 1)
        end = min(at + rng.choice([0, 1, 1, 1, 1, 2, 4]), len(out))
        out[at:end] = rng.choice([b"", bytes([rng.randrange(256)]), bytes([rng.randrange(18)]), rng.randbytes(end - at), bytes(end - at)])
    return bytes(out[: rng.randrange(len(out) + 1)] if rng.randrange(6) == 0 else out)


# Lengths that a table may state, many of them wrong, for one body.
def some_lengths(rng, body):
    size = 4 if body == 2 else 3
    return [0, size, 2 * size, rng.randrange(100), rng.randrange(17) * size, 45, 48, 49, 51, rng.choice(HUGE), rng.choice(HUGE)]


# A table with lengths of all sorts and offsets that are right, off by a little, or far off; then bytes that fit it, or fewer, or more.
def table(rng):
    lengths = [rng.choice(some_lengths(rng, body)) for body in range(3)]
    fields, start = [], TABLE_END
    for length in lengths:
        fields += [start % 2**32, length]
        start += length
    for _ in range(rng.choice([0, 0, 1, 1, 2])):
        at = rng.choice([0, 2, 4])
        fields[at] = rng.choice([fields[at] + 1, fields[at] - 1, fields[at] ^ 256, 0, 25, rng.choice(HUGE), rng.randrange(200)]) % 2**32
    there = max(0, min(start, 300) - TABLE_END + rng.choice([-4, -1, 0, 0, 0, 0, 1, 5]))
    return tabled(fields, rng.choice([bytes(there), rng.randbytes(there), bytes([0, 1, 0] * 100)[:there]]), rng.choice([1, 1, 2, 2, 0, 3]))


# A right table of a short log with one field set to each of many numbers.
def each_field_set(data):
    for at in FIELDS:
        right = int.from_bytes(data[at : at + 4], "little")
        numbers = {*range(70), *HUGE, *(right + 2**k for k in range(32)), *(right - 2**k for k in range(32)), MOST - TABLE_END, MOST - TABLE_END + 1}
        for number in sorted(number % 2**32 for number in numbers):
            yield data[:at] + low_first(number, 4) + data[at + 4 :]


# Bytes drawn at random, most of them with a right first byte or a right table.
def noise(rng):
    drawn = rng.randbytes(rng.choice([0, 1, 5, 24, 25, 26, 40, rng.randrange(120)]))
    kind = rng.randrange(4)
    if kind == 0:
        return drawn
    if kind == 1:
        return bytes([rng.choice(FORMS)]) + drawn
    urgent, fair, events = 3 * rng.randrange(4), 3 * rng.randrange(4), 4 * rng.randrange(6)
    body = bytes(rng.choice([0, 0, 0, 1, 2, 3, 15, 16, rng.randrange(256)]) for _ in range(urgent + fair + events))
    return tabled([25, urgent, 25 + urgent, fair, 25 + urgent + fair, events], body, rng.choice(FORMS))


# Logs whose stated length is about the longest, with the bytes that the table asks for, fewer and more; and others as long.
def long_ones(rng):
    for made in FULL:
        data = bytes_of(log_with(rng, *made))
        yield data
        yield data[:-1]
        yield data + b"\0"
        yield data[:-4] + bytes([BEGIN, 0, 0, 1])
    full = bytes_of(log_with(rng, BY_CELL, 0, 1, 16377))
    short = bytes_of(log_with(rng, BY_CELL, 1, 1, 3))
    yield from (full + rng.randbytes(more) for more in (1, 2, 3, 4000))
    yield from (short + bytes(65537 + more - len(short)) for more in (-1, 0, 1, 4000))
    yield full[:28] + bytes([END, 1, 0, 0]) + full[32:]
    yield full[:40000] + bytes([PACKET, 3, 0xDD, 5]) + full[40004:]
    yield from (full[:65532] + bytes([CELL, 3, low, high]) for low, high in ((0, 0), (1, 0), (0, 16), (1, 16)))
    yield tabled([25, 0, 25, 0, 25, 65512], bytes(65512), BY_CELL)
    yield tabled([25, 0, 25, 0, 25, 65508], bytes(65511), BY_FLOW)
    yield tabled([25, 48, 73, 48, 121, 65416], bytes(65415 + 96), BY_CELL)
    yield from (bytes([first]) + bytes(69999) for first in range(4))


if __name__ == "__main__":
    sys.stdout.buffer.write(bytes_of(log_with(random.Random(int(sys.argv[1])), BY_CELL, 0, 1, int(sys.argv[2]))))
