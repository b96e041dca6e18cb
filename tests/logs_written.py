"""Maker of what the writer is given: the first byte, three bodies of records told as numbers, and the length of the room."""

import logs
from shift_log import BEGIN, BY_CELL, BY_FLOW, CELL, END, LOST_TURN, MOST, NUMBERS, OPEN_TURN, PACKET, TABLE_END, record_of, word_of

TOP = 2**32 - 1
MOST_ROOM = 70000


# A log's records as numbers.
def words_of(log):
    return [[word_of(record) for record in records] for records in log.bodies()]


# The bytes of the log of so many records.
def length_of(bodies):
    return TABLE_END + 3 * len(bodies[0]) + 3 * len(bodies[1]) + 4 * len(bodies[2])


# Numbers that are no good opening of a body, where its flows are not told by what goes before.
def bad_openings(body):
    most = NUMBERS[body]
    numbers = [(0, 0), (15, 0), (15, most + 1), (15, 65535), (16, 1), (16, most), (255, 1), (255, 65535), (15, 65536), (15, 65536 + most), (15, 2**24 - 1)]
    return [word_of(record) for record in numbers] + [TOP, 0]


# Numbers that are no good event of a log with this first byte.
def bad_events(first):
    events = [
        (6, 0, 0), (7, 3, 100), (255, 0, 0), (PACKET, 0, 0), (PACKET, 15, 0), (PACKET, 0, 1501), (PACKET, 15, 65535), (PACKET, 16, 1), (PACKET, 255, 1500),
        (CELL, 16, 0), (CELL, 255, 0), (CELL, 16, 1), (CELL, 255, 4096), (CELL, 0, 4097), (CELL, 15, 4352), (CELL, 3, 65535),
    ]
    events += [(CELL, 0, 1), (CELL, 15, 4096), (CELL, 3, 256)] if first == BY_FLOW else [(CELL, 0, 0), (CELL, 15, 0)]
    for kind in (OPEN_TURN, LOST_TURN, BEGIN, END):
        events += [(kind, 1, 0), (kind, 15, 0), (kind, 0, 1), (kind, 0, 256), (kind, 128, 32768)]
    return [word_of(record) for record in events] + [TOP]


# The record at a body and an index made bad, in a way that is drawn: for openings also one of the flow before it, or of one lower.
def made_bad(rng, first, bodies, body, k):
    if body == 2:
        bad = rng.choice(bad_events(first))
    elif k > 0 and rng.randrange(2) == 0:
        before = record_of(bodies[body][k - 1], 3)[0]
        bad = word_of((rng.randint(0, before), logs.up_to(rng, NUMBERS[body])))
    else:
        bad = rng.choice(bad_openings(body))
    return [[*words[:k], bad, *words[k + 1 :]] if at == body else words for at, words in enumerate(bodies)]


# A good log with each room about its length, and others.
def good_ones(rng, first):
    bodies = words_of(logs.log(rng, first))
    end = length_of(bodies)
    for room in (end - 1, end, end + 1, end + rng.randint(2, 60), 0, 24, 25, rng.randrange(end)):
        yield first, bodies, room


# A log with each of its records made bad in turn, and with two made bad, in rooms that the log fits and that it does not.
def bad_ones(rng, first):
    bodies = words_of(logs.log(rng, first))
    spots = [(body, k) for body, words in enumerate(bodies) for k in range(len(words))]
    end = length_of(bodies)
    for body, k in spots:
        bad = made_bad(rng, first, bodies, body, k)
        yield first, bad, rng.choice([end, end + 1, end + 40, end - 1, 0])
        yield first, made_bad(rng, first, bad, *rng.choice(spots)), rng.choice([end, end + 7, 3])


# Bodies of one record, each that is bad and some at the edge that are good.
def single_ones(first):
    for body in range(2):
        good = [(0, 1), (15, 1), (0, NUMBERS[body]), (15, NUMBERS[body])]
        for word in bad_openings(body) + [word_of(record) for record in good]:
            yield first, [[word] if at == body else [] for at in range(3)], 40
    good = [(PACKET, 15, 1500), (PACKET, 0, 1), (OPEN_TURN, 0, 0), (LOST_TURN, 0, 0), (BEGIN, 0, 0), (END, 0, 0)]
    good += [(CELL, 0, 0), (CELL, 15, 0)] if first == BY_FLOW else [(CELL, 0, 1), (CELL, 15, 1), (CELL, 0, 4096), (CELL, 15, 4096), (CELL, 3, 256)]
    for word in bad_events(first) + [word_of(record) for record in good]:
        yield first, [[], [], [word]], 40


# Too many openings.
def crowded_ones(first):
    rising = [word_of((flow, 1)) for flow in range(16)]
    for more in ([word_of((15, 1))], [word_of((16, 1))], [word_of((0, 1))], rising, [TOP] * 24):
        yield first, [rising + more, [], [0]], 400
        yield first, [rising, rising + more, []], 400
        yield first, [rising + more, rising + more, [9]], 10


# Logs about as long as can be, in rooms about as long, with a bad record in some of them.
def long_ones(rng):
    for first, urgent, fair, count in logs.FULL:
        bodies = words_of(logs.log_with(rng, first, urgent, fair, count))
        for room in (MOST - 1, MOST, MOST + 1, MOST_ROOM):
            yield first, bodies, room
        yield first, made_bad(rng, first, bodies, 2, count - 1), rng.choice([MOST, MOST_ROOM, 100])
    yield BY_CELL, [[], [], [0] * 17000], MOST_ROOM
    yield BY_FLOW, [[], [], [0] * 16999 + [6]], MOST_ROOM
    yield BY_CELL, [[], [], [0] * 16378 + [6]], 0
