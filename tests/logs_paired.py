"""Maker of pairs of shift logs: equal ones, one that goes on as the other, and those that differ in any way."""

import logs
from shift_log import BEGIN, BY_CELL, BY_FLOW, CELL, LOST_TURN, OPEN_TURN, PACKET, Log, bytes_of, with_deadlines

# Two events that differ first in their byte 0, 1, 2 and 3.
TURNS = [(OPEN_TURN, 0, 0), (LOST_TURN, 0, 0)]
TWINS = [TURNS, [(PACKET, 3, 5), (PACKET, 4, 5)], [(PACKET, 3, 5), (PACKET, 3, 6)], [(PACKET, 3, 5), (PACKET, 3, 261)]]
# The same of cells, by the first byte of their log.
CELLS = {
    BY_FLOW: [[(CELL, 3, 0), (CELL, 4, 0)]],
    BY_CELL: [[(CELL, 3, 5), (CELL, 4, 5)], [(CELL, 3, 5), (CELL, 3, 6)], [(CELL, 3, 5), (CELL, 3, 261)], [(CELL, 3, 4096), (CELL, 3, 3840)]],
}


# The bytes of a log with the first byte and the openings of another.
def going_on(one, events):
    return bytes_of(Log(one.first, one.urgent, one.fair, events))


# Logs of the same openings that go on in the same way as far as the shorter reaches.
def alike(rng, one):
    more = [logs.event(rng, one.first) for _ in range(rng.randint(1, 6))]
    data, longer = bytes_of(one), going_on(one, one.events + more)
    yield data, data
    yield data, longer
    yield going_on(one, one.events[: rng.randrange(len(one.events) + 1)]), data
    yield going_on(one, []), going_on(one, more)
    yield going_on(one, []), going_on(one, [])


# Logs of the same openings that differ at their first event, in the middle, and at the last event of the shorter.
def differing(rng, one):
    for at in sorted({0, len(one.events) // 2, len(one.events)}):
        for twins in TWINS + CELLS[one.first]:
            ours, theirs = rng.sample(twins, 2)
            before, after = one.events[:at], one.events[at:]
            yield going_on(one, [*before, ours, *after]), going_on(one, [*before, theirs, *rng.choice([after, [], after + after])])


# Openings that are not those of a log, each beside them: other ones, one fewer, another flow or number, and the other lane's.
def other_openings(rng, one):
    other = logs.log(rng)
    for openings in ((other.urgent, other.fair), (other.urgent, one.fair), (one.urgent, other.fair), (one.fair, one.fair)):
        yield (one.urgent, one.fair), openings
    yield (one.fair, []), ([], one.fair)
    for body in range(2):
        openings = one.bodies()[body]
        changes = [openings[1:], openings[:-1]]
        if openings:
            flow, number = openings[-1]
            changes += [[*openings[:-1], (15 if flow < 15 else 14, number)], [*openings[:-1], (flow, number + 1 if number == 1 else number - 1)]]
        for changed in changes:
            yield (one.urgent, one.fair), (changed, one.fair) if body == 0 else (one.urgent, changed)


# Logs whose openings are not the same, though their events go on in the same way or differ only at the last.
def unlike(rng, one):
    last, other = TURNS
    for ours, theirs in other_openings(rng, one):
        events = rng.choice([one.events, [*one.events, other], [*one.events, last, last]])
        yield bytes_of(Log(one.first, *ours, [*one.events, last])), bytes_of(Log(one.first, *theirs, events))


# Logs of the same openings but not of the same first byte: without cells, and with cells that tell the same; equal, one longer, and different.
def mixed(rng, one):
    told, (last, other) = with_deadlines(one), TURNS
    without, bare = [event for event in told if event[0] != CELL], [event if event[0] != CELL else (CELL, event[1], 0) for event in told]
    for ours, theirs in ((without, without), (bare, told)):
        for mine, yours in ([], []), ([last], []), ([], [last]), ([last], [other]), ([last], [last, last]):
            yield bytes_of(Log(BY_FLOW, one.urgent, one.fair, ours + mine)), bytes_of(Log(BY_CELL, one.urgent, one.fair, theirs + yours))


# Bytes that are no good log, though most of them are those of a good one.
def bad_ones(rng, one):
    data = bytes_of(one)
    return [
        b"\3" + data[1:], b"\0" + data[1:], data[:-1], data[:24], b"", data + b"\0", data + data,
        data[:1] + b"\32" + data[2:], going_on(one, [*one.events, (6, 0, 0)]), going_on(one, [(BEGIN, 0, 1), *one.events]), logs.damaged(rng, data),
        going_on(one, [*one.events, (CELL, 3, 4097 if one.first == BY_CELL else 1)]), going_on(one, [(CELL, 3, 0 if one.first == BY_CELL else 4096), *one.events]),
    ]


# Pairs of which one is no good log, or neither.
def spoilt(rng, one):
    data, bad = bytes_of(one), bad_ones(rng, one)
    longer = going_on(one, one.events + [logs.event(rng, one.first)])
    for ours in bad:
        yield ours, rng.choice([data, longer])
        yield rng.choice([data, longer]), ours
        yield ours, ours
        yield ours, rng.choice(bad)


# A log and others beside it, in either order.
def pairs(rng):
    one = logs.log(rng)
    for make in (alike, differing, unlike, mixed, spoilt):
        for ours, theirs in make(rng, one):
            yield rng.choice([(ours, theirs), (theirs, ours)])


# Pairs of logs that are as long as can be, and of some that are longer.
def long_pairs(rng):
    full = logs.log_with(rng, BY_CELL, 0, 1, 16377)
    data, none = bytes_of(full), going_on(full, [])
    last = going_on(full, [*full.events[:-1], (PACKET, 15, 1500 if full.events[-1][2] != 1500 else 1)])
    for ours, theirs in (
        (data, data), (data, none), (none, data), (data, last), (last, data), (last, going_on(full, full.events[:-1])), (data + b"\0", data), (data, data + b"\0"),
        (data[:-1], data), (going_on(full, full.events[:9000]), data), (data, bytes(70000)),
        (bytes_of(logs.log_with(rng, BY_CELL, 0, 1, 16378)), none), (none, bytes_of(logs.log_with(rng, BY_CELL, 0, 0, 16378))),
        (data, bytes_of(logs.log_with(rng, BY_FLOW, 0, 1, 16377))), (bytes_of(Log(BY_FLOW, full.urgent, full.fair, [])), data),
    ):
        yield ours, theirs
