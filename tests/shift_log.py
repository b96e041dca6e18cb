"""A plain model of shift logs: the bytes of a log, all its faults, two logs side by side, and the writer.

    shift_log.py < log > verdict

An opening is a flow and a number, an event a kind, a flow and a length. In a log of first byte 2 a cell's own deadline stands for its
length; in one of first byte 1 that is 0, and the deadline is its flow's. All that is wrong with some bytes is gathered first, and only then
the fault that counts is looked up.
"""

import sys
from dataclasses import dataclass

FORMS = BY_FLOW, BY_CELL = 1, 2  # the first bytes: a cell has its flow's deadline, or its own
TABLE_END = 25  # where the bodies begin
MOST = 65536    # the bytes of the longest log
ENTRIES = (1, 9, 17)    # where the table tells of urgent openings, fair openings and events
SIZES = (3, 3, 4)       # the bytes of a record, by body
NUMBERS = (4096, 16)    # the largest deadline and the largest weight
LAST_FLOW, LAST_LENGTH, MOST_OPENINGS = 15, 1500, 16
OPEN_TURN, LOST_TURN, CELL, PACKET, BEGIN, END = range(6)


# What a log tells: its first byte, the openings of both lanes and the events, each in its order.
@dataclass
class Log:
    first: int
    urgent: list
    fair: list
    events: list

    def bodies(self):
        return self.urgent, self.fair, self.events


# A number in so many bytes, the lowest first.
def low_first(number, size):
    return number.to_bytes(size, "little")


# The bytes of one body.
def body_bytes(records, size):
    if size == 3:
        return b"".join(low_first(flow, 1) + low_first(number, 2) for flow, number in records)
    return b"".join(low_first(kind, 1) + low_first(flow, 1) + low_first(length, 2) for kind, flow, length in records)


# The bytes of a log.
def bytes_of(log):
    bodies = [body_bytes(records, size) for records, size in zip(log.bodies(), SIZES)]
    table, start = b"", TABLE_END
    for body in bodies:
        table += low_first(start, 4) + low_first(len(body), 4)
        start += len(body)
    return low_first(log.first, 1) + table + b"".join(bodies)


# A record that is told as one number.
def record_of(word, size):
    return (word % 256, word // 256) if size == 3 else (word % 256, word // 256 % 256, word // 65536)


# A record as one number.
def word_of(record):
    return record[0] + 256 * record[1] + sum(65536 * length for length in record[2:])


# Whether an opening is well formed, by the flow of the one before it in its body (-1: there is none) and the largest number.
def good_opening(opening, before, largest):
    flow, number = opening
    return before < flow <= LAST_FLOW and 1 <= number <= largest


# Whether an event of a log with this first byte is well formed.
def good_event(event, first):
    kind, flow, length = event
    if kind == CELL:
        return flow <= LAST_FLOW and (length == 0 if first == BY_FLOW else 1 <= length <= NUMBERS[0])
    if kind == PACKET:
        return flow <= LAST_FLOW and 1 <= length <= LAST_LENGTH
    return kind in (OPEN_TURN, LOST_TURN, BEGIN, END) and flow == 0 and length == 0


# For each record of a body, in a log with this first byte, whether it is well formed.
def good_records(records, body, first):
    if body == 2:
        return [good_event(event, first) for event in records]
    flows = [-1] + [flow for flow, _ in records]
    return [good_opening(opening, before, NUMBERS[body]) for opening, before in zip(records, flows)]


# The number in the four bytes from a place on; None if they are not all there.
def field(data, at):
    return int.from_bytes(data[at : at + 4], "little") if at + 4 <= len(data) else None


# The lengths that the table tells, as far as it is there.
def stated_lengths(data):
    return [length for length in (field(data, at + 4) for at in ENTRIES) if length is not None]


# The faults of the table's fields that are whole.
def table_faults(data):
    lengths = stated_lengths(data)
    found = []
    for body, at in enumerate(ENTRIES):
        start = TABLE_END + sum(lengths[:body])
        if field(data, at) not in (None, start):
            found.append((at, 21))
        if body < len(lengths):
            length = lengths[body]
            wrong = length % 4 != 0 or start + length > MOST if body == 2 else length % 3 != 0 or length // 3 > MOST_OPENINGS
            found += [(at + 4, 21)] if wrong else []
    return found


# The records of a body that are whole, by the lengths that the table tells; none if the table is not whole.
def whole_records(data, body):
    lengths = stated_lengths(data)
    if len(lengths) < 3:
        return []
    start = TABLE_END + sum(lengths[:body])
    size, bytes_there = SIZES[body], data[start : start + lengths[body]]
    return [record_of(int.from_bytes(bytes_there[at : at + size], "little"), size) for at in range(0, len(bytes_there) - size + 1, size)]


# All that is wrong with some bytes: places, each with the number of its refusal. No two things are wrong at one place.
def faults(data):
    first = data[0] if data else BY_FLOW
    found = [] if first in FORMS else [(0, 20)]
    found += table_faults(data)
    lengths = stated_lengths(data)
    for body, size in enumerate(SIZES):
        start = TABLE_END + sum(lengths[:body])
        found += [(start + size * k, 22) for k, good in enumerate(good_records(whole_records(data, body), body, first)) if not good]
    end = TABLE_END + sum(lengths)  # at the least, where the table is not whole
    if len(data) < end:
        found.append((len(data), 23))
    if len(data) > end:
        found.append((end, 24))
    assert len({place for place, _ in found}) == len(found), found
    return found


# The refusal of some bytes, a number and a place; None for a good log.
def refusal(data):
    found = faults(data)
    if not found:
        return None
    place, number = min(found)
    return number, place


# What a good log tells.
def log_of_bytes(data):
    return Log(data[0], *[whole_records(data, body) for body in range(3)])


# A log's events with the deadline of each cell: in a log of first byte 1 that of its flow's opening, or 1 if there is none.
def with_deadlines(log):
    if log.first == BY_CELL:
        return log.events
    opened = dict(log.urgent)
    return [(kind, flow, opened.get(flow, 1) if kind == CELL else length) for kind, flow, length in log.events]


# A log's verdict as a line.
def verdict(data):
    refused = refusal(data)
    if refused is not None:
        return "no %d %d" % refused
    return "ok %d %d %d %d %d" % (data[0], *map(len, log_of_bytes(data).bodies()), len(data))


# The record of a body by its index, as a line; body 3 has the events with the deadline of each cell.
def record_line(data, body, k):
    refused = refusal(data)
    if refused is not None:
        return "no %d %d" % refused
    log = log_of_bytes(data)
    records = [*log.bodies(), with_deadlines(log)][body]
    return "word %d" % word_of(records[k]) if k < len(records) else "nothing"


# The event bodies of two good logs with the same first byte and openings, and where they start; None for other bytes.
def event_bodies(one, other):
    if refusal(one) is not None or refusal(other) is not None or one[0] != other[0]:
        return None
    ours, theirs = log_of_bytes(one), log_of_bytes(other)
    if (ours.urgent, ours.fair) != (theirs.urgent, theirs.fair):
        return None
    start = TABLE_END + 3 * len(ours.urgent) + 3 * len(ours.fair)
    return one[start:], other[start:], start


# What the longer of two logs has after the shorter, where the one goes on as the other.
def tail(one, other):
    bodies = event_bodies(one, other)
    if bodies is None:
        return b""
    shorter, longer = sorted(bodies[:2], key=len)
    return longer[len(shorter) :] if longer.startswith(shorter) else b""


# The first place at which the events of two logs differ, up to the end of the shorter; None if there is none.
def first_difference(one, other):
    bodies = event_bodies(one, other)
    if bodies is None:
        return None
    ours, theirs, start = bodies
    return next((start + i for i, (a, b) in enumerate(zip(ours, theirs)) if a != b), None)


# The first difference as a line.
def difference_line(one, other):
    place = first_difference(one, other)
    return "none" if place is None else "at %d" % place


# What the writer of logs with a first byte answers to records told as numbers, as a line, and the room after it.
def written(first, bodies, room):
    records = [[record_of(word, size) for word in words] for words, size in zip(bodies, SIZES)]
    good = [one for body in range(3) for one in good_records(records[body], body, first)]
    if False in good:
        return "no 22 %d" % good.index(False), room
    log = bytes_of(Log(first, *records))
    if len(log) > min(MOST, len(room)):
        return "no 26", room
    return "ok %d" % len(log), log + room[len(log) :]


if __name__ == "__main__":
    print(verdict(sys.stdin.buffer.read()))
