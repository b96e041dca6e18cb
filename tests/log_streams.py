"""Tests of reading, comparing and writing shift logs: log_edges answers a stream of cases as the reference does."""
import itertools
import random

import logs
import logs_paired
import logs_written
import shift_log
import worked_logs
from shift_log import BY_CELL, BY_FLOW, FORMS
from support import ROOT, fail, played

EDGES = ROOT / 'target' / 'bin' / 'log_edges'
ROOM = 238  # what every byte of a lent room holds at first
LETTERS = {BY_FLOW: b'w', BY_CELL: b'o'}  # of a writing, by the first byte of its log


def four(*numbers):
    """Numbers as the stream has them."""
    return b''.join(shift_log.low_first(number, 4) for number in numbers)


def reading(data):
    """The case of a reading, and its answer."""
    return b'c' + four(len(data)) + data, shift_log.verdict(data).encode() + b'\n'


def comparing(one, other):
    """The case of two logs, and its answer."""
    tail = shift_log.tail(one, other)
    answer = '%s\ntail %d\n' % (shift_log.difference_line(one, other), len(tail))
    return b'p' + four(len(one), len(other)) + one + other, answer.encode() + tail


def finding(data, body, k):
    """The case of a record by its index, and its answer."""
    return b'r' + four(len(data)) + data + bytes([body]) + four(k), shift_log.record_line(data, body, k).encode() + b'\n'


def writing(first, bodies, room):
    """The case of a writing into a room of so many bytes, and its answer."""
    line, after = shift_log.written(first, bodies, bytes([ROOM]) * room)
    given = LETTERS[first] + four(*map(len, bodies), room) + four(*itertools.chain(*bodies))
    return given, ('%s\nroom %d\n' % (line, room)).encode() + after


def stored_cases():
    """The cases of log_edges' stored run, all answered in text: logs of both first bytes, each refusal, all records, pairs without a tail, and
    writings into no room."""
    log, own, empty = worked_logs.the_log(), worked_logs.own_log(), worked_logs.joined(worked_logs.EMPTY)
    read = [
        log, empty, b'\3', log[:1] + b'\30' + log[2:5], worked_logs.the_log(urgent='000300 000010'), log[:-1], log + b'\0',
        own, b'\2' + empty[1:], b'\2', b'\2' + log[1:], b'\1' + own[1:], own[:-1], own + b'\0',
    ]
    found = [(data, body, k) for data in (log, own) for body in range(4) for k in range(3 + (body > 1))]
    paired = [(log, log), (own, own), (log, own), (own, log), (own, worked_logs.own_log(events='00000000 02022d01 030fdc05'))]
    written = [(first, bodies, 0) for first, bodies, _, _, _ in worked_logs.writings()]
    return [
        *map(reading, read), *itertools.starmap(finding, found), *itertools.starmap(comparing, paired), *itertools.starmap(writing, written),
    ]


def hold(what, cases):
    """Holds log_edges to the answers of all cases, in one stream; the number of cases."""
    cases = list(cases)
    wrote, at = played(b''.join(given for given, _ in cases), EDGES), 0
    for number, (given, answer) in enumerate(cases):
        if wrote[at:at + len(answer)] != answer:
            fail('%s: case %d, %s..: %r.. should be %r..' % (what, number, given[:90].hex(), wrote[at:at + 90], answer[:90]))
        at += len(answer)
    if at != len(wrote):
        fail('%s: %r after the last answer' % (what, wrote[at:at + 90]))
    return len(cases)


def drawn(make):
    """What is made of fixed seeds and of one fresh seed, and that seed."""
    fresh = random.SystemRandom().randrange(10 ** 9)
    return [one for seed in (1, 2, fresh) for one in make(random.Random(seed))], fresh


def some_bytes(rng):
    """Bytes to be read: good logs, damaged ones in every way, tables and noise."""
    for first, urgent, fair, events in ((BY_FLOW, 1, 1, 2), (BY_CELL, 2, 0, 1), (BY_CELL, 0, 2, 3)):
        data = shift_log.bytes_of(logs.log_with(rng, first, urgent, fair, events))
        yield from logs.each_byte_changed(data)
        yield from logs.each_field_set(data)
        yield from logs.each_length_set(rng, first)
    for _ in range(60):
        data = shift_log.bytes_of(logs.log(rng))
        yield data
        yield from logs.cut_and_joined(rng, data)
        yield from (logs.damaged(rng, data) for _ in range(60))
    yield from (logs.table(rng) for _ in range(3500))
    yield from (logs.noise(rng) for _ in range(3500))


def faults_met(lines):
    """Whether logs of both first bytes are among the good ones, and each refusal among the verdicts: 21 at every field, 22 in many places,
    23 and 24 in as many."""
    places = {number: {line.split()[2] for line in lines if line.startswith('no %d ' % number)} for number in range(20, 25)}
    fields = {str(at) for at in logs.FIELDS}
    if not {line.split()[1] for line in lines if line.startswith('ok')} == {'1', '2'}:
        return False
    return places[20] == {'0'} and places[21] == fields and all(len(places[number]) > 60 for number in (22, 23, 24))


def log_faults():
    """logs of both first bytes, good and damaged in every way, get the reference's verdicts; those worked out by hand first"""
    for data, line in worked_logs.verdicts():
        if shift_log.verdict(data) != line:
            fail('the verdict on %s is %r by hand, %r by the reference' % (data.hex(), line, shift_log.verdict(data)))
    by_hand = [data for data, _ in worked_logs.verdicts()]
    made, fresh = drawn(some_bytes)
    cases = [reading(data) for data in by_hand + made]
    if not faults_met([answer.decode() for _, answer in cases]):
        fail('a refusal is not among the verdicts')
    short = hold('logs of seed %d' % fresh, cases)
    long = hold('long logs', map(reading, logs.long_ones(random.Random(1))))
    return '%d logs, good and damaged, and %d long ones are read as by the reference (fresh seed %d)' % (short, long, fresh)


def log_records():
    """the records of a log by their index, events also with the deadlines of their cells, and past the last, are the reference's; by hand first"""
    def cases(rng):
        for _ in range(45):
            data = shift_log.bytes_of(logs.log(rng))
            counts = [len(records) for records in shift_log.log_of_bytes(data).bodies()]
            for body, count in enumerate([*counts, counts[2]]):
                for k in [*range(count + 3), 16, sum(counts), 2 ** 30, 2 ** 31, 2 ** 32 - 1]:
                    yield finding(data, body, k)
                yield finding(logs.damaged(rng, data), body, rng.randrange(count + 2))
        for first, spots in ((BY_FLOW, ((0, 1), (2, 16376), (3, 0), (3, 16376))), (BY_CELL, ((0, 0), (1, 0), (2, 16377), (2, 16384), (3, 16376)))):
            data = shift_log.bytes_of(logs.log_with(rng, first, 1, 0, 16377))
            yield from (finding(data, body, k) for body, k in spots)
    for data, body, k, line in worked_logs.records():
        if shift_log.record_line(data, body, k) != line:
            fail('record %d of body %d of %s is %r by hand' % (k, body, data.hex(), line))
    by_hand = [finding(data, body, k) for data, body, k, _ in worked_logs.records()]
    made, fresh = drawn(cases)
    count = hold('records of seed %d' % fresh, by_hand + made)
    return '%d records by their index as by the reference (fresh seed %d)' % (count, fresh)


def log_pairs():
    """two logs of every relation, of one first byte and of both, have the reference's first difference and tail; those worked out by hand first"""
    for one, other, line, tail in worked_logs.side_by_side():
        if (shift_log.difference_line(one, other), shift_log.tail(one, other).hex()) != (line, tail):
            fail('%s and %s are %s and %r by hand' % (one.hex(), other.hex(), line, tail))
    by_hand = [(one, other) for one, other, _, _ in worked_logs.side_by_side()]
    made, fresh = drawn(lambda rng: (pair for _ in range(50) for pair in logs_paired.pairs(rng)))
    short = hold('pairs of seed %d' % fresh, itertools.starmap(comparing, by_hand + made))
    long = hold('long pairs', itertools.starmap(comparing, logs_paired.long_pairs(random.Random(1))))
    return '%d pairs of logs and %d long ones are compared as by the reference (fresh seed %d)' % (short, long, fresh)


def log_writer():
    """the writer's answer and every byte of the room are the reference's: good logs of both first bytes, bad records at every position, rooms of all lengths; by hand first"""
    def given(rng):
        for first in FORMS:
            yield from logs_written.single_ones(first)
            yield from logs_written.crowded_ones(first)
            for _ in range(60):
                yield from logs_written.good_ones(rng, first)
                yield from logs_written.bad_ones(rng, first)
    for first, bodies, room, line, after in worked_logs.writings():
        if shift_log.written(first, bodies, bytes([ROOM]) * room) != (line, after):
            fail('the writer of first byte %d says %r of %r by hand' % (first, line, bodies))
    by_hand = [one[:3] for one in worked_logs.writings()]
    made, fresh = drawn(given)
    short = hold('writings of seed %d' % fresh, itertools.starmap(writing, by_hand + made))
    long = hold('long writings', itertools.starmap(writing, logs_written.long_ones(random.Random(1))))
    return '%d writings and %d long ones as by the reference (fresh seed %d)' % (short, long, fresh)
