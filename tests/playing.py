"""Tests that play sessions: what the program replies is what the reference replies."""
import random
import subprocess

import bad_numbers
import closings
import named
import own_deadlines
import own_windows
import reference
import sessions
from support import PROGRAM, ROOT, compare, fail, start

SEEDS = range(1, 11)
LINES = 2000
PIECES = 3000
MOST = {b'U': 4096, b'F': 16, b'u': 4096, b'f': 1500}  # the largest good deadline, weight, deadline of a cell and length


def closings_met(given, replies):
    """Whether a session closes flows of both lanes, and closings of both are refused with 1, 2 and 12."""
    met = {(line[:1], reply) for line, reply in zip(given.split(b'\n'), replies.split(b'\n'))}
    return met >= {(word, reply) for word in (b'C', b'c') for reply in (b'ok', b'no 1', b'no 2', b'no 12')}


def bad_numbers_met(given, replies):
    """Whether bad deadlines, weights and lengths get their own refusals, those that go before, and no others; none is 4."""
    told = [(line.split(b' '), reply) for line, reply in zip(given.split(b'\n'), replies.split(b'\n')) if reply != b'no 11']
    met = {(words[0], reply) for words, reply in told if words[0] in MOST and not 1 <= int(words[2]) <= MOST[words[0]]}
    return b'no 4' not in [reply for _, reply in told] and met == {
        (b'U', b'no 1'), (b'U', b'no 3'), (b'U', b'no 14'),
        (b'F', b'no 1'), (b'F', b'no 3'), (b'F', b'no 13'),
        (b'u', b'no 1'), (b'u', b'no 2'), (b'u', b'no 14'),
        (b'f', b'no 1'), (b'f', b'no 2'), (b'f', b'no 15'),
    }


def stored_session():
    """the program's stored session has the replies of the reference, and closings, bad numbers and cells with their own deadlines among its lines"""
    folder = ROOT / 'crates' / 'tuhkeliar'
    given, replies = (folder / 'stdin').read_bytes(), (folder / 'stdout').read_bytes()
    if reference.session(given) != replies:
        fail('the stored session differs from the reference')
    if not closings_met(given, replies):
        fail('the stored session lacks a reply to closing')
    if not bad_numbers_met(given, replies):
        fail('the stored session lacks a reply to a bad number, or has a wrong one')
    if not own_windows.all_met(given, replies):
        fail('the stored session lacks a kind of offer, or has a wrong reply to one')
    return 'the stored session of %d lines has the reference\'s replies' % len(reference.lines_of(given))


def worked_session():
    """the rules' own session comes out byte for byte"""
    given, expected = named.worked()
    if reference.session(given) != expected:
        fail('the reference differs from the worked session')
    compare('the worked session', given, expected)
    return 'the worked session, byte for byte'


def by_hand(what, kept):
    """Sessions worked out by hand come out so by the reference and by the program."""
    for name, (given, expected) in kept.items():
        if reference.session(given) != expected:
            fail('%s: the reference differs from what was worked out by hand' % name)
        compare(name, given, expected)
    return '%d sessions that %s, as worked out by hand' % (len(kept), what)


def closing_sessions():
    """sessions that close flows come out as worked out by hand"""
    return by_hand('close flows', closings.closings())


def bad_number_sessions():
    """sessions that give bad numbers come out as worked out by hand"""
    return by_hand('give bad numbers', bad_numbers.bad_numbers())


def own_deadline_sessions():
    """sessions whose cells have their own deadlines come out as worked out by hand"""
    return by_hand('give cells their own deadlines', own_deadlines.sessions())


def named_sessions():
    """each named session is answered as by the reference"""
    kept = named.named()
    for name, given in kept.items():
        compare(name, given, reference.session(given))
    return '%d named sessions as by the reference' % len(kept)


def random_sessions():
    """random sessions are answered as by the reference: fixed seeds, with closings, bad numbers and offers of every kind in each, and one fresh one"""
    fresh = random.SystemRandom().randrange(10 ** 9)
    for seed in list(SEEDS) + [fresh]:
        given = sessions.random_session(seed, LINES)
        expected = reference.session(given)
        if seed in SEEDS and not closings_met(given, expected):
            fail('random session %d lacks a reply to closing' % seed)
        if seed in SEEDS and not bad_numbers_met(given, expected):
            fail('random session %d lacks a reply to a bad number, or has a wrong one' % seed)
        if seed in SEEDS and not own_windows.all_met(given, expected):
            fail('random session %d lacks a kind of offer, or has a wrong reply to one' % seed)
        compare('random session %d' % seed, given, expected)
    return '%d random sessions of %d lines as by the reference (fresh seed %d)' % (len(SEEDS) + 1, LINES, fresh)


def line_by_line():
    """a session whose every line waits for the reply to the one before: over a thousand small pieces of input"""
    given = sessions.random_session(1, PIECES)
    lines, replies = given.split(b'\n')[:-1], reference.session(given).split(b'\n')[:-1]
    program = start([ROOT / 'tools' / 'start', PROGRAM], stdin=subprocess.PIPE, stdout=subprocess.PIPE)
    for number, (line, reply) in enumerate(zip(lines, replies)):
        program.stdin.write(line + b'\n')
        program.stdin.flush()
        wrote = program.stdout.readline()
        if wrote != reply + b'\n':
            fail('line by line: reply %d is %r and should be %r' % (number + 1, wrote, reply))
    program.stdin.close()
    if program.stdout.read() != b'' or program.wait() != 0:
        fail('line by line: the program does not end with its input')
    return '%d lines, each after the reply to the one before' % len(lines)
