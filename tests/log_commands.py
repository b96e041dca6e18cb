"""Tests of `./tuhkeliar log`: sessions and their logs, logs shown and played again, two files, its words and what fails."""
import itertools
import random

import failures
import log_streams
import logged
import logs
import logs_paired
import sessions
import sessions_logged
import shift_log
import worked_logs
from shift_log import BY_CELL, FORMS
from support import ROOT, compare, fail, folder, run

SHIFTLOG = ROOT / 'target' / 'bin' / 'shiftlog'
# Words after `log` that say nothing.
NO_WORDS = [
    [], [''], ['nothing'], ['log'], ['check', 'more'], ['show', '-'], ['write', 'log'], ['diff'], ['diff', 'one'], ['diff 3'], ['tail', 'one'], ['tail', 'a', 'b', 'c'],
]


def entry(*words, given=b'', **how):
    """What the entry does on these words after `log`: its status, what it wrote and what it said."""
    return run([ROOT / 'tuhkeliar', 'log', *words], given, **how)


def same(what, got, expected):
    """Holds a run to what it should be."""
    if got != expected:
        fail('%s: %s and should be %s' % (what, *['status %d, wrote %r.., said %r' % (one[0], one[1][:200], one[2]) for one in (got, expected)]))


def by_program(what, command, given):
    """The program answers a command and the bytes after it as the reference does; it has no status of its own."""
    same('%s: %s' % (what, command), run([ROOT / 'tools' / 'start', SHIFTLOG], command.encode() + b'\n' + given), (0, *logged.answers(command, given)))


def by_entry(what, command, given):
    """The entry answers as the reference does, with status 1 where the answer is a refusal."""
    answers = logged.answers(command, given)
    same('%s: log %s' % (what, command), entry(command, given=given), (int(b''.join(answers).startswith(b'no ')), *answers))


def log_stored():
    """the stored runs of the log program and of log_edges are answered as by the reference"""
    stored = ROOT / 'crates' / 'shiftlog'
    command, _, given = (stored / 'stdin').read_bytes().partition(b'\n')
    if logged.answers(command.decode(), given)[0] != (stored / 'stdout').read_bytes():
        fail('the stored run differs from the reference')
    stored, cases = ROOT / 'crates' / 'log_edges', log_streams.stored_cases()
    if [(stored / name).read_bytes() for name in ('stdin', 'stdout')] != [b''.join(part) for part in zip(*cases)]:
        fail('the stored run of log_edges differs from the reference')
    return 'the stored run of the log program, and %d stored cases, have the reference\'s answers' % len(cases)


def by_hand():
    """Sessions worked out by hand have their logs, by the reference and by the entry; the number of them."""
    for name, (given, data) in worked_logs.sessions().items():
        if shift_log.bytes_of(logged.log_of(given)[0]) != data:
            fail('%s: the reference differs from what was worked out by hand' % name)
        same(name, entry('write', given=given), (0, data, b'ok %d\n' % len(data)))
    for data, verdict, cell in ((worked_logs.the_log(), b'ok 1 2 1 3 46\n', b'u 2 4096'), (worked_logs.own_log(), b'ok 2 2 1 3 46\n', b'u 2 300')):
        same('check', entry('check', given=data), (0, verdict, b''))
        same('show', entry('show', given=data), (0, b'U 0 3\nU 2 4096\nF 15 16\nt\n%s\nf 15 1500\n' % cell, b''))
    return len(worked_logs.sessions())


def random_ones(fresh):
    """Random sessions by name: such as are played, such as have long logs, and such as open much."""
    made = {'random session %d' % seed: sessions.random_session(seed, 300) for seed in (*range(1, 11), fresh)}
    made.update({'lasting session %d' % seed: sessions_logged.lasting(seed, 1500) for seed in (*range(1, 11), fresh)})
    made.update({'much opened session %d' % seed: sessions_logged.much_opened(seed) for seed in (*range(1, 31), fresh)})
    return made


def kinds_met(kept):
    """Whether logs are of every kind: long ones, of many openings, of openings alone, and with events of every refusal."""
    met = [log for log, _ in kept]
    return all((
        any(len(log.events) > 800 for log in met),
        any(len(log.urgent) > 9 and len(log.fair) > 9 for log in met),
        any(log.urgent and log.fair and not log.events for log in met),
        {reply for _, replies in kept for reply in replies} >= {'no 2', 'no 5', 'no 8', 'no 9', 'no 10', 'no 14'},
    ))


def log_sessions():
    """sessions have the reference's logs; shown and played again a log gives the replies that its calls got; those worked out by hand first"""
    settled, fresh = by_hand(), random.SystemRandom().randrange(10 ** 9)
    kept = random_ones(fresh)
    if not kinds_met([logged.log_of(given) for given in kept.values()]):
        fail('a kind of log is not among those of the random sessions')
    for name, given in kept.items():
        log, replies = logged.log_of(given)
        data = shift_log.bytes_of(log)
        by_program(name, 'write', given)
        by_program(name, 'check', data)
        by_program(name, 'show', data)
        replayed = ['ok'] * (len(log.urgent) + len(log.fair)) + replies
        compare('%s: its log played' % name, logged.shown(log), ''.join(reply + '\n' for reply in replayed).encode())
    return '%d sessions logged as worked out by hand, %d as by the reference, and played again from their logs (fresh seed %d)' % (settled, len(kept), fresh)


def log_limits():
    """a log is written and read up to 65,536 bytes, however long the session or the input, and beyond that it is refused"""
    for openings, events in ((0, 16377), (0, 16378), (1, 16377), (1, 16378), (2, 16377), (16, 16365), (16, 16366), (0, 40000)):
        by_program('%d openings and %d events' % (openings, events), 'write', sessions_logged.crowded(openings, events))
    ended = sessions_logged.crowded(1, 3) + b'foo\n' * 40000 + b'C 16\n' * 9000 + b'b\nC 0\n' + b't\n' * 20000
    for name, given in (
        ('as long as can be', sessions_logged.crowded(1, 16377)), ('too long', sessions_logged.crowded(0, 16378)), ('a long session', ended),
        ('a long line', b't\n' + b'x' * 200000 + b'\n' + b't' * 200000 + b'\nb\nt' + b' ' * 70000),
    ):
        by_entry(name, 'write', given)
    older, data = (shift_log.bytes_of(logs.log_with(random.Random(1), first, 0, 1, 16377)) for first in FORMS)
    for name, given in (
        ('the longest log of first byte 1', older), ('the longest log', data), ('a byte more', data + b'\0'), ('5,000 bytes more', data + bytes(5000)),
        ('far too long', data + bytes(10 ** 6)),
    ):
        by_entry(name, 'check', given)
        by_entry(name, 'show', given)
    return 'logs are written and read up to 65,536 bytes'


def beside(home, one, other):
    """Two files are compared as by the reference: their first difference and the tail."""
    (home / 'one').write_bytes(one)
    (home / 'the other').write_bytes(other)
    for command in ('diff', 'tail'):
        wrote, _ = logged.answers('%s %d' % (command, len(one)), one + other)
        same('%s of %s.. and %s..' % (command, one[:60].hex(), other[:60].hex()), entry(command, 'one', 'the other', cwd=home), (0, wrote, b''))


def log_files():
    """two files, of one first byte or of both, are compared as by the reference, and so are long and empty ones; a file that is missing, or is none, is told"""
    home, rng = folder(), random.Random(1)
    data = shift_log.bytes_of(logs.log_with(rng, BY_CELL, 0, 1, 16377))
    more = data + bytes(9000)
    long = [(data, more), (more, data), (more, b''), (more, more), (data[:-4], data), (b'', data), *itertools.islice(logs_paired.long_pairs(rng), 1, 4)]
    settled = [(one, other) for one, other, _, _ in worked_logs.side_by_side()]
    for one, other in settled:
        for command in ('diff', 'tail'):
            by_program('%s, %s' % (one.hex(), other.hex()), '%s %d' % (command, len(one)), one + other)
    mixed = [(one, other) for one, other in settled if {one[:1], other[:1]} == {b'\1', b'\2'}]
    for one, other in settled[1:4] + mixed[:3] + long:
        beside(home, one, other)
    for command in ('diff', 'tail'):
        for files in (('one', 'none'), ('none', 'one'), ('none', 'none'), ('one', '.'), ('.', 'one'), ('', 'one')):
            status, wrote, said = entry(command, *files, cwd=home)
            if status in (0, 2) or wrote != b'' or said.count(b'\n') != 1:
                fail('%s %r: status %d, wrote %r, said %r' % (command, files, status, wrote, said))
    return '%d pairs of logs and %d of files compared as by the reference; a file that is missing is told' % (len(settled), len(long) + 6)


def told(words, where, given, what):
    """A read or a write that fails is told in one line, with a status that is not 0, and nothing is written."""
    status, wrote, said = failures.redirected('log %s %s' % (words, where), given)
    if status == 0 or wrote != b'' or said.count(b'\n') != 1 or what not in said:
        fail('log %s %s: status %d, wrote %r, said %r' % (words, where, status, wrote, said))


def log_words():
    """refused logs give status 1, words that are none the usage and status 2, and a read or a write that fails is told"""
    log = worked_logs.the_log()
    own = worked_logs.own_log()
    for given in (b'', b'\3', log[:-1], log + b'\0', worked_logs.the_log(fair='0f1100'), own[:-1], own + b'\0', b'\1' + own[1:], b'\2' + log[1:]):
        by_entry(given.hex(), 'check', given)
        by_entry(given.hex(), 'show', given)
    for words in NO_WORDS:
        status, wrote, said = entry(*words, given=b't\n')
        if status != 2 or wrote != b'' or b'usage' not in said:
            fail('log %r: status %d, wrote %r, said %r' % (words, status, wrote, said))
    file = folder() / 'log'
    file.write_bytes(log)
    for words, given in (('check', log), ('show', log), ('show', b''), ('write', b't\n'), ('diff %s %s' % (file, file), b'')):
        told(words, '>/dev/full', given, b'could not be written')
        told(words, '>&-', given, b'could not be written')
    for words in ('check', 'show', 'write'):
        told(words, '<&-', b'', b'could not be read')
        told(words, '<.', b'', b'could not be read')
    return 'a refused log, wrong words and what fails have their statuses'
