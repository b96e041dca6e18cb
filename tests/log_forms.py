"""Tests of the two forms of a shift log: first byte 1, where a cell has its flow's deadline, and first byte 2, where it has its own."""
import random

import log_commands
import logged
import logs
import reference
import sessions_logged
import shift_log
import worked_logs
from named import paired
from reference import Refusal, refuse
from shift_log import BY_CELL, BY_FLOW, CELL, Log
from support import compare, fail


class OlderLane(reference.UrgentLane):
    """The urgent lane while cells had no deadlines of their own."""

    def offer(self, flow):
        refuse(1, flow > 15)
        refuse(2, flow not in self.deadline)
        refuse(5, reference.full(self.waiting, flow))
        refuse(7, self.now + self.deadline[flow] > reference.SLOT_END)
        cell = reference.Cell(flow, self.accepted[flow], self.now + self.deadline[flow] - 1)
        self.accepted[flow] += 1
        self.waiting.append(cell)
        return cell


def older_replies(log):
    """What the calls of a log of first byte 1 were answered when they were made."""
    urgent, fair, replies = OlderLane(), reference.FairLane(), []
    for line in reference.lines_of(logged.shown(log)):
        try:
            if line[:1] == b'u':
                cell = urgent.offer(int(line.split(b' ')[1]))
                replies.append('ok %d %d' % (cell.number, cell.last))
            else:
                replies.append(reference.reply(urgent, fair, line))
        except Refusal as refusal:
            replies.append('no %d' % refusal.args[0])
    return replies


def own_form(log):
    """The log of first byte 2 that tells the same."""
    return Log(BY_CELL, log.urgent, log.fair, shift_log.with_deadlines(log))


def older_form(log):
    """The log with first byte 1 and without the deadlines of its cells."""
    return Log(BY_FLOW, log.urgent, log.fair, [(kind, flow, 0 if kind == CELL else length) for kind, flow, length in log.events])


def by_hand():
    """Logs of first byte 1 worked out by hand: the lines that they are shown as with their replies, and the log of those lines."""
    table = '19000000 %02x000000 %02x000000 00000000 %02x000000 %02x000000'
    return [
        # Flow 0 has deadline 2 and flow 1 has 3; the cells of flow 2, which is not opened, are refused.
        ('01' + table % (6, 31, 31, 32) + '000200 010300' + '02010000 02000000 02020000 02000000 00000000 00000000 00000000 02000000', paired(
            ('U 0 2', 'ok'), ('U 1 3', 'ok'), ('u 1 3', 'ok 0 2'), ('u 0 2', 'ok 0 1'), ('u 2 1', 'no 2'), ('u 0 2', 'ok 1 1'), ('t', 'sent 0 0 missed 0'),
            ('t', 'sent 0 1 missed 0'), ('t', 'sent 1 0 missed 0'), ('u 0 2', 'ok 2 4'),
        ), '02' + table % (6, 31, 31, 32) + '000200 010300' + '02010300 02000200 02020100 02000200 00000000 00000000 00000000 02000200'),
        # No flow is opened.
        ('01' + table % (0, 25, 25, 12) + '02000000 020f0000 00000000', paired(('u 0 1', 'no 2'), ('u 15 1', 'no 2'), ('t', 'idle missed 0')),
         '02' + table % (0, 25, 25, 12) + '02000100 020f0100 00000000'),
        # The largest deadline.
        ('01' + table % (3, 28, 28, 8) + '0f0010' + '020f0000 01000000', paired(('U 15 4096', 'ok'), ('u 15 4096', 'ok 0 4095'), ('x', 'idle missed 0')),
         '02' + table % (3, 28, 28, 8) + '0f0010' + '020f0010 01000000'),
    ]


def kept_by_hand():
    """Those worked out by hand are shown, played and written again so, by the reference and by the programs; their number."""
    for hexes, (lines, replies), again in by_hand():
        data, own = worked_logs.joined(hexes), worked_logs.joined(again)
        log = shift_log.log_of_bytes(data)
        if (logged.shown(log), ''.join(reply + '\n' for reply in older_replies(log)).encode(), shift_log.bytes_of(own_form(log))) != (lines, replies, own):
            fail('%s: the reference differs from what was worked out by hand' % hexes)
        replayed('a log worked out by hand', log)
    return len(by_hand())


def replayed(name, log):
    """A log of first byte 1 is shown, its lines are answered as they were by the older rule, and written again they are its log of first byte 2."""
    data, lines = shift_log.bytes_of(log), logged.shown(log)
    if logged.answers('write', lines)[0] != shift_log.bytes_of(own_form(log)):
        fail('%s: by the reference the lines of the log have another log' % name)
    log_commands.by_program(name, 'show', data)
    log_commands.by_program(name, 'write', lines)
    compare('%s: played again' % name, lines, ''.join(reply + '\n' for reply in older_replies(log)).encode())


def older_logs(fresh):
    """Logs of first byte 1: such as are drawn, and those of random sessions without their deadlines."""
    made = [logs.log(random.Random(seed), BY_FLOW) for seed in (1, 2, 3, fresh)]
    sessions = [make(seed) for make in (lambda seed: sessions_logged.lasting(seed, 800), sessions_logged.much_opened) for seed in (1, 2, 3, fresh)]
    return made + [older_form(logged.log_of(given)[0]) for given in sessions]


def log_forms():
    """logs of first byte 1 are shown with their flows' deadlines: played again they get the replies that they got, and written again they are logs of first byte 2"""
    settled, fresh = kept_by_hand(), random.SystemRandom().randrange(10 ** 9)
    kept = older_logs(fresh)
    replies = {reply for log in kept for reply in older_replies(log)}
    if not replies >= {'no 2', 'no 5'} or not any(reply.startswith('sent') for reply in replies) or not any('missed' in reply and reply[-2:] != ' 0' for reply in replies):
        fail('a kind of reply is not among those to the logs')
    for at, log in enumerate(kept):
        replayed('log %d of first byte 1 (fresh seed %d)' % (at, fresh), log)
        log_commands.by_program('log %d of first byte 2' % at, 'show', shift_log.bytes_of(own_form(log)))
    return '%d logs of first byte 1, %d of them by hand, play again as they did and are written again with first byte 2 (fresh seed %d)' % (
        settled + len(kept), settled, fresh)
