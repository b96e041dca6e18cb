"""What the replies to a session tell, and whether it keeps the conditions of the guarantee for a list."""
from collections import Counter, defaultdict

import admission
import arrivals
from support import fail

CONDITIONS = ['admitted', 'opened as declared', 'full deadlines', 'no other flow', 'declarations kept', 'every turn open']


class Outcome:
    """The slot to come, the turns lost, the cells told to be missed, those told or sent wrongly, those sent in their last slot and those
    accepted with less than their flow's deadline; by flow its deadlines and the slots of the cells offered and accepted; the windows of all
    cells accepted, and of those not sent; how often each command was answered how."""

    def __init__(self, given, replies):
        self.now = self.lost = self.missed = self.astray = self.at_last = self.short = 0
        self.deadlines, self.offered, self.accepted = defaultdict(list), defaultdict(list), defaultdict(list)
        self.taken, self.windows, self.usable, self.met = {}, {}, set(), Counter()
        if given.count(b'\n') != replies.count(b'\n'):
            fail('a session of %d lines has %d replies' % (given.count(b'\n'), replies.count(b'\n')))
        for line, reply in zip(given.split(b'\n')[:-1], replies.decode().split('\n')):
            self.hear(line.decode('latin-1').split(' '), reply.split(' '))

    def hear(self, words, reply):
        """Takes in a line and its reply."""
        answer = ' '.join(reply[:2]) if reply[0] == 'no' else reply[0]
        self.met[answer if answer == 'no 11' else words[0] + ' ' + answer] += 1
        match words, reply:
            case ['U', flow, deadline], ['ok']:
                self.deadlines[int(flow)].append(int(deadline))
            case ['u', flow, _], ['no', '5']:
                self.offered[int(flow)].append(self.now)
            case ['u', flow, deadline], ['ok', number, last]:
                self.offered[int(flow)].append(self.now)
                self.accept(int(flow), int(deadline), (int(number), int(last)))
            case ['t' | 'x' as kind], [*what, 'missed', missed]:
                self.turn(kind, what, int(missed))

    def accept(self, flow, deadline, told):
        """Takes in a cell, with its number and its last slot as the rules have them and as they are told."""
        number, last, own = len(self.accepted[flow]), self.now + deadline - 1, self.deadlines[flow][-1]
        self.astray += told != (number, last) or not 1 <= deadline <= own
        self.short += deadline < own
        self.windows[flow, number] = self.taken[flow, number] = self.now, last
        self.accepted[flow].append(self.now)

    def turn(self, kind, what, missed):
        """Takes in a turn; a cell that does not wait has no window."""
        if what != ['idle']:
            first, last = self.windows.pop((int(what[1]), int(what[2])), (1, 0))
            self.astray += not first <= self.now <= last
            self.at_last += self.now == last
        self.missed += missed
        self.lost += kind == 'x'
        self.usable |= {self.now} if kind == 't' else set()
        self.now += 1

    def late(self):
        """How many cells are told or were sent wrongly, or wait though their last slot has gone by."""
        return self.astray + sum(last < self.now for _, last in self.windows.values())

    def broken(self, made):
        """The conditions of the guarantee for a list that the session breaks."""
        holds = [
            admission.verdict(made) == 'admitted',
            all(set(self.deadlines[flow]) <= {deadline} for flow, (_, _, deadline) in enumerate(made)),
            self.short == 0,
            all(flow < len(made) for flow in self.accepted),
            all(arrivals.keeps(declaration, self.accepted[flow]) for flow, declaration in enumerate(made)),
            self.lost == 0,
        ]
        return [name for name, so in zip(CONDITIONS, holds, strict=True) if not so]
