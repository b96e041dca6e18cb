"""Arrivals within declarations, and the maker of sessions that have them."""
from operator import sub

import reference
import sessions

STEADY = {'heaviest': 1, 'near the limit': 0.9, 'sparse': 0.03}  # how likely a cell is offered that the declaration allows
KINDS = [*STEADY, 'begun anew together', 'begun anew apart']


def keeps(declaration, slots):
    """Whether cells that come in these slots keep a declaration: from any to any later one, the slots between allow so many."""
    burst, period, _ = declaration
    slots = sorted(slots)
    return all(count <= burst + min(map(sub, slots[count - 1:], slots)) // period for count in range(1, len(slots) + 1))


def stretches(rng, turns):
    """By slot, the chances of a flow that begins at a later slot, and anew after each pause."""
    out = []
    while len(out) < turns:
        pause = rng.choice([1, 5, rng.randint(1, 60), rng.randint(60, 800)])
        out += [0] * pause + [1] * rng.choice([3, rng.randint(1, 60), rng.randint(60, 1500)])
    return out[:turns]


def chances(rng, kind, flows, turns):
    """By flow and slot, how likely a cell is offered that the declaration allows."""
    if kind in STEADY:
        return [[STEADY[kind]] * turns] * flows
    return [stretches(rng, turns)] * flows if kind == 'begun anew together' else [stretches(rng, turns) for _ in range(flows)]


def fair_lines(rng):
    """Lines of the fair lane, with bad numbers of both lanes and lines that are no command among them; none that offers a cell, even by a slip."""
    play = sessions.RandomSession(rng.randrange(10**6))
    for flow in play.fair:
        play.open_fair(flow)
    for stretch in (play.misnumber, play.fill_fair, play.drain_fair, play.rewire_fair, play.misnumber):
        stretch()
    return [line for line in play.lines if line[:2] != b'u ']


class Making:
    """A session in the making: its lines, the lane by the reference, and by flow the slot from which its whole burst may come again."""

    def __init__(self, rng, made):
        self.rng, self.made = rng, made
        self.lines, self.lane, self.whole = [], reference.UrgentLane(), [0] * len(made)
        self.fair = fair_lines(rng)[::-1]  # the first of them last
        for flow, (_, _, deadline) in enumerate(made):
            self.lines.append(b'U %d %d' % (flow, deadline))
            self.lane.open(flow, deadline)

    def offer(self, flow):
        """Offers a cell if the declaration allows that one more is accepted now, and tells whether it is."""
        burst, period, deadline = self.made[flow]
        if self.lane.now < self.whole[flow] - (burst - 1) * period:
            return False
        self.lines.append(b'u %d %d' % (flow, deadline))
        if reference.full(self.lane.waiting, flow):
            return False
        self.lane.offer(flow, deadline)
        self.whole[flow] = max(self.whole[flow], self.lane.now) + period
        return True

    def aside(self):
        """Calls that must not matter: a closing and an opening as before, both refused where a cell waits; another flow opened, or closed
        when a cell is offered; a cell with a bad deadline; and some lines of the fair lane."""
        flow, other = self.rng.randrange(len(self.made)), self.rng.randrange(len(self.made), 17)
        again = [b'C %d' % flow, b'U %d %d' % (flow, self.made[flow][2])]
        opened = [b'U %d %d' % (other, self.rng.choice(sessions.DEADLINES))]
        bad = [b'u %d %d' % (flow, self.rng.choice([0, self.made[flow][2] + 1, 4097]))]
        self.lines += self.rng.choice([again, again, bad, opened, opened + [b'C %d' % other, b'u %d 1' % other]])
        self.lines += [self.fair.pop() for _ in range(min(len(self.fair), self.rng.randint(1, 4)))]

    def session(self, kind, turns):
        """The whole session, of so many turns and with arrivals of a kind."""
        for now in zip(*chances(self.rng, kind, len(self.made), turns)):
            for flow, chance in enumerate(now):
                while self.rng.random() < chance and self.offer(flow):
                    pass
                if self.rng.random() < 0.02:
                    self.aside()
            self.lines.append(b't')
            self.lane.turn(True)
        return b''.join(line + b'\n' for line in self.lines)
