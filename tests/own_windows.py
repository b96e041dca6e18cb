"""Cells by windows of their own: the kinds of offers that a session has, and that no choice of slots sends more of its cells."""
import random
from collections import Counter

from matching import matched
from outcomes import Outcome
from support import PROGRAM, fail, played

# What a session has to have among its lines, by the flow's state and the deadline, with its reply; beside it there may be more than one too many.
KINDS = {
    'own ok', 'below ok', 'one ok', 'zero no 14', 'one more no 14', 'beyond no 14', 'full, bad no 14', 'full, good no 5', 'shut, bad no 2', 'shut, good no 2',
    'above 15, bad no 1', 'above 15, good no 1', 'the later number first',
}
# The least number of sessions of each kind that are looked back at.
LEAST = {'missed': 30, 'out of order': 30, 'more by the flows\' deadlines': 12, 'slots lost': 12, 'closed': 30, 'waiting': 12}


def offer_kind(flow, deadline, own, full):
    """The kind of an offer, by its flow and the flow's own deadline, None where it is not open."""
    good = 'good' if 1 <= deadline <= (own or 4096) else 'bad'
    if flow > 15 or own is None or full:
        return '%s, %s' % ('above 15' if flow > 15 else 'full' if full else 'shut', good)
    if good == 'good':
        return 'own' if deadline == own else 'one' if deadline == 1 else 'below'
    return 'zero' if deadline == 0 else 'beyond' if deadline > 4096 else 'one more' if deadline == own + 1 else 'more'


def kinds_met(given, replies):
    """The kinds of offers in a session, told from its lines and replies alone."""
    own, full, last_sent, met = {}, set(), {}, set()
    for line, reply in zip(given.split(b'\n'), replies.decode().split('\n')):
        match [line[:1] if reply != 'no 11' else b'', *line.split(b' ')[1:]]:
            case [b'U', flow, deadline] if reply == 'ok':
                own[int(flow)] = int(deadline)
            case [b'C', flow] if reply == 'ok':
                del own[int(flow)]
            case [b'u', flow, deadline]:
                flow, deadline = int(flow), int(deadline)
                full |= {flow} if reply == 'no 5' else set()
                met.add(offer_kind(flow, deadline, own.get(flow), flow in full) + ' ' + ('ok' if reply.startswith('ok') else reply))
            case [b't' | b'x']:
                full.clear()
                if reply.startswith('sent'):
                    _, flow, number, *_ = reply.split(' ')
                    met |= {'the later number first'} if int(number) < last_sent.get(flow, 0) else set()
                    last_sent[flow] = int(number)
    return met


def all_met(given, replies):
    """Whether a session has offers of every kind, and each is answered as its kind has to be."""
    met = kinds_met(given, replies)
    return KINDS <= met <= KINDS | {'more no 14'}


def session(rng, turns):
    """A session of the urgent lane: a few flows of short deadlines, about as many cells as slots, some turns lost, and flows closed and opened again."""
    flows = rng.sample(range(16), rng.randint(1, 5))
    longest, load, lost = rng.choice([2, 4, 9, 20, 60]), rng.choice([0.5, 0.9, 1.0, 1.2, 3]), rng.choice([0, 0, 0.1, 0.4])
    lines = ['U %d %d' % (flow, rng.randint(1, longest)) for flow in flows]
    for _ in range(turns):
        if rng.random() < 0.1:
            flow = rng.choice(flows)
            lines += ['C %d' % flow, 'U %d %d' % (flow, rng.randint(1, longest))]
        burst = rng.choice([0, 0, 1, 1, 1, 2, 2, 9]) if rng.random() < load else 0
        lines += ['u %d %d' % (rng.choice(flows), rng.randint(0, longest)) for _ in range(burst)]
        lines.append('x' if rng.random() < lost else 't')
    return ''.join(line + '\n' for line in lines).encode()


def by_flows(outcome, given, replies):
    """How many cells could go if each had its flow's deadline for its own."""
    own, windows = {}, []
    now = 0
    for line, reply in zip(given.decode().split('\n'), replies.decode().split('\n')):
        match line.split(' '):
            case ['U', flow, deadline] if reply == 'ok':
                own[flow] = int(deadline)
            case ['u', flow, _] if reply.startswith('ok'):
                windows.append((now, now + own[flow] - 1))
            case ['t'] | ['x']:
                now += 1
    return matched(windows, outcome.usable)


def looked_back(given, replies):
    """The kinds of a session of which as many cells are sent as can be: each in its own window, and in a slot of its own that was open."""
    outcome = Outcome(given, replies)
    late = sum(last < outcome.now for _, last in outcome.windows.values())
    if outcome.astray or outcome.missed != late:
        fail('%d cells told or sent wrongly; %d told to be missed, and %d are' % (outcome.astray, outcome.missed, late))
    sent, most = len(outcome.taken) - len(outcome.windows), matched(list(outcome.taken.values()), outcome.usable)
    if sent != most:
        fail('%d cells are sent, and %d could be' % (sent, most))
    kinds = {
        'missed': outcome.missed, 'out of order': 'the later number first' in kinds_met(given, replies),
        'more by the flows\' deadlines': by_flows(outcome, given, replies) > most, 'slots lost': outcome.lost, 'closed': outcome.met['C ok'],
        'waiting': len(outcome.windows) > late,
    }
    return [kind for kind, holds in kinds.items() if holds]


def most_sent():
    """of the cells of random sessions, with deadlines of their own, as many are sent as could be by any choice of slots: a greatest matching of windows to open slots"""
    seed = random.SystemRandom().randrange(10 ** 9)
    rng, found = random.Random(seed), Counter()
    for number in range(60):
        given = session(rng, rng.choice([20, 60, 120]))
        try:
            found.update(looked_back(given, played(given, PROGRAM)))
        except Exception as failed:
            fail('session %d of seed %d: %s' % (number, seed, failed))
    for kind in (kind for kind in LEAST if found[kind] < LEAST[kind]):
        fail('of the sessions of seed %d only %d are of the kind: %s' % (seed, found[kind], kind))
    return '60 sessions, of a fresh seed, %d: as many cells are sent as any choice of slots could send' % seed
