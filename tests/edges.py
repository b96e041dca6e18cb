"""The edges programs run the compiled lanes on states written out: their states a second time, and each line by the reference.

A case is a heading, a lane (None: the lane goes on) and calls. A call marked ? is one that the rules do not settle, in a state that no
calls give (docs/EXCEPTIONS.md): its line is not held, and it is the last of its lane.
"""
from reference import Cell, FairLane, Packet, Refusal, UrgentLane, tag, units
from support import ROOT, fail, played

MOST = 2 ** 64 - 1      # the largest number that a program can write out
TAG_END = 2 ** 62       # the last finish tag and the last packet number
SLOT_END = 4 * 10 ** 9  # the slot that never comes


def written_cells(now, deadline, accepted, first, second, opened=True):
    """An urgent lane whose flow 0 has two cells waiting, numbers 7 and 8, with these last slots."""
    flows = {0: deadline} if opened else {}
    return UrgentLane(now, flows, {0: accepted}, [Cell(0, 7, first), Cell(0, 8, second)])


def written_flow(time, weight, accepted, finish, **more):
    """A fair lane at a virtual time, with flow 0 open."""
    return FairLane(tag(time), {0: weight}, {0: accepted}, {0: tag(finish)}, **more)


def serving(finish, largest):
    """A fair lane that has a packet of flow 3 in service, which is not open."""
    return written_flow(0, 1, 0, 0, in_service=Packet(3, 7, 9, tag(0), tag(finish)), largest_ended=tag(largest))


def two_waiting(first, second, opened=True):
    """A fair lane with two packets of flow 0 waiting: number 8 that starts first, and number 4 that starts second."""
    lane = written_flow(0, 1, 0, 0, waiting=[Packet(0, 8, 20, tag(first), tag(first)), Packet(0, 4, 50, tag(second), tag(second))])
    if not opened:
        del lane.weight[0]
    return lane


def urgent_cases():
    """What urgent_edges runs."""
    return [
        ('D', UrgentLane(), 'open 0 3, open 1 1, offer 0 3, offer 1 1, turn, turn'),
        ('E', UrgentLane(), 'open 0 1, offer 0 1, lost'),
        ('F', UrgentLane(), 'open 0 2, offer 0 2, offer 0 2, offer 0 2, turn, turn'),
        ('G', UrgentLane(), 'open 15 4096, ' + 'offer 15 4096, ' * 17 + 'turn, offer 15 4096'),
        ('H', UrgentLane(SLOT_END - 1), 'open 0 3, offer 0 2, offer 0 1, offer 0 2, turn, turn, lost, offer 0 1'),
        ('a flow closed and opened again', UrgentLane(), 'open 0 2, offer 0 2, close 0, turn, close 0, close 0, offer 0 2, open 0 5, offer 0 5'),
        ('its last cell missed', None, 'open 1 1, offer 1 1, close 1, lost, close 1'),
        ('opened again with a smaller deadline', UrgentLane(), 'open 0 5, offer 0 5, turn, close 0, open 0 2, offer 0 3, offer 0 5, offer 0 2'),
        ('the later number first', UrgentLane(), 'open 0 5, offer 0 5, offer 0 2, turn, turn'),
        ('deadline 1 behind fifteen of 4096', UrgentLane(), 'open 3 4096, ' + 'offer 3 4096, ' * 15 + 'offer 3 1, turn, turn'),
        ('the later number missed first', UrgentLane(), 'open 0 2, offer 0 2, offer 0 1, lost, turn'),
        ('one last slot: the lowest flow, then the lowest number', UrgentLane(),
         'open 1 2, open 4 9, offer 4 2, offer 1 2, lost, offer 4 1, offer 1 1, turn'),
        ('a bad deadline before full', UrgentLane(), 'open 2 3, ' + 'offer 2 3, ' * 16 + f'offer 2 0, offer 2 4, offer 2 {MOST}, offer 2 3, offer 2 1'),
        ('flow numbers', UrgentLane(), f'open 16 1, open {MOST} 0, offer 16 1, offer {MOST} 0, close 16, close {MOST}'),
        ('deadlines', None, f'open 0 0, open 0 4097, open 0 {MOST}, open 0 4096, open 0 4096'),
        ('deadlines of cells', None,
         f'offer 0 0, offer 0 4097, offer 0 {MOST}, open 1 7, offer 1 8, offer 1 4096, offer 0 4096, offer 0 1, offer 1 7'),
        ('a shut flow', None, 'offer 2 0, offer 2 1, close 2'),
        ('the longest deadline at the end of the slots', UrgentLane(SLOT_END - 4096), 'open 0 4096, offer 0 4096, turn, offer 0 4096, offer 0 4095'),
        ('a bad deadline before full, and full before used up', UrgentLane(SLOT_END - 10),
         'open 0 10, ' + 'offer 0 10, ' * 17 + f'now {SLOT_END - 1}, offer 0 11, offer 0 10, turn, offer 0 11, offer 0 1, turn'),
        ('the last number', written_cells(5, 3, MOST, 5, 6), 'offer 0 3, ?offer 0 3'),
        ('cells long gone', written_cells(9, 3, 0, 1, 0), 'turn, turn, turn'),
        ('two cells due now', written_cells(9, 3, 0, 9, 9), 'lost'),
        ('the last slots of all', written_cells(MOST, MOST, 0, MOST, 3), f'offer 0 1, turn, ?offer 0 {MOST}'),
        ('no deadline', written_cells(0, 0, 0, 1, 1), 'offer 0 0, offer 0 1'),
        ('a deadline that no opening takes', written_cells(0, 5000, 0, 1, 1), 'offer 0 5000'),
        ('a shut flow with cells waiting', written_cells(0, 3, MOST, 1, 1, opened=False), 'close 0, turn, open 0 4, offer 0 4'),
        ('the last number, kept through a closing', UrgentLane(0, {0: 3}, {0: MOST}), 'close 0, open 0 4, offer 0 4'),
    ]


def fair_cases():
    """What fair_edges runs."""
    return [
        ('A', FairLane(), 'open 0 1, open 1 2, offer 0 100, offer 1 100, offer 1 100, begin, end, begin, end, begin, end'),
        ('B', None, 'open 2 1, offer 2 1'),
        ('C', FairLane(), 'open 0 1, offer 0 1500'),
        ('', FairLane(), 'open 0 16, offer 0 1500'),
        ('M', FairLane(), 'open 0 0, open 0 17, open 0 1, begin, end, offer 0 1, begin, begin, end, begin'),
        ('a flow closed and opened again', FairLane(),
         'open 0 1, open 1 1, offer 0 100, offer 1 1, close 0, begin, close 0, close 1, end, close 0, close 0, offer 0 1, open 0 2, offer 0 100, begin'),
        ('flow numbers', FairLane(), f'open 16 1, open {MOST} 0, offer 16 1, offer {MOST} 0, close 16, close {MOST}'),
        ('a shut flow', None, 'offer 1 0, close 1'),
        ('weights', None, f'open 15 {MOST}, open 15 {2 ** 32 + 1}'),
        ('lengths', None, f'open 15 1, open 15 0, offer 15 0, offer 15 1501, offer 15 {MOST}, offer 15 1500'),
        ('finish tags at the limit and one past it', written_flow(TAG_END - 720720, 1, 0, 0), 'offer 0 1'),
        ('', written_flow(TAG_END - 720719, 1, 0, 0), 'offer 0 1'),
        ('', written_flow(0, 1, 0, TAG_END - 720720), 'offer 0 1'),
        ('', written_flow(0, 1, 0, TAG_END - 720719), 'offer 0 1'),
        ('numbers at the limit and one past it', written_flow(0, 1, TAG_END, 0), 'offer 0 1, offer 0 1'),
        ('a bad length before full, and full before used up', written_flow(TAG_END - 16 * 720720, 1, 0, 0),
         'offer 0 1, ' * 17 + 'offer 0 1501, begin, offer 0 1'),
        ('the last numbers of all', written_flow(MOST, 1, 0, 0), 'offer 0 1'),
        ('', written_flow(0, 1, MOST, 0), 'offer 0 1500'),
        ('', written_flow(0, 1, 0, MOST), 'offer 0 1500'),
        ('weights that no flow has', written_flow(5, MOST, 0, 0), '?offer 0 1500'),
        ('', written_flow(5, 0, 0, 7), '?offer 0 1500'),
        ('a service busy with a shut flow', serving(5, 9), 'open 2 1, close 3, close 2'),
        ('a shut flow with packets waiting', two_waiting(3, 6, opened=False), 'close 0, begin'),
        ('numbers and tags at their last, kept through a closing', written_flow(0, 1, TAG_END, TAG_END - 45045), 'close 0, open 0 16, offer 0 1, offer 0 1'),
        ('the largest finish, not the last', serving(5, 9), 'end, offer 0 1'),
        ('', serving(9, 5), 'end, offer 0 1'),
        ('the smaller start, then the lower number', two_waiting(3, 6), 'begin, end, begin'),
        ('', two_waiting(6, 6), '?begin, ?end, ?begin'),
    ]


def urgent_line(lane, word, given):
    """What urgent_edges writes of a call."""
    match word:
        case 'open':
            lane.open(*given)
            return 'ok'
        case 'close':
            lane.close(*given)
            return 'closed'
        case 'offer':
            cell = lane.offer(*given)
            return f'ok {cell.number} {cell.last}'
        case 'turn' | 'lost':
            sent, missed = lane.turn(word == 'turn')
            return ('idle' if sent is None else f'sent {sent.flow} {sent.number}') + f' missed {missed}'


def fair_line(lane, word, given):
    """What fair_edges writes of a call."""
    match word:
        case 'open':
            lane.open(*given)
            return 'ok'
        case 'close':
            lane.close(*given)
            return 'closed'
        case 'offer':
            packet = lane.offer(*given)
            return f'ok {packet.number} {units(packet.start)} {units(packet.finish)}'
        case 'begin':
            packet = lane.begin()
            return f'begun {packet.flow} {packet.number} {packet.length} {units(packet.start)}'
        case 'end':
            packet = lane.end()
            return f'ended {packet.flow} {packet.number} {packet.length}'


def lines_of(cases, line_of):
    """Each line that a program should write, None where the rules do not settle it."""
    lines, lane = [], None
    for heading, state, calls in cases:
        lane = lane if state is None else state
        lines += [heading] if heading else []
        for call in calls.split(', '):
            word, *given = call.split(' ')
            given = [int(one) for one in given]
            if word == 'now':
                lane.now = given[0]
            elif word[0] == '?':
                lines.append(None)
            else:
                try:
                    lines.append(line_of(lane, word, given))
                except Refusal as refusal:
                    lines.append(f'no {refusal.args[0]}')
    return lines


def held(name, expected):
    """Holds what an edges program writes to the reference, line by line; the number of lines, and of those not held."""
    wrote = played(b'', ROOT / 'target' / 'bin' / name)
    if wrote != (ROOT / 'crates' / name / 'stdout').read_bytes():
        fail('%s does not write what is stored' % name)
    lines = wrote.decode().split('\n')[:-1]
    for at, (line, should) in enumerate(zip(lines, expected)):
        if should not in (None, line):
            fail('%s: line %d is %r and should be %r' % (name, at + 1, line, should))
    if len(lines) != len(expected):
        fail('%s writes %d lines and should write %d' % (name, len(lines), len(expected)))
    return len(lines), expected.count(None)


def edges():
    """each line of urgent_edges and fair_edges is worked out by the reference from the same states, written a second time"""
    urgent, left = held('urgent_edges', lines_of(urgent_cases(), urgent_line))
    fair, too = held('fair_edges', lines_of(fair_cases(), fair_line))
    return 'the edges of both lanes, %d and %d lines, as by the reference, but %d and %d that the rules do not settle' % (urgent, fair, left, too)
