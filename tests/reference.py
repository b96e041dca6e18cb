"""A plain model of the station's session program, and of the one that shares the link by class.

    reference.py < commands > replies
    reference.py classes < commands > replies

All is written for reading: what waits is a plain list, tags are exact fractions of a byte at weight 1. A lane is fresh, or is given a
state that is written out. By class, tags are whole numbers of the unit.
"""

import sys
from dataclasses import dataclass
from fractions import Fraction

PLACES = 16                    # of each flow, in each lane
UNITS_PER_BYTE = 720720        # as tags are written
TAG_END = 4611686018427387904  # no finish tag and no packet number passes this
SLOT_END = 4000000000          # no turn is had at this slot
LAST_DEADLINE = 4096           # of a flow of the urgent lane


# A call the station turns down; it carries its number and no other fact.
class Refusal(Exception):
    pass


# Turns the call down when the condition holds; of several, the one asked first gives its number.
def refuse(number, condition):
    if condition:
        raise Refusal(number)


# A cell that waits for a slot no later than its last one.
@dataclass
class Cell:
    flow: int
    number: int
    last: int


# A packet that waits for the link, or is on it.
@dataclass
class Packet:
    flow: int
    number: int
    length: int
    start: Fraction
    finish: Fraction


# A tag as the station writes it, in whole units of 1/720,720 of a byte.
def units(tag):
    whole = tag * UNITS_PER_BYTE
    assert whole.denominator == 1
    return whole.numerator


# A tag that is given in whole units.
def tag(whole):
    return Fraction(whole, UNITS_PER_BYTE)


# Whether all places of one flow are taken.
def full(waiting, flow):
    return sum(1 for one in waiting if one.flow == flow) >= PLACES


# The lane whose cells go out by their last slot or are missed.
class UrgentLane:
    # The slot to come; by flow, the deadlines of the open ones and the cells accepted so far; the cells that wait.
    def __init__(self, now=0, deadline=(), accepted=(), waiting=()):
        self.now = now
        self.deadline = dict(deadline)
        self.accepted = dict(accepted)
        self.waiting = list(waiting)

    # The flow may send until it is closed, each cell within `deadline` slots at most.
    def open(self, flow, deadline):
        refuse(1, flow > 15)
        refuse(3, flow in self.deadline)
        refuse(14, not 1 <= deadline <= LAST_DEADLINE)
        self.deadline[flow] = deadline
        self.accepted.setdefault(flow, 0)

    # The flow may send no more until it is opened again; its numbers then go on.
    def close(self, flow):
        refuse(1, flow > 15)
        refuse(2, flow not in self.deadline)
        refuse(12, any(cell.flow == flow for cell in self.waiting))
        del self.deadline[flow]

    # A cell of the flow comes to wait, wanted within `deadline` slots, which the flow has to allow; the answer is the cell.
    def offer(self, flow, deadline):
        refuse(1, flow > 15)
        refuse(2, flow not in self.deadline)
        refuse(14, not 1 <= deadline <= self.deadline[flow])
        refuse(5, full(self.waiting, flow))
        refuse(7, self.now + deadline > SLOT_END)
        cell = Cell(flow, self.accepted[flow], self.now + deadline - 1)
        self.accepted[flow] += 1
        self.waiting.append(cell)
        return cell

    # One slot of the radio goes by; the answer is the cell sent, if any, and the number missed.
    def turn(self, is_open):
        refuse(7, self.now >= SLOT_END)
        sent = None
        if is_open and self.waiting:
            sent = min(self.waiting, key=lambda cell: (cell.last, cell.flow, cell.number))
            self.waiting.remove(sent)
        missed = [cell for cell in self.waiting if cell.last == self.now]
        self.waiting = [cell for cell in self.waiting if cell.last != self.now]
        self.now += 1
        return sent, len(missed)


# The lane that shares the link by weight, in the order of start tags.
class FairLane:
    # The virtual time; by flow, the weights of the open ones, the packets accepted so far and the last finish tags; the packets that wait,
    # the one in service, and the largest finish tag of those that ended.
    def __init__(self, virtual_time=Fraction(0), weight=(), accepted=(), last_finish=(), waiting=(), in_service=None, largest_ended=Fraction(0)):
        self.virtual_time = virtual_time
        self.weight = dict(weight)
        self.accepted = dict(accepted)
        self.last_finish = dict(last_finish)
        self.waiting = list(waiting)
        self.in_service = in_service
        self.largest_ended = largest_ended

    # The flow may send until it is closed, with this share of the link.
    def open(self, flow, weight):
        refuse(1, flow > 15)
        refuse(3, flow in self.weight)
        refuse(13, not 1 <= weight <= 16)
        self.weight[flow] = weight
        self.last_finish.setdefault(flow, Fraction(0))
        self.accepted.setdefault(flow, 0)

    # The flow may send no more until it is opened again; its numbers and its last finish then go on.
    def close(self, flow):
        refuse(1, flow > 15)
        refuse(2, flow not in self.weight)
        refuse(12, any(packet.flow == flow for packet in self.waiting))
        refuse(12, self.in_service is not None and self.in_service.flow == flow)
        del self.weight[flow]

    # A packet of the flow comes to wait; the answer is the packet with its tags.
    def offer(self, flow, length):
        refuse(1, flow > 15)
        refuse(2, flow not in self.weight)
        refuse(15, not 1 <= length <= 1500)
        refuse(5, full(self.waiting, flow))
        start = max(self.virtual_time, self.last_finish[flow])
        finish = start + Fraction(length, self.weight[flow])
        refuse(6, units(finish) > TAG_END or self.accepted[flow] > TAG_END)
        packet = Packet(flow, self.accepted[flow], length, start, finish)
        self.last_finish[flow] = finish
        self.accepted[flow] += 1
        self.waiting.append(packet)
        return packet

    # The link takes the waiting packet with the smallest start tag.
    def begin(self):
        refuse(8, self.in_service is not None)
        refuse(9, not self.waiting)
        packet = min(self.waiting, key=lambda packet: (packet.start, packet.flow))
        self.waiting.remove(packet)
        self.in_service = packet
        self.virtual_time = packet.start
        return packet

    # The link is done with its packet; if none waits the busy period is over.
    def end(self):
        refuse(10, self.in_service is None)
        packet = self.in_service
        self.in_service = None
        self.largest_ended = max(self.largest_ended, packet.finish)
        if not self.waiting:
            self.virtual_time = self.largest_ended
        return packet


# The number a field of a command stands for; other fields make no command.
def number(field):
    refuse(11, len(field) > 10 or not field.isdigit())
    refuse(11, field[:1] == b"0" and field != b"0")
    refuse(11, int(field) > 4294967295)
    return int(field)


# The word and the numbers of a line, its line feed taken off.
def words_of(line):
    refuse(11, len(line) > 32)
    word, *fields = line.split(b" ")
    return [word, *map(number, fields)]


# What the station says to one line.
def reply(urgent, fair, line):
    words = words_of(line)
    match words:
        case [b"U", flow, deadline]:
            urgent.open(flow, deadline)
            return "ok"
        case [b"F", flow, weight]:
            fair.open(flow, weight)
            return "ok"
        case [b"C", flow]:
            urgent.close(flow)
            return "ok"
        case [b"c", flow]:
            fair.close(flow)
            return "ok"
        case [b"u", flow, deadline]:
            cell = urgent.offer(flow, deadline)
            return f"ok {cell.number} {cell.last}"
        case [b"f", flow, length]:
            packet = fair.offer(flow, length)
            return f"ok {packet.number} {units(packet.start)} {units(packet.finish)}"
        case [b"t" | b"x"]:
            sent, missed = urgent.turn(words[0] == b"t")
            what = f"sent {sent.flow} {sent.number}" if sent is not None else "idle"
            return f"{what} missed {missed}"
        case [b"b"]:
            packet = fair.begin()
            return f"ok {packet.flow} {packet.number} {units(packet.start)}"
        case [b"e"]:
            packet = fair.end()
            return f"ok {packet.flow} {packet.number}"
    raise Refusal(11)


# A flow that hangs from a class: its weight while it is open, the packets accepted so far, those that wait, each a number and a length.
class Flow:
    def __init__(self, number):
        self.number = number
        self.weight = None
        self.accepted = 0
        self.packets = []
        self.start = 0        # in its class
        self.last_finish = 0

    def waits(self):
        return bool(self.packets)

    def holds(self, flow):
        return self is flow

    def way(self, _):
        return []


# A class, which runs the fair rules among its children, the classes and the flows that hang from it.
class Class:
    def __init__(self, number, weight):
        self.number = number
        self.weight = weight
        self.children = []
        self.virtual_time = 0
        self.largest_ended = 0  # of its children's finish tags
        self.start = 0          # in the class that it hangs from, as a child; the root has none
        self.last_finish = 0

    # Whether its subtree has something to send.
    def waits(self):
        return any(child.waits() for child in self.children)

    # Whether a flow is in its subtree.
    def holds(self, flow):
        return any(child.holds(flow) for child in self.children)

    # The steps from here down to a flow, each a class and the child that is picked in it.
    def way(self, pick):
        child = pick(self)
        return [(self, child), *child.way(pick)]

    # The child that sends first: the smallest start tag, of these a class before a flow, of these the lowest number.
    def first(self):
        waiting = [child for child in self.children if child.waits()]
        return min(waiting, key=lambda child: (child.start, isinstance(child, Flow), child.number))


# The lane that shares the link by class and, within a class, by weight.
class Tree:
    # Sets up the classes, by number, each the class that it hangs from and its weight, and the flows, by flow, each its class.
    def __init__(self, classes, flows):
        refuse(27, not 1 <= len(classes) <= 31)
        refuse(27, any(not 1 <= weight <= 16 for _, weight in classes))
        refuse(27, any(parent >= number for number, (parent, _) in enumerate(classes) if number != 0))
        refuse(27, any(Tree.depth(classes, number) > 4 for number in range(len(classes))))
        refuse(27, any(flow not in flows or flows[flow] >= len(classes) for flow in range(16)))
        made = [Class(number, weight) for number, (_, weight) in enumerate(classes)]
        for number, (parent, _) in enumerate(classes):
            if number != 0:
                made[parent].children.append(made[number])
        self.root = made[0]
        self.flows = [Flow(number) for number in range(16)]
        for flow in self.flows:
            made[flows[flow.number]].children.append(flow)
        self.in_service = None  # the way to its flow, and its number

    # How deep a class is, the root at 1.
    @staticmethod
    def depth(classes, number):
        return 1 if number == 0 else 1 + Tree.depth(classes, classes[number][0])

    def open(self, number, weight):
        refuse(1, number > 15)
        refuse(3, self.flows[number].weight is not None)
        refuse(13, not 1 <= weight <= 16)
        self.flows[number].weight = weight

    def close(self, number):
        refuse(1, number > 15)
        flow = self.flows[number]
        refuse(2, flow.weight is None)
        refuse(12, flow.waits() or self.in_service is not None and self.in_service[0][-1][1] is flow)
        flow.weight = None

    # A packet of the flow comes to wait. Each child on the way whose subtree had nothing to send gets its start tag. The answer is the number.
    def offer(self, number, length):
        refuse(1, number > 15)
        flow = self.flows[number]
        refuse(2, flow.weight is None)
        refuse(15, not 1 <= length <= 1500)
        refuse(5, len(flow.packets) >= PLACES)
        for above, child in self.root.way(lambda at: next(child for child in at.children if child.holds(flow))):
            if not child.waits():
                child.start = max(above.virtual_time, child.last_finish)
        flow.packets.append((flow.accepted, length))
        flow.accepted += 1
        return flow.packets[-1][0]

    # The link takes the packet that the choices from the root down lead to. The answer is its flow and number, and the flow's start tag.
    def begin(self):
        refuse(8, self.in_service is not None)
        refuse(9, not self.root.waits())
        way = self.root.way(Class.first)
        flow = way[-1][1]
        number, length = flow.packets[0]
        finishes = [child.start + length * (UNITS_PER_BYTE // child.weight) for _, child in way]
        refuse(6, any(finish > TAG_END for finish in finishes))
        for (above, child), finish in zip(way, finishes):
            above.virtual_time = child.start
            child.last_finish = finish
        flow.packets.pop(0)
        self.in_service = way, number
        return flow.number, number, flow.start

    # The link is done with its packet. A class on the way with nothing more to send is at the end of its busy period.
    def end(self):
        refuse(10, self.in_service is None)
        way, number = self.in_service
        self.in_service = None
        for above, child in way:
            above.largest_ended = max(above.largest_ended, child.last_finish)
            if child.waits():
                child.start = child.last_finish
            if not above.waits():
                above.virtual_time = above.largest_ended
        return way[-1][1].number, number


# The class program: a tree is described until one is set up, and then takes calls.
class ClassProgram:
    def __init__(self):
        self.classes, self.flows, self.tree = [], {}, None

    # What it says to one line.
    def reply(self, line):
        words = words_of(line)
        return self.described(words) if self.tree is None else self.called(words)

    def described(self, words):
        match words:
            case [b"K", parent, weight]:
                self.classes.append((parent, weight))
                return "ok"
            case [b"G", flow, number]:
                refuse(1, flow > 15)
                self.flows[flow] = number
                return "ok"
            case [b"S"]:
                classes, flows = self.classes, self.flows
                self.classes, self.flows = [], {}
                self.tree = Tree(classes, flows)
                return "ok"
        raise Refusal(11)

    def called(self, words):
        match words:
            case [b"F", flow, weight]:
                self.tree.open(flow, weight)
                return "ok"
            case [b"c", flow]:
                self.tree.close(flow)
                return "ok"
            case [b"f", flow, length]:
                return f"ok {self.tree.offer(flow, length)}"
            case [b"b"]:
                return "ok {} {} {}".format(*self.tree.begin())
            case [b"e"]:
                return "ok {} {}".format(*self.tree.end())
        raise Refusal(11)


# The lines of an input; a last one without a line feed counts if it has a byte.
def lines_of(data):
    lines = data.split(b"\n")
    return lines if lines[-1] else lines[:-1]


# The bytes of all replies to the bytes of all commands, each line answered by a function.
def replies(data, answer):
    told = []
    for line in lines_of(data):
        try:
            told.append(answer(line) + "\n")
        except Refusal as refusal:
            told.append(f"no {refusal.args[0]}\n")
    return "".join(told).encode("ascii")


# A whole session with a fresh station.
def session(data: bytes) -> bytes:
    urgent, fair = UrgentLane(), FairLane()
    return replies(data, lambda line: reply(urgent, fair, line))


# A whole run of the class program.
def by_class(data: bytes) -> bytes:
    return replies(data, ClassProgram().reply)


if __name__ == "__main__":
    answered = by_class if sys.argv[1:] == ["classes"] else session
    sys.stdout.buffer.write(answered(sys.stdin.buffer.read()))
