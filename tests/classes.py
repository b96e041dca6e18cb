"""Tests of the class program: sessions worked out by hand, random trees, trees of one class beside the fair lane, and lines of every kind."""
import random
import sys

import failures
import named
import reference
import sessions
import support
from named import paired
from support import ROOT, compare, fail, played

PROGRAM = ROOT / 'target' / 'bin' / 'sharing'
SEEDS = range(1, 31)
LINES = 1200
HUNDRED = 72072000       # what 100 bytes cost at weight 1
EVERY = range(16)
FLAT = [(0, 1)]          # the root alone
FANS = [(0, 1), (0, 1), (0, 1)]
# What the replies to a random session's lines begin with, by word; all of them are met in every one.
MET = {b'K': 'ok 11', b'G': 'ok 1 11', b'S': 'ok 27 11', b'F': 'ok 1 3 11 13', b'c': 'ok 1 2 11 12', b'f': 'ok 1 2 5 11 15', b'b': 'ok 8 9 11', b'e': 'ok 10 11'}


def described(classes, flows=(), end='ok'):
    """The lines that describe a tree and set it up, with their replies; a flow that is not given hangs from the root."""
    flows = {**dict.fromkeys(EVERY, 0), **dict(flows)}
    lines = ['K %d %d' % one for one in classes] + ['G %d %d' % one for one in flows.items() if one[1] is not None]
    return [*[(line, 'ok') for line in lines], ('S', end)]


def opened(*weights):
    """Openings of the flows from 0 on."""
    return [('F %d %d' % one, 'ok') for one in enumerate(weights)]


def sent(flow, number, start):
    """A begin and its end."""
    return [('b', 'ok %d %d %d' % (flow, number, start)), ('e', 'ok %d %d' % (flow, number))]


def offered(flow, length, first, count=1):
    return [('f %d %d' % (flow, length), 'ok %d' % number) for number in range(first, first + count)]


# The input and the output of each, worked out by hand. H is what 100 bytes cost at weight 1.
def worked():
    H = HUNDRED
    deep = [(0, 1), (0, 2), (1, 4), (2, 8)]
    return {
        # By turns from each fan: class 1 starts at 0, H, 2H, 3H and so does class 2, and class 1 goes first at equal starts. In class 1,
        # flows 0 and 1 start at 0 and then at H. In the end class 1 is at 2H, the root at 4H: flow 1 goes on from 2H.
        'two fans of equal weight, three flows': paired(
            *described(FANS, {0: 1, 1: 1, 2: 2}), *opened(1, 1, 1), *offered(0, 100, 0, 2), *offered(1, 100, 0, 2), *offered(2, 100, 0, 4),
            *sent(0, 0, 0), *sent(2, 0, 0), *sent(1, 0, 0), *sent(2, 1, H), *sent(0, 1, H), *sent(2, 2, 2 * H), *sent(1, 1, H), *sent(2, 3, 3 * H),
            ('b', 'no 9'), ('e', 'no 10'), *offered(1, 100, 2), *sent(1, 2, 2 * H),
        ),
        # Classes 1 and 2 and flows 0 and 9 of the root all start at 0: class 1, class 2, flow 0, flow 9.
        'equal starts of classes and flows': paired(
            *described(FANS, {15: 1, 3: 2}), *[('F %d 1' % flow, 'ok') for flow in (0, 3, 9, 15)],
            *offered(9, 10, 0), *offered(0, 10, 0), *offered(3, 10, 0), *offered(15, 10, 0), *sent(15, 0, 0), *sent(3, 0, 0), *sent(0, 0, 0), *sent(9, 0, 0),
        ),
        # Class 1 starts at 0, H, 2H. Class 2 has half the charge: 0, H/2, H, 3H/2. At H both: class 1 first. Flow 1, alone in class 2, starts
        # at 0, H, 2H, 3H there.
        'a class of double weight': paired(
            *described([(0, 1), (0, 1), (0, 2)], {0: 1, 1: 2}), *opened(1, 1), *offered(0, 100, 0, 3), *offered(1, 100, 0, 4),
            *sent(0, 0, 0), *sent(1, 0, 0), *sent(1, 1, H), *sent(0, 1, H), *sent(1, 2, 2 * H), *sent(1, 3, 3 * H), *sent(0, 2, 2 * H), ('b', 'no 9'),
        ),
        # The rules' cases A and B: flow 2 starts at 72,072,000, and what comes after it at 72,792,720.
        'case B in a tree of one class': paired(
            *described(FLAT), *opened(1, 2), *offered(0, 100, 0), *offered(1, 100, 0, 2), *sent(0, 0, 0), *sent(1, 0, 0), *sent(1, 1, 36036000),
            ('F 2 1', 'ok'), *offered(2, 1, 0), *sent(2, 0, 72072000), ('F 3 1', 'ok'), *offered(3, 1, 0), *sent(3, 0, 72792720),
        ),
        # Class 1 drains with flow 0's end, at H, while the root, at 0, has flow 2 waiting. Flow 1 starts at H in class 1, and class 1 at its
        # last finish, H, behind flow 2's first packet and before its second, which starts at H too.
        'a class drains and the root does not': paired(
            *described(FANS, {0: 1, 1: 1}), *opened(1, 16, 1), *offered(0, 100, 0), *offered(2, 100, 0, 2), *sent(0, 0, 0), *offered(1, 160, 0),
            *sent(2, 0, 0), *sent(1, 0, H), *sent(2, 1, H),
        ),
        # In class 1 flow 0 ends at 15H and then flow 1 at 1/16 of a byte: the class goes on from 15H, and flow 3 starts there.
        'the largest finish that ended in a class, not the last': paired(
            *described(FANS, {0: 1, 1: 1, 3: 1}), *opened(1, 16, 1, 1), *offered(0, 1500, 0), *offered(1, 1, 0), *offered(2, 1, 0, 2),
            *sent(0, 0, 0), *sent(2, 0, 0), *sent(2, 1, 720720), *sent(1, 0, 0), *offered(3, 1, 0), *sent(3, 0, 15 * H),
        ),
        # Class 2 starts at 0, H, 2H, 3H. Class 1 gets something after the second begin, when the root is at H: it starts at H, then at 2H
        # before class 2. It has no claim to what it did not use: its flow, the first of its class, starts there at 0.
        'a class that was idle starts at the virtual time above it': paired(
            *described(FANS, {0: 1, 1: 2}), *opened(1, 1), *offered(1, 100, 0, 4), *sent(1, 0, 0), *sent(1, 1, H), *offered(0, 100, 0, 3),
            *sent(0, 0, 0), *sent(0, 1, H), *sent(1, 2, 2 * H), *sent(0, 2, 2 * H), *sent(1, 3, 3 * H),
        ),
        # Flow 0 starts at 0, H, 2H in class 1, and class 1 at 0, H/2, H, 3H/2 in the root. Flow 1 gets a packet after the second begin, when
        # class 1 is at H, and starts there.
        'a flow that was idle starts at the virtual time of its class': paired(
            *described([(0, 1), (0, 2)], {0: 1, 1: 1}), *opened(1, 1), *offered(0, 100, 0, 3), *sent(0, 0, 0), ('b', 'ok 0 1 %d' % H), *offered(1, 100, 0),
            ('e', 'ok 0 1'), *sent(1, 0, H), *sent(0, 2, 2 * H),
        ),
        # Flow 0's packet is in service when flow 1 of its class gets one: class 1 starts at its last finish, H, behind flow 2 at 0. Flow 1
        # starts at 0 in its class. It ends at H/2 there, class 1 at 3H/2: flow 3 of the root starts at 3H/2, flow 4 of class 1 at H.
        'an offer to a class whose packet is in service': paired(
            *described(FANS, {0: 1, 1: 1, 4: 1}), *opened(1, 1, 1, 1, 1), *offered(0, 100, 0), ('b', 'ok 0 0 0'), *offered(1, 50, 0), *offered(2, 100, 0),
            ('e', 'ok 0 0'), *sent(2, 0, 0), *sent(1, 0, 0), *offered(3, 1, 0), *sent(3, 0, 108108000), *offered(4, 1, 0), *sent(4, 0, H),
        ),
        # Begins, and what they add at classes 1, 2, 3 (weights 2, 4, 8): flow 0: H/2, H/4, H/8. Flow 3, at 0 below class 1's H/2. Flow 2, at
        # 0 below class 2's H/4: class 1 to H, as flow 3. Class 1: flow 1, at 0 below class 3's H/8: class 1 to 3H/2, class 2 to H/2. Flow 3
        # at H. Then in class 1 class 2 at H/2, in it class 3 at H/8, flow 0 at H: class 1 to 2H, class 2 to 3H/4, class 3 to H/4 and drained.
        # Class 2: flow 1 at H: class 2 to H and drained. Flow 2 at H: all drained, class 3, 2 and 1 each at 2H by its flow, the root at 3H.
        # Then classes 3 and flow 1 both start at 2H in class 2: the class goes first.
        'four deep': paired(
            *described(deep, {0: 3, 1: 2, 2: 1, 3: 0}), *opened(1, 1, 1, 1), *[pair for flow in range(4) for pair in offered(flow, 100, 0, 2)],
            *sent(0, 0, 0), *sent(3, 0, 0), *sent(2, 0, 0), *sent(1, 0, 0), *sent(3, 1, H), *sent(0, 1, H), *sent(1, 1, H), *sent(2, 1, H), ('b', 'no 9'),
            *offered(1, 100, 2), *offered(0, 100, 2), *sent(0, 2, 2 * H), *sent(1, 2, 2 * H), *offered(3, 1, 2), *sent(3, 2, 4 * H),
        ),
        # Closed and opened with weight 4, flow 0 goes on with number 1 from H, and then costs H/4. Class 1 is at 0 with flow 1, begun last.
        'a flow closed and opened again': paired(
            *described(FANS, {0: 1, 1: 1}), *opened(1, 1), ('c 0', 'ok'), ('c 0', 'no 2'), ('f 0 100', 'no 2'), ('F 0 1', 'ok'), *offered(0, 100, 0), *offered(1, 100, 0, 2),
            ('c 0', 'no 12'), ('b', 'ok 0 0 0'), ('c 0', 'no 12'), ('e', 'ok 0 0'), ('b', 'ok 1 0 0'), ('c 0', 'ok'), ('c 1', 'no 12'), ('F 0 4', 'ok'),
            *offered(0, 100, 1, 2), ('e', 'ok 1 0'), *sent(0, 1, H), *sent(1, 1, H), ('c 1', 'ok'), ('c 0', 'no 12'), *sent(0, 2, 90090000), ('c 0', 'ok'),
        ),
        'refusals, the lowest number first': paired(
            *described(FANS, {0: 2}), ('f 16 0', 'no 1'), ('c 16', 'no 1'), ('F 16 0', 'no 1'), ('f 0 0', 'no 2'), ('c 0', 'no 2'), ('F 0 0', 'no 13'),
            ('F 0 17', 'no 13'), ('f 0 1', 'no 2'), ('F 0 16', 'ok'), ('F 0 17', 'no 3'), ('f 0 0', 'no 15'), ('f 0 1501', 'no 15'), ('b', 'no 9'), ('e', 'no 10'),
            *offered(0, 1500, 0, 16), ('f 0 1501', 'no 15'), ('f 0 1', 'no 5'), ('b', 'ok 0 0 0'), ('b', 'no 8'), *offered(0, 1, 16), ('f 0 1', 'no 5'),
            ('e', 'ok 0 0'), ('e', 'no 10'), *[pair for k in range(1, 17) for pair in sent(0, k, k * 67567500)], ('b', 'no 9'), *offered(0, 1, 17),
            ('b', 'ok 0 17 1081125045'), ('b', 'no 8'),
        ),
        'each line has its time': paired(
            *[(line, 'no 11') for line in ('F 0 1', 'c 0', 'f 0 1', 'b', 'e')], *described(FLAT)[:-1], *[(line, 'no 11') for line in ('F 0 1', 'c 0', 'f 0 1', 'b', 'e')],
            ('G 16 0', 'no 1'), ('G 4294967295 4294967295', 'no 1'), ('S', 'ok'), *[(line, 'no 11') for line in ('K 0 1', 'G 0 0', 'G 16 0', 'S', 'U 0 1', 'u 0 1', 't', 'x', 'C 0')],
            ('F 0 1', 'ok'), *offered(0, 1, 0), *sent(0, 0, 0),
        ),
    }


# Trees that may not be set up: classes, and where flows hang.
def unfit():
    chain = [(0, 1), (0, 1), (1, 1), (2, 1), (3, 1)]
    return [
        ([], {}), ([], dict.fromkeys(EVERY)), (FLAT, dict.fromkeys(EVERY)),
        *[([(0, weight)], {}) for weight in (0, 17, 18, 256, 257, 65537, 4294967295)],
        *[([(0, 1), (0, 16), (1, weight)], {}) for weight in (0, 17, 257, 65537, 4294967295)],
        *[([(0, 1), (parent, 1)], {}) for parent in (1, 2, 31, 256, 65536, 4294967295)],
        *[([(0, 1), (0, 1), (parent, 1), (0, 1)], {}) for parent in (2, 3, 4, 257)],
        (chain, {}), (chain[:4] + [(0, 1), (3, 1)], {}), ([*chain, (4, 1), (5, 1)], {}),
        *[(FLAT * count, {}) for count in (32, 33, 64, 256, 257, 287)],
        *[(FLAT, {flow: None}) for flow in EVERY],
        *[(FANS, {flow: 3}) for flow in EVERY], *[(FANS, {7: number}) for number in (4, 30, 31, 32, 256, 257, 65536, 4294967295)],
        ([(0, 0), (1, 17)], {0: None, 1: 9}),
    ]


# A tree is refused, and what it said is forgotten: the next one is taken, or refused, by itself.
def refused():
    fit = [
        (FLAT, {}), ([(4294967295, 16)], {}), (FLAT * 31, {flow: 30 - flow for flow in EVERY}), ([(7, 9), (0, 16), (1, 16), (2, 16)], dict.fromkeys(EVERY, 3)),
        ([(0, 1), (0, 1), (1, 1), (2, 1), (2, 1), (1, 1), (0, 1)], {0: 4, 1: 3}),
    ]
    every = [pair for classes, flows in unfit() for pair in described(classes, flows, 'no 27')]
    after = [('F 0 1', 'ok'), *offered(0, 1, 0), ('b', 'ok 0 0 0'), ('S', 'no 11')]
    return {
        **{'every tree that is refused, then one that is fit: %d' % at: paired(*every, *described(*one), *after) for at, one in enumerate(fit)},
        'classes are forgotten': paired(
            *described(FLAT, {3: None}, 'no 27'), *[('G %d 0' % flow, 'ok') for flow in EVERY], ('S', 'no 27'), ('S', 'no 27'), *described(FLAT), *after,
        ),
        'flows are forgotten': paired(
            *described([(0, 17)], {}, 'no 27'), ('K 0 1', 'ok'), ('S', 'no 27'), ('K 0 1', 'ok'), ('G 3 0', 'ok'), ('S', 'no 27'), *described(FLAT), *after,
        ),
        'more classes than sixteen bits count': paired(*described(FLAT * 65537, {}, 'no 27'), *described(FLAT), *after),
        'flows before classes, and named again': paired(
            ('G 0 31', 'ok'), *[('G %d 1' % flow, 'ok') for flow in EVERY], ('G 0 2', 'ok'), ('K 0 1', 'ok'), ('G 16 0', 'no 1'), ('K 0 1', 'ok'), ('G 0 0', 'ok'), ('S', 'ok'), *after,
        ),
    }


# A random session of the class program: trees that are refused, one that is not, and calls in stretches.
class RandomClasses(sessions.RandomSession):
    def __init__(self, seed):
        super().__init__(seed)
        self.program = reference.ClassProgram()  # after these lines
        self.fair = self.rng.sample(range(16), self.rng.randint(3, 12))

    def play(self, line):
        self.lines.append(line)
        reference.replies(line + b'\n', self.program.reply)

    # Classes of any shape, and where the flows hang: in a few classes or in any.
    def tree(self):
        count = self.rng.choice([1, 2, 3, 4, 6, 10, 20, 31])
        alike = self.rng.choice([None, None, 1, self.rng.randint(1, 16)])
        narrow = self.rng.randint(1, count)
        classes, depths = [], []
        for number in range(count):
            above = [one for one in range(number) if depths[one] < 4]
            parent = self.rng.choice([above[-1], self.rng.choice(above)]) if above else self.rng.choice([0, 1, 4294967295])
            classes.append((parent, alike or self.rng.randint(1, 16)))
            depths.append(depths[parent] + 1 if number else 1)
        some = self.rng.sample(range(count), narrow)
        return classes, {flow: self.rng.choice(some) for flow in EVERY}

    # A tree with one thing wrong.
    def spoil(self, classes, flows):
        at, flow = self.rng.randrange(len(classes)), self.rng.randrange(16)
        match self.rng.randrange(7):
            case 0:
                classes[at] = (classes[at][0], self.rng.choice(sessions.BAD_WEIGHTS))
            case 1:
                classes.append((len(classes) + self.rng.choice([0, 1, 255, 65536]), 1))
            case 2:
                classes += [(self.rng.randrange(len(classes)), 1)] * (32 - len(classes))
            case 3:
                classes[:] = [(max(0, number - 1), self.rng.randint(1, 16)) for number in range(self.rng.randint(5, 8))]
                flows.update(dict.fromkeys(EVERY, 0))
            case 4:
                del flows[flow]
            case 5:
                flows[flow] = len(classes) + self.rng.choice([0, 0, 1, 31, 256])
            case 6:
                classes.clear()

    # Classes in their order, and flows anywhere among them, some of them named twice.
    def describe(self, classes, flows):
        lines = [[f'G {flow} {number}'] for flow, number in flows.items()]
        lines += [[f'G {flow} {self.rng.randrange(40)}', f'G {flow} {flows.get(flow, 0)}'] for flow in flows if self.chance(5)]
        self.rng.shuffle(lines)
        given = [line for group in lines for line in group]
        for parent, weight in reversed(classes):
            given.insert(self.rng.randint(0, self.where(given)), f'K {parent} {weight}')
        for line in given:
            self.add(line)
        self.add('S')

    # Where the next class may go in, last to first: before the first that is in already.
    @staticmethod
    def where(given):
        return next((at for at, line in enumerate(given) if line[0] == 'K'), len(given))

    # One line of any kind.
    def any_command(self):
        kind = self.rng.choices(['f', 'g', 'b', 'e', 'F', 'c', 'K 0 1', 'G 0 0', 'S', 'G 16 0'], [30, 12, 24, 24, 3, 4, 0.5, 0.5, 0.5, 0.5])[0]
        if kind == 'f':
            self.add(f'f {self.flow(self.fair)} {self.length()}')
        elif kind == 'g':
            self.add(f'f {self.rng.choice(self.fair)} {self.rng.choice([1, 16, 240])}')
        elif kind == 'F':
            self.open_fair(self.flow(EVERY))
        elif kind == 'c':
            flow = self.flow(self.fair)
            self.add(f'c {flow}')
            if self.chance(80):
                self.open_fair(flow)
        else:
            self.add(kind)

    # A packet of every flow in use, so that many start tags are alike.
    def level(self):
        length = self.rng.choice(sessions.LENGTHS)
        for _ in range(self.rng.randint(1, 4)):
            for flow in self.rng.sample(self.fair, len(self.fair)):
                self.add(f'f {flow} {length}')

    # Bad numbers for flows as they are, open or not.
    def misnumber(self):
        for flow in [*self.rng.sample(range(16), self.rng.randint(2, 5)), self.rng.choice(sessions.ABOVE)]:
            self.add(f'F {flow} {self.rng.choice(sessions.BAD_WEIGHTS)}')
            self.add(f'f {flow} {self.rng.choice(sessions.BAD_LENGTHS)}')

    # Begins and ends until nothing waits, one flow or all of them having packets again on the way.
    def run_down(self):
        while self.program.tree.root.waits():
            self.add('b')
            if self.chance(10):
                self.add(f'f {self.rng.choice(self.fair)} {self.rng.choice(sessions.LENGTHS)}')
            self.add('e')
        self.add('b')

    # The calls, of any number, after the tree is set up.
    def calls(self, count):
        end = len(self.lines) + count
        self.misnumber()
        for flow in self.fair:
            self.open_fair(flow)
        stretches = [self.mixture, self.mixture, self.fill_fair, self.level, self.level, self.drain_fair, self.run_down, self.rewire_fair, self.misnumber]
        while len(self.lines) < end:
            for stretch in self.rng.sample(stretches, len(stretches)):
                stretch()
        del self.lines[end:]

    # Trees that are refused, one that is set up, and so many lines of calls; one in four has no line feed at its end.
    def bytes(self, count):
        for line in ('b', 'e', 'F 0 1', 'c 0', 'f 0 1', 'G 16 0'):
            self.add(line)
        for _ in range(self.rng.randint(1, 6)):
            if self.program.tree is None:
                classes, flows = self.tree()
                self.spoil(classes, flows)
                self.describe(classes, flows)
        while self.program.tree is None:
            self.describe(*self.tree())
        for line in ('K 0 1', 'G 0 0', 'S'):
            self.add(line)
        self.calls(count)
        data = b''.join(line + b'\n' for line in self.lines)
        return data[:-1] if self.chance(25) and self.lines[-1] else data


def lane_lines(seed, count):
    """The lines of a random session that the fair lane has a say in, and those that are no command."""
    made = RandomClasses(seed)
    made.program.tree = reference.Tree(FLAT, dict.fromkeys(EVERY, 0))
    made.calls(count)
    return [line for line in made.lines if line[:1] not in sessions.URGENT_WORDS]


def all_met(given, replies):
    """Whether the lines of a session get every reply that they may, and no other; none is 6."""
    met = {}
    for line, reply in zip(reference.lines_of(given), replies.decode().split('\n')):
        met.setdefault(line[:1], set()).add('ok' if reply.startswith('ok') else reply[3:])
    return all(met.get(word, set()) == set(kinds.split()) for word, kinds in MET.items())


def class_sessions():
    """sessions of the class program, every refused tree among them, come out as worked out by hand"""
    kept = {**worked(), **refused()}
    for name, (given, expected) in kept.items():
        if reference.by_class(given) != expected:
            fail('%s: the reference differs from what was worked out by hand' % name)
    for name, (given, expected) in kept.items():
        compare(name, given, expected, PROGRAM)
    return '%d sessions of the class program, as worked out by hand' % len(kept)


def random_classes():
    """random trees with random calls are answered as by the reference: fixed seeds, every refusal but 6 in each, and one fresh one"""
    fresh = random.SystemRandom().randrange(10 ** 9)
    for seed in list(SEEDS) + [fresh]:
        given = RandomClasses(seed).bytes(LINES)
        expected = reference.by_class(given)
        if seed in SEEDS and not all_met(given, expected):
            fail('random tree %d lacks a reply, or has a wrong one' % seed)
        compare('random tree %d' % seed, given, expected, PROGRAM)
    return '%d random trees with %d lines of calls as by the reference (fresh seed %d)' % (len(SEEDS) + 1, LINES, fresh)


def untagged(lines, replies):
    """The replies to lines, the tags of offers taken off."""
    told = replies.split(b'\n')[:-1]
    if len(told) != len(lines):
        fail('%d lines have %d replies' % (len(lines), len(told)))
    return [b' '.join(reply.split(b' ')[:2]) if line[:1] == b'f' else reply for line, reply in zip(lines, told)]


def one_class():
    """a tree of one class gives the fair lane's numbers, begins and ends: by the reference, and by the two programs"""
    fresh = random.SystemRandom().randrange(10 ** 9)
    seeds = [*range(1, 41), fresh]
    for seed in seeds:
        start = paired(*described([(0, random.Random(seed).randint(1, 16))]))[0]
        lines = lane_lines(seed, LINES)
        given = b''.join(line + b'\n' for line in lines)
        ways = [('the reference', reference.by_class, reference.session)]
        if seed <= 8 or seed == fresh:
            ways.append(('the programs', lambda data: played(data, PROGRAM), lambda data: played(data, support.PROGRAM)))
        for name, by_class, session in ways:
            ours, theirs = untagged(start.split(b'\n')[:-1] + lines, by_class(start + given))[18:], untagged(lines, session(given))
            if ours != theirs:
                at = next(i for i, (a, b) in enumerate(zip(ours, theirs)) if a != b)
                fail('one class, seed %d, %s: %r gets %r, and in the fair lane %r' % (seed, name, lines[at], ours[at], theirs[at]))
    return '%d sessions with a tree of one class as in the fair lane, 9 of them by the programs (fresh seed %d)' % (len(seeds), fresh)


# Lines that are no command of the class program at any time.
def no_commands():
    own = [
        b'K', b'K ', b'K 0', b'K 0 ', b'K 0 1 ', b'K 0 1 1', b'K  0 1', b'K 0  1', b' K 0 1', b'K 00 1', b'K 0 01', b'K 4294967296 1', b'K 0 4294967296',
        b'K 0 10000000000', b'K0 1', b'K 01', b'KK 0 1', b'k 0 1', b'K 0 1\r', b'K\t0 1', b'K -1 1', b'K 0 +1', b'K 0 1' + b' ' * 28, b'K 0 1' + b' 1' * 14,
        b'G', b'G ', b'G 0', b'G 0 ', b'G 0 0 ', b'G 0 0 0', b'G  0 0', b'G 0  0', b' G 0 0', b'G 00 0', b'G 0 00', b'G 4294967296 0', b'G 0 4294967296',
        b'G0 0', b'GG 0 0', b'g 0 0', b'G 0 0\r', b'G 16 x', b'G x 0', b'G 16 00', b'G 16', b'G 0 0' + b' ' * 28,
        b'S ', b' S', b'S 0', b'S 1 2', b'SS', b's', b'S\r', b'S\0', b'S\t', b'S' + b' ' * 31, b'S' + b' ' * 32, b'S' * 33,
        b'f 0 1 1', b'f 0', b'F 0', b'F 0 1 1', b'c', b'c 0 0', b'b 0', b'e 0', b'b ', b' e',
    ]
    return own + [line for lines in named.malformed().values() for line in lines]


def class_lines():
    """lines that are no command, too long ones and input that is cut anywhere are answered as by the reference, and change nothing"""
    bad = no_commands()
    tree = reference.lines_of(paired(*described(FANS, {0: 1, 1: 2}))[0])
    calls = [b'F 0 1', b'F 1 16', *[b'f 0 1500', b'f 1 1', b'b', b'e', b'b', b'e'] * 3]
    noise = [b'\n'.join(bad[at::len(tree) + len(calls)]) for at in range(len(tree) + len(calls))]
    lines = [line for group in zip(noise, tree + calls) for line in group]
    every = [head + bytes([byte]) + tail for head, tail in ((b'', b''), (b'S', b''), (b'K', b'0 1'), (b'G 0', b'0'), (b'f 0 1', b''), (b'b', b'')) for byte in range(256) if byte != 10]
    kept = {
        'no commands while a tree is described and called': b'\n'.join(lines) + b'\n',
        'no commands before a tree': b'\n'.join(bad + tree + calls) + b'\n',
        'no commands after a tree': b'\n'.join(tree + calls + bad + calls[2:]),
        'every byte in a description': b'\n'.join(every + tree + calls),
        'every byte among the calls': b'\n'.join(tree + calls[:2] + every + calls[2:]),
        'carriage returns': b'\r\n'.join(tree + calls),
        'a long input': b'\n'.join(tree + calls + calls[2:] * 1000),
        **{'%r' % given[:20]: given for given in (b'', b'\n', b'\n\n', b' ', b'\0', b'S', b'K 0 1', b'G 16 0', b'b', b'x' * 70000, b'\n' * 70000)},
    }
    whole = b'\n'.join(tree + calls[:8] + [b'c 0', b'f 16 1', b'c 16']) + b'\n'
    at_flows, after = whole.index(b'G 0'), whole.index(b'G 15')
    cuts = [*range(at_flows), *random.Random(1).sample(range(at_flows, after), 8), *range(after, len(whole))]
    kept.update(('cut after %d bytes' % cut, whole[:cut]) for cut in cuts)
    if reference.by_class(b'\n'.join(bad) + b'\n') != b'no 11\n' * len(bad):
        fail('a line that is no command is one, before a tree')
    if reference.by_class(b'\n'.join(tree + bad) + b'\n') != b'ok\n' * len(tree) + b'no 11\n' * len(bad):
        fail('a line that is no command is one, after a tree')
    for name, given in kept.items():
        compare(name, given, reference.by_class(given), PROGRAM)
    return '%d inputs of the class program, with %d lines that are no command and %d that are cut, as by the reference' % (len(kept), len(bad), len(cuts))


def class_failures():
    """a read or a write of the class program that fails is told, and nothing else is written"""
    failures.both('classes', b'K 0 1\nfoo')
    return 'a read or a write of the class program that fails is told'


if __name__ == '__main__':
    sys.stdout.buffer.write(RandomClasses(int(sys.argv[1])).bytes(int(sys.argv[2])))
