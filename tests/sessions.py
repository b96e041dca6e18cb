"""Maker of random sessions for trying the station.

    sessions.py SEED LINES > commands

Everything here is settled by its arguments: the same seed gives the same bytes.
"""

import random
import sys

import named
import reference

SMALL_BAD_LINES = [line for lines in named.malformed().values() for line in lines if len(line) <= 40]
URGENT_WORDS = (b"U", b"C", b"u", b"t", b"x")
DEADLINES = [1, 1, 2, 2, 3, 3, 4, 5, 8, 12, 12, 20, 20, 40, 40, 100, 300, 1000, 4095, 4096]
ABOVE = [16, 17, 99, 255, 256, 65536, 4294967295]
LENGTHS = [1, 2, 3, 7, 40, 64, 64, 100, 100, 576, 1499, 1500]
BAD_DEADLINES = [0, 4097, 65537, 4294967295]
BAD_WEIGHTS = [0, 17, 257, 4294967295]
BAD_LENGTHS = [0, 1501, 65537, 4294967295]


# One random session, its commands drawn in stretches of differing kinds, each kind in every round.
class RandomSession:
    def __init__(self, seed):
        self.rng = random.Random(seed)
        self.lines, self.lane = [], reference.UrgentLane()  # the urgent lane after these lines
        self.urgent = self.rng.sample(range(16), self.rng.randint(3, 9))
        self.fair = self.rng.sample(range(16), self.rng.randint(3, 9))

    def chance(self, percent):
        return self.rng.randrange(100) < percent

    # Adds a command; about three lines in a hundred are one that is no command.
    def add(self, command):
        if self.rng.randrange(1000) < 34:
            self.play(self.spoilt(command.encode("ascii")))
        self.play(command.encode("ascii"))

    # Adds a line, and has the urgent lane answer it if it may be a call of its.
    def play(self, line):
        self.lines.append(line)
        if line[:1] in URGENT_WORDS:
            try:
                reference.reply(self.lane, None, line)
            except reference.Refusal:
                pass

    # A line that is no command, or a good one with a byte changed.
    def spoilt(self, line):
        if self.chance(50):
            return self.rng.choice(SMALL_BAD_LINES)
        at = self.rng.randrange(len(line) + 1)
        extra = self.rng.choice([b" ", b"0", b"\t", b"\r", b"\0", b"-", b"z", b"\xe9"])
        return self.rng.choice([line[:at] + extra + line[at:], line[:at] + extra + line[at + 1 :], line[:at]])

    # A flow number: mostly one in use, now and then another or one above 15.
    def flow(self, used):
        if self.chance(2):
            return self.rng.choice(ABOVE)
        if self.chance(4):
            return self.rng.randrange(16)
        return self.rng.choice(used)

    def length(self):
        if self.chance(3):
            return self.rng.choice(BAD_LENGTHS)
        return self.rng.choice(LENGTHS) if self.chance(60) else self.rng.randint(1, 1500)

    # A cell of a flow: mostly with the flow's own deadline or one below it, now and then with 0 or one above it.
    def add_cell(self, flow):
        own = self.lane.deadline.get(flow, self.rng.choice(DEADLINES))
        deadlines = [own, self.rng.randint(1, own), 1, own + 1, self.rng.choice(BAD_DEADLINES)]
        self.add(f"u {flow} {self.rng.choices(deadlines, [44, 40, 8, 4, 4])[0]}")

    def open_urgent(self, flow):
        bad = self.chance(12)
        self.add(f"U {flow} {self.rng.choice(BAD_DEADLINES if bad else DEADLINES)}")

    def open_fair(self, flow):
        bad = self.chance(12)
        self.add(f"F {flow} {self.rng.choice(BAD_WEIGHTS) if bad else self.rng.randint(1, 16)}")

    # One command of any kind, and after a closing mostly the opening again.
    def any_command(self):
        kind = self.rng.choices("ufgtxbeUFCc", [30, 16, 8, 20, 7, 13, 13, 1, 1, 2, 2])[0]
        if kind == "u":
            self.add_cell(self.flow(self.urgent))
        elif kind == "f":
            self.add(f"f {self.flow(self.fair)} {self.length()}")
        elif kind == "g":
            self.add(f"f {self.rng.choice(self.fair)} {self.rng.choice([1, 16, 240])}")
        elif kind == "U":
            self.open_urgent(self.flow(range(16)))
        elif kind == "F":
            self.open_fair(self.flow(range(16)))
        elif kind == "C":
            flow = self.flow(self.urgent)
            self.add(f"C {flow}")
            if self.chance(80):
                self.open_urgent(flow)
        elif kind == "c":
            flow = self.flow(self.fair)
            self.add(f"c {flow}")
            if self.chance(80):
                self.open_fair(flow)
        else:
            self.add(kind)

    def mixture(self):
        for _ in range(self.rng.randint(20, 150)):
            self.any_command()

    # Many cells of a few flows at once: places run out, and cells are missed. Then on each, full or not, a bad deadline.
    def fill_urgent(self):
        for flow in self.rng.sample(self.urgent, self.rng.randint(1, 3)):
            for _ in range(self.rng.randint(10, 26)):
                self.add_cell(flow)
            self.add(f"u {flow} {self.rng.choice([0, self.lane.deadline.get(flow, 0) + 1, 4097])}")

    # Many packets of a few flows at once, and on each, full or not, a bad length and a good one.
    def fill_fair(self):
        for flow in self.rng.sample(self.fair, self.rng.randint(1, 3)):
            length = self.length()
            for _ in range(self.rng.randint(8, 22)):
                self.add(f"f {flow} {length}")
            self.add(f"f {flow} {self.rng.choice(BAD_LENGTHS)}")
            self.add(f"f {flow} {self.rng.choice(LENGTHS)}")

    # A cell or packet of every flow in use, so that many tags and last slots are alike.
    def level(self):
        length = self.rng.choice(LENGTHS)
        for _ in range(self.rng.randint(1, 4)):
            for flow in self.rng.sample(self.urgent, len(self.urgent)):
                self.add(f"u {flow} {self.lane.deadline.get(flow, 1)}")
            for flow in self.rng.sample(self.fair, len(self.fair)):
                self.add(f"f {flow} {length}")

    def drain_urgent(self):
        for _ in range(self.rng.choice([10, 30, 80, 150])):
            self.add("x" if self.chance(4) else "t")

    # Begins and ends by turns, often until none waits, and then a few new packets.
    def drain_fair(self):
        for _ in range(self.rng.choice([10, 40, 80, 150])):
            self.add("b")
            if self.chance(3):
                self.add("b")
            if self.chance(6):
                self.add(f"f {self.flow(self.fair)} {self.length()}")
            self.add("e")
            if self.chance(3):
                self.add("e")
        for flow in self.rng.sample(self.fair, self.rng.randint(0, len(self.fair))):
            self.add(f"f {flow} {self.length()}")
            if self.chance(50):
                self.add("b")
                self.add("e")

    # Flows are closed before a cell comes, while it waits and after a turn, and opened again; the last is above 15.
    def rewire_urgent(self):
        for flow in [*self.rng.sample(range(16), self.rng.randint(6, 9)), self.rng.choice(ABOVE)]:
            self.add(f"C {flow}")
            self.open_urgent(flow)
            for offers in (True, False, True):
                if offers:
                    self.add_cell(flow)
                else:
                    self.add("x" if self.chance(30) else "t")
                if self.chance(80):
                    self.add(f"C {flow}")
            self.open_urgent(flow)
            self.add_cell(flow)

    # After some begins and ends, flows are closed before a packet comes, while it waits, in service and after its end, and
    # opened again; the last is above 15.
    def rewire_fair(self):
        for _ in range(self.rng.choice([1, 10, 40])):
            self.add("b")
            self.add("e")
        for flow in [*self.rng.sample(range(16), self.rng.randint(6, 9)), self.rng.choice(ABOVE)]:
            self.add("b")
            self.add(f"c {flow}")
            self.add("e")
            self.open_fair(flow)
            for command in [f"f {flow} {self.length()}", "b", "e", f"f {flow} {self.length()}"]:
                self.add(command)
                if self.chance(80):
                    self.add(f"c {flow}")
            self.open_fair(flow)
            self.add(f"f {flow} {self.length()}")

    # Bad numbers for flows as they are, open or not; the last is above 15.
    def misnumber(self):
        for flow in [*self.rng.sample(range(16), self.rng.randint(4, 8)), self.rng.choice(ABOVE)]:
            self.add(f"U {flow} {self.rng.choice(BAD_DEADLINES)}")
            self.add(f"u {flow} {self.rng.choice(BAD_DEADLINES)}")
            self.add(f"F {flow} {self.rng.choice(BAD_WEIGHTS)}")
            self.add(f"f {flow} {self.rng.choice(BAD_LENGTHS)}")

    # The same command again and again.
    def one_kind(self):
        command = self.rng.choice([
            "t", "x", "b", "e", f"u {self.flow(self.urgent)} {self.rng.choice(DEADLINES)}", f"f {self.flow(self.fair)} {self.length()}",
        ])
        for _ in range(self.rng.randint(5, 60)):
            self.add(command)

    # So many lines: bad numbers while no flow is open, the openings, and then stretches in rounds.
    def bytes(self, count):
        self.misnumber()
        for flow in self.urgent:
            self.open_urgent(flow)
        for flow in self.fair:
            self.open_fair(flow)
        stretches = [
            self.mixture, self.mixture, self.mixture, self.fill_urgent, self.fill_urgent, self.fill_fair, self.fill_fair,
            self.level, self.drain_urgent, self.drain_fair, self.rewire_urgent, self.rewire_fair, self.misnumber, self.one_kind,
        ]
        while len(self.lines) < count:
            for stretch in self.rng.sample(stretches, len(stretches)):
                stretch()
        data = b"".join(line + b"\n" for line in self.lines[:count])
        return data[:-1] if self.chance(25) and not data.endswith(b"\n\n") else data


# A random session of so many lines; one in four has no line feed at its end.
def random_session(seed, lines):
    return RandomSession(seed).bytes(lines)


if __name__ == "__main__":
    sys.stdout.buffer.write(random_session(int(sys.argv[1]), int(sys.argv[2])))
