"""Maker of sessions for trying what is logged: random ones whose logs are long, many openings, and logs as long as can be."""

import random

import sessions

ENDING = (b"U", b"F", b"C", b"c")  # the words of lines that may end a log
BEGINNING = 60                     # so many lines of a random session have its openings among them


# A random session whose closings, and openings after the first lines, are left out up to some line.
def lasting(seed, count):
    lines = sessions.random_session(seed, count).split(b"\n")
    until = random.Random(seed).randint(BEGINNING, count)
    begun = [line for line in lines[:BEGINNING] if line[:1] not in (b"C", b"c")]
    return b"\n".join(begun + [line for line in lines[BEGINNING:until] if line[:1] not in ENDING] + lines[until:])


# A line that nothing is logged of before the first event: no command, or a call that is beyond the limits.
def unlogged(rng):
    flow, above = rng.randrange(16), rng.choice(sessions.ABOVE)
    return rng.choice([
        *rng.sample(sessions.SMALL_BAD_LINES, 3), b"u %d 1" % above, b"f %d 1" % above,
        b"u %d %d" % (flow, rng.choice(sessions.BAD_DEADLINES)), b"f %d %d" % (flow, rng.choice(sessions.BAD_LENGTHS)),
        b"C %d" % above, b"c %d" % above, b"U %d 1" % above, b"F %d 1" % above,
        b"U %d %d" % (flow, rng.choice(sessions.BAD_DEADLINES)), b"F %d %d" % (flow, rng.choice(sessions.BAD_WEIGHTS)),
    ])


# A line that opens a flow, the same one now and then.
def opening(rng):
    flow = rng.randrange(16)
    return rng.choice([b"U %d %d" % (flow, rng.choice(sessions.DEADLINES)), b"F %d %d" % (flow, rng.randint(1, 16))])


# A line that is an event, refused or not.
def event(rng):
    flow = rng.randrange(16)
    return rng.choice([b"t", b"x", b"b", b"e", b"u %d %d" % (flow, rng.choice(sessions.DEADLINES)), b"f %d %d" % (flow, rng.choice(sessions.LENGTHS))])


# A session that begins with many openings and lines that are not logged; then events among such lines, and what may end the log.
def much_opened(seed):
    rng = random.Random(seed)
    lines = [rng.choice([opening, opening, unlogged])(rng) for _ in range(rng.choice([0, 3, 20, 60]))]
    lines += [rng.choice([event, event, event, unlogged])(rng) for _ in range(rng.choice([0, 0, 1, 5, 80]))]
    last = [b"C %d" % rng.randrange(16), b"c %d" % rng.randrange(16), opening(rng)]
    return b"\n".join(lines + rng.choice([[], last[:1], last[1:2], last[2:]]) + [event(rng) for _ in range(5)]) + b"\n"


# A session of so many openings and events, in long lines.
def crowded(openings, events):
    lines = [b"U %d 4096" % flow for flow in range(openings)] + [b"f 15 1500"] * events
    return b"\n".join(lines) + b"\n"
