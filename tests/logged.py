"""A plain model of logging: the log of a session's lines, a log's records as lines, and the log program.

    logged.py COMMAND < bytes

writes what `./tuhkeliar log COMMAND` writes, for check, show and write.
"""

import sys

import reference
from shift_log import (
    BEGIN, BY_CELL, CELL, END, LAST_FLOW, LAST_LENGTH, LOST_TURN, MOST, NUMBERS, OPEN_TURN, PACKET, Log, bytes_of, difference_line, log_of_bytes, refusal, tail,
    verdict, with_deadlines,
)

OPENINGS, CLOSINGS = (b"U", b"F"), (b"C", b"c")
EVENTS = {b"t": OPEN_TURN, b"x": LOST_TURN, b"u": CELL, b"f": PACKET, b"b": BEGIN, b"e": END}
WORDS = {kind: word.decode() for word, kind in EVENTS.items()}


# The calls of a session and their replies; a line that is no command is none.
def calls(given):
    for line, reply in zip(reference.lines_of(given), reference.session(given).decode().split("\n")):
        if reply != "no 11":
            word, *numbers = line.split(b" ")
            yield word, [int(number) for number in numbers], reply


# Whether a call's numbers are such as the station can take: the flow, the deadline, weight or length.
def within_limits(word, numbers):
    largest = {b"U": NUMBERS[0], b"F": NUMBERS[1], b"u": NUMBERS[0], b"f": LAST_LENGTH}.get(word)
    return all(flow <= LAST_FLOW for flow in numbers[:1]) and (largest is None or 1 <= numbers[1] <= largest)


# The log of a session, which has each cell's own deadline, and the replies that its events got.
def log_of(given):
    opened, events, replies = {b"U": {}, b"F": {}}, [], []
    for word, numbers, reply in calls(given):
        if not within_limits(word, numbers):
            continue
        if word in CLOSINGS or word in OPENINGS and events:
            break
        if word in OPENINGS:
            if reply == "ok":
                opened[word][numbers[0]] = numbers[1]
        else:
            flow, length = (*numbers, 0, 0)[:2]
            events.append((EVENTS[word], flow, length))
            replies.append(reply)
    return Log(BY_CELL, *[sorted(opened[word].items()) for word in OPENINGS], events), replies


# A log's records as lines of a session, each cell with its deadline.
def shown(log):
    lines = ["U %d %d" % opening for opening in log.urgent] + ["F %d %d" % opening for opening in log.fair]
    for kind, flow, length in with_deadlines(log):
        numbers = [flow, length] if kind in (CELL, PACKET) else []
        lines.append(" ".join([WORDS[kind], *map(str, numbers)]))
    return "".join(line + "\n" for line in lines).encode("ascii")


# What the log program writes on its command line and the bytes after it, and what it says on standard error.
def answers(command, given):
    word, *lengths = command.split(" ")
    one, other = (given[: int(lengths[0])], given[int(lengths[0]) :]) if lengths else (given, b"")
    match word:
        case "diff":
            return difference_line(one, other).encode() + b"\n", b""
        case "tail":
            return tail(one, other), b""
        case "write":
            data = bytes_of(log_of(given)[0])
            return (data, b"ok %d\n" % len(data)) if len(data) <= MOST else (b"", b"no 26\n")
        case "show" if refusal(given) is None:
            return shown(log_of_bytes(given)), b""
        case "check" | "show":
            return verdict(given).encode() + b"\n", b""


if __name__ == "__main__":
    wrote, said = answers(sys.argv[1], sys.stdin.buffer.read())
    sys.stdout.buffer.write(wrote)
    sys.stderr.buffer.write(said)
