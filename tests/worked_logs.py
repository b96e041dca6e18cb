"""Shift logs worked out by hand: what their reader says, two of them side by side, and sessions with their logs."""

from named import text

# A log of two urgent openings, (0, 3) and (2, 4096), one fair opening, (15, 16), and the events t, a cell of flow 2, f 15 1500. Its first
# byte is 1: the cell has its flow's deadline. With first byte 2 it has its own, 300.
FIRST = "01"
TABLE = "19000000 06000000 1f000000 03000000 22000000 0c000000"
URGENT, FAIR, EVENTS = "000300 020010", "0f1000", "00000000 02020000 030fdc05"
OWN_EVENTS = "00000000 02022c01 030fdc05"
EMPTY = "01 19000000 00000000 19000000 00000000 19000000 00000000"
OWN_EMPTY = "02" + EMPTY[2:]


# Bytes from hexadecimal parts.
def joined(*parts):
    return bytes.fromhex(" ".join(parts))


# The whole log, with parts of it put in the stead of its own.
def the_log(first=FIRST, table=TABLE, urgent=URGENT, fair=FAIR, events=EVENTS, more=""):
    return joined(first, table, urgent, fair, events, more)


# The same of first byte 2.
def own_log(events=OWN_EVENTS, **parts):
    return the_log(first="02", events=events, **parts)


# Bytes, each with what their reader says.
def verdicts():
    return [
        (the_log(), "ok 1 2 1 3 46"),
        (joined(EMPTY), "ok 1 0 0 0 25"),
        (b"", "no 23 0"),
        (b"\0", "no 20 0"),
        (b"\3", "no 20 0"),
        (b"\377", "no 20 0"),
        (b"\1", "no 23 1"),
        (b"\2", "no 23 1"),
        (the_log(first="03"), "no 20 0"),
        (own_log(), "ok 2 2 1 3 46"),
        (joined(OWN_EMPTY), "ok 2 0 0 0 25"),
        (the_log(first="02"), "no 22 38"),
        (the_log(events=OWN_EVENTS), "no 22 38"),
        (own_log(events="00000000 02020100 030fdc05"), "ok 2 2 1 3 46"),
        (own_log(events="00000000 020f0010 030fdc05"), "ok 2 2 1 3 46"),
        (own_log(events="00000000 02020110 030fdc05"), "no 22 38"),
        (own_log(events="00000000 0202ffff 030fdc05"), "no 22 38"),
        (own_log(events="00000000 02102c01 030fdc05"), "no 22 38"),
        (own_log(events="00000000 02022c01 030f0000"), "no 22 42"),
        (own_log(events="00000000 02022c01 030fdd05"), "no 22 42"),
        (own_log(events="00002c01 02022c01 030fdc05"), "no 22 34"),
        (own_log(events="00000000 02022c01 06000000"), "no 22 42"),
        (own_log(events="00000000 02022c01 040f0100"), "no 22 42"),
        (own_log()[:41], "no 23 41"),
        (own_log()[:24], "no 23 24"),
        (own_log(events="00000000 020200"), "no 23 41"),
        (own_log(more="00"), "no 24 46"),
        (own_log(urgent="000300 000010"), "no 22 28"),
        (joined("02 18000000"), "no 21 1"),
        (joined("02 19000000 00000000 19000000 00000000 19000000 e8ff0000"), "no 21 21"),
        (the_log()[:4], "no 23 4"),
        (the_log()[:24], "no 23 24"),
        (the_log()[:25], "no 23 25"),
        (the_log()[:26], "no 23 26"),
        (the_log()[:45], "no 23 45"),
        (the_log(more="00"), "no 24 46"),
        (joined(EMPTY, "00"), "no 24 25"),
        (joined("01 18000000"), "no 21 1"),
        (joined("01 180000"), "no 23 4"),
        (joined("01 19000000 04000000"), "no 21 5"),
        (joined("01 19000000 33000000"), "no 21 5"),
        (joined("01 19000000 30000000"), "no 23 9"),
        (joined("01 19000000 06000000 19000000"), "no 21 9"),
        (joined("01 19000000 06000000 1f000000 05000000"), "no 21 13"),
        (joined("01 19000000 06000000 1f000000 03000000 1f000000"), "no 21 17"),
        (joined("01 19000000 06000000 1f000000 03000000 22000000 0e000000"), "no 21 21"),
        (joined("01 19000000 00000000 19000000 00000000 19000000 e8ff0000"), "no 21 21"),
        (joined("01 19000000 00000000 19000000 00000000 19000000 e4ff0000"), "no 23 25"),
        (joined("01 19000000 00000000 19000000 03000000 1c000000 e4ff0000"), "no 23 25"),
        (joined("01 19000000 03000000 1c000000 03000000 1f000000 e4ff0000"), "no 21 21"),
        (joined("01 19000000 00000000 19000000 00000000 19000000 fcffffff"), "no 21 21"),
        (joined("01 19000000 ffffffff 18000000"), "no 21 5"),
        (the_log(urgent="000300 000010"), "no 22 28"),
        (the_log(urgent="030300 020010"), "no 22 28"),
        (the_log(urgent="000000 020010"), "no 22 25"),
        (the_log(urgent="000300 020110"), "no 22 28"),
        (the_log(urgent="000300 100010"), "no 22 28"),
        (the_log(fair="0f1100"), "no 22 31"),
        (the_log(fair="0f1001"), "no 22 31"),
        (the_log(fair="100100"), "no 22 31"),
        (the_log(fair="001000"), "ok 1 2 1 3 46"),
        (the_log(events="00010000 02020000 030fdc05"), "no 22 34"),
        (the_log(events="01000000 02020100 030fdc05"), "no 22 38"),
        (the_log(events="04000000 02100000 030fdc05"), "no 22 38"),
        (the_log(events="05000000 020f0000 030fdd05"), "no 22 42"),
        (the_log(events="00000000 02020000 03000000"), "no 22 42"),
        (the_log(events="00000000 02020000 03100100"), "no 22 42"),
        (the_log(events="00000000 02020000 06000000"), "no 22 42"),
        (the_log(events="00000000 02020000 06000000", more="00"), "no 22 42"),
        (the_log(events="00000000 02020000 060000"), "no 23 45"),
        (the_log(first="00", urgent="000000 000000"), "no 20 0"),
    ]


# Two logs, each pair with the first place at which they differ and the tail of the longer.
def side_by_side():
    shorter = the_log(table=TABLE[:-8] + "08000000", events="00000000 02020000")
    own_shorter = own_log(table=TABLE[:-8] + "08000000", events="00000000 02022c01")
    return [
        (the_log(), the_log(), "none", ""),
        (shorter, the_log(), "none", "030fdc05"),
        (the_log(), shorter, "none", "030fdc05"),
        (the_log(), the_log(events="00000000 02020000 030fdc04"), "at 45", ""),
        (the_log(), the_log(events="01000000 02020000 030fdc05"), "at 34", ""),
        (the_log(events="00000000 02030000 030fdc05"), shorter, "at 39", ""),
        (the_log(events="00000000 02020000 030fdb05"), shorter, "none", "030fdb05"),
        (the_log(urgent="000400 020010"), shorter, "none", ""),
        (shorter, the_log(fair="0e1000"), "none", ""),
        (shorter, the_log(more="00"), "none", ""),
        (the_log(first="03"), shorter, "none", ""),
        (the_log(first="03"), the_log(first="03", events="01000000 02020000 030fdc05"), "none", ""),
        (own_log(), own_log(), "none", ""),
        (own_shorter, own_log(), "none", "030fdc05"),
        (own_log(), own_shorter, "none", "030fdc05"),
        (own_log(), own_log(events="00000000 02022d01 030fdc05"), "at 40", ""),
        (own_log(events="00000000 02022c02 030fdc05"), own_shorter, "at 41", ""),
        (own_log(), own_log(events="00000000 02022c01 030fdc04"), "at 45", ""),
        (own_log(urgent="000400 020010"), own_shorter, "none", ""),
        (the_log(), own_log(), "none", ""),
        (own_log(), the_log(), "none", ""),
        (shorter, own_log(), "none", ""),
        (own_shorter, the_log(), "none", ""),
        (the_log(first="02"), the_log(), "none", ""),
        (the_log(first="02"), own_shorter, "none", ""),
        (joined(EMPTY), joined(OWN_EMPTY), "none", ""),
        (joined(OWN_EMPTY), joined(EMPTY[:-8], "04000000 05000000"), "none", ""),
        (joined(OWN_EMPTY[:-8], "04000000 01000000"), joined(EMPTY[:-8], "04000000 05000000"), "none", ""),
        (joined(OWN_EMPTY), joined(OWN_EMPTY[:-8], "04000000 02050010"), "none", "02050010"),
        (
            joined("01 19000000 03000000 1c000000 00000000 1c000000 04000000 030500 00000000"),
            joined("01 19000000 00000000 19000000 03000000 1c000000 08000000 030500 00000000 00000000"), "none", "",
        ),
        (b"", b"", "none", ""),
        (joined(EMPTY), joined(EMPTY), "none", ""),
        (joined(EMPTY), joined(EMPTY[:-8], "04000000 05000000"), "none", "05000000"),
    ]


# Bodies of records told as numbers, each with the first byte, the length of a room, what the writer says, and how the room begins after it.
def writings():
    urgent, fair, events, own = [768, 1048578], [4111], [0, 514, 98307843], [0, 19661314, 98307843]
    return [
        (1, [urgent, fair, events], 46, "ok 46", the_log()),
        (1, [urgent, fair, events], 48, "ok 46", the_log(more="eeee")),
        (1, [urgent, fair, events], 45, "no 26", joined("ee" * 45)),
        (1, [[], [], []], 25, "ok 25", joined(EMPTY)),
        (1, [[], [], []], 24, "no 26", joined("ee" * 24)),
        (1, [urgent[::-1], fair, events], 46, "no 22 1", joined("ee" * 46)),
        (1, [urgent, [4367], events], 46, "no 22 2", joined("ee" * 46)),
        (1, [urgent, fair, [0, 514, 98373379]], 9, "no 22 5", joined("ee" * 9)),
        (1, [[16777984], fair, [6]], 90, "no 22 0", joined("ee" * 90)),
        (1, [urgent, fair, [65536, 514, 6]], 0, "no 22 3", b""),
        (1, [urgent, fair, own], 46, "no 22 4", joined("ee" * 46)),
        (2, [urgent, fair, own], 46, "ok 46", own_log()),
        (2, [urgent, fair, own], 48, "ok 46", own_log(more="eeee")),
        (2, [urgent, fair, own], 45, "no 26", joined("ee" * 45)),
        (2, [[], [], []], 25, "ok 25", joined(OWN_EMPTY)),
        (2, [urgent, fair, events], 46, "no 22 4", joined("ee" * 46)),
        (2, [urgent, fair, [0, 268435970, 98307843]], 46, "ok 46", own_log("00000000 02020010 030fdc05")),
        (2, [urgent, fair, [0, 268501506, 98307843]], 46, "no 22 4", joined("ee" * 46)),
        (2, [urgent, fair, [0, 66050, 98307843]], 3, "no 26", joined("ee" * 3)),
        (2, [urgent[::-1], fair, events], 46, "no 22 1", joined("ee" * 46)),
    ]


# Logs and records of theirs by body and index, each as a line. In body 3 a cell of first byte 1 has its flow's deadline, or 1.
def records():
    shut = the_log(events="00000000 02030000 030fdc05")
    return [
        *[(data, *one) for data in (the_log(), own_log()) for one in (
            (0, 0, "word 768"), (0, 1, "word 1048578"), (0, 2, "nothing"), (1, 0, "word 4111"), (1, 1, "nothing"),
            (2, 0, "word 0"), (2, 2, "word 98307843"), (2, 3, "nothing"), (3, 0, "word 0"), (3, 2, "word 98307843"), (3, 3, "nothing"),
        )],
        (the_log(), 2, 1, "word 514"), (the_log(), 3, 1, "word 268435970"), (own_log(), 2, 1, "word 19661314"), (own_log(), 3, 1, "word 19661314"),
        (the_log(events="02000000 02020000 030fdc05"), 3, 0, "word 196610"), (shut, 2, 1, "word 770"), (shut, 3, 1, "word 66306"),
        (own_log(events="00000000 02030700 030fdc05"), 3, 1, "word 459522"),
        (the_log(first="03"), 3, 0, "no 20 0"), (the_log(first="02"), 3, 0, "no 22 38"), (joined(EMPTY), 3, 0, "nothing"),
    ]


# Sessions, each with its log, which has first byte 2.
def sessions():
    opened = "02 19000000 03000000 1c000000 03000000 1f000000"
    short = joined(opened, "04000000 010100 010100 04000000")
    return {
        "nothing": (b"", joined(OWN_EMPTY)),
        "no command": (text("", "foo", "U 0 3 ", "t t", "u", "u 0", "u 0 3 3", "u 0  3", "C 0x"), joined(OWN_EMPTY)),
        "all records": (text("U 2 4096", "F 15 16", "U 0 3", "t", "u 2 300", "f 15 1500"), own_log()),
        "a last line without an end": (text("U 2 4096", "F 15 16", "U 0 3", "t", "u 2 300", "f 15 1500")[:-1], own_log()),
        "the rules' session": (
            text("U 0 3", "U 1 1", "u 0 3", "u 1 1", "t", "t", "F 0 1", "f 0 100", "b", "e", "u 9 1", "b"),
            joined("02 19000000 06000000 1f000000 00000000 1f000000 10000000 000300 010100 02000300 02010100 00000000 00000000"),
        ),
        "refused events": (
            text("U 1 1", "F 1 1", "u 3 4096", "f 3 7", "e", "b", "x"),
            joined(opened, "14000000 010100 010100 02030010 03030700 05000000 04000000 01000000"),
        ),
        "a deadline above the flow's": (
            text("U 1 1", "F 1 1", "u 1 2", "u 1 4096", "u 1 1", "u 2 4096"),
            joined(opened, "10000000 010100 010100 02010200 02010010 02010100 02020010"),
        ),
        "refused openings before the first event": (
            text("U 1 1", "U 1 2", "F 1 17", "F 1 1", "F 1 1", "U 16 1", "U 2 0", "U 3 4097", "t"), joined(opened, "04000000 010100 010100 00000000"),
        ),
        "beyond the limits": (
            text(
                "U 1 1", "F 1 1", "u 16 1", "u 1 0", "u 1 4097", "u 9 0", "u 1 4294967295", "f 16 1", "f 1 0", "f 1 1501", "C 16", "c 4294967295", "b", "U 16 1",
                "U 2 0", "U 2 4097", "F 2 0", "F 99 1", "C 16", "u 2 0", "e",
            ),
            joined(opened, "08000000 010100 010100 04000000 05000000"),
        ),
        "an event beyond the limits is not the first": (text("u 16 1", "u 1 0", "f 0 0", "U 1 1", "u 99 1", "u 1 4097", "F 1 1", "b"), short),
        "a refused cell is the first": (text("U 1 1", "F 1 1", "u 1 2", "U 2 5", "b"), joined(opened, "04000000 010100 010100 02010200")),
        "a further opening": (text("U 1 1", "F 1 1", "b", "U 2 5", "e"), short),
        "a further opening that is refused": (text("U 1 1", "F 1 1", "b", "F 1 1", "e"), short),
        "a closing": (text("U 1 1", "F 1 1", "b", "C 1", "e"), short),
        "a closing that is refused": (text("U 1 1", "F 1 1", "b", "c 2", "e"), short),
        "a closing before the first event": (text("U 1 1", "F 1 1", "c 1", "F 1 2", "b"), joined(opened, "00000000 010100 010100")),
        "a refused closing first of all": (text("C 0", "U 1 1", "t"), joined(OWN_EMPTY)),
    }
