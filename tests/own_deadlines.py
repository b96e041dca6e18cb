"""Sessions whose cells have deadlines of their own: below the flow's, above it, and none at all."""
from named import paired

EVERY = range(16)


# The input and the output of each, worked out by hand.
def sessions():
    return {**orders(), **refusals(), **limits(), **openings(), **texts()}


# Which cell goes, and which is missed.
def orders():
    return {
        "the later number goes first": paired(
            ("U 0 5", "ok"), ("u 0 5", "ok 0 4"), ("u 0 2", "ok 1 1"), ("t", "sent 0 1 missed 0"), ("t", "sent 0 0 missed 0"), ("t", "idle missed 0"),
        ),
        "deadline 1 behind fifteen of 4,096": paired(
            ("U 3 4096", "ok"), *[("u 3 4096", f"ok {k} 4095") for k in range(15)], ("u 3 1", "ok 15 0"), ("u 3 1", "no 5"),
            ("t", "sent 3 15 missed 0"), ("u 3 4096", "ok 16 4096"), *[("t", f"sent 3 {k} missed 0") for k in range(15)],
            ("t", "sent 3 16 missed 0"), ("u 3 1", "ok 17 17"), ("t", "sent 3 17 missed 0"),
        ),
        "the last comes first, all sixteen": paired(
            ("U 9 16", "ok"), *[(f"u 9 {16 - k}", f"ok {k} {15 - k}") for k in EVERY], ("u 9 1", "no 5"),
            *[("t", f"sent 9 {15 - k} missed 0") for k in EVERY], ("t", "idle missed 0"),
        ),
        "the last is missed first, all sixteen": paired(
            ("U 9 16", "ok"), *[(f"u 9 {16 - k}", f"ok {k} {15 - k}") for k in EVERY], *[("x", "idle missed 1")] * 16, ("x", "idle missed 0"),
            ("u 9 16", "ok 16 32"),
        ),
        "missed before an earlier number is sent": paired(
            ("U 0 5", "ok"), ("u 0 5", "ok 0 4"), ("u 0 1", "ok 1 0"), ("u 0 1", "ok 2 0"), ("x", "idle missed 2"), ("u 0 1", "ok 3 1"),
            ("t", "sent 0 3 missed 0"), ("t", "sent 0 0 missed 0"),
        ),
        "one last slot, of cells that came apart: the lowest number": paired(
            ("U 0 4", "ok"), ("u 0 4", "ok 0 3"), ("u 0 3", "ok 1 2"), ("x", "idle missed 0"), ("u 0 2", "ok 2 2"), ("u 0 3", "ok 3 3"),
            ("u 0 1", "ok 4 1"), ("t", "sent 0 4 missed 0"), ("t", "sent 0 1 missed 1"), ("t", "sent 0 0 missed 1"),
        ),
        "one last slot: the lowest flow, then the lowest number": paired(
            ("U 5 9", "ok"), ("U 2 3", "ok"), ("u 5 1", "ok 0 0"), ("u 2 3", "ok 0 2"), ("u 2 1", "ok 1 0"), ("t", "sent 2 1 missed 1"),
            ("u 5 2", "ok 1 2"), ("u 5 9", "ok 2 9"), ("u 2 2", "ok 2 2"), ("t", "sent 2 0 missed 0"), ("t", "sent 2 2 missed 1"), ("t", "sent 5 2 missed 0"),
        ),
        "a cell goes before those of a flow of shorter deadline": paired(
            ("U 0 2", "ok"), ("U 1 4096", "ok"), ("u 0 2", "ok 0 1"), ("u 1 4096", "ok 0 4095"), ("u 1 1", "ok 1 0"), ("t", "sent 1 1 missed 0"),
            ("t", "sent 0 0 missed 0"), ("t", "sent 1 0 missed 0"),
        ),
        "places are left out of order, and used again": paired(
            ("U 4 20", "ok"), *[(f"u 4 {20 - k}", f"ok {k} {19 - k}") for k in EVERY], ("u 4 20", "no 5"), ("t", "sent 4 15 missed 0"),
            ("u 4 20", "ok 16 20"), ("u 4 20", "no 5"), ("t", "sent 4 14 missed 0"), ("u 4 1", "ok 17 2"), ("u 4 1", "no 5"),
            ("t", "sent 4 17 missed 0"), *[("t", f"sent 4 {13 - k} missed 0") for k in range(14)], ("t", "sent 4 16 missed 0"), ("t", "idle missed 0"),
        ),
    }


# What is refused, and which refusal is given where several hold.
def refusals():
    bad = ("u 2 0", "no 14"), ("u 2 4", "no 14"), ("u 2 4096", "no 14"), ("u 2 4097", "no 14"), ("u 2 4294967295", "no 14")
    return {
        "a bad deadline goes before a full flow": paired(
            ("U 2 3", "ok"), *bad, *[("u 2 3", f"ok {k} 2") for k in EVERY], *bad, ("u 2 3", "no 5"), ("u 2 1", "no 5"), ("t", "sent 2 0 missed 0"), *bad,
            ("u 2 1", "ok 16 1"), *bad, ("u 2 1", "no 5"), ("t", "sent 2 16 missed 0"), ("t", "sent 2 1 missed 14"), *bad, ("u 2 3", "ok 17 5"),
        ),
        "not open goes before a bad deadline": paired(
            ("u 7 0", "no 2"), ("u 7 4097", "no 2"), ("u 7 1", "no 2"), ("F 7 7", "ok"), ("u 7 0", "no 2"), ("U 7 0", "no 14"), ("u 7 0", "no 2"),
            ("U 7 2", "ok"), ("u 7 0", "no 14"), ("u 7 3", "no 14"), ("u 7 2", "ok 0 1"), ("t", "sent 7 0 missed 0"), ("C 7", "ok"), ("u 7 2", "no 2"),
            ("u 7 0", "no 2"), ("u 7 3", "no 2"),
        ),
        "a flow above 15 goes before a bad deadline": paired(
            ("u 16 0", "no 1"), ("u 16 1", "no 1"), ("u 16 4097", "no 1"), ("u 4294967295 4294967295", "no 1"), ("u 15 0", "no 2"), ("U 15 1", "ok"),
            ("u 15 0", "no 14"), ("u 16 0", "no 1"), ("u 15 2", "no 14"), ("u 15 1", "ok 0 0"),
        ),
        "a refused cell changes nothing": paired(
            ("U 0 3", "ok"), ("u 0 4", "no 14"), ("C 0", "ok"), ("U 0 3", "ok"), ("u 0 3", "ok 0 2"), ("u 0 0", "no 14"), ("u 0 4", "no 14"),
            ("t", "sent 0 0 missed 0"), ("u 0 4097", "no 14"), ("C 0", "ok"), ("U 0 3", "ok"), ("u 0 2", "ok 1 2"), ("u 0 4", "no 14"),
            ("x", "idle missed 0"), ("x", "idle missed 1"), ("u 0 4", "no 14"), ("u 0 3", "ok 2 5"),
        ),
        "a deadline of one cell is not that of the next": paired(
            ("U 0 9", "ok"), ("u 0 1", "ok 0 0"), ("u 0 9", "ok 1 8"), ("u 0 4", "ok 2 3"), ("u 0 9", "ok 3 8"), ("u 0 10", "no 14"), ("t", "sent 0 0 missed 0"),
            ("u 0 9", "ok 4 9"), ("u 0 10", "no 14"), ("t", "sent 0 2 missed 0"),
        ),
    }


# Deadlines at their limits and beyond them, of each flow.
def limits():
    return {
        "deadlines up to 4,096": paired(
            ("U 0 4096", "ok"), ("u 0 0", "no 14"), ("u 0 4097", "no 14"), ("u 0 4098", "no 14"), ("u 0 8192", "no 14"), ("u 0 4294967295", "no 14"),
            ("u 0 4096", "ok 0 4095"), ("u 0 4095", "ok 1 4094"), ("u 0 2", "ok 2 1"), ("u 0 1", "ok 3 0"), ("t", "sent 0 3 missed 0"),
            ("t", "sent 0 2 missed 0"), ("t", "sent 0 1 missed 0"), ("t", "sent 0 0 missed 0"),
        ),
        "deadlines whose lowest bits alone are good": paired(
            ("U 0 1", "ok"), ("u 0 257", "no 14"), ("u 0 65537", "no 14"), ("u 0 2147483649", "no 14"), ("u 0 4294901761", "no 14"), ("u 0 1", "ok 0 0"),
            ("U 1 4096", "ok"), ("u 1 69632", "no 14"), ("u 1 65537", "no 14"), ("u 1 4096", "ok 0 4095"),
        ),
        "each flow by its own deadline": paired(
            *[(f"U {flow} {flow + 2}", "ok") for flow in EVERY],
            *[pair for flow in EVERY for pair in (
                (f"u {flow} {flow + 3}", "no 14"), (f"u {flow} 0", "no 14"), (f"u {flow} {flow + 2}", f"ok 0 {flow + 1}"), (f"u {flow} {flow + 1}", f"ok 1 {flow}"),
            )],
            ("t", "sent 0 1 missed 0"), *[("t", f"sent {flow} 0 missed 1") for flow in range(15)], ("t", "sent 15 0 missed 0"), ("t", "idle missed 0"),
        ),
        "each flow with deadline 1": paired(
            *[(f"U {flow} 4096", "ok") for flow in EVERY], *[(f"u {flow} 4096", "ok 0 4095") for flow in EVERY], ("u 15 1", "ok 1 0"), ("u 8 1", "ok 1 0"),
            ("t", "sent 8 1 missed 1"), *[("t", f"sent {flow} 0 missed 0") for flow in EVERY], ("t", "idle missed 0"),
        ),
    }


# A flow that is closed and opened with another deadline.
def openings():
    return {
        "opened again with a smaller deadline": paired(
            ("U 1 10", "ok"), ("u 1 10", "ok 0 9"), ("u 1 4", "ok 1 3"), ("C 1", "no 12"), ("t", "sent 1 1 missed 0"), ("C 1", "no 12"),
            ("t", "sent 1 0 missed 0"), ("C 1", "ok"), ("u 1 4", "no 2"), ("U 1 4", "ok"), ("u 1 5", "no 14"), ("u 1 10", "no 14"), ("u 1 4", "ok 2 5"),
            ("u 1 3", "ok 3 4"), ("t", "sent 1 3 missed 0"), ("t", "sent 1 2 missed 0"), ("C 1", "ok"), ("U 1 1", "ok"), ("u 1 4", "no 14"), ("u 1 2", "no 14"),
            ("u 1 1", "ok 4 4"), ("x", "idle missed 1"),
        ),
        "opened again with a larger deadline": paired(
            ("U 6 1", "ok"), ("u 6 2", "no 14"), ("u 6 1", "ok 0 0"), ("t", "sent 6 0 missed 0"), ("C 6", "ok"), ("U 6 4096", "ok"), ("u 6 4096", "ok 1 4096"),
            ("u 6 4097", "no 14"), ("u 6 2", "ok 2 2"), ("U 6 1", "no 3"), ("u 6 2", "ok 3 2"), ("t", "sent 6 2 missed 0"), ("t", "sent 6 3 missed 0"),
            ("C 6", "no 12"), ("t", "sent 6 1 missed 0"), ("C 6", "ok"),
        ),
    }


# Lines that are no command, and leave the lane as it is.
def texts():
    bad = [
        "u", "u 0", "u 15", "u 16", "u 4294967295", "u 0 ", "u 0  3", "u  0 3", " u 0 3", "u 0 3 ", "u 0 3 3", "u 0 3 x", "u 0 x", "u x 3", "u 0 03", "u 00 3", "u 0 -1",
        "u 0 +3", "u 0 3.", "u 0 4294967296", "u 0 10000000000", "u 4294967296 3", "u 0\t3", "u\t0 3", "u 0 3\r", "u0 3", "u 03", "uu 0 3", "u 0,3", "u 0 3" + " " * 28,
        "u 0 " + "0" * 29,
    ]
    return {
        "lines that offer no cell": paired(
            ("U 0 3", "ok"), *[(line, "no 11") for line in bad], ("C 0", "ok"), ("U 0 3", "ok"), *[pair for line in bad for pair in ((line, "no 11"), ("t", "idle missed 0"))],
            ("u 0 3", f"ok 0 {len(bad) + 2}"),
        ),
    }
