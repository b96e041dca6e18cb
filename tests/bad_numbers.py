"""Sessions that give bad numbers: weights, deadlines and lengths beyond their limits, and what is told before them."""
from named import CHARGES, paired


# The input and the output of each, worked out by hand.
def bad_numbers():
    return {**limits(), **orders(), **nothing_changed(), **every_flow()}


# Numbers at their limits and beyond them.
def limits():
    return {
        "case M, whole": paired(
            ("F 0 1", "ok"), ("f 0 10", "ok 0 0 7207200"), ("b", "ok 0 0 0"), ("b", "no 8"), ("F 1 0", "no 13"),
            ("F 1 17", "no 13"), ("F 1 1", "ok"), ("e", "ok 0 0"), ("b", "no 9"),
        ),
        "weights": paired(
            ("F 0 0", "no 13"), ("F 0 17", "no 13"), ("F 0 18", "no 13"), ("F 0 32", "no 13"), ("F 0 4096", "no 13"),
            ("F 0 4294967295", "no 13"), ("F 0 16", "ok"), ("f 0 1", "ok 0 0 45045"), ("F 1 1", "ok"),
            ("f 1 1", "ok 0 0 720720"),
        ),
        "deadlines": paired(
            ("U 0 0", "no 14"), ("U 0 4097", "no 14"), ("U 0 4098", "no 14"), ("U 0 8192", "no 14"),
            ("U 0 4294967295", "no 14"), ("U 0 4096", "ok"), ("u 0 4096", "ok 0 4095"), ("U 1 1", "ok"), ("u 1 1", "ok 0 0"),
            ("U 2 17", "ok"), ("u 2 17", "ok 0 16"),
        ),
        "lengths": paired(
            ("F 0 16", "ok"), ("f 0 0", "no 15"), ("f 0 1501", "no 15"), ("f 0 1502", "no 15"), ("f 0 3000", "no 15"),
            ("f 0 4294967295", "no 15"), ("f 0 1", "ok 0 0 45045"), ("f 0 1500", "ok 1 45045 67612545"),
            ("f 0 17", "ok 2 67612545 68378310"),
        ),
        "numbers whose lowest bits alone are good": paired(
            ("F 0 257", "no 13"), ("F 0 65552", "no 13"), ("F 0 2147483649", "no 13"), ("F 0 4294901761", "no 13"),
            ("F 0 1", "ok"), ("U 0 65537", "no 14"), ("U 0 69632", "no 14"), ("U 0 2147483649", "no 14"),
            ("U 0 4294901761", "no 14"), ("U 0 1", "ok"), ("f 0 65537", "no 15"), ("f 0 67036", "no 15"),
            ("f 0 2147483649", "no 15"), ("f 0 4294901761", "no 15"), ("f 0 1", "ok 0 0 720720"), ("u 0 1", "ok 0 0"),
        ),
        "texts that are no numbers": paired(
            ("F 0 4294967296", "no 11"), ("F 0 017", "no 11"), ("F 0 00", "no 11"), ("F 0 -1", "no 11"), ("F 0 17 ", "no 11"),
            ("U 0 4294967296", "no 11"), ("U 0 04097", "no 11"), ("U 0 00", "no 11"), ("F 0 1", "ok"),
            ("f 0 4294967296", "no 11"), ("f 0 01501", "no 11"), ("f 0 00", "no 11"), ("f 0 0", "no 15"), ("U 0 0", "no 14"),
            ("F 1 0", "no 13"),
        ),
    }


# Which refusal is given where several hold.
def orders():
    every = range(16)
    return {
        "a flow above 15 goes before a bad number": paired(
            ("F 16 0", "no 1"), ("F 16 17", "no 1"), ("F 4294967295 4294967295", "no 1"), ("F 16 1", "no 1"),
            ("U 16 0", "no 1"), ("U 16 4097", "no 1"), ("U 4294967295 4294967295", "no 1"), ("U 16 1", "no 1"),
            ("f 16 0", "no 1"), ("f 16 1501", "no 1"), ("f 4294967295 4294967295", "no 1"), ("f 16 1", "no 1"),
            ("F 15 0", "no 13"), ("U 15 0", "no 14"), ("F 15 1", "ok"), ("f 15 0", "no 15"), ("f 16 0", "no 1"),
        ),
        "open already goes before a bad number": paired(
            ("F 4 4", "ok"), ("F 4 0", "no 3"), ("F 4 17", "no 3"), ("F 4 4294967295", "no 3"), ("F 4 4", "no 3"),
            ("U 4 0", "no 14"), ("U 4 4", "ok"), ("U 4 0", "no 3"), ("U 4 4097", "no 3"), ("U 4 4294967295", "no 3"),
            ("U 4 4", "no 3"), ("U 5 5", "ok"), ("F 5 0", "no 13"), ("F 5 17", "no 13"), ("U 5 0", "no 3"), ("F 5 5", "ok"),
        ),
        "not open goes before a bad length": paired(
            ("f 7 0", "no 2"), ("f 7 1501", "no 2"), ("f 7 4294967295", "no 2"), ("U 7 7", "ok"), ("f 7 0", "no 2"),
            ("F 7 0", "no 13"), ("f 7 0", "no 2"), ("F 7 7", "ok"), ("f 7 0", "no 15"), ("f 7 1501", "no 15"), ("c 7", "ok"),
            ("f 7 0", "no 2"), ("f 7 1501", "no 2"), ("F 7 17", "no 13"), ("F 7 1", "ok"), ("f 7 1501", "no 15"),
            ("f 7 1", "ok 0 0 720720"),
        ),
        "a bad length goes before a full flow": paired(
            ("F 5 1", "ok"), *[("f 5 1", f"ok {k} {k * 720720} {(k + 1) * 720720}") for k in every], ("f 5 0", "no 15"),
            ("f 5 1501", "no 15"), ("f 5 4294967295", "no 15"), ("f 5 1", "no 5"), ("f 5 1500", "no 5"), ("F 5 0", "no 3"),
            ("b", "ok 5 0 0"), ("f 5 0", "no 15"), ("f 5 1", "ok 16 11531520 12252240"), ("f 5 1", "no 5"),
            ("f 5 0", "no 15"), ("e", "ok 5 0"), ("f 5 1501", "no 15"), ("f 5 1500", "no 5"), ("b", "ok 5 1 720720"),
            ("f 5 1501", "no 15"), ("f 5 1500", "ok 17 12252240 1093332240"),
        ),
    }


# After a refusal all goes on as if the call had not been made.
def nothing_changed():
    return {
        "a refused opening opens nothing": paired(
            ("U 2 0", "no 14"), ("u 2 1", "no 2"), ("C 2", "no 2"), ("U 2 4097", "no 14"), ("u 2 1", "no 2"), ("U 2 2", "ok"),
            ("u 2 2", "ok 0 1"), ("U 2 0", "no 3"), ("F 3 0", "no 13"), ("f 3 1", "no 2"), ("f 3 0", "no 2"), ("c 3", "no 2"),
            ("F 3 17", "no 13"), ("f 3 1", "no 2"), ("F 3 3", "ok"), ("f 3 3", "ok 0 0 720720"), ("F 3 0", "no 3"),
            ("f 3 1", "ok 1 720720 960960"),
        ),
        "a refused number leaves a closed flow closed": paired(
            ("F 0 1", "ok"), ("f 0 1", "ok 0 0 720720"), ("b", "ok 0 0 0"), ("e", "ok 0 0"), ("c 0", "ok"), ("F 0 17", "no 13"),
            ("f 0 0", "no 2"), ("c 0", "no 2"), ("F 0 16", "ok"), ("f 0 1501", "no 15"), ("f 0 1", "ok 1 720720 765765"),
            ("U 0 2", "ok"), ("u 0 2", "ok 0 1"), ("t", "sent 0 0 missed 0"), ("C 0", "ok"), ("U 0 4097", "no 14"),
            ("u 0 2", "no 2"), ("C 0", "no 2"), ("U 0 1", "ok"), ("u 0 1", "ok 1 1"),
        ),
        "packets go on after bad numbers": paired(
            ("F 0 1", "ok"), ("f 0 10", "ok 0 0 7207200"), ("f 0 0", "no 15"), ("f 0 1501", "no 15"),
            ("f 0 10", "ok 1 7207200 14414400"), ("b", "ok 0 0 0"), ("f 0 0", "no 15"), ("F 1 0", "no 13"), ("b", "no 8"),
            ("e", "ok 0 0"), ("f 0 1501", "no 15"), ("F 1 17", "no 13"), ("e", "no 10"), ("b", "ok 0 1 7207200"),
            ("e", "ok 0 1"), ("f 0 0", "no 15"), ("b", "no 9"), ("F 1 0", "no 13"), ("F 1 2", "ok"),
            ("f 1 1", "ok 0 14414400 14774760"), ("f 0 1501", "no 15"), ("f 0 1", "ok 2 14414400 15135120"),
            ("b", "ok 0 2 14414400"), ("f 1 0", "no 15"), ("e", "ok 0 2"), ("b", "ok 1 0 14414400"), ("e", "ok 1 0"),
        ),
        "cells go on after bad numbers": paired(
            ("U 0 3", "ok"), ("u 0 3", "ok 0 2"), ("U 1 0", "no 14"), ("U 0 0", "no 3"), ("t", "sent 0 0 missed 0"),
            ("U 1 4097", "no 14"), ("u 0 3", "ok 1 3"), ("x", "idle missed 0"), ("U 1 0", "no 14"), ("U 1 2", "ok"),
            ("u 1 2", "ok 0 3"), ("t", "sent 0 1 missed 0"), ("U 2 0", "no 14"), ("x", "idle missed 1"), ("u 1 2", "ok 1 5"),
            ("f 1 0", "no 2"), ("F 1 0", "no 13"), ("t", "sent 1 1 missed 0"),
        ),
    }


# The same of each of the sixteen flows.
def every_flow():
    every = range(16)
    return {
        "bad weights and lengths of every flow": paired(*[pair for flow in every for pair in (
            (f"F {flow} 0", "no 13"), (f"F {flow} 17", "no 13"), (f"f {flow} 0", "no 2"), (f"F {flow} {flow + 1}", "ok"),
            (f"F {flow} 0", "no 3"), (f"f {flow} 0", "no 15"), (f"f {flow} 1501", "no 15"),
            (f"f {flow} 1", f"ok 0 0 {CHARGES[flow]}"),
        )]),
        "bad deadlines of every flow": paired(*[pair for flow in every for pair in (
            (f"U {flow} 0", "no 14"), (f"U {flow} 4097", "no 14"), (f"u {flow} 1", "no 2"), (f"U {flow} {4096 - flow}", "ok"),
            (f"U {flow} 0", "no 3"), (f"u {flow} {4096 - flow}", f"ok 0 {4095 - flow}"),
        )]),
        "one bad number after another": paired(
            *[(f"F {flow} 17", "no 13") for flow in every], *[(f"U {flow} 4097", "no 14") for flow in every],
            *[(f"f {flow} 1501", "no 2") for flow in every], *[(f"F {flow} 16", "ok") for flow in every],
            *[(f"U {flow} 1", "ok") for flow in every], *[(f"F {flow} 17", "no 3") for flow in every],
            *[(f"U {flow} 4097", "no 3") for flow in every], *[(f"f {flow} 1501", "no 15") for flow in every],
            *[(f"f {flow} 1500", "ok 0 0 67567500") for flow in every], *[(f"u {flow} 1", "ok 0 0") for flow in every],
        ),
        "bad lengths with every flow full": paired(
            *[(f"F {flow} 1", "ok") for flow in every],
            *[(f"f {flow} 1", f"ok {k} {k * 720720} {(k + 1) * 720720}") for flow in every for k in every],
            *[pair for flow in every for pair in (
                (f"f {flow} 0", "no 15"), (f"f {flow} 1501", "no 15"), (f"f {flow} 1", "no 5"), (f"f {flow} 1500", "no 5"),
            )],
            ("b", "ok 0 0 0"), ("f 0 1501", "no 15"), ("f 0 1", "ok 16 11531520 12252240"), ("f 0 0", "no 15"), ("f 0 1", "no 5"),
        ),
    }
