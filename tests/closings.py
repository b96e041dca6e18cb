"""Sessions that close flows and open them again."""
from named import CHARGES, paired


# The input and the output of each, worked out by hand.
def closings():
    every = range(16)
    bad_texts = [
        "C", "c", "C ", "c ", "C 1 2", "c 1 2", "C  1", "c  1", " C 1", " c 1", "C 1 ", "c 1 ", "C 01", "c 00",
        "C 4294967296", "c 4294967296", "C 10000000000", "c 10000000000", "C1", "c1", "C -1", "c +1", "C\t1", "c 1\r",
        "CC 1", "cc 1", "C f", "c f", "C 0000000001", "c 1" + " " * 30,
    ]
    return {
        "flow above 15 to close": paired(
            ("C 16", "no 1"), ("c 16", "no 1"), ("C 99", "no 1"), ("c 256", "no 1"), ("C 65536", "no 1"),
            ("c 65537", "no 1"), ("C 4294967295", "no 1"), ("c 4294967295", "no 1"), ("C 15", "no 2"), ("c 15", "no 2"),
            ("U 15 1", "ok"), ("F 15 1", "ok"), ("C 15", "ok"), ("c 15", "ok"), ("C 16", "no 1"), ("c 16", "no 1"),
        ),
        "not open to close": paired(
            ("C 0", "no 2"), ("c 0", "no 2"), ("U 1 5", "ok"), ("C 0", "no 2"), ("C 1", "ok"), ("C 1", "no 2"),
            ("F 1 5", "ok"), ("c 0", "no 2"), ("c 1", "ok"), ("c 1", "no 2"),
            ("U 2 0", "no 14"), ("C 2", "no 2"), ("F 2 17", "no 13"), ("c 2", "no 2"),
        ),
        "closed in one lane": paired(
            ("U 3 4", "ok"), ("F 3 4", "ok"), ("C 3", "ok"), ("u 3 4", "no 2"), ("f 3 1", "ok 0 0 180180"), ("c 3", "no 12"),
            ("U 3 4", "ok"), ("u 3 4", "ok 0 3"), ("b", "ok 3 0 0"), ("e", "ok 3 0"), ("c 3", "ok"), ("f 3 1", "no 2"),
            ("u 3 4", "ok 1 3"), ("C 3", "no 12"), ("t", "sent 3 0 missed 0"), ("C 3", "no 12"), ("c 3", "no 2"),
            ("F 3 4", "ok"), ("c 3", "ok"), ("t", "sent 3 1 missed 0"), ("C 3", "ok"),
        ),
        "a cell waits": paired(
            ("U 0 3", "ok"), ("U 1 3", "ok"), ("u 0 3", "ok 0 2"), ("C 0", "no 12"), ("C 1", "ok"), ("u 1 3", "no 2"),
            ("C 0", "no 12"), ("u 0 3", "ok 1 2"), ("C 0", "no 12"), ("t", "sent 0 0 missed 0"), ("C 0", "no 12"),
            ("t", "sent 0 1 missed 0"), ("C 0", "ok"), ("C 0", "no 2"), ("u 0 3", "no 2"), ("t", "idle missed 0"),
        ),
        "the last cell is missed": paired(
            ("U 0 1", "ok"), ("U 1 1", "ok"), ("u 0 1", "ok 0 0"), ("u 1 1", "ok 0 0"), ("C 0", "no 12"), ("C 1", "no 12"),
            ("t", "sent 0 0 missed 1"), ("C 1", "ok"), ("C 0", "ok"), ("U 1 1", "ok"), ("u 1 1", "ok 1 1"), ("C 1", "no 12"),
            ("x", "idle missed 1"), ("C 1", "ok"), ("t", "idle missed 0"),
        ),
        "a lost turn keeps a cell that is in time": paired(
            ("U 0 2", "ok"), ("u 0 2", "ok 0 1"), ("x", "idle missed 0"), ("C 0", "no 12"), ("x", "idle missed 1"),
            ("C 0", "ok"), ("t", "idle missed 0"),
        ),
        "a packet waits, then is in service": paired(
            ("F 0 1", "ok"), ("F 1 1", "ok"), ("f 0 10", "ok 0 0 7207200"), ("c 0", "no 12"), ("c 1", "ok"),
            ("f 1 10", "no 2"), ("b", "ok 0 0 0"), ("c 0", "no 12"), ("b", "no 8"), ("e", "ok 0 0"), ("c 0", "ok"),
            ("c 0", "no 2"), ("f 0 10", "no 2"), ("b", "no 9"), ("e", "no 10"),
        ),
        "packets wait while one is in service": paired(
            ("F 2 2", "ok"), ("f 2 1", "ok 0 0 360360"), ("f 2 1", "ok 1 360360 720720"), ("c 2", "no 12"),
            ("b", "ok 2 0 0"), ("c 2", "no 12"), ("e", "ok 2 0"), ("c 2", "no 12"), ("b", "ok 2 1 360360"),
            ("c 2", "no 12"), ("e", "ok 2 1"), ("c 2", "ok"),
        ),
        "a packet of another flow is in service": paired(
            ("F 0 1", "ok"), ("F 5 1", "ok"), ("f 5 1", "ok 0 0 720720"), ("b", "ok 5 0 0"), ("c 0", "ok"), ("c 5", "no 12"),
            ("F 0 1", "ok"), ("f 0 1", "ok 0 0 720720"), ("c 0", "no 12"), ("e", "ok 5 0"), ("c 5", "ok"), ("c 0", "no 12"),
            ("b", "ok 0 0 0"), ("c 5", "no 2"), ("c 0", "no 12"), ("e", "ok 0 0"), ("c 0", "ok"),
        ),
        "closed at once": paired(
            ("U 0 1", "ok"), ("C 0", "ok"), ("F 0 1", "ok"), ("c 0", "ok"), ("U 0 2", "ok"), ("F 0 2", "ok"),
            ("u 0 2", "ok 0 1"), ("f 0 1", "ok 0 0 360360"),
        ),
        "numbers of cells go on": paired(
            ("U 4 2", "ok"), ("u 4 2", "ok 0 1"), ("u 4 2", "ok 1 1"), ("t", "sent 4 0 missed 0"), ("t", "sent 4 1 missed 0"),
            ("C 4", "ok"), ("u 4 2", "no 2"), ("U 4 3", "ok"), ("u 4 3", "ok 2 4"), ("t", "sent 4 2 missed 0"), ("C 4", "ok"),
            ("U 4 1", "ok"), ("u 4 1", "ok 3 3"), ("x", "idle missed 1"), ("C 4", "ok"), ("U 4 4096", "ok"),
            ("u 4 4096", "ok 4 4099"), ("t", "sent 4 4 missed 0"),
        ),
        "numbers of packets go on": paired(
            ("F 4 1", "ok"), ("f 4 10", "ok 0 0 7207200"), ("b", "ok 4 0 0"), ("e", "ok 4 0"), ("c 4", "ok"),
            ("f 4 10", "no 2"), ("F 4 1", "ok"), ("f 4 10", "ok 1 7207200 14414400"), ("b", "ok 4 1 7207200"),
            ("e", "ok 4 1"), ("c 4", "ok"), ("F 4 1", "ok"), ("c 4", "ok"), ("F 4 1", "ok"),
            ("f 4 10", "ok 2 14414400 21621600"), ("b", "ok 4 2 14414400"), ("e", "ok 4 2"),
        ),
        "the last finish goes on": paired(
            ("F 0 1", "ok"), ("F 1 1", "ok"), ("f 0 100", "ok 0 0 72072000"), ("f 1 10", "ok 0 0 7207200"),
            ("b", "ok 0 0 0"), ("e", "ok 0 0"), ("c 0", "ok"), ("F 0 2", "ok"), ("f 0 100", "ok 1 72072000 108108000"),
            ("b", "ok 1 0 0"), ("e", "ok 1 0"), ("b", "ok 0 1 72072000"), ("e", "ok 0 1"),
            ("F 2 1", "ok"), ("f 2 1", "ok 0 108108000 108828720"),
        ),
        "virtual time stays as it is": paired(
            ("F 0 1", "ok"), ("F 1 1", "ok"), ("F 2 2", "ok"), ("f 0 100", "ok 0 0 72072000"), ("f 1 10", "ok 0 0 7207200"),
            ("f 1 10", "ok 1 7207200 14414400"), ("b", "ok 0 0 0"), ("e", "ok 0 0"), ("c 0", "ok"), ("c 1", "no 12"),
            ("f 2 1", "ok 0 0 360360"), ("b", "ok 1 0 0"), ("e", "ok 1 0"), ("b", "ok 2 0 0"), ("e", "ok 2 0"),
            ("b", "ok 1 1 7207200"), ("c 2", "ok"), ("F 2 1", "ok"), ("f 2 1", "ok 1 7207200 7927920"),
        ),
        "virtual time goes past the last finish of a closed flow": paired(
            ("F 0 1", "ok"), ("F 1 1", "ok"), ("f 0 1", "ok 0 0 720720"), ("b", "ok 0 0 0"), ("e", "ok 0 0"), ("c 0", "ok"),
            ("f 1 10", "ok 0 720720 7927920"), ("b", "ok 1 0 720720"), ("e", "ok 1 0"),
            ("F 0 1", "ok"), ("f 0 1", "ok 1 7927920 8648640"),
        ),
        "a drained lane goes on from the finish of a closed flow": paired(
            ("F 0 1", "ok"), ("F 1 16", "ok"), ("f 0 100", "ok 0 0 72072000"), ("f 1 1", "ok 0 0 45045"),
            ("b", "ok 0 0 0"), ("e", "ok 0 0"), ("c 0", "ok"), ("b", "ok 1 0 0"), ("e", "ok 1 0"),
            ("F 2 1", "ok"), ("f 2 1", "ok 0 72072000 72792720"),
        ),
        "another weight": paired(
            ("F 3 1", "ok"), ("f 3 1500", "ok 0 0 1081080000"), ("b", "ok 3 0 0"), ("F 3 16", "no 3"), ("e", "ok 3 0"),
            ("c 3", "ok"), ("F 3 16", "ok"), ("f 3 1500", "ok 1 1081080000 1148647500"),
            ("f 3 1", "ok 2 1148647500 1148692545"), ("F 3 1", "no 3"), ("c 3", "no 12"),
        ),
        "another deadline": paired(
            ("U 2 10", "ok"), ("u 2 10", "ok 0 9"), ("C 2", "no 12"), ("t", "sent 2 0 missed 0"), ("C 2", "ok"),
            ("U 2 1", "ok"), ("u 2 1", "ok 1 1"), ("U 2 9", "no 3"), ("t", "sent 2 1 missed 0"), ("C 2", "ok"),
            ("U 2 4096", "ok"), ("u 2 4096", "ok 2 4097"), ("U 3 3", "ok"), ("u 3 3", "ok 0 4"), ("t", "sent 3 0 missed 0"),
            ("t", "sent 2 2 missed 0"),
        ),
        "a bad number leaves it closed": paired(
            ("U 6 6", "ok"), ("u 6 6", "ok 0 5"), ("t", "sent 6 0 missed 0"), ("C 6", "ok"), ("U 6 0", "no 14"), ("u 6 6", "no 2"),
            ("U 6 4097", "no 14"), ("C 6", "no 2"), ("U 6 4096", "ok"), ("u 6 4096", "ok 1 4096"), ("U 6 0", "no 3"),
            ("F 6 6", "ok"), ("f 6 1", "ok 0 0 120120"), ("b", "ok 6 0 0"), ("e", "ok 6 0"), ("c 6", "ok"), ("F 6 0", "no 13"),
            ("f 6 1", "no 2"), ("f 6 0", "no 2"), ("f 6 1501", "no 2"), ("F 6 17", "no 13"), ("c 6", "no 2"),
            ("F 6 16", "ok"), ("f 6 1", "ok 1 120120 165165"), ("F 6 17", "no 3"),
        ),
        "every flow closed and opened again": paired(
            *[(f"U {flow} 16", "ok") for flow in every], *[(f"F {flow} 16", "ok") for flow in every],
            *[(f"C {flow}", "ok") for flow in every], *[(f"c {flow}", "ok") for flow in every],
            *[(f"U {flow} {flow + 1}", "ok") for flow in every], *[(f"F {flow} {flow + 1}", "ok") for flow in every],
            *[(f"u {flow} {flow + 1}", f"ok 0 {flow}") for flow in every],
            *[(f"f {flow} 1", f"ok 0 0 {CHARGES[flow]}") for flow in every],
        ),
        "every place of a flow opened again": paired(
            ("U 7 40", "ok"), *[("u 7 40", f"ok {k} 39") for k in every], ("u 7 40", "no 5"), ("C 7", "no 12"),
            *[("t", f"sent 7 {k} missed 0") for k in every], ("C 7", "ok"), ("U 7 20", "ok"),
            *[("u 7 20", f"ok {16 + k} 35") for k in every], ("u 7 20", "no 5"), ("C 7", "no 12"),
            ("F 7 1", "ok"), *[("f 7 1", f"ok {k} {k * 720720} {(k + 1) * 720720}") for k in every], ("f 7 1", "no 5"),
            *[pair for k in every for pair in (("c 7", "no 12"), ("b", f"ok 7 {k} {k * 720720}"), ("e", f"ok 7 {k}"))],
            ("c 7", "ok"), ("F 7 2", "ok"),
            *[("f 7 2", f"ok {16 + k} {(16 + k) * 720720} {(17 + k) * 720720}") for k in every], ("f 7 2", "no 5"),
        ),
        "a cell in each place keeps its flow open": paired(
            ("U 8 4096", "ok"),
            *[pair for k in every for first in [k * (k + 1) // 2] for pair in (
                *[("u 8 4096", f"ok {first + i} {4095 + first}") for i in range(k + 1)],
                *[("t", f"sent 8 {first + i} missed 0") for i in range(k)], ("C 8", "no 12"),
                ("t", f"sent 8 {first + k} missed 0"), ("C 8", "ok"), ("U 8 4096", "ok"),
            )],
        ),
        "a packet in each place keeps its flow open": paired(
            ("F 8 1", "ok"),
            *[pair for k in every for first in [k * (k + 1) // 2] for pair in (
                *[("f 8 1", f"ok {first + i} {(first + i) * 720720} {(first + i + 1) * 720720}") for i in range(k + 1)],
                *[pair for i in range(k) for pair in (("b", f"ok 8 {first + i} {(first + i) * 720720}"), ("e", f"ok 8 {first + i}"))],
                ("c 8", "no 12"), ("b", f"ok 8 {first + k} {(first + k) * 720720}"), ("e", f"ok 8 {first + k}"),
                ("c 8", "ok"), ("F 8 1", "ok"),
            )],
        ),
        "texts that close nothing": paired(
            ("U 1 3", "ok"), ("F 1 3", "ok"), *[(bad, "no 11") for bad in bad_texts], ("u 1 3", "ok 0 2"),
            ("f 1 1", "ok 0 0 240240"), ("C 0", "no 2"), ("c 0", "no 2"), ("t", "sent 1 0 missed 0"), ("C 1", "ok"),
            ("b", "ok 1 0 0"), ("e", "ok 1 0"), ("c 1", "ok"),
        ),
    }
