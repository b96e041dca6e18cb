"""The sessions that have a name: the rules' own, the cases to be checked by hand, and lines at every edge of the grammar."""

# The charge for one byte by weight, from 1 to 16.
CHARGES = [
    720720, 360360, 240240, 180180, 144144, 120120, 102960, 90090, 80080, 72072, 65520, 60060, 55440, 51480, 48048, 45045,
]


# Commands given as text, one a line, as the bytes of a session.
def text(*lines):
    return "".join(line + "\n" for line in lines).encode("ascii")


# Commands and their replies, as the input and the output of a session.
def paired(*pairs):
    return text(*[left for left, _ in pairs]), text(*[right for _, right in pairs])


# The one whole session of the rules: its input and its output.
def worked():
    return paired(
        ("U 0 3", "ok"),
        ("U 1 1", "ok"),
        ("u 0 3", "ok 0 2"),
        ("u 1 1", "ok 0 0"),
        ("t", "sent 1 0 missed 0"),
        ("t", "sent 0 0 missed 0"),
        ("F 0 1", "ok"),
        ("f 0 100", "ok 0 0 72072000"),
        ("b", "ok 0 0 0"),
        ("e", "ok 0 0"),
        ("u 9 1", "no 2"),
        ("b", "no 9"),
    )


# The cases to be checked by hand that a session can reach.
def cases():
    drained_a = ["F 0 1", "F 1 2", "f 0 100", "f 1 100", "f 1 100", "b", "e", "b", "e", "b", "e"]
    return {
        "case A": text(*drained_a),
        "case B": text(*drained_a, "F 2 1", "f 2 1"),
        "case C": text("F 0 1", "f 0 1500", "F 1 16", "f 1 1500"),
        "case D": text("U 0 3", "U 1 1", "u 0 3", "u 1 1", "t", "t"),
        "case E": text("U 0 1", "u 0 1", "x"),
        "case F": text("U 0 2", "u 0 2", "u 0 2", "u 0 2", "t", "t", "t"),
        "case G": text("U 3 100", *["u 3 100"] * 17, "t", "u 3 100", "u 3 100"),
        "case M": text("F 0 1", "f 0 10", "b", "b", "F 1 0", "F 1 17", "F 1 1", "e", "b", "e"),
    }


# Sessions of good commands, each after one point of the two lanes.
def lanes():
    every = range(16)
    return {
        "flow above 15 to open urgent": text("U 15 1", "U 16 1", "U 99 5", "U 16 0", "U 4294967295 4097"),
        "flow above 15 to open fair": text("F 15 1", "F 16 1", "F 99 5", "F 16 0", "F 4294967295 17"),
        "flow above 15 to offer a cell": text("U 0 9", "u 15 9", "u 16 9", "u 99 0", "u 256 9", "u 65536 4097", "u 4294967295 4294967295"),
        "flow above 15 to offer a packet": text(
            "F 0 9", "f 15 1", "f 16 1", "f 99 0", "f 256 1", "f 65536 1501", "f 4294967295 4294967295"
        ),
        "limits of opening": text(
            "U 0 0", "U 0 4097", "U 0 4294967295", "U 0 4096", "U 1 1", "u 0 4096", "u 1 1",
            "F 0 0", "F 0 17", "F 0 257", "F 0 4294967295", "F 0 16", "F 1 1", "f 0 1", "f 1 1",
        ),
        "limits of length": text("F 0 3", "f 0 0", "f 0 1", "f 0 1500", "f 0 1501", "f 0 65537", "f 0 4294967295"),
        "opened twice": text("U 4 4", "U 4 4", "U 4 0", "U 4 4097", "F 4 4", "F 4 4", "F 4 0", "F 4 17", "U 16 0"),
        "refused opening opens nothing": text("U 2 0", "u 2 1", "U 2 2", "u 2 2", "F 2 17", "f 2 1", "F 2 2", "f 2 1"),
        "not open comes before a bad length": text("f 7 0", "f 7 1501", "F 7 7", "f 7 0", "f 7 1501"),
        "bad length comes before full": text("F 5 5", *["f 5 9"] * 17, "f 5 0", "f 5 1501", "b", "f 5 9", "f 5 9"),
        "lanes are apart": text(
            "U 0 5", "f 0 1", "F 1 5", "u 1 1", "u 0 5", "f 1 9", "b", "t", "x", "e", "u 0 5", "b", "t", "e",
        ),
        "turns with nothing open": text("t", "x", "t", "b", "e", "u 0 1", "f 0 1"),
        "ties of last slots": text(
            "U 9 2", "U 2 2", "U 5 3", "u 9 2", "u 5 3", "u 2 2", "u 9 2", "t", "u 2 2", "u 9 2", "t", "u 5 3", "t", "t", "t",
        ),
        "ties by turns arrived": text("U 8 5", "U 3 2", "u 8 5", "u 8 5", "x", "x", "x", "u 3 2", "u 3 2", "t", "t", "t"),
        "last slot is still in time": text("U 0 4", "u 0 4", "x", "x", "x", "t", "u 0 4", "x", "x", "x", "x", "t"),
        "misses of many flows": text(
            *[f"U {flow} {1 + flow % 3}" for flow in every], *[f"u {flow} {1 + flow % 3}" for flow in every] * 2, "t", "t", "x", "t",
        ),
        "numbers run on after misses": text("U 6 1", *["u 6 1", "x", "u 6 1", "t", "u 6 1", "u 6 1", "t"] * 3),
        "every urgent place": text(
            *[f"U {flow} {300 - flow}" for flow in every], *[f"u {flow} {300 - flow}" for flow in every] * 17, *["t"] * 290,
        ),
        "every fair place": text(
            *[f"F {flow} {16 - flow}" for flow in every],
            *[f"f {flow} {1 + 7 * flow}" for flow in every] * 17, *["b", "e"] * 258,
        ),
        "every weight": text(
            *[f"F {flow} {flow + 1}" for flow in every],
            *[f"f {flow} {length}" for length in (1, 1499, 1500, 7) for flow in every], *["b", "e"] * 65,
        ),
        "weight 7 does not drift": text("F 0 7", "F 1 1", *["f 0 1", "b", "e"] * 49, "f 1 1", "b", "e", "f 0 1"),
        "ties of start tags": text("F 7 1", "F 3 16", "F 11 7", "f 11 8", "f 7 8", "f 3 8", *["b", "e"] * 4),
        "a packet in service holds no place": text("F 0 1", *["f 0 1"] * 16, "b", "f 0 1", "f 0 1", "e", "f 0 1"),
        "begin and end out of turn": text("b", "e", "F 0 1", "e", "f 0 1", "e", "b", "b", "e", "e", "b"),
        "virtual time stays between end and begin": text(
            "F 0 1", "F 1 1", "f 0 10", "f 0 10", "f 0 10", "b", "e", "b", "e", "f 1 5", "b", "e",
            "F 2 1", "f 2 1", "b", "e", "f 2 1",
        ),
        "a drained lane goes on from the largest finish": text(
            "F 0 1", "F 1 16", "f 0 1500", "f 1 1", "b", "e", "b", "e", "F 2 2", "f 2 3", "f 1 1", "b", "e", "f 0 1",
        ),
        "a second drain keeps the largest finish": text(
            "F 0 1", "f 0 9", "b", "e", "F 1 16", "f 1 1", "b", "e", "F 2 3", "f 2 1",
        ),
        "an offer while the last packet is in service": text(
            "F 0 2", "F 1 3", "f 0 60", "b", "f 1 6", "e", "b", "e", "f 1 6", "f 0 6", "b", "b", "e", "b", "e",
        ),
    }


# Lines that are no command, by what is wrong with them; no line feeds inside.
def malformed():
    return {
        "leading zeros": [
            b"u 00 3", b"u 01 3", b"U 00 3", b"U 0 03", b"F 0 01", b"f 0 0100", b"f 00 1", b"u 0000000000 3", b"u 0000000001 3",
            b"u 0 03", b"u 0 00", b"u 0 0000000003", b"C 00", b"c 01",
        ],
        "numbers too large": [
            b"u 4294967296 3", b"u 9999999999 3", b"u 0 4294967296", b"u 0 9999999999", b"U 0 4294967296", b"F 4294967296 1", b"f 0 9999999999",
            b"f 0 4294967297", b"C 4294967296", b"c 9999999999",
        ],
        "eleven digits": [
            b"u 10000000000 3", b"u 00000000000 3", b"u 0 10000000000", b"u 0 00000000003", b"f 0 42949672950", b"U 18446744073709551616 1",
            b"C 10000000000", b"c 42949672950",
        ],
        "two blanks": [b"u  0 3", b"u 0  3", b"U  0 3", b"U 0  3", b"f 0  100", b"F  0  1", b"C  0", b"c  0"],
        "trailing blank": [b"t ", b"x ", b"b ", b"e ", b"u 0 3 ", b"U 1 3 ", b"f 0 1 ", b"t  ", b"C 0 ", b"c 0 "],
        "leading blank": [b" t", b" x", b" b", b" e", b" u 0 3", b" U 1 3", b" f 0 1", b"  t", b" C 0", b" c 0"],
        "blanks only": [b" ", b"  ", b" " * 31, b" " * 32, b" " * 33],
        "tabs": [b"u\t0 3", b"u 0\t3", b"U 0\t3", b"\tt", b"t\t", b"\t", b"f 0\t1", b"u 0 \t3", b"C\t0", b"c 0\t"],
        "carriage returns": [b"t\r", b"u 0 3\r", b"u 0\r3", b"U 1 3\r", b"\r", b"\rt", b"b\re", b"e\r\r", b"C 0\r", b"c 0\r"],
        "other spaces": [b"u\x0b0 3", b"u\x0c0 3", b"u 0\x0b3", b"u 0\xa03", b"u\xc2\xa00 3", b"u 0\x853", b"t\x1a"],
        "NUL bytes": [b"\0", b"t\0", b"\0t", b"u\x000 3", b"u 0\x003", b"u 0 3\0", b"U 1\x003", b"f 0 1\0", b"\0" * 32],
        "high bytes": [
            b"\x80", b"\xff", b"t\xff", b"\xf4", b"u 0 3\x80", b"u \xb0 3", b"u 0 \xb3", b"\xef\xbb\xbft", b"u 0 \xd9\xa3",
            b"u 0 \xc2\xb2",
        ],
        "case": [b"T", b"X", b"B", b"E", b"U 0", b"F 0", b"T 0"],
        "missing fields": [
            b"U", b"F", b"u", b"f", b"U 0", b"F 0", b"u 0", b"u 15", b"f 0", b"u ", b"u 0 ", b"u  3", b"U ", b"U 0 ", b"f 0 ", b"F  1",
            b"C", b"c", b"C ", b"c ",
        ],
        "extra fields": [
            b"t 0", b"x 0", b"b 0", b"e 0", b"u 0 3 0", b"u 0 3 x", b"U 1 3 0", b"F 1 1 1", b"f 0 1 1", b"t t", b"b e",
            b"C 0 0", b"c 0 1",
        ],
        "fields run together": [
            b"u0", b"U0 3", b"U03", b"f0 1", b"tt", b"be", b"ub", b"tx", b"uu 0 3", b"u 0 3u", b"u03", b"u0 3", b"u 03", b"t0",
            b"C0", b"c0", b"Cc 0",
        ],
        "other words": [
            b"a", b"n", b"no 11", b"ok", b"sent 1 0 missed 0", b"idle missed 0", b"#", b"quit", b"0", b"1 2",
        ],
        "signs and notations": [
            b"u +0 3", b"u -0 3", b"u 0 -1", b"u 0 +3", b"u 0 0x3", b"u 0x0 3", b"u 0 1_0", b"u 0 3.0", b"u 0 1e0", b"u 0 1,0", b"u 0 '3'",
            b"f 0 +1", b"u 0b1 3",
        ],
        "other letters": [b"u f d", b"u 0 d", b"U f d", b"F f w", b"f f len", b"u o 3", b"u O 3", b"u 0 l", b"u 0 /", b"u 0 :", b"f 0 1:"],
        "empty lines": [b"", b"", b""],
        "about 32 bytes": [
            b"t" + b" " * 30, b"t" + b" " * 31, b"t" + b" " * 32, b" " * 31 + b"t", b" " * 32 + b"t",
            b"u 0 " + b"0" * 27, b"u 0 " + b"0" * 28, b"u 0 " + b"0" * 29, b"u 0 3" + b" " * 27, b"u 0 3" + b" " * 28, b"f 0 1" + b" " * 27, b"f 0 1" + b" " * 28,
            b"a" * 31, b"a" * 32, b"a" * 33, b"U 0 3 U 0 3 U 0 3 U 0 3 U 0 3 aa", b"U 0 3 U 0 3 U 0 3 U 0 3 U 0 3 aaa",
        ],
        "over-long that ends in a command": [
            bytes([filler]) * count + command
            for filler in b"a \0t" for count in (30, 31, 32, 33, 63, 64, 127, 128, 255, 256, 65535, 65536)
            for command in (b"t", b"u 0 3", b"f 0 1")
        ],
        "over-long that begins with a command": [
            b"t" + b" " * 40, b"t" + b"t" * 300, b"u 0 3" + b" 0" * 40, b"b" + b"\0" * 256,
        ],
        "a line of 100,000 bytes": [b"t" * 100000, b"u 0 " * 25000],
    }


# Sessions for how lines begin and end.
def ends():
    opened = b"U 0 3\nF 0 1\n"
    return {
        "empty input": b"",
        "only a line feed": b"\n",
        "two line feeds": b"\n\n",
        "an empty line at the end": opened + b"t\n\n",
        "no line end at the end": opened + b"u 0 3\nt",
        "no line end, two numbers": opened + b"u 0 3",
        "no line end, one number": opened + b"u 0",
        "no line end, a closing": opened + b"C 0\nc 0",
        "no line end, no command": opened + b"u 0 3 ",
        "no line end, one blank": b" ",
        "no line end, one NUL": b"\0",
        "no line end, one carriage return": b"t\n\r",
        "no line end, 32 bytes": opened + b"t" + b" " * 31,
        "no line end, 33 bytes": opened + b" " * 32 + b"t",
        "no line end, over-long": opened + b"z" * 70000 + b"t",
        "carriage returns for line feeds": b"U 0 3\ru 0 3\rt\r",
        "all lines with carriage returns": b"U 0 3\r\nu 0 3\r\nt\r\n",
        "every single byte": b"\n".join(bytes([byte]) for byte in range(256)) + b"\n",
        "every byte after a command": opened + b"".join(b"t" + bytes([byte]) + b"\n" for byte in range(256)),
        "every byte for a blank": opened + b"".join(b"u" + bytes([byte]) + b"0 3\n" for byte in range(256)),
        "every byte for the second blank": opened + b"".join(b"u 0" + bytes([byte]) + b"3\n" for byte in range(256)),
        "every byte after a cell": opened + b"".join(b"u 0 3" + bytes([byte]) + b"\n" for byte in range(256)),
        "every byte for a blank of a closing": opened + b"".join(
            word + bytes([byte]) + b"0\n" for word in (b"C", b"c") for byte in range(256)
        ),
        "every byte for a digit": opened + b"".join(b"f 0 1" + bytes([byte]) + b"\n" for byte in range(256)),
        "largest field": b"U 4294967295 1\nU 1 4294967295\nF 4294967295 4294967295\nu 4294967295 1\nu 1 4294967295\nf 0 4294967295\n",
        "a long input of short lines": opened + b"u 0 3\nt\nf 0 7\nb\ne\n" * 8000 + b"t",
        "a long input of empty lines": b"\n" * 70000,
        "a long input of over-long lines": (b"y" * 999 + b"\nt\n") * 300,
    }


# Named sessions, name to input.
def named():
    sessions = {**cases(), **lanes(), **ends()}
    for name, lines in malformed().items():
        body = b"".join(line + b"\nu 0 3\nt\n" for line in lines)
        sessions["no command: " + name] = b"U 0 3\nF 0 1\nf 0 5\n" + body + b"u 0 3\nf 0 5\nb\ne\nt\n"
    return sessions
